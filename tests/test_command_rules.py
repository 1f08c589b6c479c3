"""What `vuyhanip verify` calls right openssl said yes to, and no rule refuses: a file or some for each way in which a
verdict was wrong before openssl was asked."""
import json
import unittest

from support.command import Command
from support.elements import contents, element, explicit, integer, octet_string, parts, sequence, set_of, within
from support.oids import oid
from support.signed_attributes import SIGNER

RIGHT, WRONG = "signature right, certificate not judged", "signature not right"
# Where signed data have the digest algorithms, and the content.
ALGORITHMS, CONTENT = [0, 1, 0, 1], [0, 1, 0, 0x30]
MGF1 = "1.2.840.113549.1.1.8"


def reached(text, steps):
    """The contents octets of the element that the steps lead to."""
    found = []
    within(text, steps, lambda it: found.append(it) or it)
    return found[0]


class Rules(Command):
    def findings(self, *words):
        """The status of the command, and what it says as JSON."""
        ended, said, complaint = self.command("verify", "--json", *words)
        self.assertEqual(complaint, "")
        return ended, json.loads(said)["findings"]

    def asked(self, name, *more):
        """Whether openssl says yes to a file."""
        given = ["-noverify", "-inform", "DER", "-in", name, "-out", "out"]
        return self.succeeds("cms", "-verify", "-binary", *given, *more)

    def refuses(self, rule, said, *words, by_openssl=True, more=()):
        """Asks that a rule refuses a file, of which openssl says yes or no."""
        self.assertEqual(self.asked(words[-1], *more), by_openssl)
        ended, found = self.findings(*words)
        self.assertEqual((ended, {it["rule"] for it in found}), (1, {rule}))
        self.assertTrue(all(not it["right"] and it["tool"].startswith("OpenSSL ") for it in found))
        self.assertRegex(found[0]["said"], said)

    def same(self, name, said=WRONG, put=None):
        """Asks that a file is right exactly where openssl says yes."""
        if put is not None:
            self.put(name, put)
        is_right = self.asked(name)
        self.assertEqual(is_right, said == RIGHT)
        ended, found = self.findings(name)
        self.assertEqual((ended, found[0]["right"], found[0]["said"]), (4 if is_right else 1, is_right, said))

    def test_content_beside_content_of_the_file(self):
        said = r"^refused: the content in the file isn't that which is given \(RFC 5652, 5\.2\)$"
        self.refuses("other-content", said, "--content", "otherdata", "attributes.p7s")
        self.assertFalse(self.asked("attributes.p7s", "-content", "otherdata"))
        self.finds(["verify", "--content", "data", "attributes.p7s"], [RIGHT], 4)

    def test_a_key_for_pss_verifies_by_pss_alone(self):
        key = ["-x509", "-newkey", "rsa-pss", "-nodes", "-subj", "/CN=pss", "-keyout", "key.key", "-out", "key.pem"]
        self.openssl("req", *key)
        self.sign("key.p7s", "-nodetach", key="key")
        self.same("key.p7s", "refused: rsaEncryption by a key of rsassaPss (RFC 5652, 5.3)")

    def test_parameters_of_pss_are_those_of_the_signature(self):
        """Its mask function, salt and trailer are none, or the digest is another than the signer's; nothing of that is
        signed."""
        self.same("pss.p7s", RIGHT)
        whole = self.octets("pss.p7s")

        def with_parameters(change):
            def of(algorithm):
                which, parameters = parts(element(0x30, algorithm))
                return which + change(parameters)

            return within(whole, [*SIGNER, -2], of)

        def with_part(number, made):
            tag = bytes([0xA0 + number])
            return lambda old: sequence(*(it for it in parts(old) if it[:1] != tag), explicit(number, made))

        for name, octets in (
            ("mask.p7s", whole.replace(oid(MGF1), oid("1.2.840.113549.1.1.99"))),
            ("mask-digest.p7s", with_parameters(with_part(1, sequence(oid(MGF1), sequence(oid("SHA-512")))))),
            ("shorter-salt.p7s", with_parameters(with_part(2, integer(20)))),
            ("trailer.p7s", with_parameters(with_part(3, integer(2)))),
            ("digest.p7s", with_parameters(with_part(0, sequence(oid("SHA-1"))))),
        ):
            with self.subTest(name):
                self.same(name, put=octets)
        # openssl refuses these numbers, and takes the last 32 bits of others
        said = "refused: a salt length that isn't a number of 31 bits (RFC 8017, A.2.3)"
        for salt in (element(0x02, b"\xff"), element(0x02, b"\xfe"), integer(1 << 31), integer((1 << 32) + 32)):
            with self.subTest(salt):
                self.put("salt.p7s", with_parameters(with_part(2, salt)))
                ended, [found] = self.findings("salt.p7s")
                self.assertEqual((ended, found["right"], found["said"]), (1, False, said))

    def test_the_digest_of_a_signer_is_that_which_is_signed(self):
        """Where the set of digest algorithms has another, and where a signature over SHA-1 is said to be by SHA-256."""
        whole = self.octets("attributes.p7s")
        self.same("other-digest.p7s", put=within(whole, ALGORITHMS, lambda it: sequence(oid("SHA-512"))))
        self.sign("sha1.p7s", "-nodetach", "-md", "sha1")
        to = oid("1.2.840.113549.1.1.11")
        made = within(self.octets("sha1.p7s"), [*SIGNER, -2, 0], lambda _: to[2:])
        said = r"^refused: sha256WithRSAEncryption over the digest sha1 \(RFC 5652, 5\.3\)$"
        self.refuses("digest-of-signature", said, self.put("named.p7s", made))
        made = within(self.octets("attributes.p7s"), [*SIGNER, -4, 0], lambda _: oid("SHA-1")[2:])
        self.same("named-otherwise.p7s", put=within(made, ALGORITHMS, lambda it: it + sequence(oid("SHA-1"))))

    def test_weak_digests_and_keys(self):
        self.openssl("dsaparam", "-genkey", "-out", "dsa.key", "1024")
        self.openssl("req", "-x509", "-new", "-key", "dsa.key", "-subj", "/CN=dsa", "-out", "dsa.pem")
        small = ["-newkey", "rsa:1024", "-nodes", "-subj", "/CN=small", "-keyout", "small.key"]
        self.openssl("req", "-x509", *small, "-out", "small.pem")
        curve = ["-newkey", "ec", "-pkeyopt", "ec_paramgen_curve:prime192v1", "-nodes", "-subj", "/CN=curve"]
        self.openssl("req", "-x509", *curve, "-keyout", "curve.key", "-out", "curve.pem")
        for name, rule, why, *words in (
            ("sha1.p7s", "weak-digest", "the digest sha1", "-md", "sha1"),
            ("md5.p7s", "weak-digest", "the digest md5", "-md", "md5"),
            ("small.p7s", "weak-rsa", "RSA of 1024 bits"),
            ("dsa.p7s", "weak-dsa", "DSA"),
            ("curve.p7s", "weak-curve", "a curve of 192 bits"),
        ):
            with self.subTest(name):
                key = "rsa" if words else name[:-4]
                self.sign(name, "-nodetach", *words, key=key)
                said = f"signature right, but weak: {why}, certificate not judged"
                self.refuses(rule, f"^{said}$", name)
                ended, [found] = self.findings("--allow-weak", name)
                self.assertEqual((ended, found["said"], found["right"], found["weak"]), (4, said, True, True))

    def test_the_algorithm_of_a_signer_is_one_of_its_key(self):
        """Of a key on a curve openssl verifies whatever is said."""
        for name in ("1.2.840.113549.1.1.1", "1.2.840.113549.1.1.11", "1.3.101.112", "1.2.3.4"):
            with self.subTest(name):
                made = within(self.octets("ec.p7s"), [*SIGNER, -2], lambda _, name=name: oid(name))
                self.put("named.p7s", made)
                if self.asked("named.p7s"):
                    said = r"^refused: \S+ by a key of id-ecPublicKey \(RFC 5652, 5\.3\)$"
                    ended, [found] = self.findings("named.p7s")
                    self.assertEqual((ended, found["right"]), (1, False))
                    if name != "1.3.101.112":
                        self.assertRegex(found["said"], said)

    def test_every_block_of_pem_is_verified(self):
        self.put("good.pem", self.octets("signed.pem"))
        wrong = self.openssl("pkcs7", "-inform", "DER", "-in", "wrong.p7s")
        self.put("two.pem", self.octets("good.pem") + wrong)
        empty = b"-----BEGIN CMS-----\n!\n-----END CMS-----\n"
        self.put("broken.pem", self.octets("good.pem") + empty + self.octets("good.pem"))
        ended, found = self.findings("two.pem")
        said = [(it["what"], it["said"]) for it in found]
        self.assertEqual((ended, said), (1, [("block 1 of 2, signer 1", RIGHT), ("block 2 of 2, signer 1", WRONG)]))
        ended, found = self.findings("broken.pem")
        self.assertEqual((ended, [it["right"] for it in found]), (1, [True, False, True]))
        self.assertEqual(self.findings("signed.pem")[0], 4)
        self.put("open.pem", self.octets("good.pem") + self.octets("good.pem")[:500])
        said = ["block 1 of 2, signer 1: signature right", "block 2 of 2: refused: PEM without its END line$"]
        self.finds(["verify", "open.pem"], said, 1)

    def test_data_are_an_octet_string(self):
        """The tag of content isn't signed."""
        for name in ("attributes.p7s", "noattributes.p7s"):
            for tag in (0x0C, 0x13, 0x30):
                made = within(self.octets(name), [*CONTENT, 1], lambda it, tag=tag: element(tag, contents(it)))
                self.assertFalse(self.asked(self.put(f"{tag}-{name}", made)))
                ended, [found] = self.findings(f"{tag}-{name}")
                self.assertEqual((ended, found["right"]), (1, False), found)

    def test_content_in_segments_is_what_they_are_joined_to(self):
        """And not the segments with their headers, as a reader of DER alone has them."""
        data = self.octets("data")
        segments = octet_string(data[:50]) + octet_string(data[50:])

        def in_segments(name):
            return within(self.octets(name), [*CONTENT, 1], lambda _: element(0x24, segments))

        self.same("segments.p7s", RIGHT, in_segments("attributes.p7s"))
        self.finds(["verify", "--content", "data", "segments.p7s"], [RIGHT], 4)
        self.finds(["verify", "--strict", "segments.p7s"], ["refused: invalid at .* OCTET STRING"], 1)
        whole = self.octets("data")
        self.put("data", segments)
        self.sign("headers.p7s", "-nodetach")
        self.put("data", whole)
        self.same("headers.p7s", put=in_segments("headers.p7s"))

    def test_a_newline_after_der_is_told(self):
        for name, newline in (("unix.p7s", b"\n"), ("windows.p7s", b"\r\n")):
            self.put(name, self.octets("attributes.p7s") + newline)
            self.assertTrue(self.asked(name))
            said = f"{name}: signer 1: {RIGHT}, without the newline after its DER, sha256, "
            self.finds(["verify", name], [f"^{said}"], 4)
            self.finds(["verify", "--strict", name], ["refused: malformed"], 1)
        self.put("more.p7s", self.octets("attributes.p7s") + b"\n\n")
        self.finds(["verify", "more.p7s"], ["refused: malformed"], 1)

    def test_signed_attributes_as_content(self):
        """A signature over them is one over content that they are, which openssl takes."""
        whole = self.octets("attributes.p7s")
        attributes = element(0x31, reached(whole, [*SIGNER, 0xA0]))
        others = [part for part in parts(element(0x30, reached(whole, SIGNER))) if part[:1] != b"\xa0"]
        without = within(whole, SIGNER, lambda _: b"".join(others))
        attached = within(without, [*CONTENT, 1], lambda _: octet_string(attributes))
        detached = within(without, CONTENT, lambda _: oid("data"))
        self.put("set", attributes)
        said = r"^refused: its content may be the signed attributes of another signature \(RFC 5652, 5\.4\)$"
        self.refuses("attributes-as-content", said, self.put("attached.p7s", attached))
        self.put("detached.p7s", detached)
        self.refuses("attributes-as-content", said, "--content", "set", "detached.p7s", more=["-content", "set"])
        # with attributes that aren't read here, one without values and one with a value of a tag above 30
        for name, values in (("bare.p7s", b""), ("high.p7s", b"\x1f\x81\x00\x00")):
            whole = self.octets("data")
            self.put("data", element(0x31, sequence(oid("1.2.3"), element(0x31, values)), contents(attributes)))
            self.sign(name, "-nodetach", "-noattr")
            self.put("data", whole)
            self.refuses("attributes-as-content", said, name)

    def test_counter_signatures_are_told_of(self):
        """They change no status."""
        whole = self.octets("attributes.p7s")
        counter = sequence(oid("1.2.840.113549.1.9.6"), set_of(sequence(reached(whole, SIGNER))))
        self.put("counter.p7s", within(whole, SIGNER, lambda it: it + element(0xA1, counter)))
        ended, [found] = self.findings("counter.p7s")
        self.assertEqual((ended, found["said"], found["notes"]), (4, RIGHT, ["counter signature not checked"]))
        self.finds(["verify", "counter.p7s"], [f"signer 1: {RIGHT}, counter signature not checked, sha256"], 4)

    def test_no_signers_and_no_signature(self):
        self.openssl("crl2pkcs7", "-nocrl", "-certfile", "rsa.pem", "-outform", "DER", "-out", "none.p7b")
        said = "none.p7b: signers: refused: no signers (RFC 5652, 5.1)"
        self.says(["verify", "none.p7b"], [said], 1)


if __name__ == "__main__":
    unittest.main()
