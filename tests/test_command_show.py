"""`vuyhanip show` over files of openssl, beside what openssl says of them."""
import re
import time
import unittest

from support.command import SIGNERS, Command
from support.elements import sequence, within
from support.oids import oid

NAME_OPTIONS = ["-nameopt", "RFC2253,utf8,-esc_msb,-esc_ctrl"]


class Show(Command):
    def name_of(self, *words):
        line = self.openssl(*words, *NAME_OPTIONS).decode().strip()
        return re.escape(line.split("=", 1)[1].strip())

    def test_a_store(self):
        subject = self.name_of("x509", "-in", "rsa.pem", "-noout", "-subject")
        number = self.openssl("x509", "-in", "rsa.pem", "-noout", "-serial").decode().strip().split("=")[1]
        said = self.finds(
            ["show", "plain.p12"],
            [
                "MAC +sha1, iterations 2048, salt of 8 octets",
                "friendly name +Schlüssel$",
                f"subject +{subject}$",
                f"serial number +{number}$",
                "public key +RSA, 2048 bits",
                "signed by +sha256WithRSAEncryption",
            ],
        )
        for option, word in (("-startdate", "notBefore"), ("-enddate", "notAfter")):
            text = self.openssl("x509", "-in", "rsa.pem", "-noout", option).decode().strip().removeprefix(f"{word}=")
            moment = time.strptime(text, "%b %d %H:%M:%S %Y GMT")
            self.assertIn(time.strftime("%Y-%m-%d %H:%M:%S", moment), said)

    def test_a_name_of_other_types_than_those_of_rfc_4514(self):
        words = ["req", "-x509", "-key", "ec.key", "-utf8", "-outform", "DER", "-out", "person.der"]
        self.openssl(*words, "-subj", '/serialNumber=17/emailAddress=a,b@example.org/title=Dr, "x"/CN=person')
        self.openssl("x509", "-inform", "DER", "-in", "person.der", "-out", "person.pem")
        self.openssl(
            *("pkcs12", "-export", "-inkey", "ec.key", "-in", "person.pem", "-passout", "pass:secret"),
            *("-keypbe", "NONE", "-certpbe", "NONE", "-out", "person.p12"),
        )
        subject = self.name_of("x509", "-in", "person.pem", "-noout", "-subject")
        self.finds(["show", "person.p12"], [f"subject +{subject}$"])

    def test_names_past_uffff(self):
        subject = self.name_of("x509", "-in", "rsa.pem", "-noout", "-subject")
        wanted = [r"^smile\.p12: .*\(rawpfx normal", "^  key +rsaEncryption$", "^    friendly name +Schlü😀el$"]
        self.finds(["show", "smile.p12"], [*wanted, f"^    subject +{subject}$"])
        at = self.octets("half.p12").index(oid("friendlyName")) - 2
        self.finds(["show", "half.p12"], [rf"^  bags +refused: invalid at {at} \(SEQUENCE > .*\)$"], 1)

    def test_bags_in_bags(self):
        wanted = ["^  bags in a bag +2$", "^    bags in a bag +2$", "^      bags in a bag +2$"]
        # it has a revocation list that is none
        said = self.finds(["show", "nested.p12"], [*wanted, "^    not read  +2 octets, which"], 1)
        levels = [len(it) for it in re.findall("^( *)friendly name +Schlü😀el$", said, re.MULTILINE)]
        self.assertEqual((min(levels), max(levels), len(levels)), (4, 10, 16))

    def test_an_encrypted_store(self):
        scheme = r"PBES2 with PBKDF2 \(hmacWithSHA256, 2048 iterations, salt of \d+ octets\) and aes-256-cbc"
        self.finds(["show", "store.p12"], [f"encrypted key +{scheme}", f"encrypted contents +{scheme}"])
        self.finds(["show", "nomac.p12"], ["MAC +none"])

    def test_signed(self):
        subject = self.name_of("x509", "-in", "rsa.pem", "-noout", "-subject")
        digest = self.openssl("dgst", "-sha256", "-c", "data").decode().split()[-1].upper()
        wanted = [f"certificate +{subject}$", "contentType +pkcs7-data$", f"messageDigest +{digest}$", "covers +4 signed"]
        self.finds(["show", "attributes.p7s"], [*wanted, "content +pkcs7-data, 130 octets"])
        self.finds(["show", "detached.p7s"], [*wanted, r"content +pkcs7-data, elsewhere \(a detached signature\)"])
        self.finds(["show", "noattributes.p7s"], ["covers +the content itself"])
        self.finds(["show", "two.p7s"], ["^  signer 1$", "^  signer 2$", "ecdsa-with-SHA256"])

    def test_a_signer_by_key_identifier(self):
        lines = self.openssl("x509", "-in", "rsa.pem", "-noout", "-ext", "subjectKeyIdentifier").decode().split()
        subject = self.name_of("x509", "-in", "rsa.pem", "-noout", "-subject")
        wanted = [r"^keyid\.p7s: signed data \(contentinfo normal", f"names +key identifier {lines[-1]}$"]
        self.finds(["show", "keyid.p7s"], [*wanted, f"^    certificate +{subject}$", "covers +4 signed attributes"])
        self.finds(["show", "keyid-nocertificate.p7s"], ["certificate +not in the file"])
        self.finds(["show", "other.p7s"], ["content +1.2.3.4, 130 octets", "contentType +1.2.3.4$"])

    def test_attributes_that_break_rfc_5652(self):
        for name, count, status in (("nodigest.p7s", 4, 0), ("keyid-type.p7s", 4, 0), ("empty.p7s", 0, 3)):
            wanted = ["^    not valid +signed attributes that RFC 5652 forbids$", f"covers +{count} signed"]
            self.finds(["show", name], wanted, status)

    def test_signed_data_that_are_none(self):
        signed = self.octets("attributes.p7s")
        at = signed.index(b"\x02\x01\x01")
        self.put("version.p7s", signed[: at + 2] + b"\x63" + signed[at + 3 :])
        for verb in (["show"], ["verify"], ["extract", "--into", "parts"]):
            self.finds([*verb, "version.p7s"], [r"^version\.p7s: .*refused: invalid at \d+ \(SEQUENCE"], 1)

    def test_others(self):
        number = self.openssl("x509", "-in", "rsa.pem", "-noout", "-serial").decode().strip().split("=")[1]
        self.finds(["show", "enveloped.p7m"], [f"recipient 1 +rsaEncryption, issuer .*, serial number {number}"])
        revoked = self.openssl("x509", "-in", "ec.pem", "-noout", "-serial").decode().strip().split("=")[1]
        issuer = self.name_of("crl", "-in", "list.pem", "-noout", "-issuer")
        wanted = [f"issuer +{issuer}$", "number +1000", "revoked +1 certificate$", f"{revoked} +.*, keyCompromise$"]
        self.finds(["show", "list.crl"], wanted)

    def test_time_stamps(self):
        text = self.openssl("ts", "-reply", "-in", "stamp.tsr", "-text").decode()
        moment = re.search(r"Time stamp: (.*) GMT", text)[1]
        wanted = time.strftime("%Y-%m-%d %H:%M:%S", time.strptime(moment, "%b %d %H:%M:%S %Y"))
        digest = self.openssl("dgst", "-sha256", "-c", "data").decode().split()[-1].upper()
        for name in ("stamp.tst", "stamp.tsr"):
            rows = [f"time +{wanted}", "policy +1.2.3.4.1", f"stamps +sha256 {digest}", "subject +CN=clock"]
            self.finds(["show", name], rows)

    def test_ber_and_pem_are_shown(self):
        for name, status in (("stream.p7s", 3), ("signed.pem", 0)):
            self.finds(["show", name], ["content +pkcs7-data, 130 octets"], status)

    def test_what_cant_be_shown_has_the_status_of_a_refusal(self):
        """In place of the words of a fault in Python."""
        certificates, junk = [*SIGNERS[:-1], 0xA0], sequence(sequence(), sequence())
        self.put("certificate.p7s", within(self.octets("attributes.p7s"), certificates, lambda _: junk))
        wanted = "^    not read +6 octets, which aren't as RFC 5280 has them$"
        self.finds(["show", "certificate.p7s"], [wanted], 1)
        self.sign("token.p7s", "-nodetach", "-econtent_type", "1.2.840.113549.1.9.16.1.4")
        self.finds(["show", "token.p7s"], ["^  not shown +what follows, since it isn't as its type has it$"], 1)


if __name__ == "__main__":
    unittest.main()
