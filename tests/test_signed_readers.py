"""50 files with random contents that keys of openssl sign, or as many as the environment variable SIGNED says, for a
release 1,000, are built by der_build_attributes and der_build_signed: openssl verifies them, and shows their times, and
refuses them with another signature or content; they are listed and read as they were given. vuyhanip.build makes the
same, but for unsigned attributes, which it puts in the order of DER; and what it refuses it refuses before anything is
signed. And files that openssl signs, or makes of certificates and lists, and those of the worked examples, are taken
apart by the reader of tests/oracle and built again, octet for octet where their sets are in order."""
import datetime
import functools
import itertools
import os
import random
import unittest

from support import built, elements, given, given_signed, inputs, signed_by_openssl, signing
from support.cases import Comparing
from support.containers import NULL
from support.elements import explicit, octet_string, part, parts, sequence, set_of
from support.given_signed import TIMES, Parts
from support.oids import ARCS, oid
from support.rooms import MARKS, in_room
from support.rows import examples
from support.signed_by_openssl import DETACHED, ELEMENT, FORMS, KEYS
from support.signed_data import (
    CERTIFICATE, DIGEST, ISSUER_AND_SERIAL, SHORT, TIME, TYPE, as_read, each_of, issuer_and_serial, plain, read_as,
    signed_in_python, signer_info, time_in_python, whole,
)
from support.statuses import NORMAL, answered, refusal
from support.stores import FURTHER, LONG, in_other_ways
from support.tools import openssl
from oracle import signed_files
from vuyhanip import build, der
from vuyhanip.der import AttributesPart, BadAttributes, BadSigned, GivenSigner, SignedPart

# How many random files there are.
COUNT = int(os.environ.get("SIGNED", 50))
UTC = datetime.timezone.utc


# What is built


def built_by(call, words, places):
    """What a call builds, in two calls, of which the first says how much room it needs; or its status."""
    _, size, *_ = in_room(call, words, 0, 1 + places)
    status, *_, room = in_room(call, words, size, 1 + places)
    return status if status else room[len(MARKS) : len(MARKS) + size]


def attributes_of(its):
    """What der_build_attributes builds of a set of parts, and what the other writer writes."""
    text, fields = given.laid_out(random.Random(1), its)
    row = signed_files.Attributes(**fields)
    wanted, _ = signed_files.attributes_text(text, row)
    return built_by("der_build_attributes", (text, len(text), row.numbers()), 1), wanted


def signed_of(those):
    """The same of der_build_signed and of parts."""
    text, fields = given_signed.laid_out(random.Random(2), those)
    file = signed_files.File.of(*fields)
    wanted, _ = signed_files.signed_text(text, file)
    return built_by("der_build_signed", (text, len(text), *file.words()), 2), wanted


# Files at random


@functools.lru_cache(maxsize=None)
def random_files():
    """Parts whose signatures are right, at random, each with the file that is built of them."""
    chance = random.Random(3)
    made = [signed_by_openssl.some_made(chance, lambda its: attributes_of(its)[0]) for _ in range(COUNT)]
    return [(it, signed_of(it.parts)[0]) for it in made]


def named_by(its):
    """The certificate that a set of parts of a signer names."""
    if not its["has_key_identifier"]:
        return its["certificate"]
    known = map(signing.certificate, KEYS)
    return next(it for it in known if elements.contents(signing.key_identifier(it)) == its["key_identifier"])


def wanted_signers(made):
    """What is listed of each signer: whether its signature covers attributes, what it covers, the digest, the content,
    the algorithms, the signature, the certificate, if it is in the file, and the time."""
    content = None if made.form == DETACHED else made.content
    for its, covered, attributes, time in made.signers:
        certificate = named_by(its)
        yield (
            attributes is not None, covered if attributes else content, attributes and attributes["message_digest"],
            content, its["digest_algorithm"], its["signature_algorithm"], its["signature"],
            certificate if certificate in made.parts.certificates else None, time and time.replace(tzinfo=UTC),
        )


def listed(row):
    """The same of a signer that was listed."""
    found = row.covered, row.digest, row.content, row.digest_algorithm, row.signature_algorithm, row.signature
    octets = (None if it is None else bytes(it) for it in (*found, row.certificate))
    return (row.is_over_attributes, *octets, row.signing_time)


class TestRandomFiles(Comparing):
    """Files at random that keys of openssl sign."""

    def test_openssl_verifies_them(self):
        counts = dict.fromkeys(FORMS, 0)
        for made, text in random_files():
            said = signed_by_openssl.verified(made, text, made.content)
            self.same(said, made.content, "what openssl verifies", made.form, made.parts)
            counts[made.form] += 1
        for form, count in counts.items():
            self.at_least(count, COUNT // 25, f"files whose content is {form}")

    def test_openssl_verifies_no_others(self):
        """With another signature, and with another content."""
        for made, _ in random_files()[: COUNT // 4]:
            text, _ = signed_of(signed_by_openssl.with_another_signature(made))
            said = signed_by_openssl.verified(made, text, made.content)
            self.same(said, None, "another signature", made.form, made.parts)
            those, content = signed_by_openssl.with_another_content(made)
            said = signed_by_openssl.verified(made, signed_of(those)[0], content)
            self.same(said, None, "another content", made.form, made.parts)

    def test_openssl_shows_their_times(self):
        """Each as UTCTime or GeneralizedTime, by its year (RFC 5652, 11.3)."""
        counts = {True: 0, False: 0}
        for made, text in random_files():
            times = [it.time for it in made.signers if it.time]
            wanted = sorted((1950 <= time.year <= 2049, time) for time in times)
            self.same(signed_by_openssl.times_of(made, text), wanted, "times that openssl shows", made.parts)
            for is_utc_time, _ in wanted:
                counts[is_utc_time] += 1
        for is_utc_time, count in counts.items():
            self.at_least(count, COUNT // 10, f"times that are UTCTime: {is_utc_time}")

    def test_they_are_those_of_the_other_writer(self):
        counts = {True: 0, False: 0}
        for made, text in random_files():
            self.same(text, signed_of(made.parts)[1], "the file of", made.parts)
            for it in made.signers:
                if it.attributes:
                    self.same(it.covered, attributes_of(it.attributes)[1], "what is covered", it.attributes)
                counts[it.attributes is not None] += 1
        for has_attributes, count in counts.items():
            self.at_least(count, COUNT // 10, f"signers with attributes: {has_attributes}")

    def test_they_are_read_by_the_other_reader_as_they_were_given(self):
        for made, text in random_files():
            self.same(read_as(signed_files.taken_apart(text)), as_read(made.parts), "read", made.form)

    def test_their_signers_are_listed_as_they_were_given(self):
        for made, text in random_files():
            found = sorted(map(listed, built.library().signers(text)), key=repr)
            self.same(found, sorted(wanted_signers(made), key=repr), "listed", made.form, made.parts)

    def test_they_are_normal(self):
        """Also as the kind for signed data, which knows signers of version 1 alone."""
        count = 0
        for made, text in random_files():
            self.same(refusal("contentinfo", text), None, "as a ContentInfo", made.parts)
            if not any(it["has_key_identifier"] for it in made.parts.signers):
                status, verdict, _ = answered(built.library().check, "pkcs7certificate", text)
                self.same((status, verdict and verdict.is_normal), (NORMAL, True), "as signed data", made.parts)
                count += 1
        self.at_least(count, COUNT // 5, "files without key identifiers")


# Python


def signer_in_build(it):
    """A signer as vuyhanip.build takes it."""
    its, digest, further = it.parts, None, []
    if it.attributes:
        digest, further = it.attributes["message_digest"], each_of(it.attributes, "attributes")
    name = given_signed.NAMES_OF_SIGNER[its["has_key_identifier"]]
    return build.Signer(
        its["digest_algorithm"], its["signature_algorithm"], **{name: its[name]}, digest=digest,
        signing_time=it.time and it.time.replace(tzinfo=UTC), attributes=further,
        unsigned_attributes=each_of(its, "unsigned_attributes"),
    )


def with_unsigned_in_order(those):
    """Parts of signed data with the unsigned attributes of each signer in the order of DER, as vuyhanip.build has
    them."""
    ordered = (set_of(*sorted(each_of(it, "unsigned_attributes"))) for it in those.signers)
    signers = [{**its, "unsigned_attributes": unsigned} for its, unsigned in zip(those.signers, ordered)]
    return those._replace(signers=signers)


def given_again(row, made):
    """A signer that was listed, as build_signed takes it. One whose certificate isn't in the file is named by one that
    has its issuer and serial number."""
    named = {"key_identifier": row.key_identifier}
    if row.key_identifier is None:
        known = [*([] if row.certificate is None else [row.certificate]), *map(signing.certificate, made.outside)]
        named = {"certificate": next(it for it in known if issuer_and_number(it) == (row.issuer, row.serial_number))}
    return GivenSigner(
        row.digest_algorithm, row.signature_algorithm, row.signature, **named,
        signed_attributes=row.covered if row.is_over_attributes else None,
        unsigned_attributes=row.unsigned_attributes,
    )


def issuer_and_number(certificate):
    issuer, serial = issuer_and_serial(bytes(certificate))
    return issuer, int.from_bytes(elements.contents(serial), "big", signed=True)


class TestPython(Comparing):
    """What vuyhanip.build makes, and what is listed and given again."""

    def setUp(self):
        super().setUp()
        built.use_shared()

    def test_files_are_made_of_signers_and_their_signatures(self):
        for made, _ in random_files():
            its, signers = made.parts.content, [signer_in_build(it) for it in made.signers]
            _, text = signed_of(with_unsigned_in_order(made.parts))
            # the content of an OCTET STRING is given as its octets
            content = its["content"] if made.form == ELEMENT else made.content
            found = build.signed(
                content, signers, content_type=der.dotted(its["content_type"]), is_element=made.form == ELEMENT,
                detached=made.form == DETACHED, certificates=made.parts.certificates, crls=made.parts.crls,
            )
            self.same(found.covered, [it.covered for it in made.signers], "what is covered", made.form)
            signatures = [it["signature"] for it in made.parts.signers]
            self.same(found.finish(signatures), text, "the file", made.form, made.parts)
            self.same(found.finish(map(bytearray, signatures)), text, "of other octets", made.form)

    def test_signers_that_were_listed_are_given_again(self):
        library = built.library()
        for made, text in random_files():
            file = library.signed(text)
            its = {**signed_in_python(made.parts), "certificates": file.certificates, "crls": file.crls}
            its["signers"] = [given_again(it, made) for it in file.signers]
            self.same(library.build_signed(**its), text, "built again", made.form, made.parts)

    def test_the_certificates_are_those_of_the_signers_each_once(self):
        """Where none are given, whatever it is that has their octets."""
        other = given_signed.certificate_of(sequence(), elements.integer(1))
        each = CERTIFICATE, other, CERTIFICATE, *in_other_ways(CERTIFICATE), *in_other_ways(other)
        by_each, by_key = [build.Signer(SHORT, SHORT, it) for it in each], build.Signer(SHORT, SHORT, None, b"key")
        one, both = [CERTIFICATE], sorted([CERTIFICATE, other])
        for signers, wanted in ((by_each, both), (by_each[3:5], one), ([by_key], None), ([by_key, *by_each], both)):
            text = build.signed(b"text", signers).finish(len(signers) * [b"s"])
            self.same(signed_files.taken_apart(text).certificates, wanted, "certificates")
            none = build.signed(b"text", signers, certificates=()).finish(len(signers) * [b"s"])
            self.same(signed_files.taken_apart(none).certificates, None, "no certificates")
        twice = build.signed(b"text", [by_key], certificates=each[2:4]).finish([b"s"])
        self.same(signed_files.taken_apart(twice).certificates, 2 * [CERTIFICATE], "given twice")

    def test_without_signers_there_is_nothing_to_sign(self):
        made = build.signed(None, [])
        self.same((made.covered, made.finish([])), ([], whole(1, algorithms=())), "nothing")
        made = build.signed(None, iter(()), certificates=iter([CERTIFICATE]), crls=iter([sequence()]))
        wanted = whole(1, algorithms=(), lists=[explicit(0, CERTIFICATE), explicit(1, sequence())])
        for signatures in ((), [], iter(())):
            self.same((made.covered, made.finish(signatures)), ([], wanted), "certificates and lists alone")
        with self.assertRaises(ValueError) as raised:
            made.finish([b"s"])
        said = type(raised.exception), str(raised.exception)
        self.same(said, (ValueError, "0 signatures are needed, and 1 are given"), "a signature of no signer")

    def test_all_that_is_given_is_gone_through_once(self):
        """Though finish may be called again."""
        signers = iter([build.Signer(SHORT, SHORT, None, b"key"), build.Signer(SHORT, SHORT, CERTIFICATE)])
        certificates, crls = iter([SHORT, CERTIFICATE]), iter([sequence(), SHORT])
        made = build.signed(b"text", signers, certificates=certificates, crls=crls)
        infos = signer_info(3, elements.element(0x80, b"key")), signer_info(1, ISSUER_AND_SERIAL)
        lists = [explicit(0, SHORT, CERTIFICATE), explicit(1, sequence(), SHORT)]
        wanted = whole(3, *infos, info=sequence(oid("data"), explicit(0, octet_string(b"text"))), lists=lists)
        for signatures in (iter([b"s", b"s"]), map(bytearray, [b"s", b"s"]), (b"s", b"s")):
            self.same((made.covered, made.finish(signatures)), ([b"text", b"text"], wanted), "the file")

    def test_content_is_what_is_signed(self):
        """Where a signature covers it, and it may be elsewhere."""
        signer, info = build.Signer(SHORT, SHORT, CERTIFICATE), signer_info(1, ISSUER_AND_SERIAL)
        certificates = explicit(0, CERTIFICATE)
        for content in (b"", b"text", bytearray(b"text"), memoryview(b"t-e-x-t")[::2]):
            made, held = build.signed(content, [signer, signer]), explicit(0, octet_string(bytes(content)))
            self.same(made.covered, 2 * [bytes(content)], "what is covered")
            wanted = whole(1, info, info, info=sequence(oid("data"), held), lists=[certificates])
            self.same(made.finish([b"s", b"s"]), wanted, "in the file")
            detached = build.signed(content, [signer], detached=True)
            self.same(detached.covered, [bytes(content)], "what is covered, detached")
            self.same(detached.finish([b"s"]), whole(1, info, lists=[certificates]), "not in the file")
        digested = signer._replace(digest=b"digest")
        for content, words in ((None, {}), (b"text", {}), (NULL, {"is_element": True}), (b"text", {"detached": True})):
            self.same(build.signed(content, [digested], **words).covered, [set_of(DIGEST, TYPE)], "attributes", content)

    def test_content_that_is_changed_afterwards_is_written_as_it_was_signed(self):
        signer, covered, octets = build.Signer(SHORT, SHORT, CERTIFICATE), set_of(DIGEST, TYPE), bytearray(NULL)
        for digest, is_element, wanted in (
            (None, False, (NULL, octet_string(NULL))), (b"digest", False, (covered, octet_string(NULL))),
            (b"digest", True, (covered, NULL)),
        ):
            for content in (octets, memoryview(octets)):
                octets[:] = NULL
                made = build.signed(content, [signer._replace(digest=digest)], is_element=is_element)
                octets[:] = octet_string(b"")
                found = made.covered[0], signed_files.taken_apart(made.finish([b"s"])).content
                self.same(found, wanted, "as it was signed", digest, is_element)

    def test_what_is_changed_afterwards_is_written_as_it_was_given(self):
        """Each part of signers, and certificates and lists."""
        attributes, names = [*FURTHER, LONG], ("digest_algorithm", "signature_algorithm", "certificate")
        its = {**dict.fromkeys(names[:2], SHORT), "certificate": CERTIFICATE, "digest": b"digest"}
        by_key = {**its, "certificate": None, "key_identifier": b"key"}
        lists = {"certificates": [CERTIFICATE, SHORT], "crls": [sequence(), SHORT]}

        def made(octets):
            """What is made of parts that are these octets."""
            def given_of(value):
                return octets(value) if isinstance(value, bytes) else value

            signers = [
                build.Signer(
                    **{name: given_of(it) for name, it in those.items()},
                    attributes=list(map(octets, attributes)), unsigned_attributes=list(map(octets, attributes)),
                )
                for those in (its, by_key)
            ]
            return build.signed(octets(b"text"), signers, **{name: map(octets, it) for name, it in lists.items()})

        wanted, all_of_them = made(bytes).finish([b"s", b"s"]), []

        def kept(octets):
            all_of_them.append(bytearray(octets))
            return all_of_them[-1]

        for as_given in (kept, lambda it: memoryview(kept(it)), lambda it: memoryview(kept(it)).toreadonly()):
            all_of_them.clear()
            found = made(as_given)
            self.same(len(all_of_them), 9 + 4 * len(attributes) + 4, "parts that are changed")
            for it in all_of_them:
                it[:] = bytes(len(it))
            self.same(found.finish([b"s", b"s"]), wanted, "as it was given")

    def test_attributes_are_written_in_the_order_of_der(self):
        """In whatever order they are given, also unsigned ones."""
        signer = build.Signer(SHORT, SHORT, CERTIFICATE, digest=b"digest", signing_time=time_in_python(TIMES[0]))
        signed, unsigned = [*FURTHER, DIGEST, TYPE, TIME, LONG], [*FURTHER, LONG]
        info = signer_info(1, ISSUER_AND_SERIAL, explicit(0, *signed), explicit(1, *unsigned))
        for those in itertools.permutations(unsigned):
            others = [next(in_other_ways(it)) for it in those[::-1]]
            for its in ((those, others), (others, list(those))):
                given_signer = signer._replace(attributes=its[0], unsigned_attributes=its[1])
                made = build.signed(None, [given_signer], certificates=())
                self.same(made.covered, [set_of(*signed)], "what is covered", its)
                self.same(made.finish([b"s"]), whole(1, info), "the file", its)

    def test_unsigned_attributes_are_of_any_types_and_need_no_digest(self):
        """One that is given twice is written twice; and where there are none there is no set."""
        signer = build.Signer(SHORT, SHORT, CERTIFICATE)
        for those, wanted in (
            ([TIME, DIGEST, TYPE, DIGEST], explicit(1, DIGEST, DIGEST, TYPE, TIME)), ([LONG], explicit(1, LONG)),
            ([], b""), ((), b""),
        ):
            made = build.signed(b"text", [signer._replace(attributes=(), unsigned_attributes=those)], detached=True)
            info = signer_info(1, ISSUER_AND_SERIAL, b"", wanted)
            self.same(made.covered, [b"text"], "what is covered", those)
            self.same(made.finish([b"s"]), whole(1, info, lists=[explicit(0, CERTIFICATE)]), "unsigned", those)

    def test_octets_in_place_of_a_list_of_attributes_are_refused(self):
        signer = build.Signer(SHORT, SHORT, CERTIFICATE, digest=b"digest")
        for wrong in (set_of(LONG), LONG, bytearray(LONG), memoryview(LONG), "1.2.3", None):
            for name in ("attributes", "unsigned_attributes"):
                with self.assertRaises(TypeError):
                    build.signed(b"text", [signer._replace(**{name: wrong})])

    def test_what_is_missing_is_told_before_anything_is_signed(self):
        signer, now = build.Signer(SHORT, SHORT, CERTIFICATE), datetime.datetime(2026, 11, 30, tzinfo=UTC)
        digested, of_element = signer._replace(digest=b"digest"), {"is_element": True}
        no_octets = "signer 1 has to have a digest, as the content isn't given as octets"
        no_digest = "signer 1 has signed attributes, so it has to have a digest"
        no_zone = "signing_time of signer 1 has no time zone"
        for content, words, its, said in (
            (None, {}, signer, no_octets), (NULL, of_element, signer, no_octets),
            (None, {"detached": True}, signer, no_octets), (b"text", {}, signer._replace(signing_time=now), no_digest),
            (b"text", {}, signer._replace(attributes=[LONG]), no_digest),
            (None, {}, signer._replace(attributes=(LONG, LONG), signing_time=now), no_digest),
            (NULL, of_element, signer._replace(attributes=[LONG]), no_digest),
            (b"text", {}, digested._replace(signing_time=now.replace(tzinfo=None)), no_zone),
        ):
            with self.assertRaises(ValueError) as raised:
                build.signed(content, [digested, its, digested], **words)
            self.same((type(raised.exception), str(raised.exception)), (ValueError, said), "told", content, its)

    def test_there_is_one_signature_of_each_signer(self):
        made = build.signed(b"text", 2 * [build.Signer(SHORT, SHORT, CERTIFICATE)])
        for count in (0, 1, 3):
            with self.assertRaises(ValueError) as raised:
                made.finish(iter(count * [b"s"]))
            said = type(raised.exception), str(raised.exception)
            self.same(said, (ValueError, f"2 signatures are needed, and {count} are given"), "signatures", count)
        for signatures, index in (([None, b"s"], 0), ([b"s", None], 1), ([None, None], 0)):
            with self.assertRaises(BadSigned) as raised:
                made.finish(signatures)
            bad = raised.exception
            self.same((bad.index, bad.part), (index, SignedPart.SIGNATURE), "no signature", signatures)

    def test_what_is_wrong_is_told_before_anything_is_signed(self):
        right, other = build.Signer(SHORT, SHORT, CERTIFICATE), "1.2.3.4"
        for its, words, index, part in (
            (right._replace(certificate=None), {}, 1, SignedPart.IDENTIFIER),
            (right._replace(key_identifier=b"key"), {}, 1, SignedPart.IDENTIFIER),
            (right._replace(digest_algorithm=NULL), {}, 1, SignedPart.DIGEST_ALGORITHM),
            (right._replace(signature_algorithm=NULL), {}, 1, SignedPart.SIGNATURE_ALGORITHM),
            (right._replace(unsigned_attributes=[LONG, NULL]), {}, 1, SignedPart.UNSIGNED_ATTRIBUTES),
            (right._replace(unsigned_attributes=[LONG + LONG]), {}, 1, SignedPart.UNSIGNED_ATTRIBUTES),
            (right, {"content_type": other}, 0, SignedPart.SIGNED_ATTRIBUTES),
            (right, {"certificates": [SHORT, NULL]}, 1, SignedPart.CERTIFICATE),
            (right, {"crls": [NULL]}, 0, SignedPart.CRL),
        ):
            with self.assertRaises(BadSigned) as raised:
                build.signed(b"text", [right, its], **words)
            self.same((raised.exception.index, raised.exception.part), (index, part), "told", its, words)
        detached, element_elsewhere = {"detached": True}, {"detached": True, "is_element": True}
        for content, words in (
            (b"text", {}), (b"", {}), (None, {"content_type": other}), (b"text", detached), (b"", detached),
            (NULL, element_elsewhere),
        ):
            with self.assertRaises(BadSigned) as raised:
                build.signed(content, iter(()), **words)
            self.same((raised.exception.index, raised.exception.part), (None, SignedPart.CONTENT), "no signers", words)
        early = datetime.datetime.min.replace(tzinfo=datetime.timezone(datetime.timedelta(hours=1)))
        of_attributes = {"attributes": [LONG, NULL]}, AttributesPart.ATTRIBUTES
        for words, its_part in (of_attributes, ({"signing_time": early}, AttributesPart.SIGNING_TIME)):
            for index in (0, 1, 5):
                with self.assertRaises(BadAttributes) as attributes_raised:
                    build.signed(b"text", [*index * [right], right._replace(digest=b"digest", **words), right])
                bad = attributes_raised.exception
                self.same((bad.signer, bad.part), (index, its_part), "attributes", words)
                self.same(str(bad), f"{its_part.name.lower()} of signer {index} can't be written", "it says")
        for call in (lambda: build.signed(b"text", [right], content_type="1.2."), lambda: build.algorithm("none")):
            with self.assertRaises(der.Refused):
                call()

    def test_algorithms_are_made_of_their_identifiers(self):
        for name, arcs in ARCS.items():
            self.same(build.algorithm(arcs), sequence(oid(name)), "without parameters", name)
            for parameters in (NULL, sequence(NULL), octet_string(bytes(300))):
                self.same(build.algorithm(arcs, parameters), sequence(oid(name), parameters), "with", parameters)
        self.same(build.NULL, NULL, "NULL")

    def test_algorithms_are_those_that_openssl_names(self):
        """What openssl calls the constants, and what it makes of these names, without parameters and with NULL."""
        for name, arcs in (
            ("pkcs7-data", build.DATA), ("rsaEncryption", build.RSA), ("ED25519", build.ED25519),
            ("sha256WithRSAEncryption", build.SHA256_WITH_RSA), ("ecdsa-with-SHA256", build.ECDSA_WITH_SHA256),
            ("sha256", build.SHA256),
        ):
            shown = openssl("asn1parse", "-inform", "DER", text=oid(arcs)).decode()
            self.same(shown.split(":")[-1].strip(), name, "what openssl calls", arcs)
            self.same(build.algorithm(arcs), signed_by_openssl.algorithm(name), "without parameters", name)
            with_null = signed_by_openssl.algorithm(name, "parameters=NULL")
            self.same(build.algorithm(arcs, build.NULL), with_null, "with NULL", name)

    def test_algorithms_are_those_of_files_that_openssl_signs(self):
        """As RFC 3370, RFC 5754 and RFC 8419 ask for: only those of RSA have parameters."""
        files = signed_by_openssl.signed_by_openssl()
        [by_rsa], [on_a_curve] = (
            signed_files.taken_apart(files[f"cms, {name}"]).signers for name in ("attached", "on a curve")
        )
        certificate = signing.certificate("ed25519")
        for words, theirs in (
            ((build.SHA256,), by_rsa.digest_algorithm), ((build.RSA, build.NULL), by_rsa.signature_algorithm),
            ((build.ECDSA_WITH_SHA256,), on_a_curve.signature_algorithm),
            ((build.SHA256_WITH_RSA, build.NULL), part(certificate, 1)), ((build.ED25519,), part(certificate, 0, 6, 0)),
        ):
            self.same(build.algorithm(*words), theirs, "an algorithm", *words)


# Files of openssl, and of the worked examples


def parts_of(taken, certificates, is_element=True):
    """The parts of signed data that the other reader took apart. A signer is named by its certificate among some, or by
    one that is made up of its issuer and serial number."""
    content = {"content_type": taken.content_type, "has_content": int(taken.content is not None)}
    if taken.content is not None:
        held = taken.content if is_element else elements.contents(taken.content)
        content |= {"is_element": int(is_element), "content": held}
    signers = [signer_of(it, certificates) for it in taken.signers]
    return Parts(content, taken.certificates or [], taken.crls or [], signers)


def signer_of(taken, certificates):
    """A set of parts of a signer."""
    its = {name: getattr(taken, name) for name in ("digest_algorithm", "signature_algorithm", "signature")}
    for name in ("signed_attributes", "unsigned_attributes"):
        those = getattr(taken, name)
        its |= {f"has_{name}": int(those is not None), **({} if those is None else {name: those})}
    if taken.key_identifier is not None:
        return {**its, "has_key_identifier": 1, "key_identifier": taken.key_identifier}
    issuer, serial = parts(taken.issuer_and_serial_number)
    known = [it for it in certificates if issuer_and_serial(it) == (issuer, serial)]
    certificate = known[0] if known else given_signed.certificate_of(issuer, serial)
    return {**its, "has_key_identifier": 0, "certificate": certificate}


def in_order(taken):
    """These parts with the certificates in order."""
    return taken._replace(certificates=taken.certificates and sorted(taken.certificates))


def but_for_versions(taken):
    """These parts without versions and digest algorithms, and with the certificates in order."""
    signers = [it._replace(version=0) for it in taken.signers]
    return in_order(taken)._replace(version=0, digest_algorithms=[], signers=signers)


def normal_files():
    """Signed data of the worked examples that are normal, and of examples in C and Rust."""
    for row in examples():
        if row.type in inputs.SIGNED and row.said.startswith("normal"):
            yield row.octets()
    for path in sorted([*built.TOP.glob("rust/tests/*.p7m"), *built.TOP.glob("crates/*/data/*.p7m")]):
        yield path.read_bytes()


class TestBuiltAgain(Comparing):
    """Files that are taken apart and built again."""

    def built_again(self, text, certificates, *what):
        """Compares what is built of a file's parts with it, and returns whether its certificates are in order: PKCS #7
        of openssl has them in any."""
        taken = signed_files.taken_apart(text)
        for known, is_element in itertools.product(([], certificates), (True, False)):
            made, wanted = signed_of(parts_of(taken, known, is_element))
            self.same(made, wanted, "the other writer", *what)
            self.same(signed_files.taken_apart(made), in_order(taken), "its parts", *what)
            self.same(made == text, taken == in_order(taken), "octet for octet", *what)
        return taken == in_order(taken)

    def test_files_that_openssl_signs_are_built_again_as_they_were(self):
        certificates = list(map(signing.certificate, KEYS))
        files = signed_by_openssl.signed_by_openssl().items()
        count = sum(self.built_again(text, certificates, name) for name, text in files)
        self.at_least(count, len(signed_by_openssl.OF_CMS), "files with their certificates in order")

    def test_files_of_certificates_and_lists_of_openssl_are_built_again_as_they_were(self):
        count = sum(self.built_again(text, [], name) for name, text in signed_by_openssl.lists_by_openssl().items())
        self.at_least(count, 4, "files with their certificates in order")

    def test_attributes_that_openssl_signs_are_built_again_as_they_were(self):
        """With their types, digests and times, and with all attributes as further ones in any order."""
        count = 0
        for name, text in signed_by_openssl.signed_by_openssl().items():
            content_type = signed_files.taken_apart(text).content_type
            for row in (it for it in built.library().signers(text) if it.is_over_attributes):
                time = f"{row.signing_time:%Y%m%d%H%M%S}Z".encode()
                its = plain(content_type=content_type, message_digest=bytes(row.digest), signing_time=time)
                all_of_it = [bytes(it) for it in row.attributes]
                for those in (all_of_it, all_of_it[::-1], sorted(all_of_it, key=len, reverse=True)):
                    made, _ = attributes_of({**its, "has_attributes": 1, "attributes": set_of(*those)})
                    self.same(made, bytes(row.covered), "what its signature covers", name)
                count += 1
        self.at_least(count, 20, "signers")

    def test_normal_files_of_the_worked_examples_are_built_again(self):
        """Octet for octet, unless they have other versions, other digest algorithms, or certificates in another order;
        or what can't be built, as content without a signer."""
        count = 0
        for text in normal_files():
            taken = signed_files.taken_apart(text)
            made, wanted = signed_of(parts_of(taken, []))
            self.same(made if isinstance(made, bytes) else None, wanted, "the other writer", text)
            if wanted is not None:
                again = signed_files.taken_apart(wanted)
                self.same(but_for_versions(again), but_for_versions(taken), "its parts", text)
            count += made == text
        self.at_least(count, 25, "files that are built again as they were")


if __name__ == "__main__":
    unittest.main()
