"""c/tests/limits.c makes each call of the library over an input, looks at all that the call writes, between marks, and
refuses its requests for memory in turn. Its lines are compared with what derbox, dertree and the readers and writers
of tests/oracle say of the input, and with what Python is told where other tests compare that. Each status is met that a
call can answer, but 7, which takes an encoding past 64 bits. Signed data of 10,000 certificates, revocation lists and
signers, and enveloped data of 10,000 recipients, are what the writers of tests/oracle make of them."""
import functools
import unittest

from support import built, inputs, oids
from support.cases import Comparing
from support.containers import NULL, attribute, bare_bag, store_of
from support.elements import element, integer, octet_string, sequence, set_of
from support.parts import certificate_places, covered, mac_parts, over_any_octets
from support.rooms import InRooms, in_room, marked
from support.statuses import (
    INVALID, LOOSE, NO_MEMORY, NO_PART, NO_RANGE, NO_ROOM, NORMAL, UNKNOWN_KIND, answered,
    checked, outcome, place, status_and_length,
)
from support.tools import needs
from oracle import answers, building, contents, enveloped_files, signed_files, stores
from vuyhanip import der

LIMITS = built.TOP / "c/tests/limits.c"
WRAPPED = "-Wl,--wrap=malloc,--wrap=realloc,--wrap=free"
# How many octets of an input the program takes as those of an INTEGER.
INTEGER_OCTETS = 24
# What the program has after an input of which it builds bags, stores, signed data, indirect data and enveloped data:
# the contents octets of an object identifier, a name, which is taken as flags too, and attributes, of which a
# friendlyName isn't written into a bag; the contents octets of another object identifier, a time, an algorithm, signed
# attributes, and a recipient with a key pair. And the count of a MAC.
IDENTIFIER, NAME = bytes.fromhex("2A0304"), "a\U0001F600".encode("utf-16-be")
ATTRIBUTES = set_of(sequence(element(0x06, IDENTIFIER), set_of(NULL)), attribute("friendlyName"))
TIME, ALGORITHM = b"20500101000000Z", sequence(element(0x06, IDENTIFIER), NULL)
CONTENT_TYPE, DIGESTED, SIGNED_NOW = (
    attribute("contentType", oids.oid("data")), attribute("messageDigest", octet_string(IDENTIFIER)),
    attribute("signingTime", element(0x17, b"261130120000Z")),
)
SIGNED_ATTRIBUTES = set_of(CONTENT_TYPE, DIGESTED)
RECIPIENT = sequence(integer(0))
REST = IDENTIFIER, NAME, ATTRIBUTES, oids.octets("data"), TIME, ALGORITHM, SIGNED_ATTRIBUTES, RECIPIENT
ITERATIONS = 2048
# How many certificates, revocation lists and signers it has in signed data of many, and recipients in enveloped data.
MANY = 10_000
# Inputs that are parts of signers, beside those that other tests have: times, and sets of attributes, some of which may
# be signed with data (RFC 5652, 5.3 and 11).
OF_SIGNERS = (
    TIME, b"19500101000000Z", b"20261130235960Z", ALGORITHM, ATTRIBUTES, SIGNED_ATTRIBUTES, set_of(), set_of(DIGESTED),
    set_of(CONTENT_TYPE, DIGESTED, SIGNED_NOW), set_of(SIGNED_NOW, DIGESTED, CONTENT_TYPE),
    set_of(CONTENT_TYPE, DIGESTED, SIGNED_NOW, SIGNED_NOW), set_of(CONTENT_TYPE, DIGESTED, DIGESTED),
    set_of(attribute("contentType", oids.oid("TSTInfo")), DIGESTED),
)
# Inputs that are recipients, and such as aren't quite (RFC 5652, 6.2): with a key pair, of each version from 0 on, of
# one that takes two octets, and of none; and with the tags of other kinds, and tags beside these.
OF_RECIPIENTS = (
    *(sequence(integer(version), NULL) for version in range(4)), RECIPIENT, sequence(element(0x02, b"\0\0")),
    sequence(element(0x02)), sequence(), sequence(NULL, integer(0)), RECIPIENT + NULL, RECIPIENT[:-1],
    *(element(tag, integer(version)) for tag in range(0xA0, 0xA6) for version in (0, 4)), element(0xA2), element(0x82),
    set_of(integer(0)),
)
# What each call is to be seen to answer.
WANTED = {
    "check": {0, 1, 2, 3, 4, 5, 6, 8},
    "locate": {0, 1, 2, 3, 4, 5, 6, 8},
    "loose_end": {0, 1, 2, 3, 4, 5, 6, 8},
    "rewrite": {0, 2, 3, 4, 5, 6, 8, 9},
    "mac": {0, 3, 4, 5, 8, 10},
    "mac_numbers": {0, 3, 4, 5, 8, 10, 11},
    "from_ber": {0, 3, 4, 5, 6, 8, 9},
    "name_text": {0, 3, 4, 5, 8, 9},
    "oid_text": {0, 5, 8, 9},
    "oid_octets": {0, 5, 8, 9},
    "oid_name": {0, 9, 11},
    "mac_ber": {0, 3, 4, 5, 8, 10, 11},
    "mac_part_ber": {0, 2, 3, 4, 5, 8, 9, 11},
    "part": {0, 2, 3, 4, 5, 6, 8, 9, 11},
    "utf16_text": {0, 5, 8, 9},
    "text_utf16": {0, 5, 8, 9},
    "kind": {0, 2, 9},
    "signers": {0, 3, 4, 5, 8},
    "signer": {0, 3, 4, 5, 8, 11, 12},
    "ranges": {0, 2, 3, 4, 5, 8, 9},
    "attributes": {0, 3, 4, 5, 8, 9, 11},
    "bags": {0, 3, 4, 5, 6, 8, 9},
    "certificate": {0, 3, 4, 5, 8},
    "indirect": {0, 3, 4, 5, 8, 11},
    "trust_list": {0, 3, 4, 5, 8, 11},
    "trust_rows": {0, 3, 4, 5, 8, 9, 11},
    "password": {0, 2, 3, 4, 5, 8},
    "build": {0, 2, 5, 8, 9},
    "build_bags": {0, 5, 8, 9},
    "build_safe": {0, 5, 8, 9},
    "build_store": {0, 5, 8, 9},
    "build_attributes": {0, 5, 8, 9},
    "build_signed": {0, 5, 8, 9},
    "build_indirect": {0, 5, 8, 9},
    "build_recipient": {0, 5, 8, 9},
    "build_enveloped": {0, 5, 8, 9},
    "integer_text": {0, 5, 8, 9},
}


# The lines that are wanted, where memory suffices: the word of a call, its status, and its numbers, up to the last that
# isn't 0.


def written(call, size):
    """The lines on octets that a call writes: into ample room, and into an octet less than they need."""
    return [(call, NORMAL, size)] + [(call, NO_ROOM, size)] * (size > 0)


def told(call, made, wrong=()):
    """The lines on what a call builds, or on numbers that say which of what it is given can't be written."""
    return [(call, INVALID, 0, *wrong)] if made is None else written(call, len(made))


def listed(call, count):
    """The lines on items that a call lists: with room for one, for one more than all, for just them and for one less."""
    rooms = (1, count + 1, count, count - 1)[: 3 + (count > 0)]
    return [(call, NORMAL if room >= count else NO_ROOM, count) for room in rooms]


def lines_on_places(kind, status, text):
    where = place(kind, status, text)
    return [
        ("locate", status, where if status > LOOSE else 0),
        ("loose_end", status, where if status == LOOSE else 0),
    ]


def lines_on_a_kind(status, size):
    """The lines on a check that answers that status and that length, and on the rewriting."""
    lines = [("check", status, size), ("rewrite", NORMAL if status <= LOOSE else status, size)]
    return lines + [("rewrite", NO_ROOM, size)] * (status <= LOOSE)


def mac_line(call, status, text):
    """The line on the numbers of a MAC, where a check answers that status."""
    if status > LOOSE:
        return call, status
    found, rounds = covered(text), mac_parts(text)[1]
    if found and rounds:
        return call, NORMAL, found[0], found[1] - found[0], rounds
    return call, NO_PART if found else NO_RANGE


def lines_on_the_mac(text):
    """The line on the range that a MAC covers, and that on its numbers."""
    numbers = mac_line("mac_numbers", checked("rawpfx", text)[0], text)
    found = covered(text) if numbers[1] in (NORMAL, NO_PART) else None
    return [("mac", NORMAL, found[0], found[1] - found[0]) if found else ("mac", *numbers[1:]), numbers]


def lines_on_ber(text):
    """The lines on conversions from BER, also into just the room that the DER needs."""
    status, made, where = answers.der_of(text)
    lines = [("from_ber", status, len(made), where)]
    return lines + [("from_ber", NORMAL, len(made)), ("from_ber", NO_ROOM, len(made))] * (status == NORMAL)


def lines_on_a_mac_over_ber(text):
    """The line on the numbers of a MAC that may cover BER, and then, after other lines, those on its parts."""
    status, _ = checked("rawpfx", over_any_octets(text))
    found, lines = mac_parts(text)[0] if status <= LOOSE else {}, []
    for number in range(len(der.Part) + 1):
        part = next((part for part in der.MAC_PARTS if part.value == number), None)
        if part is None:
            lines.append(("mac_part_ber", UNKNOWN_KIND))
        elif status > LOOSE or not found:
            lines.append(("mac_part_ber", status if status > LOOSE else NO_PART))
        else:
            lines += written("mac_part_ber", len(found[part, 0]))
    return [mac_line("mac_ber", status, text)], lines


def lines_on_parts(text):
    """The lines on parts: what Python is told, which tests/test_parts.py compares."""
    lines = []
    for part in der.Part:
        status, octets, where = answered(built.library().part, part, text)
        if status != NORMAL:
            lines.append(("part", status, 0, where))
        else:
            lines += [("part", NO_PART)] if octets is None else written("part", len(octets))
    return [*lines, ("part", UNKNOWN_KIND)]


def lines_on_texts(text):
    """The lines on texts for people: what Python is told, which tests/test_names.py compares; and on the octets of an
    object identifier, where the input is the text of one, and on UTF-16, where it is UTF-8."""
    library = built.library()
    lines = lines_on_a_text("name_text", library.name_text, text) + lines_on_a_text("oid_text", library.oid_text, text)
    lines += told("oid_octets", oids.spelt(text))
    name = library.oid_name(text)
    lines += [("oid_name", NO_PART)] if name is None else written("oid_name", len(name))
    lines += lines_on_a_text("utf16_text", library.utf16_text, text)
    return lines + told("text_utf16", stores.utf16(text))


def lines_on_a_text(call, read, text):
    status, made, _ = answered(read, text)
    return [(call, status)] if status != NORMAL else written(call, len(made.encode()))


def lines_on_signers(text):
    """The lines on signers, of each room for them and index, and on one signer: the first, and one past the last."""
    status, rows, where = answers.signers(text)
    if status != NORMAL:
        return [("signers", status, 0, where), *2 * [("signer", status, where)]]
    first = rows[0].status if rows else NO_PART
    return 9 * [("signers", NORMAL, len(rows))] + [("signer", first), ("signer", NO_PART)]


def lines_on_ranges(text):
    """The lines on the ranges of each part's items: those of certificates and of enveloped data are listed. Of the latter
    they are what Python is told, which tests/test_ranges.py compares."""
    envelope = {part.value: part for part in der.EnvelopePart}
    lines = []
    for number in range(len(der.Part) + len(envelope) + 1):
        if number in envelope:
            status, found, where = answered(built.library().ranges, envelope[number], text)
        elif number == der.Part.CERTIFICATE.value:
            status, _, where = answers.signers(text)
            found = certificate_places(text) if status == NORMAL else None
        else:
            status, where = UNKNOWN_KIND, 0
        lines += listed("ranges", len(found)) if status == NORMAL else [("ranges", status, 0, where)]
    return lines


def lines_on_attributes(text):
    """The lines on the first signer's unsigned and signed attributes: what Python is told, which tests/test_ranges.py
    compares."""
    lines = []
    for is_signed in (False, True):
        status, found, where = answered(built.library().attributes, text, 0, is_signed)
        if status != NORMAL:
            lines.append(("attributes", status, 0, where))
        else:
            lines += [("attributes", NO_PART)] if found is None else listed("attributes", len(found))
    return lines


def lines_on_bags(text):
    """The lines on the bags of a store: what Python is told, which tests/test_bag_rows.py compares."""
    status, found, where = answered(lambda: list(built.library().bags(text)))
    return listed("bags", len(found)) if status == NORMAL else [("bags", status, 0, where)]


def lines_on_a_certificate(text):
    status, _, where = answers.certificate(text)
    return [("certificate", status, where)]


def lines_on_indirect_data(text):
    """The line on the parts of indirect data, and those on what is built of them."""
    status, row, where = answers.indirect(text)
    lines = [("indirect", status, where)]
    return lines + (told("build_indirect", *contents.indirect_text(text, row)) if status == NORMAL else [])


def lines_on_a_trust_list(text):
    """The lines on the parts of a trust list, and on its entries."""
    status, _, where = answers.trust_list(text)
    lines = [("trust_list", status, where)]
    status, rows, where = answers.trust_rows(text)
    return lines + (listed("trust_rows", len(rows)) if status == NORMAL else [("trust_rows", status, 0, where)])


def lines_on_passwords(text):
    """The lines on parameters of encryption with a password, of each holder, and of a number that no holder has; and
    after each of them those on what is built from the same."""
    lines = []
    for number in range(len(der.PasswordHolder) + 1):
        status, row, where = answers.password(number, text)
        lines += [("password", status, where), *lines_on_building(number, text, row)]
    return lines


def lines_on_building(number, text, row):
    """The lines on what is built for a holder. Where nothing was found, that is nothing: of the parts that can't be
    written the algorithm is met first."""
    if number == len(der.PasswordHolder):
        return [("build", UNKNOWN_KIND)]
    made, wrong = building.text(number, text, row)
    return told("build", made, wrong[:1])


def with_rest(text):
    """An input with what follows it, and where each part of that is."""
    places, at = [], len(text)
    for part in REST:
        places.append((at, len(part)))
        at += len(part)
    return text + b"".join(REST), places


def lines_on_stores(text):
    """The lines on what is built of an input, with what follows it: no bags, and two of each kind, and of a number that
    no kind has; no contents, and two of each form; and a store without a MAC and with one."""
    octets, (identifier, name, attributes, *_) = with_rest(text)
    file, null = (0, len(text)), (octets.index(NULL, len(text)), len(NULL))
    mac = ITERATIONS, file, identifier, null, (len(text), len(octets) - len(text)), name
    lines = written("build_bags", len(sequence()))
    for kind in range(len(der.BagKind) + 1):
        bag = stores.Bag(kind, 1, 1, 1, identifier, file, name, name, attributes)
        made, wrong = stores.bags_text(octets, [bag, bag])
        lines += told("build_bags", made, *((index, parts[0]) for index, parts in wrong[:1]))
    lines += written("build_safe", len(sequence()))
    for is_data in (0, 1):
        made, wrong = stores.safe_text(octets, 2 * [stores.Content(is_data, file)])
        lines += told("build_safe", made, wrong[:1])
    for has_mac in (0, 1):
        made, wrong = stores.store_text(octets, stores.Store(has_mac, 1, *mac))
        lines += told("build_store", made, wrong[:1])
    return lines


def lines_on_built_attributes(text):
    """The lines on attributes of a signer: none, and all with an input in the place of each in turn, and of none. At
    most one part can't be written."""
    octets, (identifier, name, attributes, _, time, *_) = with_rest(text)
    whole = signed_files.Attributes(1, 1, 1, 1, identifier, name, time, attributes)
    others = [whole._replace(**{part: (0, len(text))}) for part in signed_files.OF_ATTRIBUTES]
    made = [signed_files.attributes_text(octets, row) for row in (signed_files.Attributes(), *others, whole)]
    return [line for made, wrong in made for line in told("build_attributes", made, wrong)]


def signed_of(file, places):
    """What signed data is built of: nothing; two certificates and two revocation lists; and two signers too, with an
    input, which is a range, in the place of the second certificate, of the second list, of each part of the second
    signer, and of the content, as octets and as an element. At most one part can't be written."""
    _, name, attributes, data, _, algorithm, signed_attributes, _ = places
    signer = signed_files.Signer(
        1, 1, 1, key_identifier=name, digest_algorithm=algorithm, signed_attributes=signed_attributes,
        signature_algorithm=algorithm, signature=name, unsigned_attributes=attributes,
    )
    content, two = signed_files.Content(content_type=data, content=file), 2 * (algorithm,)
    bare = signed_files.File(content, two, two)
    whole = bare._replace(signers=(signer, signer))
    yield from (signed_files.File(content), bare)
    yield from (whole._replace(**{part: (algorithm, file)}) for part in ("certificates", "crls"))
    for part in signer._fields[3:]:
        other = signer._replace(has_key_identifier=int(part != "certificate"), **{part: file})
        yield whole._replace(signers=(signer, other))
    yield from (whole._replace(content=content._replace(has_content=1, is_element=it)) for it in (0, 1))


def lines_on_signed_data(text):
    """The lines on signed data that is built of an input, with what follows it."""
    octets, places = with_rest(text)
    made = [signed_files.signed_text(octets, file) for file in signed_of((0, len(text)), places)]
    return [line for made, wrong in made for line in told("build_signed", made, *wrong)]


def lines_on_built_indirect_data(text):
    """The lines on indirect data that are built of an input, with what follows it: of another file and of a program,
    with the input in the place of each part in turn, and of none. At most one part can't be written."""
    octets, (identifier, name, attributes, _, _, algorithm, *_) = with_rest(text)
    whole = contents.Indirect(1, 0, 1, 1, identifier, attributes, algorithm, name, name, attributes)
    rows = [*(whole._replace(**{part: (0, len(text))}) for part in contents.INDIRECT_PARTS), whole]
    made = [contents.indirect_text(octets, row._replace(is_image=it)) for it in (0, 1) for row in rows]
    return [line for made, wrong in made for line in told("build_indirect", made, wrong)]


def lines_on_recipients(text):
    """The lines on recipients that are built of an input, with what follows it: with a key pair and with a
    key-encryption key, with the input in the place of each part in turn, and of none. Where a certificate is given, a
    key pair has no key identifier. At most one part can't be written."""
    octets, (_, name, _, _, _, algorithm, *_) = with_rest(text)
    whole = enveloped_files.Recipient(0, 1, key_identifier=name, algorithm=algorithm, key=name)
    others = [whole._replace(**{part: (0, len(text))}) for part in whole._fields[2:]]
    rows = [others[0]._replace(has_key_identifier=0), *others[1:], whole]
    made = [enveloped_files.recipient_text(octets, row._replace(is_kek=it)) for it in (0, 1) for row in rows]
    return [line for made, wrong in made for line in told("build_recipient", made, wrong)]


def enveloped_of(file, places):
    """What enveloped data is built of, without content and attributes, and with both: no recipient; and two, with an
    input, which is a range, in the place of each part, of the second recipient, and of none. At most one part can't be
    written."""
    _, name, attributes, data, _, algorithm, _, recipient = places
    for it in (0, 1):
        its = enveloped_files.Enveloped(it, it, data, algorithm, name, attributes)
        others = [enveloped_files.File(its._replace(**{part: file}), 2 * (recipient,)) for part in its._fields[2:]]
        yield enveloped_files.File(its)
        yield from (*others[:3], enveloped_files.File(its, (recipient, file)), others[3])
        yield enveloped_files.File(its, 2 * (recipient,))


def lines_on_enveloped_data(text):
    """The lines on enveloped data that is built of an input, with what follows it."""
    octets, places = with_rest(text)
    made = [enveloped_files.enveloped_text(octets, file) for file in enveloped_of((0, len(text)), places)]
    return [line for made, wrong in made for line in told("build_enveloped", made, *wrong)]


def pairs(count):
    """So many pairs of octets that ascend."""
    return [number.to_bytes(2, "big") for number in range(1, count + 1)]


def of_many():
    """The octets and the parts of signed data of many certificates, revocation lists and signers, in the order that is
    the other way round than theirs in the file."""
    elements = b"".join(sequence(pair) for pair in pairs(MANY)[::-1])
    octets, size = elements + oids.octets("data") + ALGORITHM, len(elements) // MANY
    data, algorithm = ((octets.index(it, len(elements)), len(it)) for it in (oids.octets("data"), ALGORITHM))
    signer = signed_files.Signer(1, digest_algorithm=algorithm, signature_algorithm=algorithm)
    numbers = [(nth * size + 2, 2) for nth in range(MANY)]
    signers = tuple(signer._replace(key_identifier=number, signature=number) for number in numbers)
    ranges = tuple((nth * size, size) for nth in range(MANY))
    return octets, signed_files.File(signed_files.Content(content_type=data), ranges, ranges, signers)


def recipient_of_many(pair):
    """A recipient of enveloped data of many."""
    return sequence(integer(0), octet_string(pair))


def for_many():
    """The octets and the parts of enveloped data of many recipients, in the order that is the other way round than
    theirs in the file."""
    elements = b"".join(map(recipient_of_many, pairs(MANY)[::-1]))
    octets, size = elements + oids.octets("data") + ALGORITHM, len(elements) // MANY
    data, algorithm = ((octets.index(it, len(elements)), len(it)) for it in (oids.octets("data"), ALGORITHM))
    its = enveloped_files.Enveloped(content_type=data, algorithm=algorithm)
    return octets, enveloped_files.File(its, tuple((nth * size, size) for nth in range(MANY)))


def lines_on_an_integer(text):
    """The lines on the number that the first octets of an input hold."""
    octets = text[:INTEGER_OCTETS]
    if not octets:
        return [("integer_text", INVALID)]
    return written("integer_text", len(str(int.from_bytes(octets, "big", signed=True))))


@functools.lru_cache(maxsize=None)
def lines_on(status, size, text):
    """All lines on an input but those on places, where a check answers that status and that length."""
    numbers, mac_lines = lines_on_a_mac_over_ber(text)
    lines = [*lines_on_a_kind(status, size), *lines_on_the_mac(text), *lines_on_ber(text), *numbers]
    lines += [*lines_on_parts(text), *mac_lines, *lines_on_texts(text), *lines_on_signers(text)]
    lines += [*lines_on_ranges(text), *lines_on_attributes(text), *lines_on_bags(text)]
    lines += [*lines_on_a_certificate(text), *lines_on_indirect_data(text), *lines_on_a_trust_list(text)]
    lines += [*lines_on_passwords(text), *lines_on_stores(text), *lines_on_built_attributes(text)]
    lines += [*lines_on_signed_data(text), *lines_on_built_indirect_data(text), *lines_on_recipients(text)]
    return [*lines, *lines_on_enveloped_data(text), *lines_on_an_integer(text)]


class TestLimits(Comparing):
    """What c/tests/limits.c says of all calls."""

    def setUp(self):
        super().setUp()
        self.met = {call: set() for call in WANTED}

    def lines_agree(self, program, words, text, wanted):
        """Compares the lines of the program, but for want of memory, and keeps all statuses that they say."""
        status, octets = outcome(program, *words, text=text)
        lines = [(call, *map(int, numbers)) for call, *numbers in map(str.split, octets.decode().splitlines())]
        for call, number, *_ in lines:
            self.met[call].add(number)
        wanted = [(*line, 0, 0, 0)[:5] for line in wanted]
        answer = status, [line for line in lines if line[1] != NO_MEMORY]
        self.same(answer, (0, wanted), program.name, *words, text)

    def program_agrees(self, program):
        kinds = built.library().kinds()
        found = [*inputs.cases(kinds, answers.is_over_attributes), *(("of a signer", text) for text in OF_SIGNERS)]
        found += [("recipient", text) for text in OF_RECIPIENTS]
        for kind, text in found:
            status, size = checked(kind, text) if kind in kinds else (UNKNOWN_KIND, 0)
            wanted = lines_on_places(kind, status, text) + lines_on(status, size, text)
            self.lines_agree(program, [kind], text, wanted)
        for kind, limit, text, line in inputs.limited(kinds):
            self.lines_agree(program, [kind, limit], text, lines_on(*status_and_length(line), text))
        words = [("kind", status, len(kind)) for kind in kinds for status in (NORMAL, NORMAL, NO_ROOM)]
        signed, _ = signed_files.signed_text(*of_many())
        enveloped, _ = enveloped_files.enveloped_text(*for_many())
        wanted = [*words, *2 * [("kind", UNKNOWN_KIND)], *written("build_signed", len(signed))]
        self.lines_agree(program, [], b"", [*wanted, *written("build_enveloped", len(enveloped))])
        for call, wanted in WANTED.items():
            self.same(self.met[call], wanted, program.name, "statuses of", call)

    def test_calls_write_where_they_may_and_say_so_where_memory_is_refused(self):
        self.program_agrees(built.in_c(LIMITS, WRAPPED))

    @needs("gcc", "clang")
    def test_calls_do_so_from_a_caller_that_clang_builds(self):
        self.program_agrees(built.in_c(LIMITS, WRAPPED, by="clang"))

    def test_functions_take_a_null_pointer_for_no_octets(self):
        """c/tests/nothing.c makes each with one, and ends with 0 where all answer as they do without. What is compiled
        into it ends it where a null pointer goes on to a call."""
        words = "-fsanitize=nonnull-attribute", "-fsanitize-undefined-trap-on-error"
        program = built.in_c(built.TOP / "c/tests/nothing.c", *words)
        self.same(outcome(program, text=store_of(bare_bag("safe contents bag", sequence()))), (0, b""), "null pointers")


class TestMany(InRooms):
    """Signed data of many certificates, revocation lists and signers, and enveloped data of many recipients."""

    def test_many_are_written_in_the_order_of_der(self):
        octets, file = of_many()
        wanted, _ = signed_files.signed_text(octets, file)
        self.same_octets("der_build_signed", (octets, len(octets), *file.words()), wanted, MANY, "of each", places=2)
        signatures = [bytes(row.signature) for row in built.library().signers(wanted)]
        self.same(signatures, pairs(MANY), "signatures in order")
        certificates = [bytes(it) for it in built.library().certificates(wanted)]
        self.same(certificates, [sequence(pair) for pair in pairs(MANY)], "certificates in order")

    def test_the_last_of_many_is_told(self):
        octets, file = of_many()
        outside, number = (len(octets), 1), MANY - 1
        signer = file.signers[-1]._replace(signature=outside)
        for part, its in (("certificates", outside), ("crls", outside), ("signers", signer)):
            wrong = file._replace(**{part: (*getattr(file, part)[:-1], its)})
            _, [(index, told_part)] = signed_files.signed_text(octets, wrong)
            said = in_room("der_build_signed", (octets, len(octets), *wrong.words()), 64, 3)
            self.same(said, (INVALID, 0, number, told_part, marked(b"", 64)), "the last of", part)
            self.same(index, number, "as by the other writer", part)

    def test_many_recipients_are_written_in_the_order_of_der(self):
        octets, file = for_many()
        wanted, _ = enveloped_files.enveloped_text(octets, file)
        given = octets, len(octets), *file.words()
        self.same_octets("der_build_enveloped", given, wanted, MANY, "recipients", places=2)
        found = [bytes(it) for it in built.library().recipients(wanted)]
        self.same(found, list(map(recipient_of_many, pairs(MANY))), "recipients in order")

    def test_the_last_of_many_recipients_is_told(self):
        octets, file = for_many()
        part = enveloped_files.ENVELOPED_PARTS["recipient"]
        # what isn't inside of the input, and what is no element
        for wrong in ((len(octets), 1), (0, 1)):
            other = file._replace(recipients=(*file.recipients[:-1], wrong))
            said = in_room("der_build_enveloped", (octets, len(octets), *other.words()), 64, 3)
            self.same(said, (INVALID, 0, MANY - 1, part, marked(b"", 64)), "the last recipient", wrong)
            self.same(enveloped_files.enveloped_text(octets, other)[1], [(MANY - 1, part)], "by the other writer")


if __name__ == "__main__":
    unittest.main()
