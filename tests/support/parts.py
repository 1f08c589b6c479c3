"""Finds the parts of containers element by element, as der.h describes them, in what the library accepts."""
from . import built  # where the package vuyhanip is made to be found
from .containers import NULL, content_info
from .elements import at, inside, octet_string, sequence
from .oids import oid
from vuyhanip.der import MAC_PARTS, Part

# The parts of signed data, and those of a store; der.MAC_PARTS has the others.
SIGNED_PARTS, STORE_PARTS = list(Part)[:9], list(Part)[9:13]
# The kind of the bags that hold a part.
BAG_NUMBERS = {Part.STORE_CERTIFICATE: 3, Part.STORE_KEY: 1, Part.STORE_ENCRYPTED_KEY: 2}


def content(text):
    """The elements of what is under [0] in a ContentInfo."""
    _, explicit = inside(text, at(text, 0))
    return inside(text, inside(text, explicit)[0])


def in_set(text, fields, tag):
    """The elements in the set among fields that has a tag, none where there is no such set."""
    return [element for field in fields if field.tag == tag for element in inside(text, field)]


def signed_parts(text):
    """The parts of signed data, by the part and the index."""
    data = content(text)
    found = {(Part.CERTIFICATE, i): part.of(text) for i, part in enumerate(in_set(text, data[3:], 0xA0))}
    _, *explicit = inside(text, data[2])
    if explicit:
        found[Part.HASHED_CONTENT, 0] = inside(text, explicit[0])[0].contents(text)
    for i, signer in enumerate(inside(text, data[-1])):
        found.update({(part, i): octets for part, octets in signer_parts(text, inside(text, signer)).items()})
    return found


def signer_parts(text, fields):
    """The parts of a signer."""
    attributes = [field for field in fields[3:4] if field.tag == 0xA0]
    algorithm, signature = fields[3 + len(attributes) : 5 + len(attributes)]
    found = {
        Part.DIGEST_ALGORITHM: inside(text, fields[2])[0].contents(text),
        Part.SIGNATURE_ALGORITHM: algorithm.of(text),
        Part.SIGNATURE: signature.contents(text),
    }
    if attributes and attributes[0].contents(text):
        found[Part.SIGNED_ATTRIBUTES] = b"\x31" + attributes[0].of(text)[1:]
    if fields[1].tag == 0x30:
        issuer, number = inside(text, fields[1])
        found[Part.ISSUER], found[Part.SERIAL_NUMBER] = issuer.of(text), number.contents(text)
    else:
        found[Part.KEY_IDENTIFIER] = fields[1].contents(text)
    return found


def store_parts(text, rows):
    """The parts of a store, of the rows of its bags: what bags of some kinds hold, and all bags but what isn't read."""
    places = {part: [row[6:8] for row in rows if row[0] == number] for part, number in BAG_NUMBERS.items()}
    places[Part.STORE_BAG] = [row[4:6] for row in rows if row[0] != 7]
    octets = {part: [text[start : start + size] for start, size in found] for part, found in places.items()}
    return {(part, i): found for part, parts in octets.items() for i, found in enumerate(parts)}


def mac_parts(text):
    """The parts of a PFX's MAC, and how often its key derivation hashes."""
    fields = inside(text, at(text, 0))
    if len(fields) < 3:
        return {}, None
    digest, salt, *count = inside(text, fields[2])
    algorithm, octets = inside(text, digest)
    found = inside(text, algorithm)[0].contents(text), octets.contents(text), salt.contents(text)
    rounds = int.from_bytes(count[0].contents(text), "big") if count else 1
    return {(part, 0): octets for part, octets in zip(MAC_PARTS, found)}, rounds


def covered(text):
    """Where in a PFX the contents octets of authSafe's OCTET STRING begin and end, which its MAC covers. None where
    authSafe isn't data."""
    version = at(text, at(text, 0).start)
    content_type = at(text, at(text, version.end).start)
    if content_type.of(text) != oid("data"):
        return None
    octets = at(text, at(text, content_type.end).start)
    return octets.start, octets.end


def over_any_octets(text):
    """What may be a PFX, with an element in place of the octets that its MAC covers, and else the same: it is a
    "rawpfx" where the calls on files in BER take the text as a PFX."""
    try:
        start, end = covered(text) or (0, 0)
    except IndexError:
        return text
    if not 0 < start <= end <= len(text):
        return text
    for head in range(2, 6):
        made = octet_string(bytes(max(0, end - start - head)))
        if len(made) == end - start:
            return text[:start] + made + text[end:]
    version, safe, *mac = inside(text, at(text, 0))
    made = content_info("data", octet_string(NULL))
    return sequence(version.of(text), made, *(field.of(text) for field in mac)) if safe.end == end else text


def certificate_places(text):
    """Where signed data have their certificates."""
    return [found.place() for found in in_set(text, content(text)[3:], 0xA0)]


def attribute_places(text):
    """Where each signer has its unsigned attributes, and its signed ones."""
    for signer in inside(text, content(text)[-1]):
        fields = inside(text, signer)[3:]
        yield [[found.place() for found in in_set(text, fields, tag)] for tag in (0xA1, 0xA0)]


def envelope_places(text):
    """Where enveloped data have their recipients, the algorithm and the octets."""
    data = content(text)
    first = 2 if data[1].tag == 0xA0 else 1
    _, algorithm, *octets = inside(text, data[first + 1])
    recipients = [found.place() for found in inside(text, data[first])]
    return recipients, [algorithm.place()], [found.contents_place() for found in octets]
