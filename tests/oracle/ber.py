"""Converts BER to DER, from X.690 alone: the second opinion on `to_der` of the crate ber_der, and on what it refuses and
where. It shares nothing with tests/support."""


# Types of class universal whose encodings are constructed: EXTERNAL (8.18), EMBEDDED PDV (8.17), SEQUENCE (8.9.1), SET
# (8.11.1), CHARACTER STRING (8.24); and how many contents octets a BOOLEAN (8.2.1) and a NULL (8.8.2) have.
CONSTRUCTED = {0x08, 0x0B, 0x10, 0x11, 0x1D}
SIZES = {0x01: 1, 0x05: 0}


class Refused(Exception):
    """Why an input is refused, by the word of a status, and where."""


def element(tag, contents):
    """X.690, 8.1.2.2, 10.1: a tag of one octet, and a length in the fewest."""
    size = len(contents)
    if size < 128:
        return bytes([tag, size]) + contents
    octets = size.to_bytes((size.bit_length() + 7) // 8, "big")
    return bytes([tag, 128 + len(octets)]) + octets + contents


def header(octets, at, end):
    """The tag, where the contents begin, and where they end, which is None for an indefinite length (8.1.3.6)."""
    tag = octets[at]
    if tag == 0 or tag % 32 == 31 or at + 1 == end:
        raise Refused("malformed", at)
    first, start = octets[at + 1], at + 2
    if first == 128:
        return tag, start, None
    size = first
    if first > 128:
        count = first - 128
        if count > 8 or start + count > end:
            raise Refused("malformed", at)
        size, start = int.from_bytes(octets[start:start + count], "big"), start + count
    if start + size > end:
        raise Refused("malformed", at)
    return tag, start, start + size


def parts(octets, at, end, closed, tag, string, depth, joins):
    """What is kept of the encodings in contents, and where these end: at `end`, or before two zero octets (8.1.5)."""
    kept, tags = [], []
    while closed and at < end or not closed and octets[at:min(at + 2, end)] != b"\0\0":
        if not closed and end - at < 2:
            raise Refused("malformed" if at < end else "missing", at)
        role = "whole"
        if string:
            role = "segment"
        elif tag == 0x30 and tags == [0x06, 0x30] and octets[at:at + 2] == b"\xA0\x80":
            role = "implicit"
        tags.append(octets[at])
        der, at = convert(octets, at, end, role, depth, joins)
        kept.append(der)
    return b"".join(kept), at if closed else at + 2


def convert(octets, at, end, role, depth, joins):
    """What is kept of the encoding at an offset, and where it ends."""
    if at == end:
        raise Refused("missing", at)
    tag, start, stop = header(octets, at, end)
    if tag & 0x20 == 0:
        if stop is None:
            raise Refused("malformed", at)
        if tag in CONSTRUCTED or stop - start != SIZES.get(tag, stop - start):
            raise Refused("invalid", at)
        if role == "implicit" or role == "segment" and tag != 0x04:
            raise Refused("invalid", at)
        contents = octets[start:stop]
        return contents if role == "segment" else element(tag, contents), stop
    if depth == 0:
        raise Refused("too deep", at)
    # X.680, table 1: the types of class universal that are constructed, and of the strings OCTET STRING alone
    if tag < 0x40 and tag not in (0x24, 0x28, 0x2B, 0x30, 0x31, 0x3D):
        raise Refused("invalid", at)
    if role == "segment" and tag != 0x24 or role == "implicit" and not joins:
        raise Refused("invalid", at)
    string = role != "whole" or tag == 0x24
    contents, after = parts(octets, start, stop or end, stop is not None, tag, string, depth - 1, joins)
    if role == "segment":
        return contents, after
    return element(0x80 if role == "implicit" else 0x04 if string else tag, contents), after


def der_of(octets, joins=True):
    """The DER of an input. Without `joins`, contents of indefinite length under [0] beside an algorithm are refused, of
    which BER doesn't say whether they are segments of a string."""
    der, after = convert(octets, 0, len(octets), "whole", 64, joins)
    if after < len(octets):
        raise Refused("malformed", after)
    return der


def answer(octets):
    """The line of `ber_trial`."""
    try:
        der = der_of(octets)
    except Refused as refused:
        return "refused: %s at %d" % refused.args
    if der == octets:
        return "is DER"
    try:
        der_of(octets, joins=False)
        return "converted " + der.hex()
    except Refused:
        return "ambiguous " + der.hex()
