"""The lines of an input in BER, from X.690 alone: the second opinion on `dertree` without a kind. Each is an offset, how
many elements it is in, and what is there: the length of an element, `inf` for an indefinite one, or a word. It shares
nothing with tests/support."""

OCTET_STRING = 0x04


def header(octets, at, end):
    """The tag, where the contents begin, and where they end, which is None for an indefinite length (X.690, 8.1.3). None
    where no element begins, with a tag of one octet and all its contents before the end."""
    if end - at < 2 or octets[at] % 32 == 31:
        return None
    tag, first, start = octets[at], octets[at + 1], at + 2
    if first == 128:
        return (tag, start, None) if tag & 0x20 else None
    size = first
    if first > 128:
        count = first - 128
        if count > 8 or start + count > end:
            return None
        size, start = int.from_bytes(octets[start:start + count], "big"), start + count
    return (tag, start, start + size) if start + size <= end else None


def ends(octets, at, end):
    """Where the element that begins at an offset ends: after its contents, of whatever octets, or after the end of those
    (8.1.5). None where no whole element begins."""
    found = header(octets, at, end)
    if found is None:
        return None
    _, at, stop = found
    if stop is not None:
        return stop
    while octets[at:min(at + 2, end)] != b"\0\0":
        at = ends(octets, at, end)
        if at is None:
            return None
    return at + 2


def inside(octets, at, end, is_closed, depth, opens, shown):
    """The lines of contents, and where these end: at `end`, or after two zero octets."""
    while at < end:
        if not is_closed and octets[at:min(at + 2, end)] == b"\0\0":
            shown.append((at, depth, "end of contents"))
            return at + 2
        found = header(octets, at, end)
        if found is None:
            shown.append((at, depth, f"{end - at} that are no element"))
            at = end
            continue
        tag, start, stop = found
        shown.append((at, depth, "inf" if stop is None else str(stop - start)))
        if stop is None:
            at = inside(octets, start, end, False, depth + 1, opens, shown)
            continue
        is_string = tag == OCTET_STRING and opens and ends(octets, start, stop) == stop
        if is_string or tag & 0x20:
            inside(octets, start, stop, True, depth + 1, opens, shown)
        at = stop
    if not is_closed:
        shown.append((at, depth, "missing end of contents"))
    return at


def lines(octets, opens):
    """The lines of an input, in which octet strings that are one whole element are open or aren't."""
    shown = []
    inside(octets, 0, len(octets), True, 0, opens, shown)
    return shown
