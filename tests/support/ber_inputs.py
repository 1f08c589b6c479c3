"""Makes up inputs in BER, and changes them."""
import random

from .elements import element


def wrapped(dice, tag, contents):
    """An encoding with a length in one of the forms."""
    size = len(contents)
    form = dice.random()
    if tag & 0x20 and form < 0.35:
        return bytes([tag, 128]) + contents + b"\0\0"
    if form < 0.75:
        return element(tag, contents)
    fewest = max(1, (size.bit_length() + 7) // 8)
    count = dice.randint(fewest, 8)
    return bytes([tag, 128 + count]) + size.to_bytes(count, "big") + contents


def some_string(dice, depth):
    if depth == 0 or dice.random() < 0.6:
        return wrapped(dice, 0x04, dice.randbytes(dice.choice((0, 1, 3, 127, 128, 300))))
    return wrapped(dice, 0x24, b"".join(some_string(dice, depth - 1) for _ in range(dice.randint(0, 3))))


def some_primitive(dice):
    """A primitive encoding, now and then of a type that is constructed, or a BOOLEAN or a NULL of any length."""
    tag = dice.choice((0x01, 0x02, 0x03, 0x05, 0x06, 0x0C, 0x13, 0x17, 0x80, 0x81, 0x42))
    size, how = dice.choice((0, 1, 2, 5, 20)), dice.random()
    if how < 0.02:
        tag = dice.choice((0x08, 0x0B, 0x10, 0x11, 0x1D, 0x90))
    elif how < 0.95:
        size = {0x01: 1, 0x05: 0}.get(tag, size)
    return wrapped(dice, tag, dice.randbytes(size))


def some_encoding(dice, depth):
    kind = dice.random()
    if depth == 0 or kind < 0.3:
        return some_primitive(dice)
    if kind < 0.45:
        return some_string(dice, depth - 1)
    if kind < 0.65:
        contents = dice.choice((some_string, some_encoding))
        inner = b"".join(contents(dice, depth - 1) for _ in range(dice.randint(0, 3)))
        third = wrapped(dice, 0xA0, inner)
        rest = b"".join(some_encoding(dice, depth - 1) for _ in range(dice.randint(0, 1)))
        algorithm = wrapped(dice, dice.choice((0x30, 0x30, 0x30, 0x31)), b"\x06\x01\x2A")
        return wrapped(dice, dice.choice((0x30, 0x30, 0x30, 0x31, 0xA1)), b"\x06\x01\x2A" + algorithm + third + rest)
    tag = dice.choice((0x30, 0x31, 0xA0, 0xA3, 0x28, 0x2B, 0x3D, 0x61, 0x30, 0x31, 0x30, 0x23))
    return wrapped(dice, tag, b"".join(some_encoding(dice, depth - 1) for _ in range(dice.randint(0, 4))))


def nested(dice):
    """About as many levels as are allowed."""
    octets, tags = some_string(dice, 1), dice.choice(((0x24,), (0x30, 0x31, 0xA0)))
    for _ in range(dice.randint(60, 67)):
        octets = wrapped(dice, dice.choice(tags), octets)
    return octets


def changed(dice, octets):
    octets = bytearray(octets)
    for _ in range(dice.randint(1, 3)):
        at = dice.randrange(len(octets) + 1)
        how = dice.random()
        if how < 0.5 and at < len(octets):
            octets[at] = dice.choice((0x00, 0x80, 0xA0, 0x24, 0x04, 0x30, 0x1F, dice.randrange(256)))
        elif how < 0.7:
            octets[at:at + dice.randint(1, 3)] = b""
        elif how < 0.9:
            octets[at:at] = dice.choice((b"\0\0", b"\x24\x80", b"\x05\0", dice.randbytes(1)))
        else:
            del octets[at:]
    return bytes(octets)


def made_up(count):
    dice = random.Random(1)
    inputs = []
    while len(inputs) < count:
        octets = nested(dice) if dice.random() < 0.05 else some_encoding(dice, dice.randint(1, 6))
        inputs += [octets, changed(dice, octets)]
    return inputs
