"""The MAC of a PKCS #12 store by a password (RFC 7292, 4 and appendix B), and keys by one, which tests make of what the
calls say of it."""
import hashlib
import hmac

# The purposes of what is derived (RFC 7292, B.3): a key, an initialization vector, a key for a MAC.
FOR_KEY, FOR_VECTOR, FOR_MAC = 1, 2, 3


def mac(digest, password, salt, iterations, octets):
    """The MAC of some octets, by a digest that hashlib names."""
    size = hashlib.new(digest).digest_size
    return hmac.digest(derived(digest, FOR_MAC, password, salt, iterations, size), octets, digest)


def derived(digest, purpose, password, salt, iterations, size):
    """So many octets for a purpose, of a password (RFC 7292, B.2)."""
    block, found = hashlib.new(digest).block_size, b""
    rest = filled(salt, block) + filled(password.encode("utf-16-be") + b"\0\0", block)
    while len(found) < size:
        octets = bytes([purpose]) * block + rest
        for _ in range(iterations):
            octets = hashlib.new(digest, octets).digest()
        found, rest = found + octets, summed(rest, filled(octets, block), block)
    return found[:size]


def summed(octets, other, block):
    """Each block of the octets as a number, plus the other number and 1, without what is carried out of the block."""
    numbers = (int.from_bytes(octets[at : at + block], "big") for at in range(0, len(octets), block))
    more = int.from_bytes(other, "big") + 1
    return b"".join(((number + more) % (1 << 8 * block)).to_bytes(block, "big") for number in numbers)


def filled(octets, block):
    """The octets again and again, up to a whole number of blocks."""
    size = -(-len(octets) // block) * block
    return (octets * (size // len(octets) + 1))[:size] if octets else b""
