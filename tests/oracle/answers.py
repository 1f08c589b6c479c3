"""What the second opinions say of an input, in the form in which the calls of the library answer: a status of der.h,
what is found, and the place of a refusal. It shares nothing with tests/support."""
import functools

from . import bags, ber, certificates, contents, passwords, signed

STATUSES = {"unknown kind": 2, "malformed": 3, "missing": 4, "invalid": 5, "too deep": 6, "no part": 11}


def answered(nothing, read, *given):
    """What a reader finds, or nothing where it refuses the input."""
    try:
        return 0, read(*given), 0
    except (ber.Refused, signed.Refused) as refused:
        word, place = refused.args
        return STATUSES[word], nothing, place


@functools.lru_cache(maxsize=4096)
def signers(text):
    """The rows of the signers of signed data."""
    return answered([], signed.rows, text)


def is_over_attributes(text):
    """Whether these are signed data, the first of whose signers is over signed attributes."""
    return any(row.over_attributes for row in signers(text)[1][:1])


def is_over_content(text):
    """Whether these are signed data, the first of whose signers has no signed attributes."""
    return any(not row.status and not row.over_attributes for row in signers(text)[1][:1])


def bags_of(check, text):
    """The rows of the bags of a store. `check` takes a kind and octets and returns why and where the kind refuses them,
    or None."""
    return answered([], bags.rows, check, text)


def certificate(text):
    """Where a certificate has its parts."""
    return answered(certificates.Certificate(), certificates.row, text)


def indirect(text):
    """Where signed data has the parts of its indirect data."""
    return answered(contents.Indirect(), contents.row, text)


def trust_list(text):
    """Where signed data has the parts of its trust list, but the entries."""
    return answered(contents.TrustList(), contents.trust_list, text)


def trust_rows(text):
    """The rows of the entries of a trust list."""
    return answered([], contents.trust_rows, text)


def password(holder, text):
    """How data is encrypted with a password, of the holder with that number."""
    return answered(passwords.Parameters(), passwords.row, holder, text)


def der_of(text):
    """The DER of an input in BER."""
    return answered(b"", ber.der_of, text)
