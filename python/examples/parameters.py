"""parameters.py FILE lists how the keys and the contents of a PKCS #12 store are encrypted, a line each: the algorithm,
and what its parameters say of it. Nothing is decrypted, so what encrypted contents hold isn't listed. Exits with 0
where FILE is a store."""
import sys

import vuyhanip
from vuyhanip import BagKind, PasswordHolder

library = vuyhanip.library()


def name(identifier):
    """The name of an object identifier, by its contents octets, or its dotted form."""
    return library.oid_name(identifier) or vuyhanip.dotted(bytes(identifier))


def said(its):
    """What is said of parameters, as far as they are known."""
    yield name(its.algorithm)
    if its.is_pbes2:
        yield name(its.derivation)
    if its.is_pbes1 or its.is_pkcs12 or its.is_pbkdf2:
        yield f"{its.iterations} iterations"
        if its.salt is not None:
            yield f"salt of {len(its.salt)} octets"
    if its.is_pbkdf2:
        yield "hmacWithSHA1" if its.prf is None else name(its.prf)
    if its.is_pbes2:
        yield name(its.encryption)


def line(octets, holder):
    """How a key or contents are encrypted, or why that isn't known."""
    try:
        return ", ".join(said(library.password_parameters(octets, holder)))
    except vuyhanip.Refused as refused:
        return f"refused: {refused.reason}"


with open(sys.argv[1], "rb") as file:
    store = file.read()
try:
    bags = library.bags(store)
except vuyhanip.Refused as refused:
    sys.exit(f"refused: {refused.reason} at {refused.place}")
for bag in bags:
    if bag.kind is BagKind.SHROUDED_KEY:
        print(f"key: {line(bag.value, PasswordHolder.KEY)}")
    if bag.kind is BagKind.UNREAD:
        print(f"contents: {line(bag.element, PasswordHolder.CONTENTS)}")
