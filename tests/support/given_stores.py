"""Sets of parts as der_build_bags, der_build_safe and der_build_store take them, by the names of the fields of their
structs: a part as octets, a number, and a flag as 0 or 1. Sets are laid out in one input, with made-up octets and
numbers. And sets of which a part is broken, with the name of that part; and rows some of whose fields are others."""
from . import encrypted, given
from .containers import NULL, attribute, bag, bare_bag, bmp_string, content_info, nested, secret_bag
from .elements import element, explicit, integer, octet_string, sequence, set_of
from .given import NO_ELEMENTS, NO_IDENTIFIERS, some_element, some_identifier, some_octets, there_or_not
from .oids import contents, octets, oid

# The numbers of kinds of bags in der.h, and the names of the object identifiers of those that have one.
OTHER, KEY, SHROUDED_KEY, CERTIFICATE, CRL, SECRET, SAFE_CONTENTS = KINDS = range(7)
NAMES_OF_KINDS = {
    KEY: "key bag", SHROUDED_KEY: "shrouded key bag", CERTIFICATE: "certificate bag", CRL: "list bag",
    SECRET: "secret bag", SAFE_CONTENTS: "safe contents bag",
}
# Numbers that aren't of a kind of bag that is written: of what is unread, of certificates and lists of another type,
# and others, of which 8 or 32 bits may be.
NO_KINDS = 7, 8, 9, 10, 255, 256, 257, 2**32, 2**32 + 3, 2**63, 2**64 - 1
# Friendly names: none at all, of several alphabets, past U+FFFF, long ones, and with a zero in it.
NAMES = "", "a", "my key", "ключ", "日本", "\U0001F600", "a\U0001F511\U0001D4B3b", "x" * 63, "x" * 64, "ß" * 300, "a\0b"
# What is no UTF-16: half a unit, half a pair of surrogates, at the end and before another unit, and a pair the wrong
# way round.
NO_NAMES = b"\0", b"\0a\0", b"\xD8\x3D", b"\xDE\0", b"\xD8\x3D\0a", b"\0a\xDC\0\0a", b"\xDE\0\xD8\x3D", b"\xD8\0\xD8\0"
# Object identifiers of digests that a MAC may be made by, and of one that isn't known: SHA-3 with 256 bits.
DIGESTS = "1.3.14.3.2.26", *(f"2.16.840.1.101.3.4.2.{last}" for last in (1, 2, 3, 4))
SHA3_256 = "2.16.840.1.101.3.4.2.8"
# What has to be in the input, of a bag and of a store.
RANGES = "identifier", "value", "friendly_name", "local_key_id", "attributes"
RANGES_OF_STORE = "safe", "digest_algorithm", "digest_parameters", "digest", "salt"
# What numbers, and the numbers of ranges, may be where they aren't looked at.
ANYTHING = 0, 1, 2, 7, 2**32 - 1, 2**32, 2**63, 2**64 - 1
# Counts that aren't written.
NO_COUNTS = 2**32, 2**32 + 1, 2**33 - 1, 2**63, 2**64 - 1
# AES in CBC mode (RFC 8018, B.2.5), and of the algorithms of RFC 7292, C, those that bags know, and the others; and one
# of RFC 8018, A.3, which they don't know.
AES_CBC = tuple(f"2.16.840.1.101.3.4.1.{last}" for last in (2, 22, 42))
PKCS12 = tuple(f"1.2.840.113549.1.12.1.{last}" for last in (3, 6))
NO_PKCS12 = *(f"1.2.840.113549.1.12.1.{last}" for last in (1, 2, 4, 5)), "pbeWithMD5AndDES-CBC"


# Bags


# Encrypted keys, with a verdict on each by hand: bags know PBES2, in it PBKDF2 and AES in CBC mode, and two algorithms
# of RFC 7292, C. Parameters of these have to be there, and to be as the standards say, but that counts and lengths may
# be 0, and salts and vectors of any length. Those of others, and of a pseudorandom function, may be any element, or
# none.


def each_of(kinds, *parameters):
    """Algorithms of each of some kinds with each of some parameters, given as a list of elements."""
    return [encrypted.algorithm(kind, *its) for kind in kinds for its in parameters]


def right_algorithms():
    """Algorithms of which an encrypted key may be."""
    salt, none, least, most = octet_string(b"salt"), octet_string(b""), integer(0), integer(2**32 - 1)
    any_or_none = [], [NULL], [integer(1)]
    derivations = [encrypted.pbkdf2(**its) for its in (
        {}, {"key_length": b""}, {"prf": b""}, {"key_length": b"", "prf": b""}, {"salt": none},
        {"iterations": least, "key_length": least}, {"iterations": most, "key_length": most},
        *({"salt": it} for it in each_of(("1.2.3", "PBKDF2", "PBES2", *AES_CBC), *any_or_none)),
        *({"prf": it} for it in each_of(("1.2.3", "PBKDF2", "hmacWithSHA256"), *any_or_none)),
    )]
    derivations += [encrypted.scrypt(), *each_of(("1.2.3", "PBES2", *AES_CBC), *any_or_none)]
    schemes = each_of(AES_CBC, [salt], [none]) + each_of(("1.2.3", "AES-256-GCM", "PBKDF2", "PBES2"), *any_or_none)
    its = [encrypted.pbes2(it) for it in derivations] + [encrypted.pbes2(encryption=it) for it in schemes]
    its += [encrypted.salted(kind, it, count) for kind in PKCS12 for it in (salt, none) for count in (least, most)]
    return its + each_of(("1.2.3", "PBKDF2", *NO_PKCS12, *AES_CBC), *any_or_none, [salt], [sequence()])


def right_keys():
    """Each an EncryptedPrivateKeyInfo."""
    return list(map(encrypted.encrypted_key, right_algorithms()))


def wrong_parameters():
    """Algorithms that bags know, without their parameters, or with others."""
    salt, one, right = octet_string(b"salt"), integer(1), [encrypted.pbkdf2(), encrypted.AES]
    # negative, empty, with an octet too many, 2^32, and of other types
    no_numbers = *(element(0x02, it) for it in (b"\xFF", b"", b"\0\1")), integer(2**32), element(0x0A, b"\1"), salt
    no_salts = NULL, one, element(0x24, salt), sequence(), sequence(NULL), set_of(oid("1.2.3"))
    no_prfs = NULL, sequence(), sequence(NULL), oid("1.2.3"), encrypted.HMAC + NULL, sequence(oid("1.2.3"), NULL, NULL)
    derivations = [encrypted.pbkdf2(**{name: it}) for name in ("iterations", "key_length") for it in no_numbers]
    derivations += [encrypted.pbkdf2(salt=it) for it in no_salts] + [encrypted.pbkdf2(prf=it) for it in no_prfs]
    # what is no list of a salt and a count
    no_lists = [], [NULL], [salt], [salt, one], [sequence()], [sequence(salt)], [sequence(one)], [sequence(one, salt)]
    no_lists += [set_of(salt, one)], [sequence(salt, one), NULL]
    derivations += each_of(["PBKDF2"], *no_lists)
    schemes = each_of(AES_CBC, [], [NULL], [one], [sequence(salt)], [salt, salt], [salt, NULL])
    yield from (encrypted.pbes2(it) for it in derivations)
    yield from (encrypted.pbes2(encryption=it) for it in schemes)
    for its in ([], right[:1], right[1:], [*right, NULL], [NULL, right[1]], [right[0], NULL], [*right, right[1]]):
        yield encrypted.algorithm("PBES2", sequence(*its))
    yield from each_of(["PBES2"], [], [NULL], right, [set_of(*right)], [sequence(*right), NULL])
    yield from (encrypted.salted(kind, salt, it) for kind in PKCS12 for it in no_numbers)
    yield from (encrypted.salted(kind, it, one) for kind in PKCS12 for it in (NULL, one, encrypted.HMAC))
    yield from each_of(PKCS12, *no_lists, [sequence(salt, one, NULL)])


def wrong_keys():
    """What is no EncryptedPrivateKeyInfo."""
    its, held, kind = encrypted.pbes2(), octet_string(b"1"), oid("1.2.3")
    yield from (NULL, sequence(), its, sequence(its, NULL), sequence(its, held, NULL), sequence(held, its))
    yield from (sequence(its), set_of(its, held), sequence(its, element(0x24, held)), sequence(its, held, explicit(0)))
    no_algorithms = NULL, kind, sequence(), sequence(NULL, kind), sequence(element(0x06, b"\x80\1")), set_of(kind)
    for it in (*no_algorithms, sequence(kind, NULL, NULL), sequence(kind, b"\5"), *wrong_parameters()):
        yield encrypted.encrypted_key(it)


def some_key(chance):
    """An EncryptedPrivateKeyInfo."""
    return encrypted.encrypted_key(chance.choice(right_algorithms()), some_octets(chance))


def some_secret(chance):
    """A SecretBag."""
    return sequence(element(0x06, some_identifier(chance)), explicit(0, some_element(chance)))


def some_bags(chance):
    """A SafeContents of few bags, also of such as hold nothing that fits their kind, and of bags in a bag."""
    name = attribute("friendlyName", bmp_string(b"\0a"))
    its = bare_bag("key bag", some_element(chance)), bag("certificate bag", NULL, name), bare_bag("1.2.3", NULL)
    its += bare_bag("shrouded key bag", NULL), bare_bag("secret bag", NULL), bag("list bag", NULL, name, name)
    its += bare_bag("safe contents bag", nested(chance.randrange(1, 5))), secret_bag(), bag("key bag", NULL)
    return sequence(*chance.choices(its, k=chance.randrange(4)))


def some_value(chance, kind):
    """What a bag of a kind holds."""
    some = {SHROUDED_KEY: some_key, SECRET: some_secret, SAFE_CONTENTS: some_bags}
    return some.get(kind, some_element)(chance)


def some_attribute(chance):
    """An Attribute of a type that no bag has, with values in any order."""
    kind = element(0x06, some_identifier(chance))
    return sequence(kind, set_of(*(some_element(chance) for _ in range(chance.randrange(3)))))


def some_attributes(chance):
    """Attributes in any order, some of them twice, among which friendlyName and localKeyId may be, with any values."""
    its = [some_attribute(chance) for _ in range(chance.randrange(4))]
    its += chance.sample(its, chance.randrange(len(its) + 1))
    for name in ("friendlyName", "localKeyId"):
        values = [chance.choice((bmp_string(b"\0z"), octet_string(b"id"), NULL)) for _ in range(chance.randrange(3))]
        its += chance.choice(([], [attribute(name, *values)], 2 * [attribute(name, *values)]))
    chance.shuffle(its)
    return its


def some_name(chance):
    """A friendly name in UTF-16."""
    return chance.choice(NAMES).encode("utf-16-be")


def bag_sets(chance):
    """Sets of parts of bags: of each kind, with each of the parts that may be absent, and without it."""
    for kind in KINDS:
        held = {"kind": kind, **({"identifier": some_identifier(chance)} if kind == OTHER else {})}
        for name in there_or_not("friendly_name", some_name(chance)):
            for key_id in there_or_not("local_key_id", some_octets(chance)):
                for those in there_or_not("attributes", set_of(*some_attributes(chance))):
                    yield {**held, "value": some_value(chance, kind), **name, **key_id, **those}


def wrong_values(kind):
    """What a bag of a kind doesn't hold: no element, and others than its kind has."""
    yield from NO_ELEMENTS
    if kind == SHROUDED_KEY:
        yield from wrong_keys()
    if kind == SECRET:
        kind_of_it, held = element(0x06, contents("1.2.3")), explicit(0, NULL)
        yield from (NULL, sequence(), sequence(kind_of_it), sequence(held), sequence(held, kind_of_it))
        yield from (sequence(kind_of_it, it) for it in (held + held, NULL, explicit(1, NULL), explicit(0)))
        yield sequence(kind_of_it, explicit(0, NULL, NULL))
        yield sequence(element(0x06, b"\x80\1"), held)
    if kind == SAFE_CONTENTS:
        yield from wrong_bags()
        yield nested(64)


def wrong_bags():
    """What is no SafeContents: of another type, with an item that is no bag, or a bag in a bag that isn't one; and bags
    in more than 64 others, or in so many in a bag beside another."""
    kind, held = element(0x06, octets("key bag")), explicit(0, NULL)
    ill = (
        sequence(), sequence(kind), sequence(held), sequence(kind, NULL), sequence(kind, explicit(1, NULL)),
        sequence(kind, explicit(0)), sequence(kind, explicit(0, NULL, NULL)), sequence(kind, held, NULL),
        sequence(kind, held, set_of(NULL)), sequence(kind, held, set_of(sequence(kind))),
        sequence(kind, held, set_of(), NULL), sequence(element(0x06), held), element(0x31, kind, held), kind, NULL,
    )
    yield from (NULL, set_of(), octet_string(sequence()), integer(0))
    for it in ill:
        yield sequence(it)
        yield sequence(bare_bag("key bag", NULL), it)
        yield sequence(bare_bag("safe contents bag", sequence(it)), bare_bag("key bag", NULL))
    yield sequence(bare_bag("safe contents bag", NULL))
    yield sequence(bare_bag("safe contents bag", sequence()) + b"\0")
    yield nested(65)
    yield nested(66)
    yield sequence(bare_bag("key bag", NULL), bare_bag("safe contents bag", nested(64)))


def wrong_attributes():
    """What is no SET OF Attribute."""
    kind = element(0x06, contents("1.2.3"))
    right = sequence(kind, set_of())
    ill = (
        NULL, sequence(), sequence(kind), sequence(set_of()), sequence(kind, NULL), sequence(kind, set_of(), NULL),
        sequence(kind, sequence()), sequence(element(0x06, b"\x80\1"), set_of()), set_of(kind, set_of()),
        sequence(kind, element(0x31, b"\x02\1")), sequence(kind, element(0x31, b"\x1F\1\0")), b"\x05", b"\x30\x80\0\0",
        attribute("friendlyName")[:-2], sequence(element(0x06, octets("localKeyId")), NULL),
    )
    yield from NO_ELEMENTS
    yield from (NULL, sequence(), sequence(right), explicit(0, right), right, set_of() + NULL, set_of(right)[:-1])
    for it in ill:
        yield from (element(0x31, it), element(0x31, right, it), element(0x31, it, right))


def broken_bags(chance, its):
    """The set of parts of a bag with one of its parts broken, and the name of that part."""
    for kind in NO_KINDS:
        yield "kind", {**its, "kind": kind}
    if its["kind"] == OTHER:
        known = [octets(name) for name in NAMES_OF_KINDS.values()]
        yield from (("identifier", {**its, "identifier": it}) for it in (*NO_IDENTIFIERS, *known))
    yield from (("value", {**its, "value": it}) for it in wrong_values(its["kind"]))
    yield from (("friendly_name", {**its, "has_friendly_name": 1, "friendly_name": it}) for it in NO_NAMES)
    yield from (("attributes", {**its, "has_attributes": 1, "attributes": it}) for it in wrong_attributes())


# What is around bags


def some_content(chance):
    """A content: bags, or a ContentInfo of another type."""
    if chance.random() < 0.5:
        return {"is_data": 1, "octets": some_bags(chance)}
    held = [explicit(0, some_element(chance))] if chance.random() < 0.8 else []
    other = sequence(element(0x06, some_identifier(chance)), *held)
    of_key = encrypted.encrypted_contents(encrypted.pbes2(), some_octets(chance))
    return {"is_data": 0, "octets": chance.choice((other, of_key))}


def wrong_contents():
    """Contents that aren't written: what is no SafeContents as bags, and as another content what is no ContentInfo, or
    is data."""
    for it in (*NO_ELEMENTS, *wrong_bags()):
        yield {"is_data": 1, "octets": it}
    kind, held = element(0x06, octets("encrypted data")), explicit(0, NULL)
    data = element(0x06, octets("data"))
    ill = (
        NULL, sequence(), sequence(held), sequence(kind, NULL), sequence(kind, explicit(1, NULL)),
        sequence(kind, explicit(0)), sequence(kind, explicit(0, NULL, NULL)), sequence(kind, held, NULL),
        sequence(element(0x06, b"\x80\1"), held), sequence(element(0x06), held), set_of(kind, held),
        sequence(data), sequence(data, held), content_info("data", octet_string(sequence())),
    )
    for it in (*NO_ELEMENTS, *ill):
        yield {"is_data": 0, "octets": it}


def some_safe(chance):
    """An AuthenticatedSafe, also of data that hold no bags."""
    its = [content_info("data", octet_string(some_bags(chance))), content_info("data", NULL)]
    its += [sequence(element(0x06, b"\x2A")), encrypted.encrypted_contents(encrypted.pbes1(), some_octets(chance))]
    return sequence(*chance.choices(its, k=chance.randrange(4)))


def wrong_safes():
    """What is no AuthenticatedSafe."""
    yield from NO_ELEMENTS
    right = content_info("data", octet_string(sequence()))
    yield from (NULL, set_of(), octet_string(sequence()), *(sequence(it) for it in (NULL, sequence(), sequence(NULL))))
    yield from (right, sequence(right, NULL), sequence(right)[:-1], sequence(right) + NULL, sequence(right + b"\0"))
    yield from (sequence(content_info("data")), sequence(content_info("data", NULL, NULL)))


def store_sets(chance):
    """Sets of parts of a store: without a MAC, and with one by each digest, with parameters and without."""
    yield {"has_mac": 0, "safe": some_safe(chance)}
    for kind in (*map(contents, (*DIGESTS, SHA3_256)), some_identifier(chance)):
        for parameters in there_or_not("digest_parameters", some_element(chance)):
            its = {"digest_algorithm": kind, **parameters, "digest": some_octets(chance), "salt": some_octets(chance)}
            its["iterations"] = chance.choice(given.NUMBERS)
            yield {"has_mac": 1, "safe": some_safe(chance), **its}


def broken_stores(its):
    """The set of parts of a store with one of its parts broken, and the name of that part."""
    yield from (("safe", {**its, "safe": it}) for it in wrong_safes())
    if its["has_mac"]:
        yield from (("digest_algorithm", {**its, "digest_algorithm": it}) for it in NO_IDENTIFIERS)
        there = {**its, "has_digest_parameters": 1}
        yield from (("digest_parameters", {**there, "digest_parameters": it}) for it in NO_ELEMENTS)
        yield from (("iterations", {**its, "iterations": it}) for it in NO_COUNTS)


# One input


def laid_out(chance, sets):
    """An input that has the parts of some sets, in any order, with octets between them or one within another, and the
    fields of each set, with places and lengths."""
    text, all_fields = b"", [dict(its) for its in sets]
    for fields in chance.sample(all_fields, len(all_fields)):
        # a part is looked for in what was laid out last: a search of all takes long
        more, its = given.laid_out(chance, fields)
        fields.update({name: (len(text) + it[0], it[1]) if isinstance(it, tuple) else it for name, it in its.items()})
        text += more
    return text, all_fields


def beside(chance, names, fields, among=ANYTHING):
    """The fields of a row, and anything in the others, whose names are those of ranges and of numbers."""
    anything = {
        name: (chance.choice(among), chance.choice(among)) if isinstance(it, tuple) else chance.choice(among)
        for name, it in names.items()
    }
    return {**anything, **fields}


def changed(chance, fields, size):
    """The fields of a row over an input of a size, of which some are changed."""
    its = dict(fields)
    ranges = [it for it in its.values() if isinstance(it, tuple)]
    for name in chance.choices(sorted(its), k=chance.choice((1, 1, 2, 3))):
        if isinstance(its[name], tuple):
            start, length = chance.choice((its[name], *ranges))
            moved = start + chance.choice((-1, 0, 1)), length + chance.choice((-1, 0, 1))
            anywhere = chance.randrange(size + 2), chance.randrange(size + 2)
            its[name] = tuple(it % 2**64 for it in chance.choice((moved, moved, anywhere)))
        else:
            its[name] = chance.choice(ANYTHING)
    return its
