"""What vuyhanip.build.enveloped is given: contents that openssl encrypts, and recipients for whom it encrypts the key
(enveloped_by_openssl.py). In each form that the table of docs/FORMATS.md has a row of, at random, and with an octet
changed."""
import functools
import random
from pathlib import Path
from typing import NamedTuple, Optional, Union

from . import built, enveloped_by_openssl, given_signed, signing
from .containers import NAME, NULL, attribute
from .elements import contents, element, integer, octet_string, sequence, set_of
from .enveloped_by_openssl import AES_128, AES_256, BY_PASSWORD, CIPHERS, SECRETS, TRIPLE_DES
from .oids import oid
from vuyhanip import build

CONTENT, OTHER_TYPE = b"what is encrypted\n", "2.999.1"
# How a key is encrypted for a key pair of RSA: the algorithm, its parameters, and what openssl is told. OAEP with SHA-1
# has no parameters but those that are left out.
PKCS1 = build.RSA, NULL, ()
OAEP_BY_SHA1 = build.RSAES_OAEP, sequence(), ("rsa_padding_mode:oaep",)
OAEP_BY_SHA256 = build.RSAES_OAEP, build.OAEP_WITH_SHA256, ("rsa_padding_mode:oaep", "rsa_oaep_md:sha256")
# How a key is wrapped by a key-encryption key of so many octets.
WRAPS = {16: build.AES_128_WRAP, 32: build.AES_256_WRAP}
# Tags of the recipients that are taken from a file of openssl (RFC 5652, 6.2), and of one of another kind.
TAKEN, OF_ANOTHER_KIND = {"curve": 0xA1, BY_PASSWORD: 0xA3}, 0xA4
# How many recipients the long form has.
MANY = 100
# How many octets random contents have.
SIZES = 0, 1, 15, 16, 127, 300, 70_000


class Recipient(NamedTuple):
    """A recipient: what build.enveloped is given of it, and its element; its name, None where nobody has its key; what
    names it in its element, None where nothing does; and whether its key is encrypted by PKCS #1 v1.5."""

    given: Union[build.Recipient, bytes]
    element: bytes
    name: Optional[str] = None
    identifier: Optional[bytes] = None
    is_by_pkcs1: bool = False


class Plan(NamedTuple):
    """Enveloped data that are planned: calls that make the recipients of a key by the name of its cipher, that cipher,
    the content, whether its octets are elsewhere, and what else build.enveloped is given."""

    recipients: tuple
    cipher: str = AES_256
    content: bytes = CONTENT
    is_apart: bool = False
    more: dict = {}


class Form(NamedTuple):
    """Enveloped data in a form: recipients, the content that was encrypted, what was given besides, and the octets that
    were built, which a file has too. Another file has the encrypted octets, where these are elsewhere."""

    recipients: list
    content: bytes
    algorithm: bytes
    encrypted: bytes
    more: dict
    text: bytes
    path: Path
    apart: Optional[Path]

    @property
    def names(self):
        """Recipients that can decrypt it, each once."""
        return list(dict.fromkeys(it.name for it in self.recipients if it.name))


# Recipients


@functools.lru_cache(maxsize=None)
def with_key_pair(name, cipher, padding=PKCS1, has_key_identifier=False):
    """A recipient that has a key pair of RSA, named by its certificate or by a key identifier."""
    kind, parameters, options = padding
    certificate = enveloped_by_openssl.certificate(name)
    its = {"certificate": certificate}
    identifier = signing.identifier(certificate)
    if has_key_identifier:
        identifier = signing.key_identifier(certificate)
        its = {"key_identifier": contents(identifier)}
    key = enveloped_by_openssl.key_for(name, enveloped_by_openssl.content_key(cipher), *options)
    given = build.Recipient(build.algorithm(kind, parameters), key, **its)
    return Recipient(given, build.recipient(given), name, identifier, padding == PKCS1)


def with_secret(name, cipher):
    """A recipient that has a key-encryption key."""
    key_id, secret = SECRETS[name]
    key = enveloped_by_openssl.wrapped_for(name, enveloped_by_openssl.content_key(cipher))
    given = build.Recipient(build.algorithm(WRAPS[len(secret)]), key, key_identifier=key_id, is_kek=True)
    return Recipient(given, build.recipient(given), name, octet_string(key_id))


def taken(name, cipher):
    """A recipient as openssl wrote it: by key agreement, or with a password."""
    its = enveloped_by_openssl.recipient_of_openssl(cipher, TAKEN[name])
    named = None if name == BY_PASSWORD else signing.identifier(enveloped_by_openssl.certificate(name))
    return Recipient(its, its, name, named)


def of_another_kind(_):
    """A recipient of a kind that nobody knows, an OtherRecipientInfo (RFC 5652, 6.2.5)."""
    its = element(OF_ANOTHER_KIND, oid(OTHER_TYPE), octet_string(b"any"))
    return Recipient(its, its)


def unknown(number, _):
    """A recipient whose key nobody has."""
    chance = random.Random(number)
    certificate = given_signed.certificate_of(NAME, integer(number))
    given = build.Recipient(build.algorithm(build.RSA, NULL), chance.randbytes(256), certificate)
    return Recipient(given, build.recipient(given))


ONE, TWO = (functools.partial(with_key_pair, name) for name in ("one", "two"))
BY_KEY_IDENTIFIER = functools.partial(ONE, has_key_identifier=True)
SECRET, LONG_SECRET = (functools.partial(with_secret, name) for name in SECRETS)
CURVE, WITH_PASSWORD = (functools.partial(taken, name) for name in TAKEN)
UNKNOWN = tuple(functools.partial(unknown, number) for number in range(1, MANY - 1))


# The forms of the table


def plans_of_recipients():
    """Plans that differ in their recipients, by their names in docs/FORMATS.md."""
    oaep_by_sha1, oaep_by_sha256 = (functools.partial(ONE, padding=it) for it in (OAEP_BY_SHA1, OAEP_BY_SHA256))
    found = {
        "one recipient": [ONE],
        "a key identifier": [BY_KEY_IDENTIFIER],
        "RSAES-OAEP with SHA-1": [oaep_by_sha1],
        "RSAES-OAEP with SHA-256": [oaep_by_sha256],
        "RSAES-OAEP with SHA-256, a key identifier": [functools.partial(oaep_by_sha256, has_key_identifier=True)],
        "a key-encryption key, AES-128 Key Wrap": [SECRET],
        "a key-encryption key, AES-256 Key Wrap": [LONG_SECRET],
        "key agreement with P-256": [CURVE],
        "a password": [WITH_PASSWORD],
        "two recipients": [ONE, TWO],
        "two recipients, one by a key identifier": [BY_KEY_IDENTIFIER, TWO],
        "the same recipient twice": [ONE, ONE],
        "100 recipients": [ONE, *UNKNOWN, TWO],
        "recipients of four kinds": [ONE, CURVE, SECRET, WITH_PASSWORD],
        "a recipient of another kind besides": [of_another_kind, ONE],
    }
    return {name: Plan(tuple(those)) for name, those in found.items()}


def plans_of_contents():
    """Plans that differ in the content, alike."""
    one = Plan((ONE,))
    attributes = set_of(attribute(OTHER_TYPE, octet_string(b"one")))
    return {
        "AES-128-CBC": one._replace(cipher=AES_128),
        "triple DES in CBC mode": one._replace(cipher=TRIPLE_DES),
        "content of 0 octets": one._replace(content=b""),
        "content of 70,000 octets": one._replace(content=random.Random(81).randbytes(70_000)),
        "content elsewhere": one._replace(is_apart=True),
        f"content of another type ({OTHER_TYPE})": one._replace(more={"content_type": OTHER_TYPE}),
        "an unprotected attribute": one._replace(more={"attributes": attributes}),
    }


def form_of(plan, path):
    """The enveloped data of a plan, in a file of this path."""
    its, key = CIPHERS[plan.cipher], enveloped_by_openssl.content_key(plan.cipher)
    vector = random.Random(path.name).randbytes(its.vector_size)
    encrypted = enveloped_by_openssl.encrypted(plan.cipher, key, vector, plan.content)
    recipients = [made_by(plan.cipher) for made_by in plan.recipients]
    algorithm, given = build.algorithm(its.arcs, octet_string(vector)), [it.given for it in recipients]
    text = build.enveloped(None if plan.is_apart else encrypted, given, algorithm, **plan.more)
    path.write_bytes(text)
    apart = enveloped_by_openssl.put(f"{path.name}.apart", encrypted) if plan.is_apart else None
    return Form(recipients, plan.content, algorithm, encrypted, plan.more, text, path, apart)


@functools.lru_cache(maxsize=None)
def all_forms():
    """Enveloped data in each form, by its name."""
    built.use_shared()
    plans, room = {**plans_of_recipients(), **plans_of_contents()}, enveloped_by_openssl.room()
    return {name: form_of(plan, room / f"form{nth}.p7m") for nth, (name, plan) in enumerate(plans.items())}


# At random


def some_recipient(chance):
    """A call that makes a recipient that somebody has the key of."""
    padding = chance.choice((PKCS1, OAEP_BY_SHA1, OAEP_BY_SHA256))
    pair = functools.partial(chance.choice((ONE, TWO)), padding=padding, has_key_identifier=chance.random() < 0.5)
    return chance.choice((pair, pair, SECRET, LONG_SECRET, CURVE, WITH_PASSWORD))


def some_plan(chance):
    """A plan of up to five recipients, also of such as nobody has the key of."""
    recipients = [some_recipient(chance) for _ in range(chance.choice((1, 1, 2, 3)))]
    recipients += chance.choice(([], [], chance.sample(UNKNOWN, 2), [of_another_kind], recipients[:1]))
    chance.shuffle(recipients)
    more = {}
    if chance.random() < 0.4:
        more["content_type"] = chance.choice((OTHER_TYPE, "1.2.840.113549.1.9.16.1.4", "1.2.3"))
    if chance.random() < 0.4:
        its = [attribute("1.2.3", octet_string(chance.randbytes(9))) for _ in range(chance.choice((1, 2, 5)))]
        more["attributes"] = set_of(*sorted(its))
    content = chance.randbytes(chance.choice(SIZES))
    return Plan(tuple(recipients), chance.choice(list(CIPHERS)), content, chance.random() < 0.2, more)


# With an octet changed


def flipped(octets):
    """Octets of which the last one is another."""
    return octets[:-1] + bytes([octets[-1] ^ 1])


def with_another(form, element_there, changed, name):
    """A form whose recipients with an element have a changed one, in a file of this name."""
    text = form.text.replace(element_there, changed)
    return form._replace(text=text, path=enveloped_by_openssl.put(name, text))


def with_another_key(form, recipient):
    """A form in which the last octet of the encrypted key of a recipient is another one: that is also the last octet of
    its element, whatever kind it is of."""
    return with_another(form, recipient.element, flipped(recipient.element), "another_key.p7m")


def with_another_name(form, recipient):
    """A form in which the last octet of what names a recipient is another one: of its serial number, or of its key
    identifier."""
    changed = recipient.element.replace(recipient.identifier, flipped(recipient.identifier))
    return with_another(form, recipient.element, changed, "another_name.p7m")
