"""Keys, certificates and signed data (RFC 5652, 5) for tests of what verifies them. Keys and certificates are
openssl's, made once. A signature by RSA is made here of the key's numbers, so that a test chooses each octet that is
signed; all others are openssl's."""
import base64
import functools
import hashlib

from . import built, tools
from .containers import NULL, attribute, bit_string, content_info
from .elements import contents, element, explicit, integer, octet_string, part, parts, sequence, set_of
from .oids import oid

CONTENT, OTHER = b"what is signed\n" * 9, b"what is sighed\n" * 9
DIGESTS = {
    "md5": "1.2.840.113549.2.5",
    "sha1": "1.3.14.3.2.26",
    "sha224": "2.16.840.1.101.3.4.2.4",
    "sha256": "2.16.840.1.101.3.4.2.1",
    "sha384": "2.16.840.1.101.3.4.2.2",
    "sha512": "2.16.840.1.101.3.4.2.3",
    "sha3_256": "2.16.840.1.101.3.4.2.8",
}
RSA, PSS, MGF1 = "1.2.840.113549.1.1.1", "1.2.840.113549.1.1.10", "1.2.840.113549.1.1.8"
WITH_RSA = {
    "md5": "1.2.840.113549.1.1.4",
    "sha1": "1.2.840.113549.1.1.5",
    "sha256": "1.2.840.113549.1.1.11",
    "sha384": "1.2.840.113549.1.1.12",
    "sha512": "1.2.840.113549.1.1.13",
}
WITH_ECDSA = {
    "sha1": "1.2.840.10045.4.1",
    "sha256": "1.2.840.10045.4.3.2",
    "sha384": "1.2.840.10045.4.3.3",
    "sha512": "1.2.840.10045.4.3.4",
}
WITH_DSA = {"sha1": "1.2.840.10040.4.3", "sha256": "2.16.840.1.101.3.4.3.2"}
ED25519 = "1.3.101.112"
CONTENT_HINTS = "1.2.840.113549.1.9.16.2.4"
INDIRECT_DATA = "1.3.6.1.4.1.311.2.1.4"
STAMP_TOKEN, STAMP_OF_MICROSOFT = "1.2.840.113549.1.9.16.2.14", "1.3.6.1.4.1.311.3.3.1"
NESTED_SIGNATURE, COUNTER_SIGNATURE = "1.3.6.1.4.1.311.2.4.1", "1.2.840.113549.1.9.6"
# Keys by the words of openssl genpkey. Those of RSA with an unusual exponent are made of primes.
KEYS = {
    "ca": "RSA -pkeyopt rsa_keygen_bits:2048",
    "middle": "EC -pkeyopt ec_paramgen_curve:P-256",
    "elsewhere": "EC -pkeyopt ec_paramgen_curve:P-256",
    "rsa": "RSA -pkeyopt rsa_keygen_bits:2048",
    "again": "RSA -pkeyopt rsa_keygen_bits:2048",
    "short": "RSA -pkeyopt rsa_keygen_bits:1024",
    "nearly": "RSA -pkeyopt rsa_keygen_bits:2047",
    "three": "RSA -pkeyopt rsa_keygen_bits:2048 -pkeyopt rsa_keygen_pubexp:3",
    "pss": "RSA-PSS -pkeyopt rsa_keygen_bits:2048",
    # a key for SHA-256 and a salt of at least 32 octets alone (RFC 4055, 3.1)
    "bound": "RSA-PSS -pkeyopt rsa_keygen_bits:2048 -pkeyopt rsa_pss_keygen_md:sha256 "
    "-pkeyopt rsa_pss_keygen_mgf1_md:sha256 -pkeyopt rsa_pss_keygen_saltlen:32",
    "p192": "EC -pkeyopt ec_paramgen_curve:P-192",
    "p256": "EC -pkeyopt ec_paramgen_curve:P-256",
    "p384": "EC -pkeyopt ec_paramgen_curve:P-384",
    "p521": "EC -pkeyopt ec_paramgen_curve:P-521",
    "written": "EC -pkeyopt ec_paramgen_curve:P-256 -pkeyopt ec_param_enc:explicit",
    "ed25519": "ED25519",
    "tsa": "EC -pkeyopt ec_paramgen_curve:P-256",
}
# The exponent of each key that is made of primes, and how many bits each prime has.
EXPONENTS = {"one": (1, 1024), "two": (2, 1024), "large": (2**64 + 13, 1544)}
SIGNS = ("keyUsage=critical,digitalSignature",)
AUTHORITY = ("basicConstraints=critical,CA:true", "keyUsage=critical,keyCertSign,cRLSign")
STAMPS = (*SIGNS, "extendedKeyUsage=critical,timeStamping")
NOTHING = b"[req]\ndistinguished_name=no\n[no]\n"


class Key:
    """The numbers of a key of RSA: its modulus, both exponents, of which there is no private one where the public one
    is even, and its primes."""

    def __init__(self, public, private, primes):
        self.public, self.private, self.primes = public, private, primes
        self.modulus = primes[0] * primes[1]
        self.size = (self.modulus.bit_length() + 7) // 8
        self.inverse = pow(primes[1], -1, primes[0])

    @property
    def info(self):
        """The SubjectPublicKeyInfo."""
        key = sequence(integer(self.modulus), integer(self.public))
        return sequence(sequence(oid(RSA), NULL), bit_string(key))

    def of(self, padded):
        """The octets of a signature from which these octets come back, or None where there are none."""
        number = int.from_bytes(padded, "big")
        roots = [self.root(number, prime) for prime in self.primes]
        root = self.joined(*roots)
        return root.to_bytes(self.size, "big") if pow(root, self.public, self.modulus) == number else None

    def root(self, number, prime):
        """A root of a number modulo a prime; a square root is one of primes that are 3 more than a multiple of 4."""
        return pow(number, self.private % (prime - 1) if self.private else (prime + 1) // 4, prime)

    def joined(self, first, second):
        """The number that leaves these remainders, one by each prime."""
        return second + self.primes[1] * ((first - second) * self.inverse % self.primes[0])


def octets_of_pem(pem):
    return base64.b64decode(b"".join(it for it in pem.splitlines() if b"-----" not in it))


def pem(octets, label):
    lines = base64.encodebytes(octets)
    return b"-----BEGIN %s-----\n%s-----END %s-----\n" % (label.encode(), lines, label.encode())


# ---- keys and certificates


@functools.lru_cache(maxsize=None)
def room():
    """The folder of the keys and their certificates: NAME.key, NAME.pem, NAME.der."""
    folder = built.room() / "signing"
    folder.mkdir()
    (folder / "no.cnf").write_bytes(NOTHING)
    for name, words in KEYS.items():
        tools.openssl("genpkey", "-quiet", "-algorithm", *words.split(), "-out", f"{name}.key", cwd=folder)
    dsa = "dsaparam -genkey -noout -out dsa.key 1024"
    tools.openssl(*dsa.split(), cwd=folder)
    return folder


def put(name, octets):
    """Keeps octets in a file of the folder, and returns its name."""
    (room() / name).write_bytes(octets)
    return name


def octets(name):
    return (room() / name).read_bytes()


def prime(bits):
    """A prime that is 3 more than a multiple of 4."""
    while True:
        found = int(tools.openssl("prime", "-generate", "-bits", bits))
        if found % 4 == 3:
            return found


@functools.lru_cache(maxsize=None)
def key(name):
    """The numbers of a key of RSA."""
    if name not in EXPONENTS:
        whole = octets_of_pem(octets(f"{name}.key"))
        numbers = [int.from_bytes(contents(it), "big") for it in parts(contents(part(whole, 2)))]
        return Key(numbers[2], numbers[3], numbers[4:6])
    public, bits = EXPONENTS[name]
    primes = prime(bits), prime(bits)
    private = None if public % 2 == 0 else pow(public, -1, (primes[0] - 1) * (primes[1] - 1))
    return Key(public, private, primes)


def serial_number(whole):
    return int.from_bytes(contents(part(whole, 0, 1)), "big")


def certify(name, *extensions, of=None, by="ca", number=None, subject=None, more=()):
    """Has an authority, or where it is None the key itself, certify a key: NAME.pem and NAME.der, of the key OF."""
    of = of or name
    if of != name and of not in EXPONENTS:
        put(f"{name}.key", octets(f"{of}.key"))
    numbers = () if number is None else ("-set_serial", number)
    words = [word for it in extensions for word in ("-addext", it)]
    signed = () if by is None else ("-CA", f"{by}.pem", "-CAkey", f"{by}.key")
    if of in EXPONENTS:
        put("public.pem", pem(key(of).info, "PUBLIC KEY"))
        put("extensions.cnf", "\n".join(["[it]", *extensions]).encode())
        given = ["x509", "-new", "-force_pubkey", "public.pem", "-extfile", "extensions.cnf", "-extensions", "it"]
    else:
        given = ["req", "-x509", "-new", "-config", "no.cnf", "-key", f"{of}.key", *words]
    days = () if "-days" in more or "-not_before" in more else ("-days", "30")
    shown = ("-subj", subject or f"/CN={name}", "-out", f"{name}.pem")
    tools.openssl(*given, *signed, *numbers, *days, *shown, *more, cwd=room())
    put(f"{name}.der", octets_of_pem(octets(f"{name}.pem")))
    return octets(f"{name}.der")


@functools.lru_cache(maxsize=None)
def certificate(name):
    """The certificate of a key, which the authority `ca` signed: of a root its own."""
    if name in ("ca", "elsewhere"):
        return certify(name, *AUTHORITY, by=None)
    certificate("ca")
    return certify(name, *(AUTHORITY if name == "middle" else STAMPS if name == "tsa" else SIGNS))


def identifier(name):
    """The IssuerAndSerialNumber of a certificate (RFC 5652, 10.2.4)."""
    whole = name if isinstance(name, bytes) else certificate(name)
    return sequence(part(whole, 0, 3), part(whole, 0, 1))


def key_identifier(whole):
    """The subjectKeyIdentifier of a certificate, as a signer has it (RFC 5652, 5.3)."""
    mark = oid("subjectKeyIdentifier")
    start = whole.index(mark) + len(mark)
    return element(0x80, contents(contents(whole[start:])))


# ---- signatures


def digest_of(name, text):
    return hashlib.new(name, text).digest()


def algorithm(dotted, *parameters):
    return sequence(oid(dotted), *parameters)


def digest_info(name, text, parameters=NULL):
    """The DigestInfo of octets (RFC 8017, 9.2)."""
    return sequence(algorithm(DIGESTS[name], parameters), octet_string(digest_of(name, text)))


def padded(size, info):
    """A DigestInfo in the padding of PKCS #1 v1.5 (RFC 8017, 9.2)."""
    return b"\0\1" + b"\xff" * (size - 3 - len(info)) + b"\0" + info


def masked(seed, size, name):
    """The mask generation function MGF1 (RFC 8017, B.2.1)."""
    made = b""
    for counter in range(size):
        if len(made) >= size:
            break
        made += digest_of(name, seed + counter.to_bytes(4, "big"))
    return made[:size]


def padded_by_pss(bits, text, digest="sha256", salt=32, mask=None, trailer=b"\xbc"):
    """Octets in the padding of RSASSA-PSS (RFC 8017, 9.1.1), below a modulus of so many bits."""
    salted, size = bytes(range(1, salt + 1)), (bits + 6) // 8
    hashed = digest_of(digest, bytes(8) + digest_of(digest, text) + salted)
    block = bytes(size - len(hashed) - len(trailer) - salt - 1) + b"\1" + salted
    made = bytearray(one ^ other for one, other in zip(block, masked(hashed, len(block), mask or digest)))
    made[0] &= 0xFF >> (8 * size - (bits - 1))
    return bytes(made) + hashed + trailer


def pss_parameters(digest="sha256", mask="sha256", salt=32, trailer=None, function=MGF1):
    """The algorithm RSASSA-PSS with its parameters (RFC 8017, A.2.3). A salt is a number, or the contents of one."""
    numbers = element(0x02, salt) if isinstance(salt, bytes) else integer(salt)
    given = [
        explicit(0, algorithm(DIGESTS[digest], NULL)),
        explicit(1, algorithm(function, algorithm(DIGESTS[mask], NULL))),
        explicit(2, numbers),
        *([explicit(3, integer(trailer))] if trailer is not None else []),
    ]
    return algorithm(PSS, sequence(*given))


def padded_by(name, info):
    """A DigestInfo in the padding for a key."""
    return padded(key(name).size, info)


def is_rsa(name):
    return name in EXPONENTS or KEYS.get(name, "").startswith("RSA")


@functools.lru_cache(maxsize=None)
def by_rsa(name, digest, covered):
    """A signature of PKCS #1 v1.5."""
    return key(name).of(padded(key(name).size, digest_info(digest, covered)))


def by_pss(name, covered, **how):
    return key(name).of(padded_by_pss(key(name).modulus.bit_length(), covered, **how))


@functools.lru_cache(maxsize=None)
def by_openssl(name, digest, covered):
    """A signature by a key of another algorithm."""
    if name == "ed25519":
        put("covered", covered)
        words = ["pkeyutl", "-sign", "-rawin", "-inkey", f"{name}.key", "-in", "covered"]
        return tools.openssl(*words, cwd=room())
    return tools.openssl("dgst", f"-{digest.replace('_', '-')}", "-sign", f"{name}.key", text=covered, cwd=room())


def signature_by(name, digest, covered):
    """The signature of octets by a key: by RSA that of PKCS #1 v1.5, by a key for RSASSA-PSS alone of that."""
    if name == "pss":
        return by_pss(name, covered, digest=digest, salt=hashlib.new(digest).digest_size)
    return by_rsa(name, digest, covered) if is_rsa(name) else by_openssl(name, digest, covered)


def algorithm_by(name, digest):
    """The signatureAlgorithm of a signature by a key."""
    if name == "pss":
        return pss_parameters(digest, digest, hashlib.new(digest).digest_size)
    if is_rsa(name):
        return algorithm(RSA, NULL)
    table = {"ed25519": {digest: ED25519}, "dsa": WITH_DSA}.get(name, WITH_ECDSA)
    return algorithm(table[digest])


# ---- signed data


def sorted_set(*those):
    """A SET OF in DER (X.690, 11.6)."""
    return set_of(*sorted(those))


def attributes_of(content, content_type="data", digest="sha256"):
    """The attributes that RFC 5652, 11.1 and 11.2 ask for."""
    digested = attribute("messageDigest", octet_string(digest_of(digest, content)))
    return [attribute("contentType", oid(content_type)), digested]


class Signer:
    """A signer: what is signed, how, and by which key. All can be another than what is right."""

    def __init__(self, by="rsa", content=CONTENT, content_type="data", digest="sha256", **other):
        self.by, self.content, self.content_type, self.digest = by, content, content_type, digest
        self.other = other

    def get(self, name, default):
        return self.other.get(name, default)

    @property
    def attributes(self):
        """The signed attributes, sorted; None where there are none."""
        found = self.get("attributes", attributes_of(self.content, self.content_type, self.digest))
        return None if found is None else sorted(found)

    @property
    def covered(self):
        return self.content if self.attributes is None else set_of(*self.attributes)

    @property
    def signature(self):
        sign = self.get("sign", functools.partial(signature_by, self.by, self.digest))
        return sign(self.covered)

    @property
    def info(self):
        """The SignerInfo (RFC 5652, 5.3)."""
        whole = self.get("certificate", None) or certificate(self.by)
        named = key_identifier(whole) if self.get("keyid", False) else identifier(whole)
        signed = b"" if self.attributes is None else explicit(0, *self.attributes)
        unsigned = self.get("unsigned", b"")
        return sequence(
            integer(3 if self.get("keyid", False) else 1),
            named,
            self.get("digest_algorithm", algorithm(DIGESTS[self.digest], NULL)),
            signed,
            self.get("algorithm", None) or algorithm_by(self.by, self.digest),
            self.get("string", octet_string)(self.signature),
            explicit(1, unsigned) if unsigned else b"",
        )

    def file(self, **other):
        return signed_data([self], **other)


def signed_data(signers, content=None, content_type=None, certificates=None, digests=None, **other):
    """Signed data (RFC 5652, 5.1) by these signers, over the first one's content, with each one's certificate. Content
    that is False is left out."""
    first = signers[0] if signers else Signer()
    content = octet_string(first.content) if content is None else content
    info = sequence(oid(content_type or first.content_type), explicit(0, content) if content else b"")
    own = [it.get("certificate", None) or certificate(it.by) for it in signers]
    found = own if certificates is None else certificates
    algorithms = [algorithm(DIGESTS[it.digest], NULL) for it in signers] if digests is None else digests
    return content_info("signed data", sequence(
        integer(other.get("version", 1)),
        set_of(*dict.fromkeys(algorithms)),
        info,
        explicit(0, *dict.fromkeys(found)) if found else b"",
        set_of(*(it if isinstance(it, bytes) else it.info for it in signers)),
    ))
