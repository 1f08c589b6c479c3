"""Files that other tools make: data signed and encrypted by openssl, NSS, gpgsm and Bouncy Castle, and stores, all of
them in BER; and a signature of osslsigncode, in DER. Each is made in a folder, where `keys` and `texts` have made what
it is made of. Keys are random, so the octets are others each time."""
import random
from typing import NamedTuple, Optional

from . import making
from .built import TOP
from .tools import Failed, ended, openssl, run

# What each tool's files need, for support.tools.needs.
NSS = ("certutil", "cmsutil", "pk12util")
SIGNED_BY_NSS = ("certutil", "cmsutil")
GPGSM = ("gpgsm", "gpgconf")
JARS = [f"/usr/share/java/{name}.jar" for name in ("bcprov", "bcpkix", "bcutil")]
BOUNCY_CASTLE = ("java", *JARS)
OSSLSIGNCODE = ("osslsigncode",)
# The password of each store, and of gpgsm's key.
PASSWORD = "password"
# The names of the keys, each with what openssl makes it of.
KEYS = {"ec": making.ELLIPTIC, "rsa": "rsa:2048"}
SECRET_KEY = "-secretkey 000102030405060708090A0B0C0D0E0F"
# How openssl reads files of some forms; the path is to be added.
VERIFY = "openssl {} -verify -noverify -inform DER -in"
DECRYPT = "openssl {} -decrypt -recip {key}.pem -inkey {key}.key -inform DER -in"
OPEN = f"openssl pkcs12 -legacy -passin pass:{PASSWORD} -nokeys -in"


class File(NamedTuple):
    """A file, the words of the command that reads it, to which its path is to be added, and the name of the file of the
    folder whose octets the command writes, where it is one."""

    name: str
    octets: bytes
    reading: str
    written: Optional[str]


def wrote(line, room):
    """What a command writes in a folder, whose words are between blanks."""
    return run(*line.split(), cwd=room)


def keys(room):
    """A key and a certificate, in PEM, of each kind: ec.key, ec.pem, rsa.key and rsa.pem."""
    with making.inside(room):
        for name, kind in KEYS.items():
            making.certificate(name, key=kind)


def texts(room, text=random.Random(2).randbytes(20000), short=b"signed"):
    """What is signed and encrypted: the files text and short."""
    (room / "text").write_bytes(text)
    (room / "short").write_bytes(short)


def files_of_openssl(room):
    for tool in ("cms", "smime"):
        for signer in ("ec", "rsa"):
            for text in ("text", "short"):
                line = f"openssl {tool} -sign -binary -nodetach -stream -outform DER -in {text}"
                octets = wrote(f"{line} -signer {signer}.pem -inkey {signer}.key", room)
                yield File(f"{tool} signed by {signer}, {text}", octets, VERIFY.format(tool), text)
        for text in ("text", "short"):
            line = f"openssl {tool} -encrypt -binary -stream -aes-256-cbc -outform DER -in {text} rsa.pem"
            yield File(f"{tool} enveloped, {text}", wrote(line, room), DECRYPT.format(tool, key="rsa"), text)
    for name, writing, reading in (
        ("encrypted", f"-EncryptedData_encrypt -aes-128-cbc {SECRET_KEY}", f"-EncryptedData_decrypt {SECRET_KEY}"),
        ("digested", "-digest_create -nodetach", "-digest_verify"),
        ("data", "-data_create", "-data_out"),
    ):
        octets = wrote(f"openssl cms {writing} -binary -stream -outform DER -in text", room)
        yield File(f"cms {name}", octets, f"openssl cms {reading} -inform DER -in", "text")


def user_of_nss(room):
    """Has NSS keep a key and its certificate in the folder, where it doesn't yet."""
    if not (room / "cert9.db").exists():
        wrote("certutil -N -d . --empty-password", room)
        (room / "noise").write_bytes(random.Random(3).randbytes(100))
        name = "-d . -n nss -s CN=nss -x -t CTu,CTu,CTu -k rsa -g 2048 -z noise -v 12"
        wrote(f"certutil -S {name} --keyUsage digitalSignature,keyEncipherment", room)


def stores_of_nss(room):
    """The name of each store, and its octets."""
    user_of_nss(room)
    wrote(f"pk12util -o nss.p12 -n nss -d . -W {PASSWORD}", room)
    yield "a store of NSS", (room / "nss.p12").read_bytes()
    wrote(f"pk12util -o strong.p12 -n nss -d . -W {PASSWORD} -c AES-256-CBC -C AES-256-CBC", room)
    yield "a store of NSS, with AES", (room / "strong.p12").read_bytes()


def signed_by_nss(room):
    user_of_nss(room)
    wrote("cmsutil -S -d . -N nss -i text -o nss.signed", room)
    yield File("signed by NSS", (room / "nss.signed").read_bytes(), VERIFY.format("cms"), "text")


def files_of_nss(room):
    for name, store in stores_of_nss(room):
        yield File(name, store, OPEN, None)
    yield from signed_by_nss(room)


def user_of_gpgsm(room, home, ask):
    """Has gpgsm take a key of a store of openssl, and returns its fingerprint. gpgsm refuses the stores of some keys,
    one of some hundred, so that another key is tried then."""
    for _ in range(5):
        wrote("openssl req -x509 -newkey rsa:2048 -nodes -keyout gpg.key -out gpg.pem -subj /CN=gpg", room)
        store = f"-export -legacy -inkey gpg.key -in gpg.pem -passout pass:{PASSWORD} -out gpg.p12"
        openssl("pkcs12", *store.split(), cwd=room)
        imported = ended(*ask, "--import", "gpg.p12", text=f"{PASSWORD}\n".encode(), cwd=room)
        if imported.returncode == 0:
            break
    else:
        raise Failed(f"gpgsm takes none of the keys: {imported.stderr.decode()}")
    said = openssl("x509", "-in", "gpg.pem", "-noout", "-fingerprint", "-sha1", cwd=room).decode()
    user = said.partition("=")[2].strip().replace(":", "")
    (home / "trustlist.txt").write_text(user + " S relax\n")
    return "0x" + user


def files_of_gpgsm(room):
    home = room / "gnupg"
    home.mkdir(mode=0o700)
    ask = ["gpgsm", "--homedir", home, "--batch", "--disable-crl-checks", "--include-certs", "-1"]
    ask += ["--pinentry-mode", "loopback", "--passphrase-fd", "0"]
    password = f"{PASSWORD}\n".encode()
    try:
        user = user_of_gpgsm(room, home, ask)
        octets = run(*ask, "-u", user, "--sign", "text", text=password, cwd=room)
        yield File("signed by gpgsm", octets, "openssl cms -verify -noverify -certfile gpg.pem -inform DER -in", "text")
        octets = run(*ask, "-r", user, "--encrypt", "text", text=password, cwd=room)
        yield File("enveloped by gpgsm", octets, DECRYPT.format("cms", key="gpg"), "text")
    finally:
        run("gpgconf", "--homedir", home, "--kill", "all")


def files_of_bouncy_castle(room):
    run("java", "-cp", ":".join(JARS), TOP / "tests/vectors/BouncyCastle.java", cwd=room)
    for name, file, reading, text in (
        ("signed by Bouncy Castle", "bc.signed", VERIFY.format("cms"), "text"),
        ("enveloped by Bouncy Castle", "bc.enveloped", DECRYPT.format("cms", key="rsa"), "text"),
        ("a store of Bouncy Castle", "bc.p12", OPEN, None),
    ):
        yield File(name, (room / file).read_bytes(), reading, text)


def cabinet_of_osslsigncode(room):
    """The signature of a cabinet."""
    with making.inside(room):
        making.put("small.cab", making.cabinet())
        making.signed_file("small.cab", "cabinet", "-certs rsa.pem -key rsa.key")
    return (room / "cabinet").read_bytes()
