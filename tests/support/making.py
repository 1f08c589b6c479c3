"""Makes files in the current folder by openssl and other tools: keys with certificates, stores, signed and enveloped data,
time stamps, revocation lists, programs for Windows. A command is one text, whose words are as a shell has them."""
import base64
import contextlib
import http.server
import os
import shlex
import struct
import tempfile
import threading
from pathlib import Path

from . import tools
from .containers import content_info
from .elements import contents, element, integer, parts, sequence, set_of
from .oids import oid
from .tools import Failed

KEY = "000102030405060708090A0B0C0D0E0F"
ELLIPTIC = "ec -pkeyopt ec_paramgen_curve:P-256"
EMOJI = "\U0001F600"
DATA = oid("data")
ID_RI_OCSP_RESPONSE = oid("1.3.6.1.5.5.7.16.2")
# Sections of openssl asn1parse -genconf, with the values of each: signed data over a trust list with one entry.
CATALOG = {
    "info": ["OID:1.2.840.113549.1.7.2", "EXPLICIT:0,SEQUENCE:signed"],
    "signed": ["INTEGER:1", "SET", "SEQUENCE:content", "SET"],
    "content": ["OID:1.3.6.1.4.1.311.10.1", "EXPLICIT:0,SEQUENCE:list"],
    "list": ["SEQUENCE:usage", "INTEGER:1", "UTCTIME:210420065224Z", "SEQUENCE:algorithm", "SEQUENCE:entries"],
    "usage": ["OID:1.3.6.1.4.1.311.12.1.1"],
    "algorithm": ["OID:1.3.6.1.4.1.311.12.1.2", "NULL"],
    "entries": ["SEQUENCE:entry"],
    "entry": ["FORMAT:HEX,OCT:01", "SET"],
}
# The same with the fields that catalogs of Windows have, but for the list identifier: attributes and extensions.
EXTENDED_LIST = {
    **CATALOG,
    "list": [*CATALOG["list"], "EXPLICIT:0,SEQUENCE:extensions"],
    "entry": ["FORMAT:HEX,OCT:01", "SET:attributes"],
    "attributes": ["SEQUENCE:file", "SEQUENCE:indirect", "SEQUENCE:member"],
    "file": ["OID:1.3.6.1.4.1.311.12.2.1", "SET:names"],
    "names": ["SEQUENCE:name"],
    "name": ["BMP:File", "INTEGER:0x10010001", "FORMAT:HEX,OCT:41000000"],
    "indirect": ["OID:1.3.6.1.4.1.311.2.1.4", "SET:data"],
    "data": ["SEQUENCE:signs"],
    "signs": ["SEQUENCE:image", "SEQUENCE:digest"],
    "image": ["OID:1.3.6.1.4.1.311.2.1.15", "SEQUENCE:flags"],
    "flags": ["FORMAT:BITLIST,BITSTRING:0", "EXPLICIT:0,EXPLICIT:2,IMPLICIT:0,IA5:"],
    "digest": ["SEQUENCE:sha1", "FORMAT:HEX,OCT:000102030405060708090A0B0C0D0E0F10111213"],
    "sha1": ["OID:1.3.14.3.2.26", "NULL"],
    "member": ["OID:1.3.6.1.4.1.311.12.2.2", "SET:guids"],
    "guids": ["SEQUENCE:guid"],
    "guid": ["BMP:{DE351A42-8E59-11D0-8C47-00C04FC295EE}", "INTEGER:512"],
    "extensions": ["SEQUENCE:extension"],
    "extension": ["OID:1.3.6.1.4.1.311.12.2.1", "OCTWRAP,SEQUENCE:name"],
}
# The list identifier, which is where CATALOG has the sequence number.
LIST_IDENTIFIER = {"list": [f"FORMAT:HEX,OCT:{KEY}" if it == "INTEGER:1" else it for it in EXTENDED_LIST["list"]]}
FIELDS = {**EXTENDED_LIST, **LIST_IDENTIFIER}


@contextlib.contextmanager
def inside(room):
    """Has a folder be the current one."""
    before = os.getcwd()
    os.chdir(room)
    try:
        yield
    finally:
        os.chdir(before)


@contextlib.contextmanager
def inside_a_new_folder():
    """Has a new folder be the current one, which goes afterwards."""
    with tempfile.TemporaryDirectory() as room, inside(room):
        yield Path(room)


def run(line, text=b"", into=None):
    """What a command writes, which has to succeed; a file keeps it if one is named."""
    said = tools.run(*shlex.split(line), text=text)
    if into:
        put(into, said)
    return said


def put(file, octets):
    Path(file).write_bytes(octets if isinstance(octets, bytes) else octets.encode())


def joined(into, *files):
    put(into, b"".join(Path(file).read_bytes() for file in files))


def certificate(name, subject=None, more="", key=ELLIPTIC):
    """A key and its certificate: NAME.key and NAME.pem."""
    subject = shlex.quote(subject or f"/CN={name}")
    run(f"openssl req -x509 -newkey {key} -nodes -keyout {name}.key -out {name}.pem -subj {subject} {more}")


def store(into, options="", key="one", password="test"):
    """A store of a key and its certificate."""
    run(f"openssl pkcs12 -export -inkey {key}.key -in {key}.pem -passout pass:{password} {options} -out {into}")


def sign(into, options="", key="one", text=b"signed"):
    """Signed data over a text."""
    run(f"openssl cms -sign -binary -signer {key}.pem -inkey {key}.key -outform DER {options}", text, into)


def seal(into, options, text=b"sealed"):
    """Enveloped data of a text."""
    run(f"openssl cms -encrypt -binary -outform DER {options}", text, into)


def made_of(sections, into, first="info"):
    """The sections by openssl asn1parse -genconf, beginning with the first."""
    lines = [f"asn1=SEQUENCE:{first}"]
    for name, values in sections.items():
        lines += [f"[{name}]", *(f"{letter}={value}" for letter, value in zip("abcdefgh", values))]
    put(f"{into}.cnf", "\n".join(lines) + "\n")
    run(f"openssl asn1parse -genconf {into}.cnf -noout -out {into}")


# Signed data and stores by their elements


def fields_of(file):
    """What the SEQUENCE holds that is the content of a ContentInfo."""
    _, tagged = parts(file)
    return parts(contents(tagged))


def content_of(file, into):
    """Keeps the content of a ContentInfo, whose header is the fourth that openssl shows."""
    shown = run(f"openssl asn1parse -inform DER -in {file}").decode().splitlines()[3]
    put(into, Path(file).read_bytes()[int(shown.split(":")[0]) :])


def signed_with(response):
    """Signed data without signers, with an OCSP response as revocation information (RFC 5940)."""
    other = element(0xA1, ID_RI_OCSP_RESPONSE, response)
    return content_info("signed data", sequence(integer(5), set_of(), sequence(DATA), element(0xA1, other), set_of()))


def without_null(whole):
    """A store whose MAC has an algorithm without NULL, as Microsoft's have it."""
    version, safe, mac = parts(whole)
    info, *others = parts(mac)
    algorithm, digest = parts(info)
    return sequence(version, safe, sequence(sequence(sequence(parts(algorithm)[0]), digest), *others))


# Programs and cabinets for Windows


def image():
    """A program for Windows without a section."""
    octets = bytearray(512)
    octets[:2], octets[60], octets[64:66], octets[88:90], octets[196] = b"MZ", 64, b"PE", b"\x0B\2", 16
    octets[68:70], octets[84:88] = b"\x64\x86", b"\xF0\0\x22\0"
    return bytes(octets)


def image_with_a_section():
    octets = bytearray(image()) + bytearray(512)
    octets[68:88] = struct.pack("<2H3I2H", 0x8664, 1, 0, 0, 0, 0xF0, 0x22)
    octets[120:128] = struct.pack("<2I", 0x1000, 0x200)
    octets[144:152] = struct.pack("<2I", 0x2000, 0x200)
    octets[328:368] = struct.pack("<8s6I2HI", b".text", 0x200, 0x1000, 0x200, 0x200, 0, 0, 0, 0, 0x60000020)
    return bytes(octets)


def image_of_32_bits():
    octets = bytearray(1024)
    octets[:2], octets[60], octets[64:66], octets[512] = b"MZ", 64, b"PE", 0xC3
    octets[68:88] = struct.pack("<2H3I2H", 0x14C, 1, 0, 0, 0, 224, 0x102)
    octets[88:116] = struct.pack("<H2B6I", 0x10B, 14, 0, 0x200, 0, 0, 0x1000, 0x1000, 0x2000)
    octets[116:140] = struct.pack("<3I6H", 0x400000, 0x1000, 0x200, 6, 0, 0, 0, 6, 0)
    octets[140:184] = struct.pack("<4I2H6I", 0, 0x3000, 0x200, 0, 3, 0, 1 << 20, 0x1000, 1 << 20, 0x1000, 0, 16)
    octets[312:352] = struct.pack("<8s6I2HI", b".text", 0x200, 0x1000, 0x200, 0x200, 0, 0, 0, 0, 0x60000020)
    return bytes(octets)


def cabinet():
    """A cabinet with an empty file of the name `o`."""
    header = b"MSCF\0\0\0\0G\0\0\0\0\0\0\0,\0\0\0\0\0\0\0\3\1\1\0\1\0\0\0\0\0\0\0>\0\0\0\1\0\0\0\1\0"
    return header + b"\0\0\0\0\0\0\0\0\0\0\0\0 \0o\0\0\0\0\0\1\0\1\0A"


def signed_file(file, into, options):
    """The signature that osslsigncode makes of a file."""
    run(f"osslsigncode sign {options} -in {file} -out {into}.signed")
    run(f"osslsigncode extract-signature -in {into}.signed -out {into}")


# Files of other tools


def emoji_by_cryptography(key, into):
    """A store with a name past U+FFFF, by Python's cryptography."""
    from cryptography.hazmat.primitives.serialization import NoEncryption, load_pem_private_key, pkcs12

    private = load_pem_private_key(Path(f"{key}.key").read_bytes(), None)
    try:
        octets = pkcs12.serialize_key_and_certificates(EMOJI.encode(), private, None, None, NoEncryption())
    except ValueError as error:
        raise Failed(f"a store of Python's cryptography: {error}") from error
    put(into, octets)


def emoji_by_keytool(into, password="secret"):
    run(f"keytool -genkeypair -alias {EMOJI} -keyalg EC -groupname secp256r1 -dname CN=k -storetype PKCS12 "
        f"-keystore {into} -storepass {password}")


def store_by_certtool(key, into, password="secret"):
    run(f"certtool --to-p12 --load-privkey {key}.key --p12-name name --password {password} --outder --outfile {into}")


def kept_by_nss(key):
    """Has a new store of NSS, in the folder `nss`, hold a key of RSA, of which there is a certificate."""
    Path("nss").mkdir()
    run("certutil -N -d nss --empty-password")
    store("rsa.p12", f"-name {key}", key)
    run("pk12util -i rsa.p12 -d nss -W test")


def signed_by_pesign(into):
    """What pesign makes of an image, by the key in NSS's store."""
    put("section.exe", image_with_a_section())
    run("pesign -n nss -c rsa -s -i section.exe -o section.signed")
    run(f"osslsigncode extract-signature -in section.signed -out {into}")


# Authorities: revocation lists, OCSP, time stamps


def ocsp_response(key, into):
    put("index", "R\t490101000000Z\t210420065224Z,keyCompromise\t07\tunknown\t/CN=seven\n")
    run(f"openssl ocsp -issuer {key}.pem -cert {key}.pem -reqout request")
    run(f"openssl ocsp -index index -CA {key}.pem -rsigner {key}.pem -rkey {key}.key -resp_no_certs -reqin request "
        f"-respout {into}")


def authority():
    """A certificate authority, three certificates, and the configurations of its lists."""
    old = ["[ca]", "default_ca=own", "[own]", "database=index", "certificate=ca.pem", "private_key=ca.key",
           "default_md=sha256"]
    more = ["crlnumber=number", "[ext]", "authorityKeyIdentifier=keyid", "issuingDistributionPoint=critical,@idp",
            "[idp]", "onlyuser=TRUE"]
    put("old.cnf", "\n".join(old) + "\n")
    put("ca.cnf", "\n".join(old + more) + "\n")
    put("index", "")
    put("number", "01\n")
    certificate("ca", "/C=DE/CN=CA")
    for number in (1, 2, 3):
        certificate(str(number), more=f"-set_serial {128 * number}")


def list_configuration():
    put("ca.cnf", "[ca]\ndefault_ca=own\n[own]\ndatabase=index\ncrlnumber=number\ncrl_extensions=more\n"
                  "default_md=sha256\ndefault_crl_days=36500\n[more]\nauthorityKeyIdentifier=keyid\n")
    put("number", "07\n")


def revocation_list(into, options):
    run("openssl crl -outform DER", run(f"openssl ca -gencrl -config {options}"), into)


def revoked():
    """Lists of an authority: without an entry, with one, and with extensions of its own and of its entries."""
    revocation_list("numbered", "ca.cnf -crldays 30")
    run("openssl ca -config old.cnf -revoke 1.pem")
    revocation_list("old", "old.cnf -crldays 30")
    run("openssl ca -config ca.cnf -revoke 2.pem -crl_compromise 20261101120000Z")
    run("openssl ca -config ca.cnf -revoke 3.pem -crl_hold holdInstructionReject")
    revocation_list("entries", "ca.cnf -crldays 36500 -crlexts ext")


class Stamps(http.server.BaseHTTPRequestHandler):
    """Counter-signs, as osslsigncode -t asks, and stamps."""

    def do_POST(self):
        asked = self.rfile.read(int(self.headers["Content-Length"]))
        if self.path == "/counter":
            sign("countersignature", "-nodetach -nosmimecap", "tsa", base64.b64decode(asked)[31:])
            kind, answer = "octet-stream", base64.encodebytes(Path("countersignature").read_bytes())
        else:
            put("query", asked)
            kind = "timestamp-reply"
            answer = run("openssl ts -reply -config tsa.cnf -queryfile query -signer tsa.pem -inkey tsa.key")
        self.send_response(200)
        self.send_header("Content-Type", f"application/{kind}")
        self.end_headers()
        self.wfile.write(answer)

    def log_message(self, *words):
        pass


@contextlib.contextmanager
def stamps():
    """The address of a server of time stamps."""
    certificate("tsa", "/CN=TSA", "-set_serial 8 -addext extendedKeyUsage=critical,timeStamping")
    put("tsa.cnf", "[tsa]\ndefault_tsa=own\n[own]\nserial=stamps\ndefault_policy=1.2.3.4\ndigests=sha256,sha384\n"
                   "signer_digest=sha256\n")
    with http.server.HTTPServer(("127.0.0.1", 0), Stamps) as server:
        threading.Thread(target=server.serve_forever, daemon=True).start()
        try:
            yield f"http://127.0.0.1:{server.server_port}"
        finally:
            server.shutdown()
