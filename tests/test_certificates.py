"""What example_certificate says of certificates, revocation lists and time stamps that openssl makes, beside what openssl
says of them. The certificates have keys of RSA, EC and Ed25519 and all usual extensions: their version, serial number,
names, times, alternative names, key usage and basic constraints are compared, and which other extensions there are. So
are the entries of a revocation list and its extensions; of time stamp requests, responses and a stamp the example says
what they are. Each input, and each value of an extension whose type the example knows, is to be written as it was."""
import functools
import ipaddress
import itertools
import re
import unittest

from support import built
from support.cases import Comparing
from support.tools import ended, openssl

KEYS = {
    "rsa": ["-algorithm", "RSA", "-pkeyopt", "rsa_keygen_bits:2048"],
    "ec": ["-algorithm", "EC", "-pkeyopt", "ec_paramgen_curve:P-256"],
    "ed25519": ["-algorithm", "ED25519"],
}
NAME_WORDS = "sep_comma_plus_space,utf8,sname"
USAGES = {
    "Digital Signature": "digitalSignature", "Non Repudiation": "nonRepudiation", "Key Encipherment": "keyEncipherment",
    "Data Encipherment": "dataEncipherment", "Key Agreement": "keyAgreement", "Certificate Sign": "keyCertSign",
    "CRL Sign": "cRLSign", "Encipher Only": "encipherOnly", "Decipher Only": "decipherOnly",
}
# Names of extensions as openssl says them, with their object identifiers, and whether the example reads the value.
EXTENSIONS = {
    "1.2.3.4": ("1.2.3.4", False),
    "Authority Information Access": ("1.3.6.1.5.5.7.1.1", True),
    "TLS Feature": ("1.3.6.1.5.5.7.1.24", False),
    "X509v3 Subject Directory Attributes": ("2.5.29.9", True),
    "X509v3 Subject Key Identifier": ("2.5.29.14", True),
    "X509v3 Key Usage": ("2.5.29.15", True),
    "X509v3 Private Key Usage Period": ("2.5.29.16", True),
    "X509v3 Subject Alternative Name": ("2.5.29.17", True),
    "X509v3 Issuer Alternative Name": ("2.5.29.18", True),
    "X509v3 Basic Constraints": ("2.5.29.19", True),
    "X509v3 CRL Number": ("2.5.29.20", True),
    "X509v3 CRL Reason Code": ("2.5.29.21", True),
    "Hold Instruction Code": ("2.5.29.23", False),
    "Invalidity Date": ("2.5.29.24", True),
    "X509v3 Delta CRL Indicator": ("2.5.29.27", True),
    "X509v3 Issuing Distribution Point": ("2.5.29.28", True),
    "X509v3 Certificate Issuer": ("2.5.29.29", True),
    "X509v3 Name Constraints": ("2.5.29.30", True),
    "X509v3 CRL Distribution Points": ("2.5.29.31", True),
    "X509v3 Certificate Policies": ("2.5.29.32", True),
    "X509v3 Policy Mappings": ("2.5.29.33", True),
    "X509v3 Authority Key Identifier": ("2.5.29.35", True),
    "X509v3 Policy Constraints": ("2.5.29.36", True),
    "X509v3 Extended Key Usage": ("2.5.29.37", True),
    "X509v3 Freshest CRL": ("2.5.29.46", True),
    "X509v3 Inhibit Any Policy": ("2.5.29.54", True),
    "Netscape Comment": ("2.16.840.1.113730.1.13", False),
}
# Subjects, in openssl's words: several in one set, characters past ASCII, an IA5String, a type that the example prints
# in dotted form.
SUBJECTS = {
    "plain": ["C = DE", "O = Example", "CN = leaf"],
    "several": ["DC = org", "DC = example", "C = DE", "O = Prüf GmbH", "OU = Unit", "+CN = two", "serialNumber = 17"],
    "other": ["ST = Land", "L = Ort", "title = Chief", "CN = other"],
    "empty": [],
}
SECTIONS = """
[dir]
C = DE
O = Example
CN = directory
[policy]
policyIdentifier = 1.3.5.8
CPS.1 = http://example.org/cps
userNotice.1 = @notice
userNotice.2 = @visible
userNotice.3 = @wide
userNotice.4 = @narrow
[notice]
explicitText = UTF8:hello
organization = Organisation
noticeNumbers = 1, 2
[visible]
explicitText = VISIBLE:hello
[wide]
explicitText = BMP:hello
[narrow]
explicitText = IA5:hello
[points]
fullname = URI:http://example.org/crl, DNS:crl.example.org
CRLissuer = dirName:dir
reasons = keyCompromise, CACompromise
[relative]
relativename = relative_name
CRLissuer = dirName:dir
[relative_name]
CN = relative
[period]
notBefore = IMPLICIT:0,GENERALIZEDTIME:20260101000000Z
notAfter = IMPLICIT:1,GENERALIZEDTIME:20300101000000Z
[directory]
first = SEQUENCE:attribute
[attribute]
type = OID:2.5.4.20
values = SET:numbers
[numbers]
one = PRINTABLESTRING:12345
[names]
mail = IMPLICIT:3,SEQUENCE:mail
first = IMPLICIT:5,SEQUENCE:first
second = IMPLICIT:5,SEQUENCE:second
third = IMPLICIT:5,SEQUENCE:third
[mail]
first = SEQUENCE:country
[country]
code = EXPLICIT:1,PRINTABLESTRING:DE
[first]
assigner = EXPLICIT:0,PRINTABLESTRING:assigner
name = EXPLICIT:1,UTF8:name
[second]
assigner = EXPLICIT:0,T61STRING:assigner
name = EXPLICIT:1,BMP:name
[third]
name = EXPLICIT:1,UNIV:name
"""
PROFILES = {
    "none": "",
    "leaf": """
basicConstraints = CA:FALSE
keyUsage = critical, digitalSignature, keyEncipherment
extendedKeyUsage = serverAuth, clientAuth, 1.2.3.5
subjectKeyIdentifier = hash
authorityKeyIdentifier = keyid:always, issuer:always
subjectAltName = DNS:a.example.org, DNS:*.example.org, email:x@example.org, URI:http://example.org/a, IP:192.0.2.1, \
IP:2001:db8::1, RID:1.2.3.4
certificatePolicies = 2.5.29.32.0, @policy
crlDistributionPoints = URI:http://example.org/crl, points, relative
authorityInfoAccess = OCSP;URI:http://ocsp.example.org/, caIssuers;URI:http://example.org/ca
""",
    "ca": """
basicConstraints = critical, CA:TRUE, pathlen:3
keyUsage = critical, digitalSignature, nonRepudiation, keyEncipherment, dataEncipherment, keyAgreement, keyCertSign, \
cRLSign, encipherOnly, decipherOnly
subjectKeyIdentifier = hash
nameConstraints = critical, permitted;DNS:example.org, permitted;email:example.org, excluded;IP:10.0.0.0/255.0.0.0, \
excluded;dirName:dir
policyConstraints = critical, requireExplicitPolicy:3, inhibitPolicyMapping:0
policyMappings = 1.2.3.4:1.2.3.5
inhibitAnyPolicy = critical, 2
""",
    "rare": """
basicConstraints = CA:TRUE
keyUsage = keyAgreement, decipherOnly
issuerAltName = URI:http://example.org/issuer
subjectAltName = critical, otherName:1.2.3.4;UTF8:hello, dirName:dir
tlsfeature = status_request
nsComment = comment
2.5.29.16 = ASN1:SEQUENCE:period
2.5.29.9 = ASN1:SEQUENCE:directory
1.2.3.4 = critical, DER:0500
""",
    "names": """
subjectAltName = ASN1:SEQUENCE:names
""",
}
# The configurations of an authority of revocation lists and of one of time stamps.
AUTHORITY = """[ca]
default_ca = it
[it]
database = {folder}/index.txt
crlnumber = {folder}/number
default_md = sha256
[crl]
authorityKeyIdentifier = keyid:always
issuingDistributionPoint = critical, @point
freshestCRL = URI:http://example.org/delta
2.5.29.27 = critical, DER:020101
[point]
fullname = URI:http://example.org/crl
onlyuser = TRUE
onlysomereasons = keyCompromise, CACompromise
indirectCRL = TRUE
"""
STAMPING = """[tsa]
default_tsa = it
[it]
serial = {folder}/ts_serial
signer_digest = sha256
default_policy = 1.2.3.4.1
other_policies = 1.2.3.4.5
digests = sha256
accuracy = secs:1, millisecs:500, microsecs:100
ordering = yes
tsa_name = yes
ess_cert_id_chain = no
"""


@functools.lru_cache(maxsize=None)
def folder():
    """The folder of the files, with the key of each kind."""
    room = built.room() / "certificates"
    room.mkdir()
    for key, words in KEYS.items():
        openssl("genpkey", *words, "-out", room / f"{key}.pem")
    return room


def said(*words):
    """The text that openssl writes."""
    return openssl(*words).decode("utf-8")


def config(subject, extensions):
    lines = [f"{at}.{line}" for at, line in enumerate(subject)]
    request = ["[req]", "prompt = no", "string_mask = utf8only", "distinguished_name = subject", "[subject]"]
    return "\n".join([*request, *lines, "[extensions]", extensions, SECTIONS])


def make(key, name, subject, extensions, days):
    """A certificate of that key and subject."""
    path, words_file = folder() / f"{name}.der", folder() / f"{name}.cnf"
    words_file.write_text(config(SUBJECTS[subject], extensions), "utf-8")
    words = ["req", "-new", "-x509", "-utf8", "-config", words_file, "-key", folder() / f"{key}.pem", "-days", days]
    words += ["-outform", "DER", "-out", path]
    words += ["-extensions", "extensions"] if extensions else []
    openssl(*words, *([] if SUBJECTS[subject] else ["-subj", "/"]))
    return path


def certificate(key, profile, subject):
    """A certificate, which ends after 2050 where its subject is "other"."""
    return make(key, f"{key}-{profile}-{subject}", subject, PROFILES[profile], 20000 if subject == "other" else 365)


def head(path):
    """The first lines, as openssl has them."""
    text = said("x509", "-inform", "DER", "-in", path, "-noout", "-serial", "-issuer", "-subject", "-dates",
                "-dateopt", "iso_8601", "-nameopt", NAME_WORDS)
    found = dict(line.split("=", 1) for line in text.splitlines())
    version = re.search(r"Version: (\d)", said("x509", "-inform", "DER", "-in", path, "-noout", "-text"))[1]
    return [f"version: {version}", f"serial number: {int(found['serial'], 16)}", f"issuer: {named(found['issuer'])}",
            f"subject: {named(found['subject'])}", f"not before: {found['notBefore']}",
            f"not after: {found['notAfter']}"]


def named(text):
    """Types whose short names the example doesn't know are in dotted form there."""
    return text.strip().replace("title=", "2.5.4.12=")


def alternative(text):
    kind, _, value = text.partition(":")
    if value == "<unsupported>":
        return {"X400Name": "X.400 address", "EdiPartyName": "EDI party"}[kind]
    if kind == "IP Address":
        return f"IP {ipaddress.ip_address(value).packed.hex()}"
    if kind == "DirName":
        return f"directory {named(', '.join(value.strip('/').split('/')))}"
    if kind == "othername":
        return f"other 1.2.3.4={'0c05' + value.split('::')[1].encode().hex()}"
    return f"{kind.replace('Registered ID', 'registered')} {value}"


def details(name, value):
    """What the example says of a value, of three types."""
    words = re.split(r",\s*", value.strip())
    if name == "X509v3 Key Usage":
        return [f"key usage: {USAGES[word]}" for word in words]
    if name == "X509v3 Subject Alternative Name":
        return [f"alternative name: {alternative(word)}" for word in words]
    if name == "X509v3 Basic Constraints":
        length = [f"path length: {word.split(':')[1]}" for word in words[1:]]
        return [f"basic constraints: CA {words[0].split(':')[1].lower()}", *length]
    return []


def extension_lines(name, is_critical, value):
    """What the example says of an extension."""
    oid, is_read = EXTENSIONS[name]
    named = oid if name == oid else f"{oid} ({name})"
    head = f"extension: {named}" + ", critical" * is_critical + ", written as it was: true" * is_read
    return [head, *details(name, value)]


def extensions(path):
    """The lines on the extensions, as openssl has them."""
    head_off = "no_header,no_version,no_serial,no_signame,no_validity,no_subject,no_issuer"
    text = said("x509", "-inform", "DER", "-in", path, "-noout", "-text", "-certopt",
                f"{head_off},no_pubkey,no_sigdump,no_aux")
    return listed(text.splitlines())


def listed(lines):
    """The lines on extensions, each of which openssl has in a column of its own, with what is inside after it."""
    found = []
    for at, line in enumerate(lines):
        if match := re.fullmatch(r" {12}(\S[^:]*): ?(critical)?\s*", line):
            inside = []
            for after in lines[at + 1:]:
                if not after.startswith(" " * 13) and after.strip():
                    break
                inside.append(after.strip())
            found += extension_lines(match[1], bool(match[2]), ", ".join(filter(None, inside)))
    return found


def revocations(path):
    """What the example says of a revocation list, as openssl has it."""
    issuer = said("crl", "-inform", "DER", "-in", path, "-noout", "-issuer", "-nameopt", NAME_WORDS).strip()
    found = [f"revocation list of: {named(issuer.removeprefix('issuer='))}"]
    text = said("crl", "-inform", "DER", "-in", path, "-noout", "-text").split("Signature Algorithm:")[1]
    head, *entries = re.split(r"^    Serial Number: ", text, flags=re.M)
    for entry in entries:
        serial, *lines = entry.splitlines()
        found += [f"revoked: {int(serial, 16)}", *listed(lines)]
    return found + listed(head.splitlines())


def plain(lines):
    """Numbers are in hexadecimal there, as they are written."""
    found = []
    for line in lines:
        name, _, value = line.partition(": ")
        found.append(f"{name}: {int(value, 16)}" if name in ("serial number", "path length", "revoked") else line)
    return found


def revocation_list():
    """A list of an authority with the first key, with entries that have extensions."""
    ended_at, serials = "270101000000Z", ("01", "02", "03")
    reasons = ("keyCompromise", "holdInstruction,holdInstructionReject", "keyTime,20260101000000Z")
    lines = [f"R\t{ended_at}\t260601000000Z,{why}\t{serial}\tunknown\t/CN=x\n" for why, serial in zip(reasons, serials)]
    room, path = folder(), folder() / "list.der"
    (room / "index.txt").write_text("".join(lines), "utf-8")
    (room / "number").write_text("0F\n", "utf-8")
    (room / "ca.cnf").write_text(AUTHORITY.format(folder=room), "utf-8")
    openssl("x509", "-inform", "DER", "-in", certificate("rsa", "ca", "several"), "-out", room / "issuer.pem")
    openssl("ca", "-gencrl", "-config", room / "ca.cnf", "-crlexts", "crl", "-crldays", 30, "-cert", room / "issuer.pem",
            "-keyfile", room / "rsa.pem", "-out", room / "list.pem")
    openssl("crl", "-in", room / "list.pem", "-outform", "DER", "-out", path)
    return path


def time_stamps():
    """Requests, a rejection, answers and what one stamps, each with what it is."""
    room = folder()
    (room / "data").write_bytes(b"hello")
    (room / "ts.cnf").write_text(STAMPING.format(folder=room), "utf-8")
    profile = "extendedKeyUsage = critical, timeStamping\nkeyUsage = critical, digitalSignature\n"
    openssl("x509", "-inform", "DER", "-in", make("rsa", "stamper", "plain", profile, 365), "-out", room / "stamper.pem")
    asked = {"query": ["-sha256", "-cert"], "short": ["-sha256", "-no_nonce", "-tspolicy", "1.2.3.4.5"],
             "wrong": ["-sha512", "-tspolicy", "1.2.3.4.9"]}
    made = {}
    for name, words in asked.items():
        query, answer = room / f"{name}.tsq", room / f"{name}.tsr"
        openssl("ts", "-query", "-data", room / "data", *words, "-out", query)
        openssl("ts", "-reply", "-config", room / "ts.cnf", "-queryfile", query, "-out", answer,
                "-signer", room / "stamper.pem", "-inkey", room / "rsa.pem")
        made.update({query: "time stamp request", answer: "time stamp response"})
    openssl("ts", "-reply", "-in", room / "query.tsr", "-token_out", "-out", room / "token.der")
    stamp = room / "stamp.der"
    openssl("cms", "-verify", "-noverify", "-inform", "DER", "-in", room / "token.der", "-binary", "-out", stamp)
    return {**made, stamp: "time stamp"}


class Certificates(Comparing):
    def setUp(self):
        super().setUp()
        self.inputs = 0

    def is_said_of(self, path, lines):
        """Asks that the example says these lines of an input, and that it is written as it was."""
        self.inputs += 1
        ran = ended(built.program("example_certificate"), text=path.read_bytes())
        had = plain((ran.stderr if ran.returncode else ran.stdout).decode("utf-8").splitlines())
        wanted = [*lines, "written as it was: true"]
        for number, pair in enumerate(itertools.zip_longest(had, wanted, fillvalue="nothing"), 1):
            self.same(*pair, path.stem, "line", number)

    def certificates_of(self, key):
        """Compares certificates of a key, of each profile and subject."""
        for profile, subject in itertools.product(PROFILES, SUBJECTS):
            if (profile, subject) != ("none", "empty"):
                path = certificate(key, profile, subject)
                self.is_said_of(path, head(path) + extensions(path))
        self.at_least(self.compared, 350, "lines of certificates")

    def test_certificates_of_rsa(self):
        self.certificates_of("rsa")

    def test_certificates_of_elliptic_curves(self):
        self.certificates_of("ec")

    def test_certificates_of_ed25519(self):
        self.certificates_of("ed25519")

    def test_entries_and_extensions_of_a_revocation_list(self):
        path = revocation_list()
        self.is_said_of(path, revocations(path))
        self.at_least(self.compared, 15, "lines of a revocation list")

    def test_time_stamps_and_their_requests_and_responses(self):
        for path, what in time_stamps().items():
            self.is_said_of(path, [what])
        self.at_least(self.inputs, 7, "time stamp files")


if __name__ == "__main__":
    unittest.main()
