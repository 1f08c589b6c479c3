"""encrypt.py FILE encrypts a key with a password, which is the first line of standard input, and writes the
EncryptedPrivateKeyInfo in DER to standard output: by PBES2 (RFC 8018) with PBKDF2, HMAC with SHA-256 and AES-256 in CBC
mode. FILE has the key as PKCS #8 in DER. The program openssl encrypts: while it runs, the key that it encrypts by is
among its arguments, which others on the machine may see. Exits with 0 where the encrypted key is written, and with 2
where no FILE is named."""
import hashlib
import os
import subprocess
import sys

from vuyhanip import build

ITERATIONS = 600_000

if len(sys.argv) != 2:
    print("usage: encrypt.py FILE < PASSWORD", file=sys.stderr)
    sys.exit(2)
password, end, _ = sys.stdin.buffer.readline().partition(b"\n")
if not password or not end:
    sys.exit("no line with a password")
salt, vector = os.urandom(16), os.urandom(16)
key = hashlib.pbkdf2_hmac("sha256", password, salt, ITERATIONS, 32)
words = "openssl", "enc", "-aes-256-cbc", "-K", key.hex(), "-iv", vector.hex()
with open(sys.argv[1], "rb") as file:
    ran = subprocess.run(words, stdin=file, stdout=subprocess.PIPE, check=False)
if ran.returncode:
    sys.exit("openssl doesn't encrypt")
its = build.pbes2(
    build.AES_256_CBC, initialization_vector=vector, salt=salt, iterations=ITERATIONS, prf=build.HMAC_WITH_SHA256,
    encrypted=ran.stdout,
)
sys.stdout.buffer.write(build.encrypted_key(its))
