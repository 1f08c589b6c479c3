"""digest.py FILE says which digest an Authenticode signature has, and of what. FILE has the signature in DER, as
`osslsigncode extract-signature` writes it. No signature is verified, and the digest isn't compared with the file that
was signed. Exits with 0 where there is a digest."""
import sys

import vuyhanip

library = vuyhanip.library()
with open(sys.argv[1], "rb") as file:
    signature = file.read()
try:
    found = library.indirect(signature)
except vuyhanip.Refused as refused:
    sys.exit(f"refused: {refused.reason} at {refused.place}")
if found is None:
    sys.exit("no digest of a file: the content has another type")
of = library.oid_name(found.attribute_type) or found.attribute_oid
algorithm = vuyhanip.der.digest_name(found.digest_oid) or found.digest_oid
print(of, algorithm, found.digest.hex())
