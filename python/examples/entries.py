"""entries.py FILE lists the entries of a trust list, as that of the roots of Windows is one: the identifier of each, in
hexadecimal, which of a certificate is its digest by the algorithm of the list. FILE has the list as signed data in DER.
No signature is verified, and no time is looked at. Exits with 0 where there is a trust list."""
import sys

import vuyhanip

library = vuyhanip.library()
with open(sys.argv[1], "rb") as file:
    signed = file.read()
try:
    entries = library.trust_entries(signed)
except vuyhanip.Refused as refused:
    sys.exit(f"refused: {refused.reason} at {refused.place}")
if entries is None:
    sys.exit("no trust list: the content has another type")
for entry in entries:
    print(entry.identifier.hex())
