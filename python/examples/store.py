"""python3 store.py FILE says of a key store whether it is normal, and what its MAC covers."""
import sys

import vuyhanip

library = vuyhanip.library()
with open(sys.argv[1], "rb") as stream:
    file = stream.read()
try:
    verdict = library.check("rawpfx", file)
except vuyhanip.Refused as refused:
    sys.exit(f"refused: {refused.reason} at {refused.place}")
print(f"{'normal' if verdict.is_normal else 'loose'}, {len(file)} octets")
mac = library.mac(file)
if mac:
    print(f"its MAC covers {len(mac.covered)} octets, by {mac.iterations} iterations")
