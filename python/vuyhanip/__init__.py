"""Checks and rewritings of DER, the parts of containers that a verifier needs, and conversions of BER to DER; and the
command `vuyhanip` over files, which is `python -m vuyhanip` too.

    import vuyhanip

    library = vuyhanip.library()
    library.check("pfx", data)      Verdict(is_normal=True, length=1010, loose_end=None)
    library.store(data)             a Store: bags, certificates, keys, names, and what its MAC covers
    library.signed(data)            a SignedData: content, certificates, and signers with their attributes
    library.certificate(data)       a Certificate: its serial number, names, key and extensions
    library.indirect(data)          an IndirectData: which digest an Authenticode signature has, and of what; or None
    library.trust_list(data)        a TrustList: what a trust list is for, its number, times and algorithm; or None
    library.trust_entries(data)     each TrustEntry of a trust list: its identifier and attributes; or None
    library.password_parameters(data, PasswordHolder.KEY)   PasswordParameters: how a key is encrypted with a password
    library.build_parameters(PasswordHolder.KEY, its)       the DER of a key that is encrypted so
    vuyhanip.build.pbes2(..)        PasswordParameters from scratch, with which build.encrypted_key makes a key
    vuyhanip.build.store([..])      what a store holds, and what its MAC covers; finish(mac) makes the store
    vuyhanip.build.signed(octets, [..])   what signatures cover; finish(signatures) makes the file of signed data
    vuyhanip.build.program(algorithm, digest)   what a signature of a program for Windows signs, as Authenticode has it
    vuyhanip.build.enveloped(encrypted, [..], algorithm)   enveloped data around what was encrypted for recipients
    vuyhanip.mac_verdict(data, password).is_right   whether the MAC of a store is right, as the program openssl says

help(vuyhanip.der) says what each call does. An installed package has the library for C in its folder, and its version.
The environment's VUYHANIP_LIBRARY names another one, of the same version. In a clone, which has no version, the library
is that, or else crates/der_c/out/libder.so.
"""
import ctypes
import functools
import importlib
import os
from typing import TYPE_CHECKING

from . import der as der
from .der import (
    MAX_NESTING,
    AttributesPart,
    BadAttributes,
    BadBag,
    BadContent,
    BadEnveloped,
    BadIndirect,
    BadParameters,
    BadRecipient,
    BadSigned,
    BadStore,
    Bag,
    BagKind,
    BagPart,
    Certificate,
    EnvelopedPart,
    EnvelopePart,
    GivenBag,
    GivenContent,
    GivenImage,
    GivenIndirect,
    GivenMac,
    GivenRecipient,
    GivenSigner,
    ImageData,
    IndirectData,
    IndirectPart,
    Library,
    Mac,
    Part,
    PasswordHolder,
    PasswordParameters,
    PasswordPart,
    RecipientPart,
    Refused,
    SignedData,
    SignedPart,
    Signer,
    SignerInfo,
    Store,
    StorePart,
    TrustEntry,
    TrustList,
    UnknownKind,
    Verdict,
    attribute_oid,
    attribute_values,
    dotted,
    hashed_octets,
)

if TYPE_CHECKING:
    from .findings import Finding

__all__ = ["MAX_NESTING", "AttributesPart", "BadAttributes", "BadBag", "BadContent", "BadEnveloped", "BadIndirect"]
__all__ += ["BadParameters", "BadRecipient", "BadSigned", "BadStore", "Bag", "BagKind", "BagPart", "Certificate"]
__all__ += ["EnvelopedPart", "EnvelopePart", "GivenBag", "GivenContent", "GivenImage", "GivenIndirect", "GivenMac"]
__all__ += ["GivenRecipient", "GivenSigner", "ImageData", "IndirectData", "IndirectPart", "Library", "Mac", "Part"]
__all__ += ["PasswordHolder", "PasswordParameters", "PasswordPart", "RecipientPart", "Refused", "SignedData"]
__all__ += ["SignedPart", "Signer", "SignerInfo", "Store", "StorePart", "TrustEntry", "TrustList", "UnknownKind"]
__all__ += ["Verdict", "attribute_oid", "attribute_values", "dotted", "hashed_octets", "library", "mac_verdict"]

_HERE = os.path.dirname(os.path.realpath(__file__))
# In place of a version, in a clone.
_OF_A_CLONE = "of a clone"


def _version() -> str:
    """The version that was installed; in a clone there is none."""
    try:
        found: str = importlib.import_module(f"{__name__}.version").VERSION
    except ImportError:
        return _OF_A_CLONE
    return found


__version__ = _version()


def _at(path: str) -> Library:
    """The library at a path. ImportError says that it is of another version than this package, unless that is of a
    clone, or lacks a call."""
    path = os.path.realpath(path)
    try:
        if __version__ != _OF_A_CLONE:
            call = ctypes.CDLL(path).der_version
            call.argtypes, call.restype = [], ctypes.c_char_p
            version: bytes = call()
            if version != __version__.encode():
                raise ImportError(f"{path} is of version {version.decode()}, and this package of {__version__}")
        return Library(path)
    except AttributeError:
        raise ImportError(f"{path} isn't the library, or lacks calls that this package has") from None


@functools.lru_cache(maxsize=None)
def library() -> Library:
    """The library of VUYHANIP_LIBRARY, or that was installed with this package, or that is in a clone.

    Raises OSError where there is none, and ImportError where it is of another version than the package, or lacks calls.
    """
    if "VUYHANIP_LIBRARY" in os.environ:
        return _at(os.environ["VUYHANIP_LIBRARY"])
    installed = os.path.join(_HERE, "libvuyhanip.so")
    if os.path.exists(installed):
        return _at(installed)
    return _at(os.path.join(_HERE, "..", "..", "crates", "der_c", "out", "libder.so"))


def mac_verdict(store: bytes, password: str) -> "Finding":
    """What the command says of the MAC of a PKCS #12 file, in DER or BER, under a password: is_right, and what is said.

    The program openssl is asked, whose yes a yes is. Raises Refused where the file is none, and where there is no
    openssl NoTool of the module vuyhanip.tool, which has to be imported by its name.
    """
    from .verifying import mac_verdict as verdict

    return verdict(store, password)


# it takes the library by the function above
from . import build as build  # noqa: E402
