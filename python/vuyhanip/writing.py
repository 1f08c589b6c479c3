"""Files that verbs write: whole or not at all, over nothing that is there unless that is asked for, and for their owner
only where they may hold a key."""
import contextlib
import errno
import os
import re
import secrets
import stat
import sys
from typing import Optional, Union

from .checking import SIGNED_KINDS, Accepted, NoKind
from .containers import is_signed
from .foreign import CERTIFICATE, PUBLIC_KEY, REQUEST, by_tags

# Who may use what may hold a key; and, as the umask has it, anything else that is made of no file.
SECRET, OPEN = 0o600, 0o666
# Names of files that this process has open already, of which the number is the last word.
DESCRIPTOR = re.compile(r"(?:/dev/fd|/proc/self/fd)/([0-9]{1,9})")
STANDARD = {"-": 1, "/dev/stdout": 1, "/dev/stderr": 2}
# What a file system without hard links answers.
NO_LINKS = (errno.EPERM, errno.ENOSYS, errno.EOPNOTSUPP, errno.EMLINK)


def holds_no_key(said: Union[Accepted, NoKind]) -> bool:
    """Whether a file is made to be given to others: signed data or a revocation list; a certificate, a request for one or
    a public key."""
    if isinstance(said, NoKind):
        return by_tags(said.given.octets) in (CERTIFICATE, REQUEST, PUBLIC_KEY)
    return said.kind == "certificatelist" or (said.kind in SIGNED_KINDS and is_signed(said.given.octets))


def mode_like(name: str, said: Union[Accepted, NoKind]) -> Optional[int]:
    """The mode of what is made of a file: that of the file, or what the umask leaves where it is no regular file. None
    where it may hold a key, so that only its owner may use it."""
    if not holds_no_key(said):
        return None
    found = os.stat(name).st_mode if name != "-" and os.path.isfile(name) else OPEN
    return stat.S_IMODE(found) & 0o777


def write(octets: bytes, out: Optional[str], overwrite: bool = False, mode: Optional[int] = None) -> None:
    """Writes octets to standard output, or to a file that isn't there; over one that is only where that is asked for.

    What isn't a regular file is opened and written, and a symbolic link is refused. Raises OSError; FileExistsError
    where a file is there.
    """
    number = _descriptor(out)
    try:
        if number is not None:
            _to_descriptor(octets, number)
        elif out is not None:
            _to_name(octets, out, overwrite, mode)
    except BrokenPipeError:
        raise
    except OSError as fault:
        raise OSError(fault.errno, fault.strerror, "standard output" if out is None else out) from None


def _to_name(octets: bytes, out: str, overwrite: bool, mode: Optional[int]) -> None:
    """Writes octets to what has a name, or is to have it."""
    try:
        there = os.lstat(out)
    except FileNotFoundError:
        _beside(octets, out, None, overwrite, mode)
        return
    if stat.S_ISLNK(there.st_mode):
        raise OSError(errno.ELOOP, "a symbolic link, through which nothing is written")
    if not stat.S_ISREG(there.st_mode):
        _into(octets, out)
    elif overwrite:
        _beside(octets, out, there, True, mode)
    else:
        raise _there()


def _descriptor(out: Optional[str]) -> Optional[int]:
    """The number of the open file that a name is of; standard output's where there is no name."""
    if out is None or out in STANDARD:
        return STANDARD[out or "-"]
    found = DESCRIPTOR.fullmatch(out)
    return int(found[1]) if found else None


def _to_descriptor(octets: bytes, number: int) -> None:
    """Writes to a file that is open, from where it is on."""
    if sys.stdout is not None:
        sys.stdout.flush()
    with open(os.dup(number), "wb") as file:
        file.write(octets)


def _there() -> FileExistsError:
    """What is said of a name that another file has."""
    return FileExistsError(errno.EEXIST, "there already; --overwrite replaces it")


def _into(octets: bytes, out: str) -> None:
    """Writes into what isn't a regular file, as a pipe or a device."""
    with open(os.open(out, os.O_WRONLY | os.O_NOFOLLOW | os.O_NOCTTY), "wb") as file:
        if stat.S_ISREG(os.fstat(file.fileno()).st_mode):
            raise _there()
        file.write(octets)


def _beside(
    octets: bytes, out: str, there: Optional[os.stat_result], overwrite: bool, mode: Optional[int]
) -> None:
    """Writes a file beside where it is to be, and then gives it its name: in place of any other, or only if no file has
    it, which the system decides and not a look before."""
    made = os.path.join(os.path.dirname(out), f".vuyhanip-{secrets.token_hex(8)}")
    handle = os.open(made, os.O_WRONLY | os.O_CREAT | os.O_EXCL, SECRET if mode is None else mode)
    try:
        with open(handle, "wb") as file:
            if there is not None:
                _like(handle, there, mode)
            file.write(octets)
            file.flush()
            os.fsync(handle)
        if overwrite:
            os.replace(made, out)
        else:
            _link(octets, made, out)
    finally:
        with contextlib.suppress(FileNotFoundError):
            os.unlink(made)


def _like(handle: int, there: os.stat_result, mode: Optional[int]) -> None:
    """Gives a file the owner, where it may, and the mode of the one that it replaces."""
    with contextlib.suppress(PermissionError):
        os.fchown(handle, there.st_uid, there.st_gid)
    os.fchmod(handle, SECRET if mode is None else stat.S_IMODE(there.st_mode) & 0o777)


def _link(octets: bytes, made: str, out: str) -> None:
    """Gives a file a name that no file has. Raises FileExistsError."""
    try:
        os.link(made, out)
    except FileExistsError:
        raise _there() from None
    except OSError as fault:
        if fault.errno not in NO_LINKS:
            raise
        _exclusively(octets, out, stat.S_IMODE(os.stat(made).st_mode))


def _exclusively(octets: bytes, out: str, mode: int) -> None:
    """Writes a file that isn't there, where none can have two names. Raises FileExistsError."""
    try:
        handle = os.open(out, os.O_WRONLY | os.O_CREAT | os.O_EXCL, mode)
    except FileExistsError:
        raise _there() from None
    try:
        with open(handle, "wb") as file:
            file.write(octets)
    except BaseException:
        os.unlink(out)
        raise
