"""The password of a store, as a file has it or as a person types it."""
import errno
import getpass
import sys

from .files import read


def in_file(name: str) -> str:
    """The first line of a file in UTF-8, which may begin with a mark of its order. Raises OSError."""
    return _first_line(name, read(name))


def typed() -> str:
    """What is typed where a terminal asks, or else the next line of standard input. Raises OSError where that has ended."""
    try:
        if _has_terminal():
            return getpass.getpass("password: ", sys.stderr)
        line = sys.stdin.buffer.readline() if sys.stdin is not None else b""
    except EOFError:
        line = b""
    if not line:
        raise OSError(errno.ENODATA, "no password, since the input has ended", "-")
    return _first_line("-", line)


def _first_line(name: str, octets: bytes) -> str:
    try:
        text = octets.decode("utf-8-sig")
    except UnicodeDecodeError:
        raise OSError(errno.EILSEQ, "not in UTF-8, in which a password has to be", name) from None
    return text.split("\n", 1)[0].rstrip("\r")


def _has_terminal() -> bool:
    """Whether there is a terminal that can ask without showing what is typed."""
    try:
        with open("/dev/tty", "rb"):
            return True
    except OSError:
        return sys.stdin is not None and sys.stdin.isatty()
