"""The program openssl, which says what is right: found once by its full path, and run with a time limit.

Octets go to it by files of a folder that only we may read and that goes afterwards, and a password by a pipe: nothing
that a file holds is an argument. Of its environment only what begins with OPENSSL_ or SSL_CERT_ is left out, since that
would change what it does.
"""
import contextlib
import fcntl
import functools
import os
import re
import selectors
import shutil
import signal
import subprocess
import tempfile
import threading
import time
from typing import Dict, Iterator, List, NamedTuple, Optional, Sequence, Tuple

from .values import printable

# How many seconds a run may take, and how many octets of each of its streams are kept.
MOST_SECONDS, MOST_OUTPUT = 60.0, 1 << 16
# A password of more octets isn't given to openssl, which reads 1,023 of a line and leaves the rest out in silence.
MOST_OF_PASSWORD = 1000
# How many characters of its words are shown.
MOST_OF_WORDS = 300
# Variables that change what openssl does.
LEFT_OUT = ("OPENSSL_", "SSL_CERT_")
# A line of its queue of errors: the reason, and what is said beside it.
OF_QUEUE = re.compile(r"[0-9A-F]+:error:[0-9A-F]+:[^:]*:[^:]*:([^:]*):[^:]*:\d+:(.*)")
# Lines that say nothing about what is asked.
IDLE = ("Using configuration from ", "Warning: certificate from ")


class NoTool(ValueError):
    """There is no program openssl."""


class Ran(NamedTuple):
    """How a run of openssl ended."""

    # its exit status, negative where a signal ended it; None where it took too long, and was killed
    status: Optional[int]
    # the first octets of its standard output and of its standard error
    output: bytes = b""
    errors: bytes = b""

    @property
    def is_yes(self) -> bool:
        """Whether it succeeded."""
        return self.status == 0

    @property
    def words(self) -> str:
        """Its first line, and the first reason in its queue of errors, as a terminal takes them. Nothing where it
        succeeded without words."""
        if self.status is None:
            return f"no answer in {MOST_SECONDS:g} seconds"
        lines = (self.output + b"\n" + self.errors).decode("utf-8", "backslashreplace").split("\n")
        told = [line.strip() for line in lines if line.strip() and not line.startswith(IDLE)]
        first = next((line for line in told if not OF_QUEUE.match(line)), "")
        reasons = (": ".join(filter(None, found.groups())) for found in map(OF_QUEUE.match, told) if found)
        said = ": ".join(filter(None, (first, next(reasons, ""))))
        if not said and self.status:
            said = f"no words, exit status {self.status}"
        return printable(said[:MOST_OF_WORDS])


def path_of(name: str) -> Optional[str]:
    """The full path of a program, the first in a folder of PATH that is named from the root on, so that none of the
    current folder is run. None where there is none."""
    folders = os.environ.get("PATH", os.defpath).split(os.pathsep)
    return shutil.which(name, path=os.pathsep.join(filter(os.path.isabs, folders)))


@functools.lru_cache(maxsize=None)
def program() -> str:
    """The full path of openssl. Raises NoTool."""
    found = path_of("openssl")
    if found is None:
        raise NoTool("there is no program openssl, whose yes a yes is here")
    return found


@functools.lru_cache(maxsize=None)
def version() -> str:
    """What openssl says that it is, as "OpenSSL 3.0.19 27 Jan 2026 (Library: ..)". Raises NoTool."""
    return run(["version"]).words or "of no version"


def is_of(major: int, minor: int) -> bool:
    """Whether openssl is of a version, of which it has no later number, or of none that is known. Raises NoTool."""
    found = re.match(r"OpenSSL (\d+)\.(\d+)", version())
    return found is None or (int(found[1]), int(found[2])) <= (major, minor)


def environment() -> Dict[str, str]:
    """The environment of openssl."""
    return {word: it for word, it in os.environ.items() if not word.startswith(LEFT_OUT)}


class Room:
    """A folder that only we may read, in which openssl runs, for what it reads and writes."""

    def __init__(self, path: str) -> None:
        self._path = path

    def put(self, name: str, octets: bytes) -> str:
        """The name of a file with some octets."""
        path = os.path.join(self._path, name)
        with open(os.open(path, os.O_WRONLY | os.O_CREAT | os.O_EXCL, 0o600), "wb") as file:
            file.write(octets)
        return name

    def get(self, name: str) -> bytes:
        """The octets of a file that openssl wrote, none where it wrote none."""
        try:
            with open(os.path.join(self._path, name), "rb") as file:
                return file.read()
        except FileNotFoundError:
            return b""

    def run(self, words: Sequence[str], password: Optional[bytes] = None) -> Ran:
        """Runs openssl with some words, and with a password after them where there is one. Raises NoTool."""
        return run(words, self._path, password)


@contextlib.contextmanager
def room() -> Iterator[Room]:
    """A room that goes afterwards, with all that is in it."""
    with tempfile.TemporaryDirectory(prefix="vuyhanip-") as path:
        yield Room(path)


@contextlib.contextmanager
def ending_in_order() -> Iterator[None]:
    """Has the signal that ends a process leave it as an exception, so that its rooms go."""
    if threading.current_thread() is not threading.main_thread():
        yield
        return
    before = signal.signal(signal.SIGTERM, _leave)
    try:
        yield
    finally:
        signal.signal(signal.SIGTERM, before)


def _leave(number: int, _: object) -> None:
    """Ends this process with the status that a shell has for a signal."""
    raise SystemExit(128 + number)


def run(words: Sequence[str], folder: str = "/", password: Optional[bytes] = None) -> Ran:
    """Runs openssl in a folder. Raises NoTool."""
    given: List[str] = [program(), *words]
    if password is None:
        return _run(given, folder, ())
    reading, writing = map(_above_standard, os.pipe())
    try:
        with open(writing, "wb") as file:
            file.write(password + b"\n")
        return _run([*given, "-passin", f"fd:{reading}"], folder, (reading,))
    finally:
        os.close(reading)


def _above_standard(number: int) -> int:
    """The number of an open file that is none of a standard stream, which openssl has others of: where one was closed,
    its number is free."""
    if number > 2:
        return number
    try:
        return fcntl.fcntl(number, fcntl.F_DUPFD_CLOEXEC, 3)
    finally:
        os.close(number)


def _run(words: List[str], folder: str, kept_open: Tuple[int, ...]) -> Ran:
    """Runs a program in a process group of its own, and kills that where it takes too long."""
    deadline = time.monotonic() + MOST_SECONDS
    with subprocess.Popen(
        words,
        stdin=subprocess.DEVNULL,
        stdout=subprocess.PIPE,
        stderr=subprocess.PIPE,
        cwd=folder,
        env=environment(),
        pass_fds=kept_open,
        start_new_session=True,
    ) as process:
        try:
            output, errors = _kept(process, deadline)
            return Ran(process.wait(max(0.0, deadline - time.monotonic())), output, errors)
        except subprocess.TimeoutExpired:
            return Ran(None)
        finally:
            # the group is there for as long as nobody has waited for its first process
            if process.returncode is None:
                os.killpg(process.pid, signal.SIGKILL)


def _kept(process: "subprocess.Popen[bytes]", deadline: float) -> Tuple[bytes, bytes]:
    """The first octets of both streams of a process, read to their ends. Raises TimeoutExpired."""
    kept = {process.stdout: bytearray(), process.stderr: bytearray()}
    with selectors.DefaultSelector() as selector:
        for stream in kept:
            selector.register(stream, selectors.EVENT_READ)  # type: ignore[arg-type]
        while selector.get_map():
            left = deadline - time.monotonic()
            if left <= 0:
                raise subprocess.TimeoutExpired(process.args, MOST_SECONDS)
            for key, _ in selector.select(left):
                octets = os.read(key.fd, MOST_OUTPUT)
                if not octets:
                    selector.unregister(key.fileobj)
                of_stream = kept[key.fileobj]  # type: ignore[index]
                of_stream += octets[: MOST_OUTPUT - len(of_stream)]
    return bytes(kept[process.stdout]), bytes(kept[process.stderr])
