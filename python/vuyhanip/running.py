"""Work over many files: in several processes, with a line of progress, and in colours where a terminal is there."""
import errno
import os
import re
import sys
import time
from concurrent.futures import ProcessPoolExecutor
from concurrent.futures.process import BrokenProcessPool
from typing import Callable, Iterator, NamedTuple, Sequence, TextIO, TypeVar

from .files import is_stream

T = TypeVar("T")

# How long work takes before progress is shown, and how long it is shown before it is shown anew.
PATIENCE, PAUSE = 1.0, 0.1
COLOURS = {"normal": "32", "right": "32", "loose": "33", "weak": "33", "refused": "31", "wrong": "31"}
COLOURS.update({"not right": "31", "not checked": "33"})
# Those words, the longer ones first.
COLOURED = re.compile(rf"(?<!\S)({'|'.join(sorted(COLOURS, key=len, reverse=True))})(?=[:,]?(?:\s|$))")


class Line(NamedTuple):
    """A line that is printed: what this package says, with what others chose before and after it, as the name of a
    file and that of a certificate."""

    before: str
    said: str = ""
    after: str = ""

    def __str__(self) -> str:
        return "".join(self)


class Progress:
    """A line on standard error that says how many files are done, where that is a terminal."""

    def __init__(self, count: int) -> None:
        self.count, self.done, self.width = count, 0, 0
        self.shows = sys.stderr.isatty() and count > 1
        self.next = time.monotonic() + PATIENCE

    def step(self) -> None:
        """One more is done."""
        self.done += 1
        if self.shows and time.monotonic() >= self.next:
            self.next = time.monotonic() + PAUSE
            text = f"{self.done} of {self.count} files"
            self.width = len(text)
            sys.stderr.write(f"\r{text}")
            sys.stderr.flush()

    def clear(self) -> None:
        """Takes the line away, before another is written or at the end."""
        if self.width:
            sys.stderr.write("\r" + " " * self.width + "\r")
            sys.stderr.flush()
            self.width = 0


def over(names: Sequence[str], job: Callable[[str], T], processes: int) -> Iterator[T]:
    """What a job says of each file, in their order. Standard input and pipes are read in this process."""
    if processes <= 1 or len(names) < 2 or any(map(is_stream, names)):
        yield from map(job, names)
        return
    with ProcessPoolExecutor(min(processes, len(names))) as pool:
        pieces = max(1, min(64, len(names) // (8 * processes)))
        try:
            yield from pool.map(job, names, chunksize=pieces)
        except BrokenProcessPool:
            raise OSError(errno.ECHILD, "a process of -j ended, so files are left", "vuyhanip") from None


def is_coloured(stream: TextIO) -> bool:
    """Whether colours go to a stream: to a terminal, and not with NO_COLOR."""
    return stream.isatty() and not os.environ.get("NO_COLOR") and os.environ.get("TERM") != "dumb"


def coloured(line: Line, stream: TextIO) -> str:
    """A line with the words of verdicts in colours where this package says them, and nowhere else."""
    if not is_coloured(stream):
        return str(line)
    said = COLOURED.sub(lambda word: f"\x1b[{COLOURS[word[0]]}m{word[0]}\x1b[0m", line.said)
    return str(line._replace(said=said))
