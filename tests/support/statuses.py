"""The statuses of der.h, and what derbox and dertree say of inputs, in these."""
import functools
import re

from .built import library, program  # which is also where the package vuyhanip is made to be found
from .tools import ended
from vuyhanip.der import Refused

# The word of each status.
WORDS = (
    "normal", "loose", "unknown kind", "malformed", "missing", "invalid", "too deep", "too long", "no memory", "no room",
    "no range", "no part", "bad attributes",
)
(NORMAL, LOOSE, UNKNOWN_KIND, MALFORMED, MISSING, INVALID, TOO_DEEP, TOO_LONG, NO_MEMORY, NO_ROOM, NO_RANGE, NO_PART,
 BAD_ATTRIBUTES) = range(len(WORDS))
# Those of a refused input, which has a place.
REFUSALS = MALFORMED, MISSING, INVALID, TOO_DEEP
# The exit status of a check for a status, 1 for the others.
ENDS = {NORMAL: 0, LOOSE: 3}
PLACE = re.compile(rb"^>>> (?:refused: .* at|loose .* before) (\d+)", re.MULTILINE)


def answered(call, *given, nothing=None):
    """What a call in Python answers, as the calls in C do: a status, what it returns, and a place. It returns nothing
    where the input is refused, which is at the place."""
    try:
        return NORMAL, call(*given), 0
    except Refused as refusal:
        return WORDS.index(refusal.reason), nothing, refusal.place
    except MemoryError:
        return NO_MEMORY, nothing, 0


def refusal(kind, text):
    """Why and where the library refuses an input as a kind, None where it doesn't."""
    status, _, place = answered(library().check, kind, text)
    return (WORDS[status], place) if status else None


def outcome(*words, text):
    """How a program ended over an input, and what it wrote."""
    ran = ended(*words, text=text)
    return ran.returncode, ran.stdout


@functools.lru_cache(maxsize=8192)
def derbox(kind, text):
    """How `derbox check` ends, and its line."""
    return outcome(program("derbox"), "check", kind, text=text)


def status_and_length(line):
    """The status that a line of a check says, and the length of the normal encoding, 0 where there is none."""
    word = line.strip().removeprefix("refused: ")
    if word != line.strip():
        return WORDS.index(word), 0
    return WORDS.index(word.split()[0]), int(word.split()[-1])


def checked(kind, text):
    """The same of what derbox says."""
    return status_and_length(derbox(kind, text)[1].decode())


@functools.lru_cache(maxsize=8192)
def place(kind, status, text):
    """Where dertree says that an input of a kind is refused or loose, 0 where a check answers another status."""
    if status not in (LOOSE, *REFUSALS):
        return 0
    return int(PLACE.search(outcome(program("dertree"), kind, text=text)[1])[1])
