#!/usr/bin/env python3
"""Checks all files of a folder, or of a list of names, and appends a line of JSON for each to a file: the fields of
`vuyhanip check --json`. A second run goes on where the first was broken off.

Usage: scan.py [--kind KIND] [--most-octets N] [-j N] [--scheduler ADDRESS] FROM OUT

FROM is a folder, of which all regular files are checked, in folders in it too but for links to folders, or a file of
names, one a line; - is standard input. What isn't a regular file isn't opened, and no file is read that is longer than
the octets of --most-octets, 1 GiB by default. It takes --most-iterations as the command does, and derives no key.
The work is done by N processes here, as many as there are processors by default, or by the workers of a scheduler of
dask, as tcp://host:8786. These need the package vuyhanip, and the files under the same names. Work of a worker or a
process that ends is done again by another; a file at which that happens some times is answered with an error.
"""
import argparse
import functools
import itertools
import json
import os
import sys
from concurrent.futures import FIRST_COMPLETED, Future, ProcessPoolExecutor, wait
from concurrent.futures.process import BrokenProcessPool
from typing import IO, Any, Callable, Dict, Iterable, Iterator, List, Set, Tuple

try:
    from vuyhanip import checking, files, library
except ImportError:
    sys.path.insert(0, os.path.dirname(os.path.dirname(os.path.realpath(__file__))))
    from vuyhanip import checking, files, library

# How many lists of names are under way at once for each process, how many names one has at most, and how often a file
# is tried whose process ends.
AHEAD, MOST, TRIES = 4, 64, 3
# How each line of OUT begins.
HEAD = b'{"file": "'


class NoAnswers(ValueError):
    """A line in OUT that no scan wrote."""


Fields = Dict[str, Any]
Job = Callable[[List[str]], List[Fields]]


def answer(kind: "str | None", limits: files.Limits, names: List[str]) -> List[Fields]:
    """What is said of some files."""
    files.LIMITS.set(limits)
    return [_answer(kind, name) for name in names]


def _answer(kind: "str | None", name: str) -> Fields:
    """What is said of a file, which is only opened if it is a regular one. None has a name with a zero in it."""
    if "\0" in name or os.path.exists(name) and not os.path.isfile(name):
        return ended(name, "not a regular file")
    return dict(checking.check(name, kind, False).fields)


def ended(name: str, why: str) -> Fields:
    """What is said of a file whose check ends no process well."""
    return dict(checking.unreadable(name, why).fields)


def names_in(source: str) -> Iterator[str]:
    """The names of files: of a folder, or of a list."""
    if os.path.isdir(source):
        yield from files.under(source)
        return
    is_input = source == "-"
    with open(
        0 if is_input else source, encoding="utf-8", errors="surrogateescape", newline="\n", closefd=not is_input
    ) as lines:
        yield from filter(None, (line.rstrip("\n") for line in lines))


def lists_of(names: Iterable[str], processes: int) -> Iterator[List[str]]:
    """The names in lists, of one name at first and of more later: so few files are shared by all processes, and of many
    none costs a message of its own."""
    left, count = iter(names), 0
    while some := list(itertools.islice(left, min(MOST, 1 + count // (16 * processes)))):
        count += len(some)
        yield some


def whole_lines(file: IO[bytes]) -> Iterator[bytes]:
    """The lines of a file up to one that isn't whole, which is taken away. Raises NoAnswers where a line is no answer,
    so that nothing of another file is."""
    at = 0
    for line in file:
        if not line.startswith(HEAD[: len(line)]):
            raise NoAnswers("another line than those of answers")
        if not line.endswith(b"\n"):
            file.seek(at)
            file.truncate()
            return
        at += len(line)
        yield line


def answered(file: IO[bytes]) -> Set[str]:
    """The names that an earlier run answered."""
    return {json.loads(line)["file"] for line in whole_lines(file)}


def here(job: Job, names: Iterable[str], processes: int) -> Iterator[Fields]:
    """The answers of processes on this machine, as they come."""
    left = lists_of(names, processes)
    while True:
        with ProcessPoolExecutor(processes) as pool:
            under_way: Dict["Future[List[Fields]]", List[str]] = {}
            try:
                yield from _of_pool(pool, job, left, under_way, processes * AHEAD)
                return
            except BrokenProcessPool:
                pass
        for some in under_way.values():
            yield from _apart(job, some)


def _of_pool(
    pool: ProcessPoolExecutor,
    job: Job,
    left: Iterator[List[str]],
    under_way: "Dict[Future[List[Fields]], List[str]]",
    ahead: int,
) -> Iterator[Fields]:
    """The answers of a pool. Where a process ends, what was under way is left to the caller."""
    while True:
        for some in itertools.islice(left, ahead - len(under_way)):
            under_way[_submitted(pool, job, some)] = some
        if not under_way:
            return
        for future in wait(under_way, return_when=FIRST_COMPLETED).done:
            said = future.result()
            del under_way[future]
            yield from said


def _submitted(pool: ProcessPoolExecutor, job: Job, some: List[str]) -> "Future[List[Fields]]":
    """The work on some files; where the pool is broken already, work that fails in the same way."""
    try:
        return pool.submit(job, some)
    except BrokenProcessPool as fault:
        failed: "Future[List[Fields]]" = Future()
        failed.set_exception(fault)
        return failed


def _apart(job: Job, some: List[str]) -> List[Fields]:
    """The answers of a process that does nothing else. Where it ends, those of each half, so that it is one file in the
    end at which it does."""
    for _ in range(TRIES if len(some) == 1 else 1):
        try:
            with ProcessPoolExecutor(1) as pool:
                return pool.submit(job, some).result()
        except BrokenProcessPool:
            continue
    if len(some) == 1:
        return [ended(some[0], "the process ended")]
    half = len(some) // 2
    return _apart(job, some[:half]) + _apart(job, some[half:])


def of_scheduler(job: Job, names: Iterable[str], address: str) -> Iterator[Fields]:
    """The answers of the workers of a scheduler, as they come."""
    from distributed import Client, KilledWorker, as_completed

    with Client(address) as client:
        workers = max(1, len(client.scheduler_info()["workers"]))
        left, under_way = lists_of(names, workers), as_completed()
        of: Dict[Any, List[str]] = {}

        def add(lists: Iterable[List[str]]) -> None:
            for some in lists:
                future = client.submit(job, some, pure=False)
                of[future.key] = some
                under_way.add(future)

        add(itertools.islice(left, AHEAD * workers))
        for future in under_way:
            some = of.pop(future.key)
            try:
                said = future.result()
            except KilledWorker:
                said = [ended(some[0], "the worker ended")] if len(some) == 1 else []
                add([name] for name in some if len(some) > 1)
            yield from said
            add(itertools.islice(left, 1))


def scan(names: Iterable[str], out: str, answers: Callable[[Iterable[str]], Iterator[Fields]]) -> Tuple[int, int]:
    """Appends the answers that aren't there yet. Returns how many were there, and how many came."""
    with open(out, "a+b") as file:
        file.seek(0)
        there = answered(file)
        file.seek(0, os.SEEK_END)
        count = 0
        for fields in answers(_unique(names, set(there))):
            file.write(json.dumps(fields).encode() + b"\n")
            file.flush()
            count += 1
    return len(there), count


def _unique(names: Iterable[str], seen: Set[str]) -> Iterator[str]:
    """The names that weren't seen, each once."""
    for name in names:
        if name not in seen:
            seen.add(name)
            yield name


def main() -> int:
    """Runs the scan that the words ask for."""
    words = argparse.ArgumentParser(description=__doc__, formatter_class=argparse.RawDescriptionHelpFormatter)
    words.add_argument("source", metavar="FROM")
    words.add_argument("out", metavar="OUT")
    words.add_argument("--kind")
    words.add_argument("--most-octets", type=int, default=files.Limits().octets, metavar="N")
    words.add_argument("--most-iterations", type=int, default=files.Limits().iterations, metavar="N")
    words.add_argument("-j", type=int, default=os.cpu_count() or 1, metavar="N")
    words.add_argument("--scheduler", metavar="ADDRESS")
    asked = words.parse_args()
    if asked.kind is not None and asked.kind not in library().kinds():
        words.error(f"{asked.kind} is no kind")
    job = functools.partial(answer, asked.kind, files.Limits(asked.most_octets, asked.most_iterations))
    if asked.scheduler:
        answers: Callable[[Iterable[str]], Iterator[Fields]] = lambda it: of_scheduler(job, it, asked.scheduler)
    else:
        answers = lambda it: here(job, it, max(1, asked.j))
    try:
        there, count = scan(names_in(asked.source), asked.out, answers)
    except NoAnswers as fault:
        words.error(f"{asked.out} has {fault}")
    print(f"{count} files answered, {there} were before", file=sys.stderr)
    return 0


if __name__ == "__main__":
    sys.exit(main())
