#!/usr/bin/env python3
"""Runs the tests of tests/, or of the files that are named, as `python3 -m unittest` does, and fails where a test is left
out for want of a tool that docs/TESTING.md doesn't list under "What may be left out". Prints what was left out, and how
long each file took. Usage: .ci/tests.py [FILE..]. Needs python3, from 3.9 on."""
import re
import sys
import time
import unittest
from pathlib import Path

TOP = Path(__file__).resolve().parent.parent
REASON = re.compile(r"not there: (.*)")


def allowed():
    """The tools that may be missing, by docs/TESTING.md."""
    page = (TOP / "docs/TESTING.md").read_text("utf-8")
    section = re.search(r"^#+ What may be left out$(.*?)(?=^#|\Z)", page, re.M | re.S)
    return set(re.findall(r"^\| `([^`]+)` \|", section[1], re.M)) if section else set()


def unlisted(skipped, listed):
    """The tests that were left out for another reason than a tool that is listed."""
    found = []
    for test, reason in skipped:
        match = REASON.fullmatch(reason)
        if not match or not set(match[1].split(", ")) <= listed:
            found.append(f"{test} is left out: {reason}")
    return found


def run(path):
    """The result of a file's tests."""
    began = time.monotonic()
    suite = unittest.TestLoader().discover(str(TOP / "tests"), pattern=path.name)
    result = unittest.TextTestRunner(verbosity=1, stream=sys.stdout).run(suite)
    print(f"{path.relative_to(TOP)}: {result.testsRun} tests, {time.monotonic() - began:.1f} seconds")
    return result


def main(words):
    files = [Path(word).resolve() for word in words] or sorted((TOP / "tests").glob("test_*.py"))
    is_right, listed = True, allowed()
    for path in files:
        result = run(path)
        faults = unlisted(result.skipped, listed)
        for _, reason in result.skipped:
            print(f"LEFT OUT: {path.stem}: {reason}")
        print("\n".join(faults), end="\n" if faults else "")
        is_right = is_right and result.wasSuccessful() and not faults and result.testsRun > 0
    sys.exit(not is_right)


if __name__ == "__main__":
    sys.dont_write_bytecode = True
    main(sys.argv[1:])
