"""Runs other programs: openssl and what else a test asks for."""
import functools
import importlib.util
import os
import shutil
import subprocess
import unittest

ENVIRONMENT = {**os.environ, "LC_ALL": "C.UTF-8"}


class Failed(Exception):
    """A program that has to succeed ended with another status than 0."""


def run(*words, text=None, cwd=None, status=0, env=ENVIRONMENT):
    """What a program writes to standard output. It has to end with the status."""
    ran = ended(*words, text=text, cwd=cwd, env=env)
    if ran.returncode != status:
        said = ran.stderr.decode("utf-8", "replace") or ran.stdout.decode("utf-8", "replace")
        raise Failed(f"{' '.join(map(str, words))}: status {ran.returncode}: {said}")
    return ran.stdout


def ended(*words, text=None, cwd=None, env=ENVIRONMENT):
    """How a program ended, with the octets of both its streams."""
    return subprocess.run(list(map(str, words)), input=text, capture_output=True, check=False, cwd=cwd, env=env)


def ended_when_full(*words, text=None):
    """The exit status of a program whose standard output is a device that is full."""
    with open("/dev/full", "wb") as full:
        return subprocess.run(list(map(str, words)), input=text, stdout=full, check=False).returncode


def openssl(*words, text=None, cwd=None):
    """What openssl writes, which has to succeed."""
    return run("openssl", *words, text=text, cwd=cwd)


def is_there(tool):
    """Whether a tool is a program on the path, a file, or a package of Python."""
    is_found = shutil.which(tool) or os.path.exists(tool)
    return bool(is_found or (tool.isidentifier() and importlib.util.find_spec(tool)))


def missing(*tools):
    """Those of the tools that aren't there."""
    return [tool for tool in tools if not is_there(tool)]


def needs(*tools):
    """Leaves a test, or all of a class, out where one of the tools isn't there."""
    lacking = missing(*tools)
    return unittest.skipIf(bool(lacking), f"not there: {', '.join(lacking)}")


def skip_without(*tools):
    """Leaves the rest of a test out where one of the tools isn't there."""
    lacking = missing(*tools)
    if lacking:
        raise unittest.SkipTest(f"not there: {', '.join(lacking)}")


@functools.lru_cache(maxsize=None)
def compiler():
    """A C compiler: the first of gcc, clang and cc that is there."""
    found = next(filter(None, map(shutil.which, ("gcc", "clang", "cc"))), None)
    if not found:
        raise Failed("there is no C compiler: gcc, clang or cc")
    return found
