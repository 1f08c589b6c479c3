"""Programs in the place of openssl, which show what follows from its exit status and from nothing else, and copies of
the package vuyhanip, each with a line changed, which this process imports under a name of their own."""
import contextlib
import importlib
import itertools
import os
import shutil
import sys
import tempfile
import time
from pathlib import Path
from unittest import mock

from . import built

# How many seconds a process that was killed has to end.
PATIENCE = 10.0
COUNT = itertools.count()
PACKAGE = built.TOP / "python/vuyhanip"
# What a stand-in does where it is asked for a verdict. It has $pids, a file for the numbers of its processes.
VERDICTS = {
    "succeeds": "exit 0",
    "fails": "exit 1",
    "fails with another status": "exit 77",
    "fails, and says that it is right": "echo Verification successful; echo CMS Verification successful >&2; exit 4",
    "succeeds, and says that it is wrong": "echo CMS Verification failure >&2; echo Mac verify error >&2; exit 0",
    "is killed": "kill -KILL $$",
    "is ended by a fault": "kill -SEGV $$",
    "prints a gigabyte and fails": "head -c 1000000000 /dev/zero; exit 1",
    "complains of a gigabyte and succeeds": "head -c 1000000000 /dev/zero >&2; exit 0",
    "hangs": "sleep 600 & echo $! >> $pids; wait",
    "hangs and can't be ended": "trap '' TERM INT HUP; sleep 600 & echo $! >> $pids; wait; wait",
}
# All words of it are written down, and all but verdicts are left to openssl.
SCRIPT = """#!/bin/sh
folder={folder}
pids=$folder/pids
echo $$ >> $pids
for word; do printf '%s\\n' "$word" >> $folder/words; done
for word; do
  case $word in
    -verify | pkcs12) {verdict} ;;
  esac
done
exec {openssl} "$@"
"""


def changed_copy(file=None, old=None, new=None):
    """The name under which a copy of the package can be imported, with a text in one of its files changed."""
    name = f"vuyhanip_copy_{next(COUNT)}"
    folder = built.room() / "copies"
    shutil.copytree(PACKAGE, folder / name, ignore=shutil.ignore_patterns("__pycache__"))
    if file is not None:
        path = folder / name / file
        path.write_text(path.read_text("utf-8").replace(old, new), "utf-8")
    if str(folder) not in sys.path:
        sys.path.insert(0, str(folder))
    importlib.invalidate_caches()
    return name


class StandIn:
    """A stand-in for openssl, and a package that finds it."""

    def __init__(self, folder, package):
        self.folder, self.package = folder, package

    @property
    def environment(self):
        return {"PATH": f"{self.folder / 'programs'}{os.pathsep}{os.environ['PATH']}"}

    @property
    def words(self):
        """All words that it was given."""
        path = self.folder / "words"
        return path.read_text("utf-8", "surrogateescape").splitlines() if path.exists() else []

    def living(self):
        """The processes of it that haven't ended. One that was killed may take a moment."""
        path, deadline = self.folder / "pids", time.monotonic() + PATIENCE
        numbers = path.read_text().split() if path.exists() else []
        while any(map(is_living, numbers)) and time.monotonic() < deadline:
            time.sleep(0.05)
        return list(filter(is_living, numbers))

    def left(self):
        """What it left in the folder of temporary files."""
        return sorted(it.name for it in (self.folder / "temporary").iterdir())


def is_living(number):
    """Whether a process is there, and hasn't ended."""
    try:
        return Path(f"/proc/{number}/stat").read_text().rpartition(")")[2].split()[0] != "Z"
    except FileNotFoundError:
        return False


@contextlib.contextmanager
def standing_in(verdict, seconds=None, **change):
    """Has a program be the openssl that a copy of the package finds, whose verdicts are these, with a time limit."""
    package = changed_copy(**change)
    with tempfile.TemporaryDirectory() as room:
        folder = Path(room)
        for name in ("programs", "temporary"):
            (folder / name).mkdir()
        script = SCRIPT.format(folder=folder, verdict=verdict, openssl=shutil.which("openssl"))
        (folder / "programs/openssl").write_text(script)
        (folder / "programs/openssl").chmod(0o755)
        made = StandIn(folder, package)
        built.use_shared()
        with mock.patch.object(tempfile, "tempdir", str(folder / "temporary")):
            if seconds is not None:
                importlib.import_module(f"{package}.tool").MOST_SECONDS = seconds
            yield made
    for name in [it for it in sys.modules if it.partition(".")[0] == package]:
        del sys.modules[name]
