"""Asks derbox what made files are, and has it write them again."""
import os
import subprocess
import sys
from pathlib import Path

from . import built
from .making import put, run
from .tools import Failed, missing


def asked_of(path=None):
    """What asks the derbox at that path, or else the one that was built. Ends this program where that isn't there."""
    try:
        derbox = Path(path).resolve() if path else built.program("derbox")
    except Failed as failed:
        sys.exit(str(failed))
    if not os.access(derbox, os.X_OK):
        sys.exit(f"{derbox} is not there")
    return Asked(derbox)


class Asked:
    """What derbox says of files in the current folder, how many it was asked of, and how much differed."""

    def __init__(self, derbox):
        self.derbox, self.files, self.differing = derbox, 0, 0
        self.again = b""

    def differs(self, what):
        print(what, file=sys.stderr)
        self.differing += 1

    def is_(self, word, kind, *files):
        """Asks that derbox says the word of each file as the kind, and writes it again as the word asks."""
        for file in files:
            self.files += 1
            octets = Path(file).read_bytes()
            line = self._ran("check", kind, octets).stdout.decode()
            if line.strip() == word or line.startswith(f"{word} "):
                self._rewrites(word, kind, file, octets)
            else:
                self.differs(f"{file} as {kind}: {line.strip()}, and not {word}")

    def _ran(self, mode, kind, octets):
        return subprocess.run([self.derbox, mode, kind], input=octets, capture_output=True, check=False)

    def _rewrites(self, word, kind, file, octets):
        ran = self._ran("rewrite", kind, octets)
        self.again, refused = ran.stdout, word.startswith("refused")
        put("again", self.again)
        if ran.returncode != refused or (refused and self.again):
            self.differs(f"{file} as {kind}: status {ran.returncode} of a rewriting")
        elif not refused and (self.again == octets) != (word == "normal"):
            self.differs(f"{file} as {kind}: another encoding, or a loose file as it was")

    def says(self, line):
        """Asks a tool of what was written again, in the file `again`."""
        try:
            run(line)
        except Failed as error:
            self.differs(str(error))

    def is_written_as(self, file):
        if Path(file).read_bytes() != self.again:
            self.differs(f"not written as {file}")

    def tried(self, function, tools):
        """Calls what makes files and asks of them, unless a tool is missing, which is said."""
        lacking = missing(*tools)
        if lacking:
            print(f"{function.__name__} is left out: no {', no '.join(lacking)}")
            return
        try:
            function(self)
        except Failed as error:
            self.differs(f"{function.__name__}: {error}")

    def ended(self):
        """Says how many files were asked of; the exit status."""
        print(f"{self.files} files asked of, {self.differing} differing")
        return int(self.differing != 0)
