"""python/examples/scan.py, which checks all files of a folder by several processes."""
import functools
import json
import os
import sys
import unittest

from support import built
from support.command import EMPTY, Command
from support.scripts import script
from support.tools import ended

SCAN = "python/examples/scan.py"
scan = script(SCAN)


class Scan(Command):
    def scan(self, *words):
        """The last line that the example says of a scan."""
        ran = ended(sys.executable, built.TOP / SCAN, *words, cwd=self.room, env=self.environment())
        self.assertEqual(ran.returncode, 0, ran.stderr.decode())
        return ran.stderr.decode().splitlines()[-1]

    def test_it_goes_on_where_it_was_broken_off(self):
        (self.room / "many/more").mkdir(parents=True)
        names = [f"many/{'more/' if it % 2 else ''}{it:03}" for it in range(100)]
        for it, name in enumerate(names):
            self.put(name, EMPTY if it % 3 else EMPTY[:-1])
        self.assertEqual(self.scan("-j", "2", "many", "found"), "100 files answered, 0 were before")
        lines = self.octets("found").splitlines(keepends=True)
        self.assertEqual(sorted(json.loads(it)["file"] for it in lines), sorted(names))
        self.assertEqual(sum(json.loads(it)["verdict"] == "normal" for it in lines), 66)
        self.put("found", b"".join(lines[:40]) + lines[40][:20])
        self.assertEqual(self.scan("-j", "2", "many", "found"), "60 files answered, 40 were before")
        again = self.octets("found").splitlines()
        self.assertEqual(sorted(json.loads(it)["file"] for it in again), sorted(names))

    def test_another_file_than_that_of_answers_stays_as_it_is(self):
        """Also where it has no line that ends."""
        (self.room / "many").mkdir()
        self.put("many/a", EMPTY)
        for octets in (b"precious octets", b"precious\n", EMPTY, b'{"files": 1}', b'{"file": "many/b"}\nprecious'):
            self.put("found", octets)
            ran = ended(sys.executable, built.TOP / SCAN, "many", "found", cwd=self.room, env=self.environment())
            self.assertEqual((ran.returncode, self.octets("found")), (2, octets))
            self.assertIn(b"found has another line than those of answers", ran.stderr)

    def test_a_file_that_ends_its_process_leaves_the_others(self):
        names, ends = [str(it) for it in range(600)], {"3", "300", "599"}
        said = list(scan.here(functools.partial(answer_or_end, ends), names, 2))
        self.assertEqual(sorted(it["file"] for it in said), sorted(names))
        self.assertEqual({it["file"] for it in said if it["error"]}, ends)


def answer_or_end(ends, names):
    """What is said of files, where none of them ends the process."""
    if ends & {*names}:
        os._exit(1)
    return [{"file": it, "error": None} for it in names]


if __name__ == "__main__":
    unittest.main()
