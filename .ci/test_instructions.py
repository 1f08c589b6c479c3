#!/usr/bin/env python3
"""Tries bench/instructions over counts and tables that are made up: what it lets pass and refuses, and what it writes;
and asks that its inputs are those that were counted. Usage: python3 .ci/test_instructions.py. Needs python3, from 3.9
on."""
import contextlib
import hashlib
import io
import sys
import tempfile
import unittest
from pathlib import Path
from unittest import mock

TOP = Path(__file__).resolve().parent.parent
sys.path.insert(0, str(TOP / "tools"))
from loaded import script

SCRIPT = script(TOP / "bench/instructions")
KIT, OTHER_KIT = "kit-2 logic 22", "kit-1 logic 11"
READ, WRITE = ("pfx", "read"), ("pfx", "write")
COUNTS = {READ: 10000, WRITE: 5000}
TABLE = f"""{SCRIPT.HEAD}
{OTHER_KIT}
value           operation        count    before
pfx             read             20000     18000
pfx             write            12000     12000  reached

{KIT}
value           operation        count    before
pfx             read             10000      9000
pfx             write             5000      5100  reached
"""
# Of all inputs: where another one is counted, `before` isn't of the same work.
INPUTS = "c356f6c48deb52586ac512b5095030a4a761e7e80edc08352c17ad98b6038f78"


class Instructions(unittest.TestCase):
    def setUp(self):
        folder = tempfile.TemporaryDirectory()
        self.addCleanup(folder.cleanup)
        self.table = Path(folder.name, "instructions.txt")
        self.table.write_text(TABLE, "utf-8")

    def said(self, counts, *words, kit=KIT):
        """How the script ends with these counts, and what it prints."""
        made = {"TABLE": self.table, "counted": lambda _: counts, "missing": lambda *_: []}
        made["run"] = lambda *_: f"{kit}\n".encode()
        said = io.StringIO()
        is_refused = False
        with mock.patch.multiple(SCRIPT, **made), mock.patch.object(SCRIPT.built, "program"):
            try:
                with contextlib.redirect_stdout(said):
                    SCRIPT.main(list(words))
            except SystemExit as ended:
                is_refused = bool(ended.code)
        return is_refused, said.getvalue()

    def assert_passes(self, counts, **more):
        is_refused, said = self.said(counts, **more)
        self.assertFalse(is_refused, said)
        return said

    def assert_refused(self, counts, *expected):
        is_refused, said = self.said(counts)
        self.assertTrue(is_refused, said)
        found = said.splitlines()[-len(expected):]
        for line, words in zip(found, expected):
            self.assertIn(words, line)
        self.assertTrue(said.splitlines()[-len(expected) - 1].startswith("pfx             "), said)

    def change(self, old, new):
        self.assertEqual(TABLE.count(old), 1)
        self.table.write_text(TABLE.replace(old, new), "utf-8")

    def test_the_counts_of_the_table(self):
        self.assertIn("pfx             read             10000      9000\n", self.assert_passes(COUNTS))

    def test_a_table_that_is_too_low(self):
        self.change("10000      9000", " 9800      9000")
        self.assert_passes(COUNTS)
        self.change("10000      9000", " 9600      9000")
        self.assert_refused(COUNTS, "pfx read: 10000, where the table has 9600")

    def test_a_table_that_is_too_high(self):
        self.change("10000      9000", "10200      9000")
        self.assert_passes(COUNTS)
        self.change("10000      9000", "10400      9000")
        self.assert_refused(COUNTS, "pfx read: 10000, where the table has 10400")

    def test_a_row_that_is_missing(self):
        self.change("pfx             read             10000      9000\n", "")
        self.assert_refused(COUNTS, "pfx read: no row of the table")

    def test_a_row_that_is_not_counted(self):
        self.assert_refused({READ: 10000}, "pfx write: not counted")

    def test_before_is_exceeded_that_was_reached(self):
        self.change(" 5000      5100  reached", " 5300      5100  reached")
        self.assert_passes({READ: 10000, WRITE: 5250})
        self.assert_refused({READ: 10000, WRITE: 5300}, "pfx write: 5300, which is more than the 5100 of before")

    def test_before_is_exceeded_that_was_not_reached(self):
        self.change(" 5000      5100  reached", " 5300      5100")
        self.assert_passes({READ: 10000, WRITE: 5300})

    def test_a_number_of_before_that_is_taken_away(self):
        self.change("10000      9000", "10000         -")
        self.assert_refused(COUNTS, "pfx read: no number under before")

    def test_a_kit_without_a_block(self):
        said = self.assert_passes({READ: 1, WRITE: 2}, kit="kit-3 logic 33")
        self.assertIn("no block for this kit", said)
        self.table.unlink()
        self.assertIn("pfx             read                 1         -\n", self.assert_passes({READ: 1, WRITE: 2}))

    def test_what_is_written(self):
        """Counts and what they reach; neither `before` nor `reached` is changed, nor another kit's block."""
        self.assertEqual(self.said({READ: 8900, WRITE: 5200}, "--write")[0], False)
        read = "pfx             read              8900      9000  reached\n"
        write = "pfx             write             5200      5100  reached\n"
        at = TABLE.index("pfx             read             10000")
        self.assertEqual(self.table.read_text("utf-8"), TABLE[:at] + read + write)

    def test_a_block_that_is_written_first(self):
        """It has no `before`, so it is refused where another kit's block has it."""
        is_refused, said = self.said({READ: 1, WRITE: 2}, "--write", kit="kit-3 logic 33")
        self.assertTrue(is_refused)
        self.assertEqual(said.count("no number under before, which another kit's block has"), 2)
        self.assertTrue(self.table.read_text("utf-8").startswith(TABLE))
        self.table.unlink()
        self.assertEqual(self.said({READ: 1, WRITE: 2}, "--write")[0], False)
        rows = ["pfx             read                 1         -", "pfx             write                2         -"]
        self.assertEqual(self.table.read_text("utf-8").splitlines()[2:], [KIT, SCRIPT.COLUMNS, *rows])

    def test_the_inputs(self):
        found = hashlib.sha256()
        for name, case in SCRIPT.cases().items():
            found.update(f"{name} {case.word} {case.items} ".encode() + case.made)
        self.assertEqual(found.hexdigest(), INPUTS)


unittest.main()
