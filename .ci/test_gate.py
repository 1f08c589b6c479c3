#!/usr/bin/env python3
"""Tries what keeps the gate whole: over a small tree, that .ci/listed.py and .ci/passed.py notice what is lost, and that
.ci/minutes.py sees what a process took. Usage: python3 .ci/test_gate.py. Needs Linux, and python3 from 3.9 on."""
import json
import subprocess
import sys
import tempfile
import unittest
from pathlib import Path

sys.path.insert(0, str(Path(__file__).resolve().parent))
import listed
import passed
import tests

TREE = {
    "crates/low/src/lib.rt": "pub fn two() -> u8 {\n    2\n}\n\n#[test]\nfn is_two() {}\n\n#[test]\nfn isnt_three() {}\n",
    "crates/low/must-fail/two_is_three.edit": "file: src/lib.rt\nold:     2\nnew:     3\n",
    "crates/example_rows/stdin": "# a group\nfile | 04 00 | normal 2\nfile | 04 | refused: malformed\n",
    "crates/module_vectors/stdin": "Certificate | 30 00 | refused\n",
    "crates/ber_trial/stdin": "30800000\n",
    "tests/test_some.py": "import unittest\n\n\nclass Some(unittest.TestCase):\n    def test_it(self):\n        pass\n",
}
RT = """
== low
rt: low proved
rt: must-fail low/two_is_three.edit: refused, as it must be
rt: ok; handles allowed: none; must-fail edits: 1 refused; every proof and must-fail edit was done in this run
2 passed, 0 failed
"""
BURN = "import time\nwhile time.process_time() < 1.5:\n    pass\n"


class Listed(unittest.TestCase):
    def setUp(self):
        folder = tempfile.TemporaryDirectory()
        self.addCleanup(folder.cleanup)
        self.top = Path(folder.name)
        for name, text in TREE.items():
            self.put(name, text)
        listed.write(self.top)
        self.assertEqual(listed.faults(self.top), [])

    def put(self, name, text):
        path = self.top / name
        path.parent.mkdir(parents=True, exist_ok=True)
        path.write_text(text, "utf-8")

    def assert_faults(self, *expected):
        found = listed.faults(self.top)
        self.assertEqual(len(found), len(expected), found)
        for fault, words in zip(found, expected):
            self.assertIn(words, fault)

    def test_a_test_that_is_deleted(self):
        self.put("crates/low/src/lib.rt", TREE["crates/low/src/lib.rt"].replace("#[test]\nfn is_two() {}\n", ""))
        self.assert_faults("tests.txt: gone: low/lib.rt::is_two")

    def test_a_test_in_python_that_is_renamed(self):
        self.put("tests/test_some.py", TREE["tests/test_some.py"].replace("test_it", "it"))
        self.assert_faults("tests.txt: gone: tests/test_some.py::Some.test_it")

    def test_a_row_file_that_is_emptied(self):
        self.put("crates/example_rows/stdin", "")
        self.assert_faults("rows.txt: gone: example_rows: file | 04 00", "rows.txt: gone: example_rows: file | 04 |")

    def test_a_row_that_is_changed(self):
        self.put("crates/ber_trial/stdin", "3080\n")
        self.assert_faults("rows.txt: gone: ber_trial: 30800000", "rows.txt: not listed: ber_trial: 3080 ")

    def test_an_edit_whose_old_text_is_gone(self):
        self.put("crates/low/must-fail/two_is_three.edit", TREE["crates/low/must-fail/two_is_three.edit"].replace("    2", "    4"))
        self.assert_faults("low/two_is_three: an old text is in src/lib.rt 0 times")

    def test_an_edit_whose_old_text_is_there_twice(self):
        self.put("crates/low/must-fail/two_is_three.edit", "file: src/lib.rt\nold: #[test]\nnew: #[tests]\n")
        self.assert_faults("low/two_is_three: an old text is in src/lib.rt 2 times")

    def test_an_edit_that_changes_nothing(self):
        self.put("crates/low/must-fail/two_is_three.edit", "file: src/lib.rt\nold:     2\nnew:     2\n")
        self.assert_faults("low/two_is_three: it changes nothing")

    def test_an_edit_that_is_deleted(self):
        (self.top / "crates/low/must-fail/two_is_three.edit").unlink()
        self.assert_faults("edits.txt: gone: low/two_is_three")


class Passed(unittest.TestCase):
    def test_all_passed(self):
        self.assertEqual(passed.faults(RT, 1, 1), [])

    def test_an_edit_that_was_bad(self):
        bad = "rt: must-fail low/two_is_three.edit: BAD EDIT: an 'old:' text is in src/lib.rt 0 times, and not once"
        said = RT.replace("rt: must-fail low/two_is_three.edit: refused, as it must be", bad).replace("2 passed", "1 passed")
        self.assertEqual(len(passed.faults(said, 1, 1)), 2)
        self.assertIn(bad, passed.faults(said, 1, 1))

    def test_fewer_than_there_are(self):
        self.assertIn("3 in all", passed.faults(RT, 1, 2)[0])
        self.assertIn("3 in all", passed.faults(RT, 2, 1)[0])

    def test_no_last_line(self):
        self.assertTrue(passed.faults(RT.replace("2 passed, 0 failed\n", ""), 1, 1))
        self.assertTrue(passed.faults("", 1, 1))

    def test_one_that_failed(self):
        self.assertTrue(passed.faults(RT.replace("0 failed", "1 failed"), 1, 1))

    def test_whether_all_was_done_in_this_run(self):
        self.assertTrue(passed.is_whole(RT))
        self.assertFalse(passed.is_whole(RT.replace("every proof and must-fail edit was done in this run", "done in this run: 1")))


class Tests(unittest.TestCase):
    def test_what_may_be_left_out_is_listed(self):
        skipped = [("one", "not there: keytool"), ("two", "not there: keytool, java"), ("three", "no time")]
        self.assertEqual(tests.unlisted(skipped, {"keytool", "java"}), ["three is left out: no time"])
        self.assertEqual(len(tests.unlisted(skipped, {"keytool"})), 2)

    def test_openssl_and_a_compiler_are_never_left_out(self):
        self.assertFalse(tests.allowed() & {"openssl", "cc", "gcc"})


class Minutes(unittest.TestCase):
    def left_alone(self, room, minutes):
        """The units that took half a second where `rt ci` has ended, and nothing waits for it."""
        gate = f"import subprocess, sys, time, os; it = subprocess.Popen([sys.executable, {str(room / 'rt')!r}, 'ci']); "
        gate += f"watch = subprocess.Popen([sys.executable, {str(minutes)!r}, 'watch', str(os.getpid()), {str(room / 'alone')!r}]); "
        gate += "time.sleep(4); watch.terminate(); watch.wait()"
        subprocess.run([sys.executable, "-c", gate], check=True)
        result = json.loads((room / "alone").read_text("utf-8"))
        return {(phase, name) for phase, name, *_ in result["units"]}

    def test_what_a_crate_and_a_script_took(self):
        with tempfile.TemporaryDirectory() as folder:
            room = Path(folder)
            (room / "rt").write_text(f"import subprocess, sys\nsubprocess.run([sys.executable, {str(room / 'burn')!r}, '--crate-name', 'low'])\n")
            (room / "burn").write_text(BURN)
            minutes = Path(__file__).resolve().parent / "minutes.py"
            took = f"{sys.executable} {minutes} watch $$ {room}/took"
            gate = f"{took} & {sys.executable} {room}/rt ci; {sys.executable} {room}/burn; kill %1; wait %1"
            subprocess.run(["bash", "-c", gate], check=True)
            # a process that has ended stays for a while where its parent waits for nothing
            self.assertEqual(self.left_alone(room, minutes), {("rt", "rt ci"), ("libraries", "low")})
            result = json.loads((room / "took").read_text("utf-8"))
        took = {(phase, name): seconds for phase, name, seconds, _ in result["units"]}
        self.assertAlmostEqual(took["libraries", "low"], 1.5, delta=0.35)
        self.assertAlmostEqual(took["scripts", Path(sys.executable).name], 1.5, delta=0.35)
        self.assertAlmostEqual(result["seconds"], sum(took.values()), delta=0.7)


unittest.main()
