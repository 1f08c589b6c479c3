"""What package/install, package/dist and the other scripts of package/ refuse: what no gate that passed has left, and
folders that have what they didn't make. They run in a copy, with a record of a gate that never ran and a command `rt`
that only says which kit it is. What they make of proved files is tried by .ci/installed."""
import hashlib
import os
import re
import shutil
import tempfile
import unittest
from pathlib import Path

from support.tools import ended, needs, run

TOP = Path(__file__).resolve().parent.parent
KIT = "rattle-kit-0 logic 0"
PASSED = "gate 3 passed, 0 failed"
COMMIT = ["commit no commit", "time 86400", f"kit {KIT}"]
LIBRARY = "crates/der_c/out/libder_c.x86-64.a"
# Gates that proved nothing, or not all.
NOT_PASSED = (
    "gate UNPROVED local build",
    "gate 3 passed, 1 failed",
    "gate 0 passed, 0 failed",
    "gate 3 passed, 0 failed (der_c and the crates below alone: not the gate)",
    "gate 03 passed, 0 failed",
    "gate  3 passed, 0 failed",
    "gate ",
    "gates 3 passed, 0 failed",
    "",
)
# What package/unproved writes where package/install writes what was proved.
UNPROVED = f"Vuyhanip 0.2.0 UNPROVED\n\nsources    no commit\nkit        {KIT}\n"


def sum_of(path):
    return hashlib.sha256(path.read_bytes()).hexdigest()


class Packaging(unittest.TestCase):
    """A copy of the scripts, outside any repository of git."""

    def setUp(self):
        room = tempfile.TemporaryDirectory()
        self.addCleanup(room.cleanup)
        self.room = Path(room.name).resolve()
        self.top, self.folder = self.room / "copy", self.room / "folder"
        for name in ("package", "tools/version", "VERSION", "CHANGELOG.md"):
            (self.top / name).parent.mkdir(parents=True, exist_ok=True)
            (shutil.copytree if (TOP / name).is_dir() else shutil.copy)(TOP / name, self.top / name)
        self.write("bin/rt", f"#!/bin/sh\n[ $1 = doc ] && echo {self.room}/kit/page || echo {KIT}\n").chmod(0o755)
        path = f"{self.room}/bin{os.pathsep}{os.environ['PATH']}"
        self.env = {**os.environ, "PATH": path, "TMPDIR": str(self.room), "GIT_CEILING_DIRECTORIES": str(self.room.parent)}

    def write(self, name, text):
        path = self.room / name
        path.parent.mkdir(parents=True, exist_ok=True)
        path.write_text(text, "utf-8")
        return path

    def record(self, *lines):
        self.write("copy/out/proved", "".join(f"{line}\n" for line in lines))

    def run_script(self, name, *words):
        return ended(self.top / "package" / name, *words, cwd=self.room, env=self.env)

    def refused(self, why, name, *words):
        """A script ends with status 1, and says why."""
        ran = self.run_script(name, *words)
        said = ran.stderr.decode()
        self.assertEqual((ran.returncode, why in said), (1, True), f"{name} has to say '{why}', and says: {said}")


class Record(Packaging):
    """Which records are taken."""

    def test_no_record(self):
        for script in ("install", "dist"):
            self.refused("out/proved is not there", script, self.folder)
        self.assertFalse(self.folder.exists())

    def test_a_gate_that_has_not_passed(self):
        for line in NOT_PASSED:
            self.record(*COMMIT, line)
            for script in ("install", "dist"):
                with self.subTest(script=script, line=line):
                    self.refused("has to be 'N passed, 0 failed'", script, self.folder)
        self.assertFalse(self.folder.exists())

    def test_two_lines_of_gates(self):
        self.record(*COMMIT, NOT_PASSED[0], PASSED)
        self.refused("has to be 'N passed, 0 failed'", "install", self.folder)

    def test_a_gate_that_has_passed(self):
        self.record(*COMMIT, PASSED)
        for script in ("install", "dist"):
            self.refused(f"out/proved doesn't name {LIBRARY}", script, *["--unreleased"] * (script == "dist"), self.folder)
        self.assertEqual(sorted(it.name for it in self.room.iterdir()), ["bin", "copy"])

    def test_what_is_recorded(self):
        for line in NOT_PASSED:
            self.refused("has to be 'N passed, 0 failed'", "record", "no commit", line.removeprefix("gate "))
        self.refused("the tree changed", "record", "another commit", PASSED.removeprefix("gate "))
        self.assertFalse((self.top / "out/proved").exists())

    def test_another_kit(self):
        self.record(*COMMIT[:2], "kit another", PASSED)
        self.refused("the gate ran with the kit another", "install", self.folder)

    def test_another_commit(self):
        self.record("commit another", *COMMIT[1:], PASSED)
        self.refused("the gate ran on commit another", "dist", self.folder)


class Unproved(Packaging):
    """What was made without proofs isn't installed or handed out as proved."""

    def test_its_record(self):
        self.write("copy/out/proved", UNPROVED)
        for script in ("install", "dist"):
            self.refused("has to be 'N passed, 0 failed'", script, self.folder)

    def test_its_library(self):
        library = self.write(f"copy/{LIBRARY}", "proved")
        self.record(*COMMIT, PASSED, f"{sum_of(library)}  {LIBRARY}")
        library.write_text("unproved", "utf-8")
        self.refused(f"{LIBRARY} isn't what the gate left", "install", self.folder)

    @needs("ld", "objcopy", "readelf")
    def test_its_library_in_a_record(self):
        library, note = self.write(f"copy/{LIBRARY}", "proved"), self.write("note", UNPROVED)
        run("ld", "-r", "-b", "binary", "-o", library, note)
        run("objcopy", "--add-section", f".unproved={note}", library)
        self.record(*COMMIT, PASSED, f"{sum_of(library)}  {LIBRARY}")
        self.refused(f"{LIBRARY} is what package/unproved made", "install", self.folder)

    def test_its_folder(self):
        made = self.write("folder/usr/share/doc/vuyhanip/UNPROVED", UNPROVED)
        prefix = self.folder / "usr"
        self.refused("has no share/doc/vuyhanip/PROVED", "wheel", prefix, "0.2.0", "0", self.room)
        self.refused("has no PROVED", "debian", self.folder, "0.2.0", "a <b@c>", self.room)
        library = self.write(f"copy/{LIBRARY}", "proved")
        names = [f"crates/{name}/out/{name}" for name in ("derbox", "dertree", "ber2der")]
        sums = [f"{sum_of(self.write(f'copy/{name}', name))}  {name}" for name in names]
        self.record(*COMMIT, PASSED, f"{sum_of(library)}  {LIBRARY}", *sums)
        self.refused("package/unproved made", "install", prefix)
        self.assertEqual([it for it in self.folder.rglob("*") if it.is_file()], [made])

    def test_the_main_of_the_library(self):
        script = (TOP / "package/unproved").read_text("utf-8")
        function = re.search(r"^calls\(\) \{\n.*?^\}\n", script, re.M | re.S)[0]
        made = ended("bash", "-c", f'{function}calls "$1"', "bash", TOP / "crates/der_c/src").stdout.decode().splitlines()
        argument = r"(?:rt\.alloc\(\)|0|&\[\]|&mut \[\]|&mut 0|&(?:mut )?(?:\w+::){2}NO_[A-Z_]+)"
        for line in made:
            self.assertRegex(line, rf"^ *(\w+::)?\w+\( ?{argument}(, {argument})*,? ?\);$")
        names = re.findall(r"^uint32_t (der_\w+)\(", (TOP / "c/der.h").read_text("utf-8"), re.M)
        self.assertEqual(sorted(re.findall(r"(\w+)\(.*\);", "\n".join(made))), sorted(names))
        for crate, module, name in set(re.findall(r"(\w+)::(\w+)::(NO_\w+)", "\n".join(made))):
            self.assertIn(f"\npub const {name}: ", (TOP / f"crates/{crate}/src/{module}.rt").read_text("utf-8"))

    def test_a_folder_of_others(self):
        notes = self.write("folder/notes", "mine")
        self.refused("package/unproved didn't make", "unproved", self.folder)
        self.refused("package/unproved didn't make", "unproved", notes)
        self.assertEqual(list(self.folder.iterdir()), [notes])


class Dist(Packaging):
    """package/dist, whose package/install is one that makes a file, so that there is a tarball."""

    def setUp(self):
        super().setUp()
        self.record(*COMMIT, PASSED)
        self.write("copy/package/install", '#!/bin/sh\nmkdir "$3" && echo installed > "$3/file"\n')

    def make(self):
        ran = self.run_script("dist", "--unreleased", "--cpu", "x86-64-v2", self.folder)
        self.assertEqual(ran.returncode, 0, ran.stderr.decode())
        return {it.name: it.read_bytes() for it in self.folder.iterdir()}

    def is_refused(self):
        there = {it: it.is_file() and it.read_bytes() for it in self.folder.rglob("*")}
        self.refused("take another folder", "dist", "--unreleased", "--cpu", "x86-64-v2", self.folder)
        self.assertEqual({it: it.is_file() and it.read_bytes() for it in self.folder.rglob("*")}, there)
        self.assertEqual(sorted(it.name for it in self.room.iterdir()), ["bin", "copy", "folder"])

    def test_a_folder_is_made_anew(self):
        made = self.make()
        [tarball] = set(made) - {"SHA256SUMS"}
        self.assertRegex(tarball, r"^vuyhanip-\d.*-linux-x86_64_v2\.tar\.gz$")
        older = self.write("folder/vuyhanip_0.1.0_amd64.deb", "an older package")
        with (self.folder / "SHA256SUMS").open("a", encoding="utf-8") as sums:
            sums.write(f"{sum_of(older)}  {older.name}\n")
        self.assertEqual(self.make(), made)

    def test_an_empty_folder(self):
        self.folder.mkdir()
        self.assertEqual(len(self.make()), 2)

    def test_a_file_of_another(self):
        self.write("folder/notes", "mine")
        self.is_refused()

    def test_a_file_of_another_beside_what_was_made(self):
        self.make()
        self.write("folder/notes", "mine")
        self.is_refused()

    def test_a_file_that_another_lists(self):
        notes = self.write("folder/notes", "mine")
        self.write("folder/SHA256SUMS", f"{sum_of(notes)}  notes\n")
        self.is_refused()
        notes.unlink()
        self.is_refused()

    def test_a_changed_file(self):
        [tarball] = set(self.make()) - {"SHA256SUMS"}
        (self.folder / tarball).write_text("changed", "utf-8")
        self.is_refused()

    def test_a_folder_in_it(self):
        self.make()
        (self.folder / "more").mkdir()
        self.is_refused()

    def test_a_link_in_it(self):
        [tarball] = set(self.make()) - {"SHA256SUMS"}
        (self.folder / tarball).rename(self.top / tarball)
        (self.folder / tarball).symlink_to(self.top / tarball)
        self.is_refused()

    def test_no_folder(self):
        notes = self.write("folder", "mine")
        self.refused("is no folder", "dist", "--unreleased", self.folder)
        self.assertEqual(notes.read_text("utf-8"), "mine")


if __name__ == "__main__":
    unittest.main()
