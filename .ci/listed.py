#!/usr/bin/env python3
"""Asks that nothing is lost: that the tests, the rows and the must-fail edits are those that .ci/lists names, and that
each old text of an edit is in its file once. Usage: .ci/listed.py [--write]; --write makes the lists anew, so that a diff
shows what came and went. Needs python3, from 3.9 on.

tests.txt has a test of a crate as CRATE/FILE::FUNCTION, and one in Python as FILE::CLASS.FUNCTION; rows.txt a row as
its file, the beginning of its text, and a sum of the whole; edits.txt a must-fail edit as CRATE/NAME."""
import ast
import hashlib
import re
import sys
from pathlib import Path

ROWS = ("example_rows", "module_vectors", "ber_trial")
PYTHON = ("tests/test_*.py", ".ci/test_*.py", "tests/test_command.py")
TEST = re.compile(r"#\[test\]\s*(?:#\[[^\]]*\]\s*)*(?:pub\s+)?fn (\w+)")


def tests_of_crates(top):
    for path in sorted(top.glob("crates/*/src/**/*.rt")):
        place = path.relative_to(top / "crates")
        for name in TEST.findall(path.read_text("utf-8")):
            yield f"{place.parts[0]}/{'/'.join(place.parts[2:])}::{name}"


def tests_in_python(top):
    for path in (path for pattern in PYTHON for path in sorted(top.glob(pattern))):
        for made in ast.parse(path.read_text("utf-8")).body:
            if isinstance(made, ast.ClassDef):
                for item in made.body:
                    if isinstance(item, ast.FunctionDef) and item.name.startswith("test"):
                        yield f"{path.relative_to(top)}::{made.name}.{item.name}"


def rows(top):
    for name in ROWS:
        for line in (top / "crates" / name / "stdin").read_text("utf-8").splitlines():
            if line and not line.startswith("#"):
                begin = line if len(line) <= 60 else f"{line[:60]}.."
                yield f"{name}: {begin} {hashlib.sha256(line.encode()).hexdigest()[:8]}"


def edits(top):
    for path in sorted(top.glob("crates/*/must-fail/*.edit")):
        yield f"{path.parts[-3]}/{path.stem}"


LISTS = {"tests.txt": lambda top: [*tests_of_crates(top), *tests_in_python(top)],
         "rows.txt": lambda top: list(rows(top)), "edits.txt": lambda top: list(edits(top))}


def differences(top, name):
    """What the list has and the tree hasn't, and the other way round."""
    listed, there = (top / ".ci/lists" / name).read_text("utf-8").splitlines(), LISTS[name](top)
    gone, new = list(listed), []
    for item in there:
        if item in gone:
            gone.remove(item)
        else:
            new.append(item)
    return ([f"{name}: gone: {item}" for item in gone] + [f"{name}: not listed: {item}" for item in new]
            or [f"{name}: in another order"] * (listed != there))


def pairs(text):
    """The files and texts that an edit exchanges."""
    path = old = None
    for line in text.splitlines():
        word, _, rest = line.partition(":")
        rest = rest.removeprefix(" ")
        if word == "file":
            path = rest.strip()
        elif word == "old":
            old = rest
        elif word == "new":
            yield path, old, rest


def edit_faults(path):
    """What keeps an edit from being applied."""
    name, texts, changes = f"{path.parts[-3]}/{path.stem}", {}, 0
    for file, old, new in pairs(path.read_text("utf-8")):
        source = path.parent.parent / str(file)
        if not source.is_file():
            return [f"{name}: there is no file {file}"]
        text = texts.setdefault(file, source.read_text("utf-8"))
        if not old or text.count(old) != 1:
            return [f"{name}: an old text is in {file} {text.count(old) if old else 0} times, and not once"]
        texts[file] = text.replace(old, new)
        changes += old != new
    return [] if changes else [f"{name}: it changes nothing"]


def faults(top):
    found = [fault for name in LISTS for fault in differences(top, name)]
    return found + [fault for path in sorted(top.glob("crates/*/must-fail/*.edit")) for fault in edit_faults(path)]


def write(top):
    (top / ".ci/lists").mkdir(parents=True, exist_ok=True)
    for name, make in LISTS.items():
        (top / ".ci/lists" / name).write_text("".join(f"{item}\n" for item in make(top)), "utf-8")


def main(words):
    top = Path(__file__).resolve().parent.parent
    if words == ["--write"]:
        write(top)
    elif words:
        sys.exit(__doc__)
    found = faults(top)
    counts = ", ".join(f"{len(make(top))} {name[:-4]}" for name, make in LISTS.items())
    print("\n".join(found) if found else f"as .ci/lists has them: {counts}")
    sys.exit(bool(found))


if __name__ == "__main__":
    main(sys.argv[1:])
