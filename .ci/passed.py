#!/usr/bin/env python3
"""Asks of what `rt ci` printed that nothing was left out: that as many passed as there are crates and must-fail edits,
that none failed, and that no edit is bad, which `rt ci` itself lets pass. Usage: .ci/passed.py LOG [--whole].
With --whole it also asks that nothing was kept from earlier runs. Prints what isn't so, and fails."""
import re
import sys
from pathlib import Path


def faults(said, crates, edits):
    """What is wrong with a run over so many crates and edits, by what it printed."""
    lines = said.splitlines()
    last = re.fullmatch(r"(\d+) passed, (\d+) failed", lines[-1]) if lines else None
    found = [line for line in lines if "BAD EDIT" in line]
    if not last:
        return [*found, "rt ci: its last line isn't 'N passed, M failed'"]
    if int(last[1]) != crates + edits:
        found.append(f"rt ci: {last[1]} passed, and there are {crates} crates and {edits} must-fail edits, {crates + edits} in all")
    if last[2] != "0":
        found.append(f"rt ci: {last[2]} failed")
    return found


def is_whole(said):
    """Whether everything was proved and tried in this run."""
    return "every proof and must-fail edit was done in this run" in said


def main(words):
    if len(words) not in (1, 2) or words[1:] not in ([], ["--whole"]):
        sys.exit(__doc__)
    top, said = Path(__file__).resolve().parent.parent, Path(words[0]).read_text("utf-8", "replace")
    if words[1:]:
        sys.exit(not is_whole(said))
    crates = re.findall(r"^\w+(?= *\w*:)", (top / "crates.txt").read_text("utf-8"), re.M)
    found = faults(said, len(crates), len(list(top.glob("crates/*/must-fail/*.edit"))))
    print("\n".join(found), end="\n" if found else "", file=sys.stderr)
    sys.exit(bool(found))


if __name__ == "__main__":
    main(sys.argv[1:])
