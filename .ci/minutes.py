#!/usr/bin/env python3
"""Says what the gate takes: processor minutes by phase and by crate, and the most memory that one process took.
Usage: .ci/minutes.py watch PID FILE  looks at the processes below PID until it is told to end (SIGTERM), and writes FILE
       .ci/minutes.py table FILE      prints what FILE says
       .ci/minutes.py keep FILE       writes it to bench/gate.txt, with the seconds of `rt selftest`, and the page anew
       .ci/minutes.py page [--check]  writes the table of docs/PROVING.md from bench/gate.txt, or asks that it is that
Needs Linux, and python3 from 3.9 on.

A process of `rt ci` belongs to the crate that its arguments name, or in whose folder it works, and what it starts
belongs to that crate too. Its time is what /proc/PID/stat says of it and of its children that have ended, as it was
seen last; what it takes after that, for a quarter of a second at most, is in the row "not seen". The sum is what the
processes below PID took by resource usage."""
import json
import os
import re
import resource
import signal
import subprocess
import sys
import time
from collections import defaultdict
from pathlib import Path

ROOT = Path(__file__).resolve().parent.parent
GATE, PAGE = ROOT / "bench/gate.txt", ROOT / "docs/PROVING.md"
INTERVAL = 0.25
TICKS, KILOBYTES = os.sysconf("SC_CLK_TCK"), os.sysconf("SC_PAGE_SIZE") // 1024
PHASES = ("libraries", "must-fail edits", "programs", "tests", "scripts", "rt")
ROWS_IN_PAGE = 16


class Process:
    """What /proc said of a process when it was seen last."""

    def __init__(self, pid):
        fields = Path(f"/proc/{pid}/stat").read_text("utf-8", "replace").rpartition(")")[2].split()
        self.key, self.parent = (pid, fields[19]), int(fields[1])
        self.own, self.ended = sum(map(int, fields[11:13])), sum(map(int, fields[13:15]))
        self.memory = int(fields[21]) * KILOBYTES


def words_of(pid):
    return Path(f"/proc/{pid}/cmdline").read_bytes().decode("utf-8", "replace").split("\0")


def crate_of(folder, words):
    """The crate that a process of `rt ci` names, or in whose folder it works, if there is one."""
    if "--crate-name" in words[:-1]:
        return words[words.index("--crate-name") + 1]
    shown = re.search(r"/crates/(\w+)(?:/|$)", folder) or re.search(r"/crates/(\w+)/out/", " ".join(words))
    return shown and shown[1]


def unit_of(pid, words):
    """The phase and the crate that a process of `rt ci` works for, if it shows them."""
    folder = os.readlink(f"/proc/{pid}/cwd")
    name = crate_of(folder, words)
    if not name:
        return None
    if "/rt-edit" in folder:
        return "must-fail edits", name
    if "--test" in words or re.search(rf"\b{name}_tests\b", " ".join(words)):
        return "tests", name
    return ("programs" if (ROOT / "crates" / name / "src/main.rt").is_file() else "libraries"), name


def script_of(words):
    """The script that a process directly below the gate runs: of `.ci/tests.py FILE` that file."""
    found = [re.search(r"(?:^|/)((?:\.ci|bench|package|tests|tools)/[\w.]+)$", word) for word in words]
    names = [it[1] for it in found if it]
    return names[-1] if names else Path(words[0]).name


class Watch:
    """The processes below the gate, and what each unit of work took: a phase with a crate or a script."""

    def __init__(self, top):
        self.top, self.took, self.memory, self.last = top, {}, defaultdict(int), {}

    def unit(self, pid, process, above):
        """The unit that a process belongs to, where its parent belongs to the unit `above`. One that has ended, and that
        nothing has waited for yet, has no words any more, and stays where it was."""
        if process.parent != self.top and above != ("rt", "rt ci"):
            return above
        words = words_of(pid)
        if words == [""]:
            return self.last.get(process.key)
        if process.parent != self.top:
            return unit_of(pid, words) or above
        is_rt = "ci" in words and any(Path(word).name == "rt" for word in words)
        return ("rt", "rt ci") if is_rt else ("scripts", script_of(words))

    def units(self, seen):
        """The unit of each process below the gate, by its number."""
        found = {self.top: None}

        def find(pid):
            if pid not in found:
                found[pid] = None
                above = find(seen[pid].parent) if seen[pid].parent in seen else None
                if above or seen[pid].parent == self.top:
                    try:
                        found[pid] = self.unit(pid, seen[pid], above)
                    except OSError:
                        found[pid] = above
            return found[pid]

        return {pid: find(pid) for pid in seen if pid != os.getpid() and find(pid)}

    def look(self):
        """Looks at all processes once. What the children of a process took that have ended is counted at that process."""
        seen = {}
        for name in os.listdir("/proc"):
            if name.isdigit():
                try:
                    seen[int(name)] = Process(int(name))
                except (OSError, IndexError):
                    continue
        found, now = self.units(seen), defaultdict(int)
        for pid, unit in found.items():
            first, self.last[seen[pid].key] = pid, unit
            while found.get(seen[first].parent) == unit:
                first = seen[first].parent
            process = seen[pid]
            now[unit, seen[first].key] += process.own + (process.ended if unit[0] != "rt" else 0)
            self.memory[unit] = max(self.memory[unit], process.memory)
        for key, ticks in now.items():
            self.took[key] = max(self.took.get(key, 0), ticks)

    def result(self, began):
        """The seconds and the kilobytes by phase and crate or script."""
        seconds, used = defaultdict(float), resource.getrusage(resource.RUSAGE_SELF)
        for (unit, _), ticks in self.took.items():
            seconds[unit] += ticks / TICKS
        top = Process(self.top)
        return {"clock": time.monotonic() - began, "watch": used.ru_utime + used.ru_stime,
                "seconds": (top.own + top.ended) / TICKS, "units": [[*unit, seconds[unit], self.memory[unit]] for unit in sorted(seconds)]}


def write(seen, began, file):
    """Writes what was seen. Where the gate has ended before it was told, what was written last stays."""
    try:
        file.write_text(json.dumps(seen.result(began)), "utf-8")
    except FileNotFoundError:
        pass


def watch(top, file):
    ended = []
    signal.signal(signal.SIGTERM, lambda *_: ended.append(True))
    began, seen, looks = time.monotonic(), Watch(top), 0
    while not ended and os.path.exists(f"/proc/{top}"):
        seen.look()
        looks += 1
        if looks % 100 == 0:
            write(seen, began, file)
        time.sleep(INTERVAL)
    write(seen, began, file)


def phases(result):
    """The minutes of each phase, of what was not seen, and the sum by resource usage."""
    took = dict.fromkeys(PHASES, 0.0)
    for phase, _, of_unit, _ in result["units"]:
        took[phase] += of_unit / 60
    took["not seen"] = result["seconds"] / 60 - sum(took.values())
    return {**took, "sum": result["seconds"] / 60}


def crates(result):
    """The minutes of each crate's proof, edits and tests, their sum, and its gigabytes, the most expensive first."""
    rows = defaultdict(lambda: [0.0, 0.0, 0.0, 0.0])
    column = {"libraries": 0, "programs": 0, "must-fail edits": 1, "tests": 2}
    for phase, name, seconds, kilobytes in result["units"]:
        if phase in column:
            row = rows[name]
            row[column[phase]] += seconds / 60
            row[3] = max(row[3], kilobytes / 1e6)
    made = [(name, *row[:3], sum(row[:3]), row[3]) for name, row in rows.items()]
    return sorted(made, key=lambda row: -row[4])


def text(result):
    """The tables, as they are printed."""
    lines = [f"{'processor minutes by phase':32}{'':8}"]
    lines += [f"{name:32}{minutes:8.1f}" for name, minutes in phases(result).items()]
    lines += [f"{'minutes of the clock':32}{result['clock'] / 60:8.1f}", ""]
    lines += [f"{'processor minutes by crate':32}{'proof':>8}{'edits':>8}{'tests':>8}{'sum':>8}{'GB':>8}"]
    lines += [f"{name:32}{proof:8.1f}{edits:8.1f}{tests:8.1f}{both:8.1f}{memory:8.1f}"
              for name, proof, edits, tests, both, memory in crates(result)]
    lines += ["", f"{'processor minutes by script':32}"]
    scripts = sorted((row for row in result["units"] if row[0] == "scripts"), key=lambda row: -row[2])
    lines += [f"{name:32}{of_script / 60:8.1f}" for _, name, of_script, _ in scripts if of_script >= 3]
    return "\n".join(lines) + "\n"


def selftest():
    """The processor seconds that the kit's own example takes, which no change of ours alters."""
    before = resource.getrusage(resource.RUSAGE_CHILDREN)
    subprocess.run(["rt", "selftest"], check=True, stdout=subprocess.DEVNULL)
    after = resource.getrusage(resource.RUSAGE_CHILDREN)
    return after.ru_utime + after.ru_stime - before.ru_utime - before.ru_stime


def keep(result):
    """Writes the tables, with what tells how fast the machine is, and the page. Prints what tells that, too."""
    kit = subprocess.run(["rt", "version"], check=True, capture_output=True, text=True).stdout.strip()
    machine = [f"{'kit':32}  {kit}", f"{'processors':32}{os.cpu_count():8}",
               f"{'processor seconds of rt selftest':32}{selftest():8.1f}", ""]
    head = ["A run of .ci/run in which everything was proved and tried, nothing being kept from earlier runs.", ""]
    GATE.parent.mkdir(exist_ok=True)
    GATE.write_text("\n".join([*head, *machine]) + "\n" + text(result), "utf-8")
    PAGE.write_text(page_with(GATE.read_text("utf-8")), "utf-8")
    print("\n".join(machine))


def page_with(table):
    """The page, with its table made anew of bench/gate.txt."""
    blocks = [[re.split(r"  +", line.strip()) for line in block.splitlines()] for block in table.split("\n\n")]
    machine, by_phase, by_crate = blocks[1], blocks[2], blocks[3]
    said = {row[0]: row[-1] for row in (*machine, *by_phase)}
    names = [*PHASES, "not seen", "sum"]
    seconds = float(said["processor seconds of rt selftest"])
    lines = [f"{said['processors']} processors, of which `rt selftest` takes {seconds} seconds; {said['minutes of the clock']} "
             "minutes of the clock. Machines differ: at the speed of one on which `rt selftest` takes 60 seconds, the sum "
             f"would be {float(said['sum']) * 60 / seconds:.1f} processor minutes. By phase:", "",
             f"|{'|'.join(names)}|", f"|{'---|' * len(names)}", f"|{'|'.join(said[name] for name in names)}|", "",
             f"The {ROWS_IN_PAGE} crates that take most, in processor minutes, and the gigabytes of the greatest process:", "",
             "|crate|proof|edits|tests|sum|GB|", "|---|---|---|---|---|---|"]
    lines += [f"|`{row[0]}`|{'|'.join(row[1:])}|" for row in by_crate[1:ROWS_IN_PAGE + 1]]
    made = "\n".join(lines)
    place = re.compile(r"(<!-- gate -->\n).*?(<!-- end -->)", re.S)
    return place.sub(lambda at: f"{at[1]}{made}\n{at[2]}", PAGE.read_text("utf-8"))


def page(words):
    made = page_with(GATE.read_text("utf-8"))
    if words != ["--check"]:
        PAGE.write_text(made, "utf-8")
    elif made != PAGE.read_text("utf-8"):
        sys.exit("docs/PROVING.md has another table of the gate than bench/gate.txt: .ci/minutes.py page")


def main(words):
    if words[:1] == ["watch"] and len(words) == 3:
        watch(int(words[1]), Path(words[2]))
    elif words[:1] in (["table"], ["keep"]) and len(words) == 2:
        result = json.loads(Path(words[1]).read_text("utf-8"))
        if words[0] == "keep":
            keep(result)
        else:
            print(text(result), end="")
    elif words[:1] == ["page"] and words[1:] in ([], ["--check"]):
        page(words[1:])
    else:
        sys.exit(__doc__)


main(sys.argv[1:])
