#!/usr/bin/env python3
"""Runs the gate and says where its processor time went.

    times.py [COMMAND ..]      runs the command, `bash .ci/run` where none is given, and writes out/times.json
    times.py --page            writes what out/times.json says into docs/CONTRIBUTING.md, between its two marks

A few times a second it looks at the processes that the command has started, and notes of each what it checks: a crate,
its tests, a program as one of the two compilers builds it, or a crate with a must-fail edit. What lives shorter than
that counts as the rest. It ends with the status of the command.
"""

import ctypes
import json
import os
import re
import resource
import subprocess
import sys
import time
from collections import Counter
from pathlib import Path

ROOT = Path(__file__).resolve().parent.parent
TIMES = ROOT / "out" / "times.json"
PAGE = ROOT / "docs" / "CONTRIBUTING.md"
BEGIN, END = "<!-- gate/times.py --page writes what follows -->\n", "<!-- to here -->\n"
PAUSE = 0.3
TICKS = os.sysconf("SC_CLK_TCK")
# By prctl(2): what processes below leave behind when they end becomes a child of this one, and not of the first of all.
PR_SET_CHILD_SUBREAPER = 36
KINDS = ["proof", "tests", "build", "second proof", "edits", "last check", "runs"]


def parents():
    """The parent of each process, and its processor time in seconds with the moment at which it began."""
    found = {}
    for name in filter(str.isdigit, os.listdir("/proc")):
        try:
            fields = Path(f"/proc/{name}/stat").read_text().rpartition(")")[2].split()
        except OSError:
            continue
        found[int(name)] = int(fields[1]), (int(fields[11]) + int(fields[12])) / TICKS, fields[19]
    return found


def below(processes, root):
    """The processes below this one."""
    children, found, left = {}, [], [root]
    for process, (parent, _, _) in processes.items():
        children.setdefault(parent, []).append(process)
    while left:
        at = children.get(left.pop(), [])
        found += at
        left += at
    return found


def edited(edit, crate):
    """The texts of the files that an edit changes, by their paths in the crate."""
    texts, path, old = {}, "", ""
    for line in edit.read_text().splitlines():
        word, _, text = line.partition(":")
        text = text.removeprefix(" ")
        if word == "file":
            path = text.strip()
        elif word == "old":
            old = text
        elif word == "new":
            texts[path] = texts.get(path, (crate / path).read_text()).replace(old, text)
    return texts


class Edits:
    """The must-fail edits of each crate, and the texts that they make."""

    def __init__(self):
        self.made = {}
        for edit in sorted(ROOT.glob("crates/*/must-fail/*.edit")):
            crate = edit.parent.parent
            self.made.setdefault(crate.name, {})[edit.stem] = edited(edit, crate)

    def of(self, crate, folder):
        """The edit whose texts stand in the folder, if any."""
        for name, texts in self.made.get(crate, {}).items():
            try:
                if all(Path(folder, path).read_text() == text for path, text in texts.items()):
                    return name
            except OSError:
                continue
        return None


def subject(process, edits):
    """The crate that a process checks, builds or runs, what it does, and with which edit."""
    try:
        words = Path(f"/proc/{process}/cmdline").read_bytes().decode(errors="replace").split("\0")
        folder = os.readlink(f"/proc/{process}/cwd")
    except OSError:
        return None
    named = re.search(r"/crates/(\w+)", folder)
    crate = words[words.index("--crate-name") + 1] if "--crate-name" in words else named[1] if named else ""
    if not words[0].endswith("rattle"):
        return crate, "runs", None
    if "/rt-edit-" in folder:
        edit = edits.of(crate, folder)
        return crate, "edits" if edit else "second proof", edit
    if "--test" in words:
        return crate, "tests", None
    return crate, "build" if "--crate-checked" in words else "proof", None


def watched(command):
    """Runs the command, and gives its status, its clock time, all its processor time, and what each process did."""
    ctypes.CDLL(None).prctl(PR_SET_CHILD_SUBREAPER, 1, 0, 0, 0)
    edits, seen, began = Edits(), {}, time.monotonic()
    child = subprocess.Popen(command)
    while child.poll() is None:
        processes = parents()
        for process in below(processes, os.getpid()):
            _, seconds, start = processes[process]
            known = seen.get((process, start))
            # (a process that has just been made still has the words of the one that made it)
            if known is None or known["seconds"] < 1:
                found = subject(process, edits)
                if found:
                    known = seen[process, start] = {"subject": found, "seconds": 0, "at": time.monotonic() - began}
            if known:
                known["seconds"] = max(known["seconds"], seconds)
        time.sleep(PAUSE)
    used = resource.getrusage(resource.RUSAGE_CHILDREN)
    return child.returncode, time.monotonic() - began, used.ru_utime + used.ru_stime, [*seen.values()]


def sums(processes):
    """The seconds by crate and kind, and by crate and edit. Of the checks of a crate as it stands beside its edits, the
    first one, with its copies, is the second proof, and one that begins after an edit has ended is the last check."""
    first = {}
    for it in processes:
        crate, kind, _ = it["subject"]
        if kind == "edits":
            first[crate] = min(first.get(crate, it["at"]), it["at"])
    kinds, edits = Counter(), Counter()
    for it in processes:
        crate, kind, edit = it["subject"]
        if kind == "second proof" and it["at"] > first.get(crate, it["at"]):
            kind = "last check"
        kinds[crate, kind] += it["seconds"]
        if edit:
            edits[crate, edit] += it["seconds"]
    return kinds, edits


def measure(command):
    """Runs the command, keeps what it took, and gives its status."""
    status, clock, processor, processes = watched(command)
    kinds, edits = sums(processes)
    TIMES.parent.mkdir(exist_ok=True)
    TIMES.write_text(json.dumps({
        "status": status,
        "processors": len(os.sched_getaffinity(0)),
        "clock": clock,
        "processor": processor,
        "kinds": [[*key, seconds] for key, seconds in kinds.items()],
        "edits": [[*key, seconds] for key, seconds in edits.items()],
    }))
    print(f"{processor / 60:.0f} processor minutes, {clock / 60:.0f} on the clock; gate/times.py --page writes the page")
    return status


def minutes(seconds):
    """Minutes with one decimal, or nothing for less than three seconds."""
    return f"{seconds / 60:.1f}" if seconds >= 3 else ""


def rows(kinds, edits):
    """The table by crate, the dearest first."""
    crates = Counter()
    for (crate, _), seconds in kinds.items():
        crates[crate] += seconds
    yield "| crate | " + " | ".join(KINDS) + " | sum |"
    yield "|---" * (len(KINDS) + 2) + "|"
    for crate, seconds in crates.most_common():
        if crate and seconds >= 3:
            cells = []
            for kind in KINDS:
                number = sum(it[0] == crate for it in edits) if kind == "edits" else 0
                cells.append(minutes(kinds[crate, kind]) + (f" ({number})" if number else ""))
            yield f"| {crate} | " + " | ".join(cells) + f" | {minutes(seconds)} |"


def page():
    """Writes the times into the page."""
    times = json.loads(TIMES.read_text())
    kinds = Counter({(crate, kind): seconds for crate, kind, seconds in times["kinds"]})
    edits = Counter({(crate, edit): seconds for crate, edit, seconds in times["edits"]})
    total, rest = Counter(), times["processor"] - sum(kinds.values())
    for (_, kind), seconds in kinds.items():
        total[kind] += seconds
    parts = ", ".join(f"{kind} {total[kind] / 60:.0f}" for kind in KINDS)
    lines = [
        f"A run from nothing took {times['processor'] / 60:.0f} processor minutes, {times['clock'] / 60:.0f} on the clock "
        f"with {times['processors']} processors: {parts}, and what is too short to be seen {rest / 60:.0f}. In minutes:",
        "",
        *rows(kinds, edits),
        "",
        "The edits, in seconds:",
        "",
    ]
    for crate in sorted({crate for crate, _ in edits}):
        of_crate = Counter({edit: seconds for (name, edit), seconds in edits.items() if name == crate})
        told = ", ".join(f"{edit} {seconds:.0f}" for edit, seconds in of_crate.most_common())
        lines.append(f"- `{crate}`: {told}.")
    text = PAGE.read_text()
    head, _, tail = text.partition(BEGIN)
    PAGE.write_text(head + BEGIN + "\n" + "\n".join(lines) + "\n\n" + END + tail.partition(END)[2])


if __name__ == "__main__":
    if sys.argv[1:] == ["--page"]:
        page()
    else:
        sys.exit(measure(sys.argv[1:] or ["bash", str(ROOT / ".ci" / "run")]))
