#!/usr/bin/env python3
"""silos.py PROGRAM [TURNS]: how long silos take over a script, beside the simulator, and what their calls find.

PROGRAM is the built program streams. What is printed is a table of crates/benchmarks/README.md, as Markdown: the
least, the median and the most of as many turns as TURNS says.
"""
import hashlib
import os
import re
import statistics
import subprocess
import sys
import tempfile
import time
from collections import Counter
from dataclasses import dataclass

from common import print_table

TURNS = 3
SILOS = [1, 2, 4]
QUEUES = [1, 4, 16]
# Each stream has a grain of its own that subscribes to it, and so many batches of one event. Each number of queues
# divides the number of streams, so that each queue has as many of them as another.
STREAMS = 16
BATCHES = 1000
EVENTS = STREAMS * BATCHES
# The first words of replies: that there is nothing to do, or not yet; and what there is to do.
IDLE = {
    "dry", "pressed", "nothing", "mailbox-full", "none-due", "none-ready", "empty", "busy",
    "behind", "deliverable", "waiting", "running", "quiet",
}  # fmt: skip
LOOKS = {"next", "due"}


def queue_of(key, queues):
    """The queue of a stream in the namespace o, as the queue mapper says."""
    return int.from_bytes(hashlib.sha256(b"o\0" + key.encode()).digest()[:8], "big") % queues


def keys_of(queues):
    """The keys of the streams, whose queues are all of them in turn."""
    keys, number = [], 0
    while len(keys) < STREAMS:
        if queue_of(str(number), queues) == len(keys) % queues:
            keys.append(str(number))
        number += 1
    return keys


def script_of(queues):
    keys = keys_of(queues)
    lines = [f"sub o/{key} g/{key} latest" for key in keys]
    lines += [f'pub o/{key} "e"' for _ in range(BATCHES) for key in keys]
    return "".join(line + "\n" for line in lines)


@dataclass(frozen=True)
class Run:
    """The seconds of the simulator and of the silos, and the calls of the silos: all, idle ones and looks."""

    simulator: float
    silos: float
    calls: int
    idle: int
    looks: int

    def figures(self):
        """The columns of the table."""
        return [
            EVENTS / self.silos,
            self.silos / self.simulator,
            self.calls / EVENTS,
            100 * self.idle / self.calls,
            100 * self.looks / self.calls,
        ]


HEAD = ["Silos, queues", "Events a second", "Times", "Calls", "Idle, %", "Looks, %"]
FORMS = [",.0f", ".1f", ".1f", ".0f", ".0f"]


def ask(program, *words):
    """The seconds of the program from its start to its end, and what it printed."""
    start = time.monotonic()
    told = subprocess.run([program, *map(str, words)], stdout=subprocess.PIPE, check=True).stdout
    return time.monotonic() - start, told.decode()


def is_reported(simulated, ran):
    """Whether the simulator ends with the report of a run, which has a line for itself, each stream and each event."""
    return simulated.endswith("\n" + ran) and ran.startswith("report\n") and ran.count("\n") == 1 + STREAMS + EVENTS


def counted(trace):
    """How many calls a trace has, how many of them found nothing to do, and how many told what there is to do."""
    replies = Counter(re.findall(r"^# \d+ ([a-z-]+)", trace, re.MULTILINE))
    idle, looks = (sum(count for word, count in replies.items() if word in words) for words in (IDLE, LOOKS))
    return sum(replies.values()), idle, looks


def go(program, folder, silos, queues):
    """Simulates a script, runs it and traces it."""
    script = script_of(queues)
    run, simulation = os.path.join(folder, "run"), os.path.join(folder, "simulation")
    for file, more in [(run, ""), (simulation, "drain\nreport\n")]:
        with open(file, "w") as it:
            it.write(script + more)
    simulator, simulated = ask(program, "sim", simulation, "--queues", queues)
    seconds, ran = ask(program, "run", run, "--silos", silos, "--queues", queues)
    if not is_reported(simulated, ran):
        raise RuntimeError(f"{silos} silos over {queues} queues report something else than the simulator")
    _, trace = ask(program, "trace", run, "--silos", silos, "--queues", queues)
    return Run(simulator, seconds, *counted(trace))


def told(values, form):
    """The least, the median and the most."""
    return ", ".join(format(it, form) for it in (min(values), statistics.median(values), max(values)))


def main():
    program = os.path.abspath(sys.argv[1])
    turns = int(sys.argv[2]) if len(sys.argv) > 2 else TURNS
    rows = []
    with tempfile.TemporaryDirectory(prefix="streams-silos-") as folder:
        for queues in QUEUES:
            for silos in SILOS:
                columns = zip(*(go(program, folder, silos, queues).figures() for _ in range(turns)))
                rows.append([f"{silos}, {queues}", *map(told, columns, FORMS)])
    print_table(HEAD, rows)


if __name__ == "__main__":
    main()
