#!/usr/bin/env python3
"""compare.py PROGRAM [TURNS]: events a second of the library, beside Redis Streams and NATS JetStream, and its latency.

PROGRAM is the built program benchmarks. All ways are measured in turns, and each as often as TURNS says. What
is printed are the figures of docs/BENCHMARKS.md, as Markdown; the chart goes to docs/benchmarks.svg. It needs
redis-server and nats-server on the path, and nothing else.
"""
import os
import platform
import re
import statistics
import subprocess
import sys
import time
from collections import defaultdict
from dataclasses import dataclass

import chart
import nats_jetstream
import redis_streams
from common import Load, counted, print_table
from library import Alone, Library

TURNS = 5
CHART = os.path.join(os.path.dirname(os.path.abspath(__file__)), "..", "docs", "benchmarks.svg")

# Each load with the silos and queues of the library. More queues than streams have nothing to do.
ONE = [(1, 1), (2, 1), (4, 1)]
MANY = [(1, 1), (1, 16), (2, 16), (4, 16), (4, 64)]
LOADS = [
    (Load(payload=20, consumers=1, rounds=1000), ONE),
    (Load(payload=20, consumers=100, rounds=10), MANY),
    (Load(payload=20, consumers=1000, rounds=1), MANY),
    (Load(payload=256, consumers=1, rounds=1000), [(1, 1)]),
    (Load(payload=256, consumers=100, rounds=10), [(2, 16)]),
    (Load(payload=256, consumers=1000, rounds=1), [(2, 16)]),
]
# The load at which the servers keep their data in a file, too, and at which the library is measured alone.
KEPT = LOADS[1][0]


@dataclass(frozen=True)
class Broker:
    """A server, which keeps its data in a file or doesn't."""

    kind: object
    keeps: bool

    @property
    def name(self):
        return self.kind.NAMES[self.keeps]

    def run(self, load):
        return self.kind.run(load, self.keeps)


def ways_of(program, load, settings):
    """All ways to do a load."""
    ways = [Library(program, silos, queues) for silos, queues in settings]
    for keeps in [False, True] if load == KEPT else [False]:
        ways += [Broker(redis_streams, keeps), Broker(nats_jetstream, keeps)]
    return ways


def measure_all(program, turns):
    """The runs of each load and way, which take turns, and what is measured of the library alone."""
    runs, alone = defaultdict(list), Alone(program, KEPT)
    for turn in range(turns):
        for load, settings in LOADS:
            for way in ways_of(program, load, settings):
                runs[load, way].append(way.run(load))
        alone.measure()
        print(f"turn {turn + 1} of {turns} is done", file=sys.stderr, flush=True)
    return runs, alone


def speeds(load, runs):
    return sorted(load.events / run.seconds for run in runs)


def told_load(load):
    return f"{counted(load.consumers, 'consumer')}, {load.payload} bytes"


def rows_of(load, runs):
    """The rows of a load: each way's events a second, its ratios to both servers, and processor time."""
    own = {way: done for (other, way), done in runs.items() if other == load}
    servers = [way for way in own if isinstance(way, Broker) and not way.keeps]
    medians = {way: statistics.median(speeds(load, done)) for way, done in own.items()}
    for way, done in own.items():
        most = speeds(load, done)
        ratios = [f"{medians[way] / medians[server]:.2f}" for server in servers]
        per_event = 1e6 / load.events
        spent = statistics.median(run.server for run in done) * per_event
        clients = statistics.median(run.clients for run in done) * per_event
        yield [
            way.name,
            f"{medians[way]:,.0f}",
            f"{most[0]:,.0f} to {most[-1]:,.0f}",
            *ratios,
            f"{spent:.1f}",
            "" if isinstance(way, Library) else f"{clients:.1f}",
        ]


HEAD = [
    "Way", "Events a second", "Least to most", "To Redis", "To JetStream", "Processor µs an event", "Its clients' µs",
]  # fmt: skip


def first_line(*words):
    return subprocess.run(words, stdout=subprocess.PIPE, text=True, check=True).stdout.split("\n")[0]


def machine():
    """The rows that say on what was measured."""
    with open("/proc/cpuinfo") as it:
        model = re.search(r"model name\s*: (.*)", it.read())
    with open("/proc/meminfo") as it:
        memory = int(re.search(r"MemTotal:\s*(\d+) kB", it.read())[1]) / 2**20
    yield ["processors", f"{os.cpu_count()}, {model[1] if model else platform.machine()}"]
    yield ["memory", f"{memory:.0f} GiB"]
    yield ["system", f"{platform.system()} {platform.release()}, {platform.machine()}"]
    yield ["Redis", re.search(r"v=(\S+)", first_line("redis-server", "--version"))[1]]
    yield ["NATS", first_line("nats-server", "--version").split()[-1]]
    yield ["clients of the servers", f"Python {platform.python_version()}"]


def main():
    program = os.path.abspath(sys.argv[1])
    turns = int(sys.argv[2]) if len(sys.argv) > 2 else TURNS
    before, start = os.getloadavg()[0], time.time()
    runs, alone = measure_all(program, turns)
    after, minutes = os.getloadavg()[0], (time.time() - start) / 60
    about = list(machine())
    about.append(["processes that ran or waited to run", f"{before:.1f} at the start, {after:.1f} at the end"])
    about.append(["turns", f"{turns}, in {counted(round(minutes), 'minute')}"])
    print_table(["What", "Which"], about)
    for load, _ in LOADS:
        print(f"### {told_load(load)}: {load.events:,} events\n")
        print_table(HEAD, rows_of(load, runs))
    alone.print()
    groups = []
    for load, _ in LOADS:
        bars = [(way.name, statistics.median(speeds(load, done))) for (own, way), done in runs.items() if own == load]
        groups.append((told_load(load), bars))
    with open(CHART, "w") as it:
        it.write(chart.draw("Events a second, from publish to acknowledged", groups))


if __name__ == "__main__":
    main()
