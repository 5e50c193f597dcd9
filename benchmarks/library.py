"""The library in the process of the program benchmarks, and what is measured of it alone."""
import os
import re
import statistics
import subprocess
from collections import defaultdict
from dataclasses import dataclass

from common import Run, counted, print_table

QUEUES = 16
SILOS = [1, 2, 4]
# How many microseconds the handler takes, and whether one stream has half of all events.
KINDS = [(0, False), (1, False), (10, False), (0, True)]
# Latencies are those of so many single events.
LATENCY_SILOS = [1, 4]
LATENCY_EVENTS = 10_000
LATENCY_HEAD = ["Silos", "Events a second", "Median, µs", "99 of 100 within, µs", "All within, µs"]

THROUGHPUT = re.compile(r"(\d+) events in ([\d.]+) seconds\n")
LATENCY = re.compile(
    r"(\d+) events, (\d+) a second: a median of ([\d.]+) microseconds, 99 of 100 within ([\d.]+), all within ([\d.]+)\n"
)


@dataclass(frozen=True)
class Library:
    """The library on so many silos and queues. The handler takes so many microseconds, and one stream may have half of
    all events.
    """

    program: str
    silos: int
    queues: int
    handler: int = 0
    skewed: bool = False

    @property
    def name(self):
        return f"streams, {counted(self.silos, 'silo')}, {counted(self.queues, 'queue')}"

    def ask(self, form, *words):
        """What the program prints, as this form finds it, and the processor time that it took."""
        process = subprocess.Popen([self.program, "time", *map(str, words)], stdout=subprocess.PIPE, text=True)
        told = process.stdout.read()
        _, status, used = os.wait4(process.pid, 0)
        found = form.fullmatch(told)
        if status or not found:
            raise RuntimeError(f"{self.name} ended with {status}: {told}")
        return found, used.ru_utime + used.ru_stime

    def run(self, load):
        numbers = (self.silos, self.queues, load.payload, load.consumers, load.rounds, self.handler)
        found, spent = self.ask(THROUGHPUT, "throughput", *numbers, *["skewed"] * self.skewed)
        if int(found[1]) != load.events:
            raise RuntimeError(f"{self.name} handled {found[1]} events")
        return Run(float(found[2]), spent, 0)

    def latency(self, load):
        """Events a second, and the microseconds of the median, of 99 of 100 and of the slowest of them."""
        found, _ = self.ask(LATENCY, "latency", self.silos, self.queues, load.consumers, LATENCY_EVENTS)
        return [float(number) for number in found.groups()[1:]]


class Alone:
    """What is measured of the library alone: slow handlers, a skewed load, and latencies."""

    def __init__(self, program, load):
        self.program = program
        self.load = load
        self.speeds = defaultdict(list)
        self.latencies = defaultdict(list)

    def measure(self):
        """One turn."""
        for kind in KINDS:
            for silos in SILOS:
                way = Library(self.program, silos, QUEUES, *kind)
                self.speeds[kind, silos].append(self.load.events / way.run(self.load).seconds)
        for silos in LATENCY_SILOS:
            self.latencies[silos].append(Library(self.program, silos, QUEUES).latency(self.load))

    def print(self):
        consumers, queues = counted(self.load.consumers, "consumer"), counted(QUEUES, "queue")
        print(f"### Slow handlers and a skewed load: {consumers}, {queues}, {self.load.events:,} events\n")
        print_table(["Handler", *(counted(silos, "silo") for silos in SILOS)], map(self.speed_row, KINDS))
        print(f"### Latency: {consumers}, {queues}, {LATENCY_EVENTS:,} events\n")
        print_table(LATENCY_HEAD, map(self.latency_row, LATENCY_SILOS))

    def speed_row(self, kind):
        """A kind's events a second on each number of silos: the median, the least and the most."""
        handler, skewed = kind
        row = [f"{handler} µs, skewed" if skewed else f"{handler} µs"]
        for silos in SILOS:
            speeds = self.speeds[kind, silos]
            row.append(f"{statistics.median(speeds):,.0f} ({min(speeds):,.0f} to {max(speeds):,.0f})")
        return row

    def latency_row(self, silos):
        """The median of all turns, and of the slowest events that of the slowest turn."""
        *others, slowest = zip(*self.latencies[silos])
        rate, median, most = map(statistics.median, others)
        return [str(silos), f"{rate:,.0f}", f"{median:,.1f}", f"{most:,.1f}", f"{max(slowest):,.1f}"]
