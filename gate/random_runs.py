#!/usr/bin/env python3
"""Runs scripts that are drawn at random, and compares what the program prints with what it has to print.

    random_runs.py PROGRAM [SEED ..]

That text is computed here, from the lines of the script and from which of them were printed as misses. Which may be
misses is computed, too, as bounds of the low token. Some scripts are traced as well: a simulation of each queue's
history has to give the replies in its comments, and the producer's lines there have to be those of the script.

Where all is right, nothing is printed. Else it prints the seed, the words and the first line that differs, keeps the
script, and ends with status 1.
"""

import hashlib
import random
import re
import subprocess
import sys
import tempfile
from itertools import zip_longest

SEEDS = range(100)
# Each fifth script is traced.
TRACED = 5
BLOCK = 64
MOST_TEXTS = 64
LAST = (2**64 - 1, 2**32 - 1)
NAMES = ["o", "orders", "Orders", "a.b", "a-b", "_", "7", "z" * 64]
KINDS = ["g", "log", "Log", "k.1"]
TEXTS = ["", "tea", 'a "b"', "\\", "milk & \\\"", "~" * 256]
VERBS = {"pub": 60, "latest": 8, "from": 12, "unsub": 6, "rule": 3, "drain": 4, "up": 3, "down": 5}


class Differs(Exception):
    """The program does something else than it has to."""


def place(stream, queues):
    """The queue of a stream."""
    digest = hashlib.sha256("\0".join(stream).encode()).digest()
    return int.from_bytes(digest[:8], "big") % queues


def token_text(token):
    return "%d.%d" % token


def quoted(text):
    return '"' + text.replace("\\", "\\\\").replace('"', '\\"') + '"'


def line_of(command):
    """The line of a command, with single spaces."""
    verb, *words = command
    if verb == "pub":
        stream, texts = words
        return " ".join(["pub", "/".join(stream), *map(quoted, texts)])
    if verb == "latest":
        stream, grain = words
        return f"sub {'/'.join(stream)} {'/'.join(grain)} latest"
    if verb == "from":
        stream, grain, token = words
        return f"sub {'/'.join(stream)} {'/'.join(grain)} from {token_text(token)}"
    if verb == "unsub":
        return "unsub %d:%s" % tuple(words)
    return " ".join([verb, *map(str, words)])


def draw_token(draw, batches):
    """A start token, mostly of a batch that a queue with so many batches has, or will soon have."""
    if draw.random() < 0.05:
        return LAST
    seq = draw.choice([0, draw.randint(0, batches + 2), max(0, batches - draw.randint(0, 20))])
    return seq, draw.choice([0, 0, draw.randint(0, 9)])


def draw_command(draw, verb, streams, batches):
    """A command on one of the streams. The queues have so many batches each."""
    stream = draw.choice(streams)
    queue = place(stream, len(batches))
    grain = draw.choice(KINDS), draw.choice(NAMES)
    if verb == "pub":
        count = draw.choice([1, draw.randint(1, 8)])
        if draw.random() < 0.05:
            count = draw.choice([0, MOST_TEXTS, MOST_TEXTS + 1])
        if 1 <= count <= MOST_TEXTS:
            batches[queue] += 1
        return "pub", stream, [draw.choice(TEXTS) for _ in range(count)]
    if verb == "latest":
        return "latest", stream, grain
    if verb == "from":
        return "from", stream, grain, draw_token(draw, batches[queue])
    if verb == "unsub":
        if draw.random() < 0.2:
            return "unsub", queue, f"{grain[0]}@{'/'.join(stream)}"
        return "unsub", queue, draw.choice([draw.randint(1, 4), draw.randint(1, 20)])
    if verb == "rule":
        return "rule", draw.choice(KINDS), stream[0]
    if verb == "drain":
        return ("drain",)
    return verb, draw.choice([0, draw.randint(0, 3), draw.randint(0, 15)])


def draw_script(draw, queues):
    """Lines, each with its command, or with none where it is skipped."""
    names = NAMES + ["n%d" % draw.randrange(1000) for _ in range(8)]
    streams = [(draw.choice(names), draw.choice(names)) for _ in range(draw.choice([1, 4, 8, 30]))]
    batches = [0] * queues
    stay = draw.random() < 0.4
    weights = [0 if stay and verb in ("up", "down") else weight for verb, weight in VERBS.items()]
    lines = []
    for verb in draw.choices(list(VERBS), weights, k=draw.choice([0, 20, 40, 100, 200])):
        while draw.random() < 0.05:
            lines.append((draw.choice(["", "  ", "# pub o/k", "#\t"]), None))
        command = draw_command(draw, verb, streams, batches)
        spaced = line_of(command)
        if draw.random() < 0.1:
            spaced = "  " + spaced.replace(" latest", "   latest") + draw.choice([" ", "\r"])
        lines.append((spaced, command))
    return lines


class Queue:
    """What a queue has taken, and what its producer was answered. Its cache begins at a position from `least` on."""

    def __init__(self, blocks):
        self.room = BLOCK * blocks
        self.batches = 0
        self.events = []
        self.subs = []
        self.rules = {}
        self.least = 0
        self.moved = False
        self.told = []

    def most(self):
        """The last position at which the cache may begin: a block is dropped only for the room of another one."""
        if self.moved:
            return len(self.events)
        return -(-max(0, len(self.events) - self.room) // BLOCK) * BLOCK

    def token_at(self, position):
        return self.events[position][1] if position < len(self.events) else (self.batches, 0)

    def drain(self):
        """All is pulled, so the cache has the last events, and not more than it has room for."""
        self.least = max(self.least, len(self.events) - self.room if self.moved else self.most())

    def publish(self, stream, texts):
        if not 1 <= len(texts) <= MOST_TEXTS:
            return "bad-batch"
        self.events += [(stream, (self.batches, index), text) for index, text in enumerate(texts)]
        self.batches += 1
        return f"published {self.batches - 1}"

    def miss(self, token, is_missed):
        """A start token was a miss, or wasn't."""
        if is_missed and not token < self.token_at(self.most()):
            raise Differs(f"a miss, though the low token is {token_text(self.token_at(self.most()))} at most")
        if not is_missed and token < self.token_at(self.least):
            raise Differs(f"no miss, though the low token is {token_text(self.token_at(self.least))} at least")
        if is_missed:
            passed = sum(event[1] <= token for event in self.events)
            self.least = max(self.least, passed)

    def subscribe(self, stream, grain, start):
        self.subs.append([stream, grain, start, True])
        return f"subscribed {len(self.subs)}"

    def unsubscribe(self, name):
        if isinstance(name, str) or name > len(self.subs):
            return None
        if not self.subs[name - 1][3]:
            return "closed"
        self.subs[name - 1][3] = False
        return "unsubscribed"

    def add_rule(self, kind, namespace):
        if (kind, namespace) in self.rules:
            return "rule-there"
        self.rules[kind, namespace] = self.batches, 0
        return f"rule-added {self.batches}"

    def records(self):
        """The subscriptions in the order of their names. Of an implicit one there are some events."""
        for number, (stream, grain, start, is_open) in enumerate(self.subs, 1):
            yield number, stream, grain, start, is_open
        implicit = {
            (kind, *stream): start
            for (kind, namespace), start in self.rules.items()
            for stream, token, _ in self.events
            if stream[0] == namespace and token >= start
        }
        for kind, namespace, key in sorted(implicit):
            name = f"{kind}@{namespace}/{key}"
            yield name, (namespace, key), (kind, key), implicit[kind, namespace, key], True

    def report(self, number):
        for name, stream, grain, start, is_open in self.records():
            if not is_open:
                yield f"{number}:{name} closed"
                continue
            events = [event for event in self.events if event[0] == stream and event[1] >= start]
            yield f"{number}:{name} {'/'.join(stream)} {'/'.join(grain)} {token_text(start)} {len(events)}"
            yield from (f"  {token_text(token)} {quoted(text)}" for _, token, text in events)


class Run:
    """What a run has to do. The lines that are misses are given."""

    def __init__(self, queues, silos, blocks, misses):
        self.queues = [Queue(blocks) for _ in range(queues)]
        self.live = set(range(silos))
        self.misses = misses
        self.printed = []

    def ask(self, queue, command, do, *words):
        """Whether a queue's answer, which is told, is a refusal."""
        reply = do(*words)
        queue.told.append((line_of(command), reply))
        return reply in (None, "bad-batch", "closed", "rule-there")

    def change(self, verb, silo):
        """Whether a silo can't come or go."""
        if (silo in self.live) == (verb == "up") or self.live == {silo}:
            return True
        self.live ^= {silo}
        for queue in self.queues:
            queue.moved = True
        return False

    def start(self, line, queue, command):
        """A subscription from a token on."""
        _, stream, grain, token = command
        is_missed = line in self.misses
        try:
            queue.miss(token, is_missed)
        except Differs as differs:
            raise Differs(f"line {line}, {line_of(command)}: {differs}") from None
        if is_missed:
            self.printed.append(f"miss {line}")
            queue.told.append((line_of(command), f"miss {token_text(token)}"))
        else:
            self.ask(queue, command, queue.subscribe, stream, grain, token)

    def do(self, line, command):
        verb, *words = command
        refused = False
        if verb in ("up", "down"):
            refused = self.change(verb, *words)
        elif verb == "drain":
            for queue in self.queues:
                queue.drain()
        elif verb == "rule":
            for queue in self.queues:
                refused = self.ask(queue, command, queue.add_rule, *words)
        elif verb == "unsub":
            queue = self.queues[words[0]]
            refused = self.ask(queue, command, queue.unsubscribe, words[1])
        else:
            queue = self.queues[place(words[0], len(self.queues))]
            if verb == "pub":
                refused = self.ask(queue, command, queue.publish, *words)
            elif verb == "from":
                self.start(line, queue, command)
            else:
                self.ask(queue, command, queue.subscribe, *words, (queue.batches, 0))
        if refused:
            self.printed.append(f"refused {line}")

    def do_all(self, lines):
        for line, (_, command) in enumerate(lines, 1):
            if command:
                self.do(line, command)

    def text(self):
        yield from self.printed
        yield "report"
        for number, queue in enumerate(self.queues):
            yield from queue.report(number)


def perform(program, words, script):
    """What the program prints, line by line."""
    try:
        done = subprocess.run([program, *words], input=script, capture_output=True, text=True, timeout=60)
    except subprocess.TimeoutExpired:
        raise Differs("it doesn't end") from None
    if done.returncode or done.stderr:
        raise Differs(f"status {done.returncode}: {done.stderr.strip()}")
    return done.stdout.splitlines()


def compare(wanted, given):
    """The lines have to be the same."""
    for number, (want, has) in enumerate(zip_longest(wanted, given), 1):
        if want != has:
            raise Differs(f"output line {number}: wanted {want!r}, given {has!r}")


def check_run(program, size, words, lines, script):
    given = perform(program, ["run", *words], script)
    misses = {int(line.split()[1]) for line in given if line.startswith("miss ")}
    run = Run(*size, misses)
    run.do_all(lines)
    compare(run.text(), given)


def histories(trace):
    """The lines of each queue's history, with their replies."""
    found = []
    for line in trace:
        if line.startswith("# queue "):
            found.append([])
        elif line.startswith("# "):
            found[-1][-1][1] = line[2:]
        else:
            found[-1].append([line, None])
    return found


def is_told(reply, wanted):
    """Whether a reply is the wanted one, which may leave its last words out, or refuses a name that isn't known."""
    if wanted is None:
        return reply in ("no-such", "implicit")
    return reply == wanted or reply.startswith(wanted + " ")


def check_told(queue, number, history):
    """The producer's lines in a history are those that were told at its queue."""
    asked = [(line, reply) for line, reply in history if re.match("pub |sub |unsub |rule ", line)]
    for want, has in zip_longest(queue.told, asked, fillvalue=("", "")):
        if want[0] != has[0] or not is_told(has[1].removeprefix(f"{number} "), want[1]):
            raise Differs(f"history of queue {number}: wanted {want}, given {has}")


def misses_in(lines, found):
    """The lines of subscriptions from a token on that were answered as misses."""
    starts = [iter([reply for line, reply in history if re.match("sub .* from ", line)]) for history in found]
    for line, (_, command) in enumerate(lines, 1):
        if command and command[0] == "from" and " miss " in next(starts[place(command[1], len(found))], ""):
            yield line


def check_trace(program, size, words, lines, script):
    found = histories(perform(program, ["trace", *words], script))
    if len(found) != size[0]:
        raise Differs(f"histories of {len(found)} queues")
    run = Run(*size, set(misses_in(lines, found)))
    run.do_all(lines)
    queues, _, blocks = size
    for number, history in enumerate(found):
        check_told(run.queues[number], number, history)
        asked = "".join(line + "\n" for line, _ in history)
        replies = perform(program, ["sim", "--queues", str(queues), "--blocks", str(blocks)], asked)
        compare((reply for _, reply in history), (it for it in replies if it.startswith(f"{number} ")))


def check(program, seed):
    """Whether a script that is drawn from this seed is done as it has to be."""
    draw = random.Random(seed)
    silos = seed % 16 + 1
    queues = draw.choice([1, 1, 2, 4, draw.randint(3, 16), draw.randint(5, 64)])
    blocks = draw.choice([1, 1, 2, 4, draw.randint(5, 64)])
    size = queues, silos, blocks
    words = ["--silos", str(silos), "--queues", str(queues), "--blocks", str(blocks)]
    lines = draw_script(draw, queues)
    script = "".join(line + "\n" for line, _ in lines)
    tries = [("run", check_run)] + [("trace", check_trace)] * (seed % TRACED == 0)
    for verb, check_it in tries:
        try:
            check_it(program, size, words, lines, script)
        except Differs as differs:
            with tempfile.NamedTemporaryFile("w", prefix=f"random_run_{seed}_", suffix=".script", delete=False) as kept:
                kept.write(script)
            print(f"seed {seed}: {' '.join([verb, *words])} {kept.name}\n    {differs}")
            return False
    return True


def main():
    program, *seeds = sys.argv[1:]
    results = [check(program, seed) for seed in map(int, seeds or SEEDS)]
    return 0 if all(results) else 1


if __name__ == "__main__":
    sys.exit(main())
