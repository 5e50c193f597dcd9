#!/usr/bin/env python3
"""Compares what builds of the program give for the examples with the replies that stand beside them.

    examples.py PROGRAM ..

Of the worked examples, which have their replies in comments, and behind these the fault that they end with, each has to
give them. What is expected to differ has to differ, so that a comparison that sees nothing is noticed. Where all is
right, nothing is printed. Else a line names each example that gives something else, and the status is 1.
"""

import subprocess
import sys
from pathlib import Path

from random_runs import Differs, compare, histories, perform

EXAMPLES = Path(__file__).resolve().parent.parent / "examples"
# Scripts with their words, and whether their replies are those beside them: a larger cache gives others.
SCRIPTS = [
    ("orders", ["sim"], True),
    ("device_readings", ["sim", "--blocks", "2"], True),
    ("device_readings", ["sim"], False),
    ("game_events", ["sim", "--queues", "4"], True),
    ("auctions", ["run", "--silos", "2", "--queues", "4"], True),
]
# A script whose trace repeats it, and its words.
TRACED = "auctions", ["--silos", "2", "--queues", "4"]
# Files of worked examples with their words, and how many don't give their replies then: those of a cache of one block
# differ with a larger one.
WORKED = [
    ("one_block", ["--blocks", "1"], 0),
    ("one_block", ["--blocks", "4"], 4),
    ("two_blocks", ["--blocks", "2"], 0),
    ("four_blocks", [], 0),
    ("two_queues", ["--queues", "2"], 0),
    ("faulty_lines", [], 0),
]


def differs(wanted, given):
    """How the lines differ, if they do."""
    try:
        compare(wanted, given)
    except Differs as found:
        return found
    return None


def check_script(program, name, words, is_same):
    """A script has to give the replies beside it, or others."""
    given = perform(program, words, (EXAMPLES / f"{name}.script").read_text())
    found = differs((EXAMPLES / f"{name}.replies").read_text().splitlines(), given)
    if is_same and found:
        raise found
    if not is_same and not found:
        raise Differs("the same replies, where others are expected")


def check_trace(program, name, words):
    """The history of each queue has to give its replies when it is simulated, and others where one is left out."""
    script = (EXAMPLES / f"{name}.script").read_text()
    for number, history in enumerate(histories(perform(program, ["trace", *words], script))):
        asked = "".join(line + "\n" for line, _ in history)
        sizes = words[words.index("--queues"):]
        told = [it for it in perform(program, ["sim", *sizes], asked) if it.startswith(f"{number} ")]
        replies = [reply for _, reply in history]
        compare(replies, told)
        if not replies or not differs(replies[1:], told):
            raise Differs(f"queue {number}: no difference is seen where a reply is left out")


def is_worked(program, words, example):
    """Whether an example gives the replies in its comments, with the fault that it ends with."""
    text = "".join(line + "\n" for line in example)
    done = subprocess.run([program, "sim", *words], input=text, capture_output=True, text=True, timeout=60)
    told = [line.removeprefix("# ") for line in example if line.startswith("# ")]
    return (done.stdout + done.stderr.removeprefix("streams: ")).splitlines() == told


def check_worked(program, name, words, wrong):
    """So many examples of a file may give something else. An example ends at an empty line."""
    examples = (EXAMPLES / "worked" / f"{name}.script").read_text().strip("\n").split("\n\n")
    others = [it for it in examples if not is_worked(program, words, it.split("\n"))]
    if len(others) != wrong:
        raise Differs(f"{len(others)} of {len(examples)} give something else, and not {wrong}: {others[:1]}")


def main(programs):
    """The status: 0 where each program gives what it has to."""
    checks = [(check_script, *row) for row in SCRIPTS] + [(check_trace, *TRACED)] + [(check_worked, *row) for row in WORKED]
    status = 0
    for program in programs:
        for check, name, words, *expected in checks:
            try:
                check(program, name, words, *expected)
            except Differs as found:
                print(f"{program}: example {name}, {' '.join(words)}: {found}")
                status = 1
    return status


if __name__ == "__main__":
    sys.exit(main(sys.argv[1:]))
