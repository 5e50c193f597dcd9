#!/usr/bin/env python3
"""Compares README.md and docs/*.md with the programs, once rt ci has built these.

Each block of `text` in README.md has to be what a program prints that a command of README.md runs, or a front of that,
where the block ends with a line `..`. Each command in a block of `sh` has to be one that can be given: its folders and
files are there, rt has its verb, and what is called has its options. So has each that stands in a line between backquotes
and calls rt, streams or python3. A line names each mistake, and the status is 1.
"""

import re
import subprocess
import sys
from functools import lru_cache
from pathlib import Path
from typing import NamedTuple, Optional

ROOT = Path(__file__).resolve().parent.parent
PAGES = [ROOT / "README.md", *sorted(ROOT.glob("docs/*.md"))]
BLOCK = re.compile(r"^```(\w*)\n(.*?)^```$|((?:^ {4}[^\n]*\n)+)", re.M | re.S)
SPAN = re.compile(r"`((?:rt|streams|python3) [^`\n]+)`")
SHELL = ("cd", "rt", "streams", "python3", "git", "cp", "apt-get", ".ci/run")


class Command(NamedTuple):
    """A command of a page: its line, the folder in which it is given, its words, and the file that it reads, if any."""
    line: int
    folder: Path
    words: list
    reads: Optional[str]


def blocks(text):
    """The blocks of a page: the line above each, its language, and its text. An indented block has no language."""
    for block in BLOCK.finditer(text):
        line = text.count("\n", 0, block.start()) + 1
        yield (line, block[1], block[2]) if block[3] is None else (line - 1, None, block[3])


def command_of(line, folder, text):
    """The command of a line. What stands in brackets may be left out, and is looked at all the same."""
    words = re.sub(r"[][]", "", text).split()
    at = words.index("<") if "<" in words else len(words)
    return Command(line, folder, words[:at], words[at + 1] if at + 1 < len(words) else None)


def commands_of(text):
    """The commands in the blocks of a page. Each `cd` leads on from the folder that the one before led to."""
    folder = ROOT
    for above, language, block in blocks(text):
        for line, words in enumerate(block.splitlines() if language == "sh" else [], above + 1):
            command = command_of(line, folder, words)
            if command.words:
                yield command
                folder = folder.joinpath(*command.words[1:2]) if command.words[0] == "cd" else folder


def spans_of(text):
    """The commands of a page that stand in its lines, each as if given at the top."""
    for line, words in enumerate(text.splitlines(), 1):
        for span in SPAN.findall(words):
            yield command_of(line, ROOT, span)


def built(name):
    """The built program of a crate."""
    return ROOT / "crates" / name / "out" / name


def arguments_of(command):
    """The words behind `--`: what rt hands to a program."""
    return command.words[command.words.index("--") + 1:] if "--" in command.words else []


@lru_cache(maxsize=None)
def told(*words):
    """What a call prints, on standard output and behind it on standard error."""
    called = subprocess.run(words, stdin=subprocess.DEVNULL, capture_output=True, text=True, timeout=60)
    return called.stdout + called.stderr


def unknown_options(words, known):
    """The options among some words that don't stand in a text."""
    for word in words:
        option = word.split("=")[0]
        if option.startswith("--") and len(option) > 2 and not re.search(rf"(?<![\w-]){option}(?![\w-])", known):
            yield option


def program_mistakes(name, words):
    """What is wrong with the words of a program. Its help, or that of the subcommand in front, has its options."""
    if not any(word.startswith("--") for word in words):
        return
    if not built(name).exists():
        yield f"{built(name).relative_to(ROOT)} isn't built"
        return
    asked = [*words[:0 if words[0].startswith("-") else 1], "--help"]
    for option in unknown_options(words, told(str(built(name)), *asked)):
        yield f"{option}: not in what `{name} {' '.join(asked)}` prints"


def rt_mistakes(command):
    """What is wrong with the words of rt, and with those that it hands to the program of its folder."""
    help_text = told("rt", "help")
    verbs = "|".join(re.findall(r"^(?:usage:)?\s+rt ([\w|-]+)", help_text, re.M)).split("|")
    at = command.words.index("--") if "--" in command.words else len(command.words)
    if command.words[1] not in verbs:
        yield f"{command.words[1]}: not in what `rt help` prints"
    for option in unknown_options(command.words[1:at], help_text):
        yield f"{option}: not in what `rt help` prints"
    yield from program_mistakes(command.folder.resolve().name, arguments_of(command))


def mistakes_in(command):
    """What is wrong with a command."""
    first, *others = command.words
    named = others if first == "cd" else [word for word in command.words if "/" in word and not word.startswith("-")]
    missing = [word for word in [*named, command.reads] if word and not (command.folder / word).exists()]
    yield from (f"{word}: no such file or folder" for word in missing)
    if first == "rt" and others:
        yield from rt_mistakes(command)
    if first == "streams":
        yield from program_mistakes("stream_console", others)
    if first == "python3" and (script := command.folder / others[0]).is_file():
        for option in unknown_options(others[1:], script.read_text()):
            yield f"{option}: not in {others[0]}"


def outputs_of(text):
    """What the commands of a page print that run a program, by the words of each. Those that can't be given print nothing."""
    outputs = {}
    for command in commands_of(text):
        program = built(command.folder.resolve().name)
        reads = command.folder / command.reads if command.reads else Path("/dev/null")
        if command.words[:2] in (["rt", "try"], ["rt", "run"]) and program.exists() and reads.exists():
            with reads.open() as source:
                called = subprocess.run([program, *arguments_of(command)], cwd=command.folder, stdin=source,
                                        stdout=subprocess.PIPE, text=True, timeout=60)
            outputs[" ".join([program.name, *arguments_of(command)])] = called.stdout.splitlines()
    return outputs


def differing(shown, printed):
    """The first line by which a block differs from what was printed, counted from 0. A block that ends with `..` shows a
    front; else both end together."""
    if shown[-1:] == [".."]:
        shown, printed = shown[:-1], printed[:len(shown) - 1]
    pairs = zip(shown, printed)
    at = next((at for at, (one, other) in enumerate(pairs) if one != other), min(len(shown), len(printed)))
    return None if at == len(shown) == len(printed) else at


def output_mistakes(text):
    """Where a page shows what no program prints. Each such block is compared with what comes nearest."""
    outputs = outputs_of(text)
    for above, language, block in blocks(text):
        if language == "text":
            shown = block.splitlines()
            ways = {words: differing(shown, printed) for words, printed in outputs.items()}
            if not ways:
                yield above, "no program is built that could print this"
            elif None not in ways.values():
                nearest = max(ways, key=ways.get)
                at = ways[nearest]
                one, other = (repr(lines[at]) if at < len(lines) else "no line" for lines in (shown, outputs[nearest]))
                yield above + at + 1, f"{one}, where `{nearest}` prints {other}"


def page_mistakes(page):
    """The mistakes of a page, each with its line."""
    text = page.read_text()
    for command in [*commands_of(text), *spans_of(text)]:
        yield from ((command.line, mistake) for mistake in mistakes_in(command))
    for above, language, block in blocks(text):
        if language is None and block.strip() and block.split()[0] in SHELL:
            yield above + 1, "a command outside a block of sh"
    if page.name == "README.md":
        yield from output_mistakes(text)


def main():
    """The status: 0 where there is no mistake."""
    status = 0
    for page in PAGES:
        for line, mistake in sorted(set(page_mistakes(page))):
            print(f"{page.relative_to(ROOT)}:{line}: {mistake}")
            status = 1
    return status


if __name__ == "__main__":
    sys.exit(main())
