#!/usr/bin/env python3
"""Writes docs/DEFINITIONS.md: the definitions that the clauses of public calls name, with their comments in specs/.

Without words the file is written. With --check it is compared with the sources: where they differ, one line names
the first difference, and the status is 1. So it is too where a clause names a definition that has no comment: then a
line names each such definition, and nothing is written.
"""

import re
import sys
from itertools import zip_longest

from clauses import ROOT, calls_of, first_sentence, libraries

PAGE = ROOT / "docs" / "DEFINITIONS.md"
HEAD = """# Definitions

These are the definitions that the clauses of public calls name, and a few on which these rest, each with its comment in the
crate's `specs/` folder, where it stands in antt, the language of Rattle's contracts. Whoever changes one of them changes its
comment there: `gate/definitions.py` writes this page. `python3 gate/clauses.py` writes the clauses into `out/CLAUSES.md`.
"""
# Definitions that no clause names itself, and on which those rest that clauses name.
BASES = {
    "stream_ident/Text": ["or_else"],
    "stream_model/History": ["published_events", "binding_of", "owed_events", "handled_events", "is_closed", "last_note",
                             "low_told", "times_begun", "times_committed"],
    "stream_model/Looks": ["quiet"],
    "stream_model/Step": ["Stands"],
    "stream_laws/Laws": ["IsOneHistory"],
    "ranked_index/Keys": ["least_key", "first_at_most", "least_place", "filled"],
    "pulling_agent/Agent": ["pulled"],
    "subscription_table/Idle": ["IsIdle"],
    "step_core/Assembly": ["Agrees"],
    "step_core/Figures": ["pressed_by"],
    "script_checker/Scripts": ["IsPlacedIn"],
    "script_runs/Telling": ["Tells"],
    "script_runs/Told": ["told"],
    "script_runs/Traces": ["found_nothing", "busy"],
    "streams/Answers": ["start_for", "checked_token", "ComesTo"],
    "streams/Services": ["SeesNext"],
    "streams/Settling": ["Counts"],
    "script_tasks/Printing": ["without_events", "seen"],
    "script_tasks/Tasks": ["IsAsked"],
}
IMPORT = re.compile(r"ghost use Rattle\.(\w+)\.specs\.(\w+)(?: as (\w+)|\.\{([^}]*)\});")
DEFINITION = re.compile(r"\s*(?:(?:abbrev|unfoldable) pub|pub (?:record|data)) (\S+)")


def spec_files(crate):
    """The files of the crate's specs/, in the order of its Lib.antt."""
    folder = ROOT / "crates" / crate / "specs"
    listed = (folder / "Lib.antt").read_text() if folder.exists() else ""
    return [folder / f"{module}.antt" for module in re.findall(r"^pub mod (\w+)", listed, re.M)]


def sentence(comment):
    """The lines of a comment as a sentence."""
    text = " ".join(line.strip()[2:].strip() for line in comment)
    return text if text.endswith(".") or not text else text + "."


def head_comment(lines):
    """What a file says of itself, in its first lines."""
    count = next((at for at, line in enumerate(lines) if not line.startswith("--")), len(lines))
    return sentence(lines[:count])


def comment_above(lines, at):
    """The comment right above this line."""
    first = at
    while first > 0 and lines[first - 1].strip().startswith("--"):
        first -= 1
    return sentence(lines[first:at])


def definitions_of(file):
    """The public definitions of a file: the name of each, its comment and its line."""
    lines = file.read_text().splitlines()
    for at, line in enumerate(lines):
        if match := DEFINITION.match(line):
            yield match[1], comment_above(lines, at), at + 1


def imports_of(file):
    """Where the words come from that a source file has from specs/: definitions by crate, file and name, whole files by
    crate and file."""
    imports = {}
    for crate, module, alias, words in IMPORT.findall(file.read_text()):
        if alias:
            imports[alias] = (crate, module)
        for word in filter(None, (word.strip() for word in words.split(","))):
            name, _, renamed = word.partition(" as ")
            imports[renamed or name] = (crate, module, name)
    return imports


def named_definitions():
    """What the clauses of public calls name, by crate, file and name, with a call that names it."""
    named = {}
    for crate, source in libraries():
        for title, file, _, clauses in calls_of(source):
            imports = imports_of(file)
            for word in re.findall(r"[^\s(){};,]+", " ".join(clauses)):
                first, *others = word.split(".")
                if first in imports:
                    named.setdefault((*imports[first], *others)[:3], f"{crate} {title}")
    return named


def missing_comments(named):
    """A line for each definition that should stand on the page and has no comment, or isn't there."""
    missing = []
    unmet = {f"{base} {name}" for base, names in BASES.items() for name in names}
    for crate, _ in libraries():
        for file in spec_files(crate):
            for name, comment, line in definitions_of(file):
                call = named.get((crate, file.stem, name))
                is_base = name in BASES.get(f"{crate}/{file.stem}", [])
                unmet.discard(f"{crate}/{file.stem} {name}")
                if (call or is_base) and not comment:
                    why = f"a clause of {call} names it" if call else "others rest on it"
                    missing.append(f"{file.relative_to(ROOT)}:{line}: {name} has no comment, and {why}")
    return missing + [f"gate/definitions.py: {base}: no such definition" for base in sorted(unmet)]


def page(named):
    """The whole page."""
    parts = [HEAD]
    for crate, source in libraries():
        entries = []
        for file in spec_files(crate):
            shown = [(name, comment) for name, comment, _ in definitions_of(file)
                     if (crate, file.stem, name) in named or name in BASES.get(f"{crate}/{file.stem}", [])]
            if shown:
                entries.append("\n" + head_comment(file.read_text().splitlines()) + "\n\n")
                entries += [f"- `{name}`: {comment}\n" for name, comment in shown]
        if entries:
            parts += [f"\n## {crate}\n\n{first_sentence(source)}\n", *entries]
    return re.sub(r"\n{3,}", "\n\n", "".join(parts))


def check(said):
    """The status: 0 where the file is what the sources say."""
    there = PAGE.read_text() if PAGE.exists() else ""
    for at, (one, other) in enumerate(zip_longest(there.split("\n"), said.split("\n")), 1):
        if one != other:
            print(f"docs/DEFINITIONS.md:{at}: {one!r}, where the sources say {other!r}; gate/definitions.py writes it")
            return 1
    return 0


def main():
    """The status: 0 where the file was written, or is what the sources say."""
    named = named_definitions()
    if missing := missing_comments(named):
        print("\n".join(missing))
        return 1
    if sys.argv[1:] == ["--check"]:
        return check(page(named))
    PAGE.write_text(page(named))
    return 0


if __name__ == "__main__":
    sys.exit(main())
