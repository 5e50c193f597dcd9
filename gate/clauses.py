#!/usr/bin/env python3
"""Writes out/CLAUSES.md: the public calls of each library, with what their comments and their contracts say."""

import re
from pathlib import Path

ROOT = Path(__file__).resolve().parent.parent
PAGE = ROOT / "out" / "CLAUSES.md"
HEAD = """# The clauses

`gate/clauses.py` writes this page from the sources. It has each public function of each library, the methods of public
traits, and those methods of an `impl` of a trait that have clauses of their own. Beside each stands the first paragraph of
its comment, and then its clauses as they stand in the code. [DEFINITIONS](../docs/DEFINITIONS.md) has the definitions that
they name, and [GUARANTEES](../docs/GUARANTEES.md) says what they come to.
"""
BLOCK = re.compile(r"(pub trait|(?:unsafe )?impl)\b")
FUNCTION = re.compile(r"\s*(pub )?(?:const |unsafe )*fn (\w+)")
CLAUSE = re.compile(r"\s*(requires|ensures)\b")


def libraries():
    """The libraries in the order of crates.txt. Crates of tests and programs are left out."""
    for line in (ROOT / "crates.txt").read_text().splitlines():
        name = line.split(":")[0]
        if re.fullmatch(r"\w+", name) and not name.endswith("_tests"):
            source = ROOT / "crates" / name / "src"
            if (source / "lib.rt").exists():
                yield name, source


def without_generics(text):
    """The text without what stands in angle brackets."""
    while re.search(r"<[^<>]*>", text):
        text = re.sub(r"<[^<>]*>", "", text)
    return text


def plain(comment):
    """The first paragraph of a comment, without the links of Rattle's documentation."""
    text = " ".join("\n".join(comment).split("\n\n")[0].split())
    return re.sub(r"\[(`[^`]*`)\](\([^)]*\))?", r"\1", text)


def first_sentence(source):
    """What the crate's own comment says first."""
    lines = (source / "lib.rt").read_text().splitlines()
    text = plain([line[3:].strip() for line in lines if line.startswith("//!")])
    return re.split(r"(?<=\.) (?=[A-Z`])", text)[0]


def head_of_block(lines, at):
    """The owner of the functions of an impl or a trait, the trait of an impl, and whether it is a trait."""
    head = lines[at]
    while "{" not in head:
        at += 1
        head += " " + lines[at].strip()
    words = without_generics(head.split("{")[0]).replace("pub trait", "trait").split()
    if words[0] == "trait":
        return words[1].rstrip(":"), None, True
    words = words[words.index("impl") + 1:]
    if "for" in words:
        return words[words.index("for") + 1].split("::")[-1], words[words.index("for") - 1], False
    return words[0], None, False


def clauses_at(lines, at):
    """The clauses of the function that begins at this line, as they stand there."""
    indent = len(lines[at]) - len(lines[at].lstrip())
    while not CLAUSE.match(lines[at]):
        if lines[at].rstrip().endswith(("{", ";", "{}")) or lines[at].strip() == "}":
            return []
        at += 1
    found = []
    while lines[at][indent:] not in ("{", "{}"):
        found.append(lines[at][indent + 4:].rstrip(";"))
        at += 1
        if lines[at - 1].endswith("};"):
            break
    return found


def comment_at(lines, at):
    """The comment above this line."""
    comment = []
    while lines[at - 1].strip().startswith(("///", "#[")):
        at -= 1
        if "///" in lines[at]:
            comment.insert(0, lines[at].strip()[3:].strip())
    return comment


def names_from(module, top):
    """What the root of a crate hands on of a module."""
    return set(re.findall(r"\w+", " ".join(re.findall(rf"^pub use {module}::([^;]*);", top, re.M))))


def calls_of(source):
    """The public calls of a crate: the name of each, its file, its comment and its clauses."""
    top = (source / "lib.rt").read_text()
    named = set(re.findall(r"\w+", " ".join(re.findall(r"^pub use ([^;]*);", top, re.M))))
    modules = set(re.findall(r"^pub mod (\w+);", top, re.M))
    for file in sorted(source.rglob("*.rt"), key=lambda file: (file.name != "lib.rt", file.as_posix())):
        parts = file.relative_to(source).with_suffix("").parts
        is_handed_on = len(parts) > 1 and parts[1] in names_from(parts[0], top)
        module = parts[1] if is_handed_on else parts[0]
        is_public = is_handed_on or module in modules
        lines, owner = file.read_text().splitlines(), None
        for at, line in enumerate(lines):
            if BLOCK.match(line):
                owner = head_of_block(lines, at)
            if line.startswith("}") or (BLOCK.match(line) and line.endswith("{}")):
                owner = None
            match = FUNCTION.match(line)
            if not match or (line[0] == " ") != (owner is not None):
                continue
            name, of_trait, is_trait = owner or (match[2], None, False)
            if not (module == "lib" or is_public or name in named):
                continue
            clauses = clauses_at(lines, at)
            if match[1] or is_trait or (of_trait and clauses):
                title = f"`{name}::{match[2]}`" if owner else f"`{name}`"
                title = f"`{module}::{title[1:]}" if is_public else title
                title += f", of `{of_trait}`" if of_trait else ""
                yield title, file, plain(comment_at(lines, at)), clauses


def page():
    """The whole page."""
    parts = [HEAD]
    for name, source in libraries():
        parts.append(f"\n## {name}\n\n{first_sentence(source)}\n")
        for title, _, comment, clauses in calls_of(source):
            parts.append("\n" + f"**{title}.** {comment}".strip() + "\n")
            if clauses:
                parts.append("\n```\n" + "\n".join(clauses) + "\n```\n")
    return "".join(parts)


if __name__ == "__main__":
    PAGE.parent.mkdir(exist_ok=True)
    PAGE.write_text(page())
