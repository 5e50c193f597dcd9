#!/usr/bin/env python3
"""Compares the code of README.md and docs/*.md with the crates, which the gate proves and runs.

The lines of each block of `rust` have to stand one after another in one source file of crates/, save for the spaces that
they begin with. Where they don't, a line names the block, and the status is 1.
"""

import re
import sys
from pathlib import Path

ROOT = Path(__file__).resolve().parent.parent
BLOCK = re.compile(r"^```rust\n(.*?)(?:^```|\Z)", re.M | re.S)


def lines_of(text):
    """The lines of a text, without the spaces that each begins with."""
    return "\n" + "\n".join(line.lstrip(" ") for line in text.splitlines()) + "\n"


def main():
    """The status: 0 where each block stands in a source file."""
    sources = [lines_of(file.read_text()) for file in ROOT.glob("crates/*/src/**/*.rt")]
    status = 0
    for page in [ROOT / "README.md", *sorted(ROOT.glob("docs/*.md"))]:
        text = page.read_text()
        for block in BLOCK.finditer(text):
            if not any(lines_of(block[1]) in source for source in sources):
                line = text.count("\n", 0, block.start()) + 1
                print(f"{page.relative_to(ROOT)}:{line}: no source file of crates/ has these lines")
                status = 1
    return status


if __name__ == "__main__":
    sys.exit(main())
