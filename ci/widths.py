#!/usr/bin/env python3
"""Fails where a line of code, of a comment, of a definition, of a script or of a document's text is
wider than 100 characters, and prints it.

It looks into src/ and specs/ of each crate, the scripts, the files for C and Python, and the
documents. The lines that begin with `#[tactic(` or `#![` may be wider, as `rt fmt` says how they
are broken. So may those of a document that can't be broken: what is in a block of code, the rows of
tables, headings and pictures. What is in the proofs/ of a crate is for the prover, and the
completions are made by ci/manual.py: neither is looked at.
"""
import sys
from pathlib import Path

ROOT = Path(__file__).resolve().parent.parent
WIDTH = 100
CRATES = ["crates/*/src/**/*.rt", "crates/*/specs/**/*.antt"]
SCRIPTS = [
    "alcrs", "do", "install", ".ci/*", "ci/*", "scripts/*", "bench/*", "packaging/*",
    "mutants/try", "release/[a-z]*[a-y]", "capi/*", "capi/*/*",
]
DOCUMENTS = ["*.md", "docs/*.md", "*/README.md", "crates/*/*.md"]
LAID_OUT = ("#[tactic(", "#![")
UNBROKEN = ("|", "#", "![")


def wide_lines(path):
    is_text = True
    may_be_wider = UNBROKEN if path.suffix == ".md" else LAID_OUT
    for number, line in enumerate(path.read_text(encoding="utf-8").splitlines(), 1):
        if path.suffix == ".md":
            if line.lstrip().startswith("```"):
                is_text = not is_text
            elif not is_text:
                continue
        if len(line) > WIDTH and not line.lstrip().startswith(may_be_wider):
            yield number, line


def main():
    paths = {path for pattern in CRATES + SCRIPTS + DOCUMENTS for path in ROOT.glob(pattern)}
    paths = sorted(path for path in paths if path.is_file() and path.suffix != ".pyc")
    count = 0
    for path in paths:
        for number, line in wide_lines(path):
            print(f"{path.relative_to(ROOT)}:{number}: {len(line)} characters: {line.strip()}")
            count += 1
    print(f"{len(paths)} files, {count} lines wider than {WIDTH} characters")
    return 1 if count else 0


if __name__ == "__main__":
    sys.exit(main())
