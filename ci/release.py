#!/usr/bin/env python3
"""Fails where release/ doesn't ship what the sources give.

Each packed program has to have the sum that release/MANIFEST tells. If the manifest is of today's
sources and of this toolchain, a fresh proved build has to be the same program, byte for byte. For
x86-64-v2 that is what `rt ci` has just built. For x86-64-v3 it is the last step alone, over the
libraries that `rt ci` has just proved. What isn't compared is told, with the reason.
"""
import gzip
import hashlib
import subprocess
import sys
import tempfile
import zlib
from pathlib import Path

ROOT = Path(__file__).resolve().parent.parent
RELEASE = ROOT / "release"
LEVELS = ("x86-64-v2", "x86-64-v3")


def said_by(*words):
    """What a program prints, or None if it isn't there or fails."""
    try:
        ran = subprocess.run(words, capture_output=True, text=True, cwd=ROOT, check=True)
    except (OSError, subprocess.CalledProcessError):
        return None
    return ran.stdout.strip()


def sum_of(program):
    return hashlib.sha256(program).hexdigest()


def sum_of_packed(level):
    try:
        return sum_of(gzip.decompress((RELEASE / f"alcrs-{level}.gz").read_bytes()))
    except (OSError, EOFError, zlib.error) as error:
        return f"none ({error})"


def build(program, level):
    log = Path(f"{program}.log")
    words = [log, program, "--over-gate", f"--cpu={level}"]
    if subprocess.run([ROOT / "scripts" / "build.py", *words]).returncode:
        sys.exit(f"release.py: the program for {level} wasn't built\n{log.read_text()}")


def sums_of_builds():
    """The sums of the programs as they are built now."""
    with tempfile.TemporaryDirectory() as room:
        programs = [ROOT / "crates" / "alcrs" / "out" / "alcrs", Path(room, LEVELS[1])]
        build(programs[1], LEVELS[1])
        return [(level, sum_of(it.read_bytes())) for level, it in zip(LEVELS, programs)]


def main():
    lines = (RELEASE / "MANIFEST").read_text(encoding="ascii").splitlines()
    manifest = dict(line.split(" ", 1) for line in lines)
    found = [("packed", level, sum_of_packed(level)) for level in LEVELS]
    toolchain = said_by("rt", "version")
    if said_by("release/sum") != manifest["sources"]:
        print("release.py: not compared with a build, as the sources are others")
    elif toolchain != manifest["toolchain"]:
        print(f"release.py: not compared with a build, as the toolchain is {toolchain}")
    else:
        found += [("built", *it) for it in sums_of_builds()]
    wrong = 0
    for what, level, told in found:
        is_same = told == manifest[level]
        print(f"release.py: the {what} program for {level} has the sum {told}, "
              f"{'as' if is_same else 'and not the one that'} release/MANIFEST tells")
        wrong += not is_same
    return 1 if wrong else 0


if __name__ == "__main__":
    sys.exit(main())
