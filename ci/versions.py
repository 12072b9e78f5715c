#!/usr/bin/env python3
"""Fails where two files tell different versions, and prints each that differs from its source.

The program's version stands in crates/request/src/grammar.rt, as it is part of what is proved. The
version of the interface for C stands in capi/alcrs.h. The toolchain's is what `rt version` prints.
Everything else that names one of these is compared with it here.
"""
import re
import subprocess
import sys
from pathlib import Path

ROOT = Path(__file__).resolve().parent.parent
# A file, and what finds the version in it. Each place that is found has to tell it.
PROGRAM = "crates/request/src/grammar.rt", r'const VERSION: &str = "([\w.]+)"'
OF_PROGRAM = [
    ("samples/help/version.txt", r"^alcrs (\S+)$"),
    ("crates/transcripts/data/lines.txt", r"^\| alcrs (\d\S*)$"),
    ("docs/man/alcrs.1", r'^\.TH ALCRS 1 "" "alcrs (\S+)"'),
    ("docs/FORMATS.md", r"`alcrs (\d[\d.]*)`"),
    ("CHANGELOG.md", r"\A.*?^## (\d[\d.]*)"),
]
INTERFACE = "capi/alcrs.h", r"#define ALCRS_VERSION (\d+)"
OF_INTERFACE = [
    ("crates/alcrs_c/src/making.rt", r"fn alcrs_version\(\) -> u32\s+ensures \{ result ≡ (\d+) \}"),
    ("capi/python/alcrs.py", r"if version\(\) != (\d+):"),
    ("capi/python/alcrs.py", r"libalcrs\.so\.(\d+)"),
    ("capi/install", r"libalcrs\.so\.(\d+)"),
    ("capi/try", r"libalcrs\.so\.(\d+)"),
    ("docs/EMBEDDING.md", r"libalcrs\.so\.(\d+)"),
    ("CHANGELOG.md", r"libalcrs\.so\.(\d+)"),
]
OF_TOOLCHAIN = [
    ("README.md", r"rattle-kit-\w+\s+logic\s+\w+"),
    ("docs/ASSURANCE.md", r"rattle-kit-\w+\s+logic\s+\w+"),
]


def found_in(name, pattern):
    text = (ROOT / name).read_text(encoding="utf-8")
    return re.findall(pattern, text, re.M | re.S if pattern.startswith(r"\A") else re.M)


def toolchain():
    try:
        said = subprocess.run(["rt", "version"], capture_output=True, text=True, check=True).stdout
    except (OSError, subprocess.CalledProcessError):
        return None
    return said.strip().splitlines()[0]


def main():
    wrong = []
    for (source, pattern), others in [(PROGRAM, OF_PROGRAM), (INTERFACE, OF_INTERFACE)]:
        [version] = found_in(source, pattern)
        print(f"{source}: {version}")
        for name, other in others:
            told = found_in(name, other)
            if not told or set(told) != {version}:
                names = ", ".join(sorted(set(told))) or "no version"
                wrong.append(f"{name}: {names}, not {version}")
    kit = toolchain()
    if kit is None:
        print("the toolchain: not compared, as there is no rt")
    else:
        print(f"rt version: {kit}")
        for name, other in OF_TOOLCHAIN:
            # The gate's machines have different kits of one logic, and the documents name each.
            told = {" ".join(text.split()) for text in found_in(name, other)}
            if kit not in told:
                wrong.append(f"{name}: {', '.join(sorted(told)) or 'no toolchain'}, not {kit}")
    for line in wrong:
        print(line)
    return 1 if wrong else 0


if __name__ == "__main__":
    sys.exit(main())
