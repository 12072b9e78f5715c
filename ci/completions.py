#!/usr/bin/env python3
"""Presses TAB after command lines, in bash and zsh, and compares what is completed. A shell that
isn't installed is left out, which is said.

    ci/completions.py
"""
import os
import pty
import re
import select
import shutil
import sys
import tempfile
import time
from pathlib import Path

COMPLETIONS = Path(__file__).resolve().parent.parent / "completions"
# What is typed, and what has to come.
TYPED = [
    ("alcrs chec", "alcrs check"),
    ("alcrs check --summ", "--summary"),
    ("alcrs check -q --summ", "--summary"),
    ("alcrs check --quiet --pict", "--picture"),
    ("alcrs encode -n --order r", "rounds"),
    ("alcrs drop a b --pla", "--places"),
]
STARTS = {
    "bash": (["bash", "--norc", "-i"], f". {COMPLETIONS}/alcrs.bash; PS1='> '"),
    "zsh": (["zsh", "-f", "-i"],
            f"fpath=({COMPLETIONS} $fpath); autoload -U compinit; compinit -u -D; PS1='> '"),
}


def read(terminal, seconds):
    """What is printed until nothing came for so long."""
    text = b""
    while select.select([terminal], [], [], seconds)[0]:
        try:
            text += os.read(terminal, 1 << 16)
        except OSError:
            break
    return re.sub(r"\x1b\[[0-9;?]*[a-zA-Z]|[\a\b\r]", "", text.decode(errors="replace"))


def completed(words, start):
    """What each line is completed to, in one run of a shell."""
    process, terminal = pty.fork()
    if process == 0:
        os.environ |= {"TERM": "dumb", "COLUMNS": "200"}
        os.execvp(words[0], words)
    os.write(terminal, f"{start}; echo rea''dy\n".encode())
    end, text = time.time() + 20, ""
    while "ready" not in text and time.time() < end:
        text += read(terminal, 0.2)
    read(terminal, 0.3)
    for typed, _ in TYPED:
        os.write(terminal, f"{typed}\t".encode())
        yield read(terminal, 0.7)
        os.write(terminal, b"\x15")
        read(terminal, 0.2)
    os.close(terminal)
    os.waitpid(process, 0)


def main():
    wrong = 0
    with tempfile.TemporaryDirectory() as folder:
        os.chdir(folder)
        os.environ["HOME"] = folder
        for shell, (words, start) in STARTS.items():
            if not shutil.which(shell):
                print(f"left out: no {shell}")
                continue
            for (typed, wanted), text in zip(TYPED, completed(words, start)):
                if wanted not in text:
                    wrong += 1
                    print(f"{shell}: {typed!r} gave {text!r}, without {wanted!r}")
    print(f"{len(TYPED)} lines for a shell, {wrong} wrong")
    sys.exit(wrong > 0)


if __name__ == "__main__":
    main()
