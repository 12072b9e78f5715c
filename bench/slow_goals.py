#!/usr/bin/env python3
"""Lists the goals of a function that the quickest search, `search rules`, doesn't close.

    bench/slow_goals.py CRATE FUNCTION

CRATE is one that the program stands on, and ./alcrs has proved those below it. FUNCTION is one of
it, as a check names it. Goals that have an answer in proofs/ aren't tried. For each of the others
`rattle` tries up to eight searches in turn. So one that is listed here may take seconds, and an
answer saves them. Where none is listed, what `bench/proof_times.py` tells of `Proof` is spread over
all goals.
"""
import re
import shutil
import subprocess
import sys
import tempfile
from pathlib import Path

import proof_times

OFFERED = re.compile(r"^pub (\S+) : goal\.\S+\n(.+ =) \?$", re.M)
ANSWERED = re.compile(r"^pub (\S+) :", re.M)
OPEN = re.compile(r"error: `([^`]+)`")
IMPORT = "use Rattle.std.proofs.Common.{rules}\n"


def check(words, folder, flags):
    """What a check in a folder says, on both outputs, and its status."""
    done = subprocess.run([*words, *flags], cwd=folder, stdin=subprocess.DEVNULL, text=True,
                          stdout=subprocess.PIPE, stderr=subprocess.STDOUT)
    return done.stdout, done.returncode


def offered(words, crate, function, room):
    """Where the function's answers stand below proofs/, and all its goals, as they are offered."""
    said, _ = check(words, crate, ["--start", function, f"--generated={room}"])
    files = list(Path(room).glob("Rattle-*-proofs/**/AnswersOffered.antt"))
    if len(files) != 1:
        sys.exit(said)
    return Path(*files[0].relative_to(room).parts[1:-1]), files[0].read_text(encoding="utf-8")


def with_rules(text, answers):
    """The answers, and behind them the first search for each other goal; and how many these are."""
    known = set(ANSWERED.findall(answers))
    goals = [(name, head) for name, head in OFFERED.findall(text) if name not in known]
    if not answers:
        answers = text.partition("\n\n")[0] + "\n"
    if not re.search(r"^use .*\brules\b", answers, re.M):
        answers = IMPORT + answers
    tried = "".join(f"\npub {name} : goal.{name}\n{head} search rules\n" for name, head in goals)
    return answers + tried, len(goals)


def main():
    if len(sys.argv) != 3 or sys.argv[1].startswith("-"):
        sys.exit(__doc__.strip())
    name, function = sys.argv[1:]
    words = proof_times.check_words(name, [])
    crate = proof_times.ROOT / "crates" / name
    with tempfile.TemporaryDirectory() as room:
        copy = Path(room) / name
        shutil.copytree(crate, copy, ignore=shutil.ignore_patterns("out", "must-fail"))
        place, text = offered(words, copy, function, Path(room) / "generated")
        file = copy / "proofs" / place / "Answers.antt"
        file.parent.mkdir(parents=True, exist_ok=True)
        answers = file.read_text(encoding="utf-8") if file.exists() else ""
        tried, count = with_rules(text, answers)
        file.write_text(tried, encoding="utf-8")
        said, status = check(words, copy, ["--only", function])
    found = sorted(set(OPEN.findall(said)))
    if status and not found:
        sys.exit(said)
    print(f"{count} goals without an answer, {len(found)} of them not by `search rules`")
    for goal in found:
        print(goal)
    return 0


if __name__ == "__main__":
    sys.exit(main())
