#!/usr/bin/env python3
"""Tells what takes long in the proof of a crate: seconds for each module that `rattle` checks.

    bench/proof_times.py CRATE [FUNCTION...]

CRATE is one that the program stands on, and ./alcrs has proved those below it. With functions, as
a check names them, these and what they call are checked alone. Of a function, `Lts` is its code as
transitions, `Proof` the search for what no answer tells, and `Answers` what stands in proofs/. The
first row has all that is loaded, too.

One process checks one module after the other, and writes each once it is checked. The seconds are
those between two of these times, so other work on the machine counts.
"""
import importlib.util
import os
import subprocess
import sys
import tempfile
import time
from pathlib import Path

ROOT = Path(__file__).resolve().parent.parent
# How often the modules that are there are looked at, in seconds: their files have the times.
PAUSE = 0.3
ROWS = 30


def build_script():
    spec = importlib.util.spec_from_file_location("build", ROOT / "scripts" / "build.py")
    module = importlib.util.module_from_spec(spec)
    spec.loader.exec_module(module)
    return module


def check_words(name, functions):
    """How `rattle` is called to check a crate."""
    script = build_script()
    build = script.Build(script.Kit(), None, [], True)
    if name not in build.below:
        sys.exit(f"the program doesn't stand on {name}")
    lacking = [it for it in build.below[name] if not script.library(it).is_dir()]
    if lacking:
        sys.exit(f"not proved: {', '.join(lacking)}; run ./alcrs first")
    words = build.kit.words(name, [it for it in build.named[name] if it in build.below],
                            [it for it in build.named[name] if it not in build.below],
                            build.below[name])
    words[1] = "check"
    return [str(it) for it in words] + [word for it in functions for word in ("--only", it)]


def times_written(words, folder, temporary, said):
    """When each module was written, from the start on, and whether all was proved."""
    began, written = time.time(), {}
    child = subprocess.Popen(words, cwd=folder, stdin=subprocess.DEVNULL, stdout=said,
                             stderr=subprocess.STDOUT, env={**os.environ, "TMPDIR": temporary})
    while child.poll() is None:
        time.sleep(PAUSE)
        for file in Path(temporary).glob("rattle-logic-built-*/*.oantt"):
            if file.name not in written:
                try:
                    written[file.name] = file.stat().st_mtime - began
                except OSError:
                    pass  # The check has ended, and its files go.
    return sorted((at, name) for name, at in written.items()), child.returncode == 0


def main():
    if len(sys.argv) < 2 or sys.argv[1].startswith("-"):
        sys.exit(__doc__.strip())
    name, functions = sys.argv[1], sys.argv[2:]
    words = check_words(name, functions)
    with tempfile.TemporaryDirectory() as temporary, tempfile.TemporaryFile("w+") as said:
        written, is_proved = times_written(words, ROOT / "crates" / name, temporary, said)
        if not is_proved:
            said.seek(0)
            sys.stderr.write(said.read())
            return 1
    if not written:
        sys.exit("rattle has written no modules where they are looked for")
    before = [0.0] + [at for at, _ in written]
    rows = [(at - last, it) for (at, it), last in zip(written, before)]
    print(f"{written[-1][0]:8.2f}  in all, {len(rows)} modules")
    print(f"{rows[0][0]:8.2f}  the first, with what is loaded")
    for seconds, module in sorted(rows[1:], reverse=True)[:ROWS]:
        print(f"{seconds:8.2f}  {module.removesuffix('.oantt')}")
    return 0


if __name__ == "__main__":
    sys.exit(main())
