#!/usr/bin/env python3
"""Tries ./alcrs as it is run the first time, with a stub in place of the toolchain.

The stub proves nothing, and takes a while for each crate. It notes where a library below isn't
there. Tried are: a run from nothing; a second call meanwhile, which has to wait; a source with
other text, and one that is newer alone; a proof that fails once, and one that fails again; Ctrl-C,
after which nothing may run on, and what was proved may not be proved again; the libraries alone,
for capi/archive; and a toolchain whose `rattle` lacks a flag, in which `rt` has to do it all.

Of a program in release/, which is a stub, too, tried are: a run without the toolchain; a clone that
can't be written into; --from-source; a source with one space more; and packed programs and a
manifest that are damaged or missing.
"""
import gzip
import hashlib
import os
import shutil
import signal
import subprocess
import sys
import tempfile
import time
from pathlib import Path

ROOT = Path(__file__).resolve().parent.parent
LEVELS = ("x86-64-v2", "x86-64-v3")
STUB = r'''#!/usr/bin/env python3
import os, pathlib, shutil, sys, time
words, tree = sys.argv, os.environ["TREE"]
kit = pathlib.Path(__file__).parent.parent
def note(*said):
    print(*said, file=open(f"{tree}/said", "a"))
def after(flag):
    return [it for at, it in enumerate(words) if words[at - 1] == flag]
if words[0].endswith("rt"):
    os.makedirs("out", exist_ok=True)
    shutil.copy("/bin/true", "out/alcrs")
    sys.exit(note("rt", *words[1:]))
if words[0].endswith("rattle-link"):
    assert words[-3].endswith(".o") and pathlib.Path(words[-3]).is_file()
    sys.exit(shutil.copy("/bin/true", after("-o")[0]) and 0)
if words[1:] == ["build", "--help"]:
    sys.exit(os.environ.get("LACKS") or print("    --statements"))
name, made = after("--crate-name")[0], pathlib.Path(after("-o")[0])
for it in after("--extern"):
    crate, _, path = it.partition("=")
    if not (path.startswith(f"{kit}/rlibs/") or pathlib.Path(path).is_dir()):
        note(name, "lacks", crate)
below = [it for it in after("-L") if not it.endswith("/rlibs")]
for it in below:
    folder = pathlib.Path(it.partition("=")[2])
    if not (folder / f"{folder.parent.parent.name}.rlib").is_dir():
        note(name, "lacks", folder)
print(name, file=open(f"{tree}/started", "a"))
time.sleep(float(os.environ["SLEEP"]))
failing = os.environ.get("FAILING", "").split()
if name in failing and open(f"{tree}/started").read().split().count(name) <= len(failing):
    sys.exit("no")
made.write_text(name) if made.suffix == ".o" else made.mkdir()
'''


class Tree:
    """A copy of what ./alcrs needs, in which nothing is proved."""

    def __init__(self, folder):
        self.folder = Path(folder)
        for name in ("alcrs", "crates.txt", "HANDLES"):
            shutil.copy(ROOT / name, self.folder / name)
        for name in ("sum", "program"):
            (self.folder / "release").mkdir(exist_ok=True)
            shutil.copy(ROOT / "release" / name, self.folder / "release" / name)
        shutil.copytree(ROOT / "scripts", self.folder / "scripts")
        for source in ROOT.glob("crates/*/src"):
            shutil.copytree(source, self.folder / source.relative_to(ROOT))
        (self.folder / "bin").mkdir()
        for name in ("rt", "rattle", "rattle-link"):
            (self.folder / "bin" / name).write_text(STUB)
            (self.folder / "bin" / name).chmod(0o755)

    def settings(self, sleep, **settings):
        path = f"{self.folder / 'bin'}:{os.environ['PATH']}"
        own = {name: told for name, told in os.environ.items() if name != "ALCRS_PROGRAM"}
        return {**own, "PATH": path, "TREE": str(self.folder), "SLEEP": sleep, **settings}

    def start(self, *words, sleep="0.02", **settings):
        return subprocess.Popen(
            [self.folder / "alcrs", *words, "check"], env=self.settings(sleep, **settings),
            start_new_session=True, stderr=subprocess.PIPE, stdout=subprocess.PIPE, text=True,
        )

    def run(self, *words, **settings):
        """The status of a run, and what it said on standard error."""
        run = self.start(*words, **settings)
        self.printed, said = run.communicate()
        return run.returncode, said

    def ship(self):
        """Puts a program into release/ that tells its name."""
        program = b"#!/bin/sh\necho shipped $*\n"
        lines = [f"{level} {hashlib.sha256(program).hexdigest()}" for level in LEVELS]
        sources = subprocess.run([self.folder / "release" / "sum"], capture_output=True, text=True)
        lines.append(f"sources {sources.stdout.strip()}")
        (self.folder / "release" / "MANIFEST").write_text("\n".join(lines) + "\n")
        for level in LEVELS:
            self.packed(level).write_bytes(gzip.compress(program))

    def packed(self, level):
        return self.folder / "release" / f"alcrs-{level}.gz"

    def libraries(self):
        """The status of proving the libraries alone."""
        build, log = self.folder / "scripts" / "build.py", self.folder / "log"
        return subprocess.run(
            [sys.executable, build, log, "--libraries"], env=self.settings("0.02"),
            stderr=subprocess.DEVNULL,
        ).returncode

    def started(self):
        path = self.folder / "started"
        names = path.read_text().split() if path.exists() else []
        path.unlink(missing_ok=True)
        return names

    def clear(self):
        for out in (*self.folder.glob("crates/*/out"), *self.folder.glob("out")):
            shutil.rmtree(out)
        self.started()

    def is_left(self):
        """Whether a stub runs."""
        for link in Path("/proc").glob("[0-9]*/cwd"):
            try:
                if os.readlink(link).startswith(str(self.folder)):
                    return True
            except OSError:
                pass
        return False


def expect(what, holds, told=""):
    if not holds:
        sys.exit(f"first_run.py: not so: {what}\n{told}")


def try_shipped(tree, every):
    """Tries what comes of a program in release/."""

    def expect_shipped(what, **settings):
        status, said = tree.run(PATH="/usr/bin:/bin", **settings)
        expect(what, (status, tree.printed, said) == (0, "shipped check\n", ""), said)
        expect("nothing is built then", not tree.started())

    def expect_built(what, told, *words):
        tree.clear()
        status, said = tree.run(*words)
        expect(what, status == 0 and tree.printed == "" and told in said, said)
        expect("all is built then", sorted(tree.started()) == sorted(every))
        expect("it is built once", tree.run(*words) == (0, "") and not tree.started())

    tree.clear()
    tree.ship()
    expect_shipped("what is shipped runs without the toolchain")
    expect_shipped("it runs again")
    for level in LEVELS:
        (tree.folder / "out" / level).mkdir(exist_ok=True)
        (tree.folder / "out" / level / "alcrs").write_text("something else")
    expect_shipped("it is unpacked anew where it was changed")
    tree.clear()
    (tree.folder / "out").write_text("no folder")
    expect_shipped("it is unpacked elsewhere", XDG_CACHE_HOME=str(tree.folder / "cache"))
    os.remove(tree.folder / "out")

    expect_built("--from-source", "proving and building", "--from-source")
    expect_shipped("it doesn't stay so")
    for level in LEVELS:
        packed = bytearray(tree.packed(level).read_bytes())
        packed[-9] ^= 1
        tree.packed(level).write_bytes(packed)
    expect_built("a damaged program", "hasn't the sum that release/MANIFEST tells")
    for level in LEVELS:
        os.remove(tree.packed(level))
    expect_built("a program that is missing", "hasn't the sum that release/MANIFEST tells")
    tree.ship()
    os.remove(tree.folder / "release" / "MANIFEST")
    expect_built("no manifest", "is of other sources")
    tree.ship()
    source = tree.folder / "crates/lists/src/lib.rt"
    source.write_bytes(source.read_bytes() + b" ")
    expect_built("a source with one space more", "is of other sources")


def main():
    with tempfile.TemporaryDirectory() as folder:
        tree = Tree(folder)
        status, said = tree.run()
        every = tree.started()
        expect("it is built, each crate once", status == 0 and len(set(every)) == len(every), said)
        expect("nothing fails", "isn't proved" not in said, said)
        expect("it ends with the program", every[-1] == "alcrs" and "tool" in every, said)
        expect("it tells how far it is", f"of {len(every)} crates, about" in said, said)
        status, said = tree.run()
        expect("nothing is done again", (status, said, tree.started()) == (0, "", []), said)
        changed = tree.folder / "crates/tool/src/lib.rt"
        changed.write_bytes(changed.read_bytes() + b"\n")
        status, said = tree.run()
        expect("what is newer is proved", tree.started() == ["tool", "alcrs"], said)
        time.sleep(0.05)
        os.utime(changed)
        status, said = tree.run()
        again = tree.started()
        expect("what is the same isn't", again == [], (status, again, said))

        tree.clear()
        first = tree.start(sleep="0.1")
        time.sleep(1)
        second = tree.start()
        said = second.communicate()[1]
        first.communicate()
        expect("a second call waits", "waiting for it" in said and second.returncode == 0, said)
        expect("all is done once", sorted(tree.started()) == sorted(every))

        tree.clear()
        status, said = tree.run(FAILING="elim")
        expect("what fails once is tried again", status == 0, said)
        expect("it alone is", sorted(tree.started()) == sorted([*every, "elim"]), said)
        tree.clear()
        status, said = tree.run(FAILING="elim elim")
        expect("what fails again is told", status == 1 and "elim isn't proved\n" in said, said)

        tree.clear()
        run = tree.start(sleep="0.2")
        time.sleep(2)
        os.killpg(run.pid, signal.SIGINT)
        run.communicate()
        begun = tree.started()
        expect("Ctrl-C ends it", run.returncode in (130, -signal.SIGINT), run.returncode)
        expect("nothing is left", not tree.is_left())
        status, said = tree.run()
        again = set(begun) & set(tree.started())
        expect("what was proved is kept", status == 0 and len(again) < max(2, len(begun)), again)
        said = tree.folder / "said"
        expect("no library lacks", not said.exists(), said.exists() and said.read_text())

        tree.clear()
        status, started = tree.libraries(), sorted(tree.started())
        expect("the libraries alone", status == 0 and started == sorted({*every} - {"alcrs"}))
        status, said = tree.run()
        expect("the program over them", tree.started() == ["alcrs"], said)

        tree.clear()
        status, _ = tree.run(LACKS="no such flag")
        expect("rt does it where rattle can't", status == 0 and not tree.started())
        try_shipped(tree, every)
    print(f"first_run.py: ./alcrs over a stub, {len(every)} crates: as it has to be")
    return 0


if __name__ == "__main__":
    sys.exit(main())
