#!/usr/bin/env python3
"""Proves the crates that the program stands on, several at a time, and builds it.

    scripts/build.py LOG PROGRAM [rattle's flags for the program]
    scripts/build.py LOG PROGRAM --over-gate [rattle's flags for the program]
    scripts/build.py LOG --libraries

The first is for ./alcrs. The second takes the libraries that `rt ci` has just proved here, and
builds the program alone: for release/make and ci/release.py. The third proves the libraries alone,
once no ./alcrs builds: for capi/archive.

It calls `rattle`, the prover and compiler beside `rt`, as `rt ci` does: each library is proved in
one go, and holds for the crates above it what it states, without its proofs (`--statements`). They
are several times as large, and loading them takes as long as many a crate's own proof. `rt lib`
leaves them in, as checks after an edit begin with them. Where `rattle` has no such flag, or isn't
there, `rt run` proves one crate after the other.

Each library is in out/built of its crate, beside a sum of all that it was made of: a later run
makes it anew if this sum has changed. Where the lines that are left are more than the longest
chain of crates has for each processor, each crate has one processor: several together spend more on
it. Else the crate with the longest chain above it has all processors, those with a chain nearly as
long have half of them by what it leaves, and each of the others has one by what these leave. What
fails is tried once more by itself.

What the prover says goes to LOG, and progress to standard error. Ctrl-C ends all that runs, and so
does the end of whoever called.
"""
import contextlib
import fcntl
import hashlib
import os
import resource
import shlex
import shutil
import signal
import subprocess
import sys
import time
from pathlib import Path

ROOT = Path(__file__).resolve().parent.parent
CRATES = ROOT / "crates"
PROGRAM = "alcrs"
# What a proof may take of memory, in bytes.
MEMORY = 3 << 30
# What a line of code is expected to take of a processor before anything is measured, in seconds.
# A crate costs as much as so many lines, whatever is in it.
SECONDS, FIRST_LINES = 0.2, 100
# Which part of the longest chain is as good as it.
NEARLY = 0.8
# Behind the last proof: compiling and linking.
LINKING = 60
# The status where it was told to stop.
STOPPED = 130


def say(text):
    print(f"{PROGRAM}: {text}", file=sys.stderr, flush=True)


def names_below():
    """The names behind each crate's colon in crates.txt: of crates, and of the kit's libraries."""
    below = {}
    for row in (ROOT / "crates.txt").read_text(encoding="utf-8").splitlines():
        head, colon, names = row.partition(":")
        if colon and not head.startswith("#"):
            below[head.split()[0]] = names.split()
    return below


def sources(name):
    return sorted(it for part in ("src", "specs", "proofs")
                  for it in (CRATES / name / part).glob("**/*") if it.suffix in (".rt", ".antt"))


def seconds_of_ended():
    """What all that has run and ended has taken of a processor."""
    spent = resource.getrusage(resource.RUSAGE_CHILDREN)
    return spent.ru_utime + spent.ru_stime


def lines_of(name):
    return sum(it.read_bytes().count(b"\n") for it in sources(name) if it.suffix == ".rt")


def number_in(path):
    try:
        return [int(it) for it in Path(path).read_text(encoding="ascii").split() if it.isdigit()]
    except OSError:
        return []


def most_at_once():
    """How many proofs there are processors and memory for."""
    processors = len(os.sched_getaffinity(0))
    quota = number_in("/sys/fs/cgroup/cpu.max")
    if len(quota) == 2:
        processors = min(processors, quota[0] // quota[1])
    free = 1024 * next(
        int(line.split()[1]) for line in open("/proc/meminfo") if line.startswith("MemAvailable")
    )
    limit, used = (number_in(f"/sys/fs/cgroup/memory.{it}") for it in ("max", "current"))
    if limit and used:
        free = min(free, limit[0] - used[0])
    return max(1, min(processors, free // MEMORY))


class Kit:
    """The toolchain: the folder that has `bin/rt`, as the shell finds it."""

    def __init__(self):
        self.folder = Path(shutil.which("rt")).resolve().parent.parent
        self.rattle = self.folder / "bin" / "rattle"

    def proves_statements(self):
        try:
            said = subprocess.run([self.rattle, "build", "--help"], capture_output=True, text=True)
        except OSError:
            return False
        return "--statements" in said.stdout

    def version(self):
        file = self.folder / "KIT-ID"
        return file.read_bytes() if file.is_file() else b""

    def words(self, name, crates, others, below):
        """How `rattle` is called for a crate that names libraries, and stands on all of `below`.
        Each library of a crate is given by its path."""
        folder = self.folder
        words = [self.rattle, "build", "--crate-name", name]
        words.append("src/main.rt" if name == PROGRAM else "src/lib.rt")
        for it in ("std", *others):
            words += ["--extern", f"{it}={folder}/rlibs/{it}.rlib"]
        for it in crates:
            words += ["--extern", f"{it.stem}={it}"]
        for it in (folder / "rlibs", *(it.parent for it in below)):
            words += ["-L", f"dependency={it}"]
        words += ["--antt-project", folder / "rattle" / "logic" / "antt-project.json"]
        return [*words, "--logic-built", folder / "logic_built", "--links", f"{name}="]

    def link(self, program):
        """How a compiled program is linked."""
        folder = self.folder
        libraries = (folder / "c" / it for it in ("libos_c.a", "liblibc_c.a"))
        return [folder / "bin" / "rattle-link", "--target", "x86_64-unknown-linux-gnu",
                "--toolchain", folder / "toolchain", "-o", program, f"{program}.o", *libraries]


class Build:
    """`program` is where the program comes, or None if it isn't wanted."""

    def __init__(self, kit, log, flags, program, is_over_gate=False):
        self.kit, self.log, self.flags = kit, log, flags
        self.program, self.is_over_gate = program, is_over_gate
        self.parent, self.is_stopped = os.getppid(), False
        # The names of each crate's row, and all crates below it, from the field up.
        self.named, self.below = names_below(), {}
        self.find_below(PROGRAM)
        self.lines = {name: lines_of(name) for name in self.below}
        self.sums = {}
        for name in self.below:
            self.sums[name] = self.sum_of(name)
        self.at_once = self.most = most_at_once()
        # How many lines have to be proved one after the other from a crate on.
        self.chain = {}
        for name in reversed(self.below):
            above = [self.chain[it] for it in self.chain if name in self.below[it]]
            self.chain[name] = self.lines[name] + max(above, default=0)
        # What is wanted, and is proved; what runs, by name; what has failed once.
        self.wanted = set(self.below) - (set() if program else {PROGRAM})
        self.proved, self.running, self.failed = set(), {}, set()
        # What a line took of a processor in the crate where it took most, in seconds.
        self.slowest = 0

    def find_below(self, name):
        own = [it for it in self.named[name] if it in self.named]
        for it in own:
            self.find_below(it)
        self.below.setdefault(name, set(own).union(*(self.below[it] for it in own)))

    def sum_of(self, name):
        """A sum of all that a crate's library, or the program, is made of."""
        told = hashlib.sha256(self.kit.version())
        told.update(repr((self.named[name], self.flags if name == PROGRAM else [])).encode())
        for file in sources(name):
            told.update(repr((str(file.relative_to(ROOT)), file.read_bytes())).encode())
        for it in self.named[name]:
            told.update(self.sums.get(it, it).encode())
        return told.hexdigest()

    def made(self, name):
        """What is made of a crate: a library, or the program. `rt ci` has a folder of its own."""
        if name == PROGRAM:
            return self.program
        folder = "rlib" if self.is_over_gate else "built"
        return CRATES / name / "out" / folder / f"{name}.rlib"

    def find_proved(self):
        """Notes which libraries are proved already."""
        for name, below in self.below.items():
            if name == PROGRAM or not below <= self.proved or not self.made(name).is_dir():
                continue
            note = self.made(name).parent / "sum"
            is_noted = note.is_file() and note.read_text(encoding="ascii") == self.sums[name]
            if self.is_over_gate or is_noted:
                self.proved.add(name)

    def words(self, name, jobs):
        own = self.named[name]
        words = self.kit.words(name, [self.made(it) for it in own if it in self.below],
                               [it for it in own if it not in self.below],
                               [self.made(it) for it in self.below[name]])
        words += ["--jobs", jobs]
        if name != PROGRAM:
            return [*words, "--statements", "-o", self.made(name)]
        words += ["--toolchain", self.kit.folder / "toolchain", *self.flags]
        both = [words + ["-o", f"{self.program}.o"], self.kit.link(self.program)]
        return ["sh", "-c", " && ".join(shlex.join(map(str, it)) for it in both)]

    def start(self, name, jobs, nice):
        words = ["nice", "-n", nice, *self.words(name, jobs)]
        made = self.made(name)
        if name != PROGRAM:
            shutil.rmtree(made.parent, ignore_errors=True)
        made.parent.mkdir(parents=True, exist_ok=True)
        with open(f"{made}.said", "wb") as said:
            child = subprocess.Popen(
                [str(it) for it in words], cwd=CRATES / name, stdin=subprocess.DEVNULL,
                stdout=said, stderr=subprocess.STDOUT, start_new_session=True,
            )
        self.running[name] = child

    def share(self, name):
        """How many processors a crate has, and how far it stands back, as `nice` takes it."""
        left = self.wanted - self.proved
        longest = max(self.chain[it] for it in left)
        if self.most * longest < sum(self.lines[it] for it in left):
            return 1, 0
        if self.chain[name] == longest:
            return self.most, 0
        return ((self.most + 1) // 2, 5) if self.chain[name] >= NEARLY * longest else (1, 10)

    def start_all(self):
        """Starts what can be started. The program itself comes last, when all else is there."""
        ready = [
            name for name, below in self.below.items() if name in self.wanted - self.proved
            and name not in self.running and below <= self.proved
        ]
        ready.sort(key=lambda name: -self.chain[name])
        for name in ready:
            if len(self.running) >= self.most:
                return
            self.start(name, *self.share(name))

    def end(self, name, seconds):
        """Notes how one has ended, which took so many seconds of a processor. Whether to go on."""
        child, said = self.running.pop(name), Path(f"{self.made(name)}.said")
        self.log.write(b"== " + name.encode() + b"\n" + said.read_bytes())
        self.log.flush()
        os.remove(said)
        if child.returncode:
            if name in self.failed or name == PROGRAM:
                say(f"{name} isn't proved")
                return False
            # Memory may have been what it lacked: fewer at a time from here on.
            self.failed.add(name)
            self.most, self.at_once = 1, max(1, self.at_once // 2)
            say(f"{name} isn't proved: once more, by itself")
            return True
        if name != PROGRAM and self.sum_of(name) == self.sums[name]:
            (said.parent / "sum").write_text(self.sums[name], encoding="ascii")
        self.proved.add(name)
        if self.failed <= self.proved:
            self.most = self.at_once
        self.slowest = max(self.slowest, seconds / (FIRST_LINES + self.lines[name]))
        if name != PROGRAM:
            say(f"{len(self.proved)} of {len(self.wanted)} crates, {self.time_left()} ({name})")
        return True

    def time_left(self):
        """About how long it takes, if a line takes what it took in the slowest crate so far."""
        left = sum(FIRST_LINES + self.lines[name] for name in self.wanted - self.proved)
        minutes = round(((self.slowest or SECONDS) * left / self.most + LINKING) / 60)
        return f"about {minutes} minutes" if minutes > 1 else "about a minute"

    def run(self):
        self.find_proved()
        while not self.wanted <= self.proved:
            self.start_all()
            time.sleep(0.2)
            if self.is_stopped or os.getppid() != self.parent:
                return STOPPED
            for name, child in list(self.running.items()):
                before = seconds_of_ended()
                if child.poll() is not None and not self.end(name, seconds_of_ended() - before):
                    return 1
        return 0

    def stop(self):
        """Ends what runs. All that it has started ends with it."""
        for number in (signal.SIGINT, signal.SIGKILL):
            for child in self.running.values():
                if child.poll() is None:
                    os.killpg(child.pid, number)
            until = time.monotonic() + 5
            while time.monotonic() < until:
                if all(child.poll() is not None for child in self.running.values()):
                    return
                time.sleep(0.05)


def build_by_rt(log, flags, program):
    """Proves one crate after the other, and builds the program."""
    words = ["rt", "run", *flags, "--", "--help"]
    ended = subprocess.run(words, cwd=CRATES / PROGRAM, stdin=subprocess.DEVNULL, stdout=log,
                           stderr=subprocess.STDOUT).returncode
    if not ended:
        program.parent.mkdir(parents=True, exist_ok=True)
        shutil.copy(CRATES / PROGRAM / "out" / PROGRAM, program)
    return ended


def main():
    def interrupted(*_):
        build.is_stopped = True

    kit, flags = Kit(), sys.argv[2:]
    program = None if flags == ["--libraries"] else Path(flags.pop(0)).absolute()
    is_over_gate = flags[:1] == ["--over-gate"]
    flags = flags[is_over_gate:] if program else []
    with open(sys.argv[1], "wb") as log, contextlib.ExitStack() as held:
        if not kit.proves_statements():
            return build_by_rt(log, flags, program) if program else 1
        if not program:
            # release/program holds this lock while it builds.
            out = ROOT / "out"
            out.mkdir(exist_ok=True)
            fcntl.flock(held.enter_context(open(out / "lock", "ab")), fcntl.LOCK_EX)
        build = Build(kit, log, flags, program, is_over_gate)
        for number in (signal.SIGINT, signal.SIGTERM, signal.SIGHUP):
            signal.signal(number, interrupted)
        try:
            return build.run()
        finally:
            build.stop()


if __name__ == "__main__":
    sys.exit(main())
