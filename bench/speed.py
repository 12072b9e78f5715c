#!/usr/bin/env python3
"""Times the program's commands: MB/s of object, and the most memory that each held, in MiB.

Each command runs once for each row, on one core, with files that the program itself made of random
bytes. `drop` leaves 1,000 places out, a quarter at most. `decode` gets a session without as many
source symbols of each block as it has repair symbols, or without all of them where there are as
many repair symbols. A command that the program doesn't have is told as `-`. The tables go to
standard output, the seconds to standard error as they come. The whole takes some minutes.
"""
import argparse
import filecmp
import os
import random
import resource
import struct
import subprocess
import sys
import tempfile
import threading
import time

ROOT = os.path.dirname(os.path.dirname(os.path.abspath(__file__)))
sys.path.insert(0, os.path.join(ROOT, "ci"))
from trying import PROGRAM

COMMANDS = ["encode", "certify", "check", "drop", "decode"]
IDENTIFIERS = ["--tsi", "1", "--toi", "1"]
MIB = 1 << 20
DROPPED = 1000


class Case:
    """An object's bytes, the symbol length E, the maximum source block length B, and max_n."""

    def __init__(self, size, symbol, block, most):
        self.size, self.symbol, self.block, self.most = size, symbol, block, most

    def name(self):
        return f"{self.block}/{self.most}, E {self.symbol:,}, {self.size / MIB:.2g} MiB"

    def blocks(self):
        """The numbers of source and of encoding symbols of each block (RFC 5052, section 9.1)."""
        symbols = -(-self.size // self.symbol)
        count = -(-symbols // self.block)
        small, large = divmod(symbols, count)
        sources = [small + 1] * large + [small] * (count - large)
        return [(k, k * self.most // self.block) for k in sources]

    def words(self):
        """The words of each command."""
        sizes = ["--symbol", str(self.symbol), "--block", str(self.block), "--max", str(self.most)]
        datagrams = sum(n for _, n in self.blocks())
        dropped = min(DROPPED, datagrams // 4)
        return {
            "encode": ["object", "session", *IDENTIFIERS, *sizes],
            "certify": ["object", "certificate", *IDENTIFIERS, *sizes],
            "check": ["session", "object", "certificate", *IDENTIFIERS],
            "drop": ["session", "fewer", *(str(i * datagrams // dropped) for i in range(dropped))],
            "decode": ["thin", "decoded", *IDENTIFIERS],
        }


def write_object(path, size):
    """Random bytes, the same at each run; in pieces, so that this script stays small."""
    source = random.Random(1)
    with open(path, "wb") as file:
        while size > 0:
            piece = min(size, MIB)
            file.write(source.randbytes(piece))
            size -= piece


def is_lost(case):
    """For each datagram of the session, block after block, whether `decode` goes without it."""
    for k, n in case.blocks():
        lost = min(n - k, k)
        yield from (esi < lost for esi in range(n))


def write_thin(case, session, thin):
    """The session without those datagrams. Their places would be too many for a command line."""
    with open(session, "rb") as source, open(thin, "wb") as target:
        for lost in is_lost(case):
            head = source.read(2)
            datagram = source.read(struct.unpack(">H", head)[0])
            if not lost:
                target.write(head + datagram)


def high_water(pid):
    """The most memory that a process has held so far, in KiB, or 0 where it has ended."""
    try:
        with open(f"/proc/{pid}/status", encoding="ascii") as status:
            return max(
                (int(line.split()[1]) for line in status if line.startswith("VmHWM")), default=0
            )
    except OSError:
        return 0


def watch(pid, ended, peaks):
    while not ended.wait(0.002):
        peaks.append(max(peaks.pop(), high_water(pid)))


def wait_for(child):
    """The child's status, and the most memory that it held, in KiB.

    The system counts this script's memory in, as the child began as a copy of it. Where that hides
    the child's, the most that was seen while it ran is told.
    """
    ended, peaks = threading.Event(), [0]
    watcher = threading.Thread(target=watch, args=(child.pid, ended, peaks))
    watcher.start()
    _, status, usage = os.wait4(child.pid, 0)
    ended.set()
    watcher.join()
    child.returncode = os.waitstatus_to_exitcode(status)
    hidden = usage.ru_maxrss <= resource.getrusage(resource.RUSAGE_SELF).ru_maxrss
    return child.returncode, peaks[0] if hidden else usage.ru_maxrss


def run(command, words, folder):
    """Seconds and MiB, or None where there is no such command."""
    with tempfile.TemporaryFile() as output:
        begin = time.perf_counter()
        child = subprocess.Popen(
            [PROGRAM, command, *words], cwd=folder, stdout=output, stderr=output
        )
        status, kibibytes = wait_for(child)
        seconds = time.perf_counter() - begin
        output.seek(0)
        told = output.read(2000).decode(errors="replace").strip()
    if status == 2:
        return None
    if status != 0:
        sys.exit(f"{command} ended with {status}: {told}")
    return seconds, kibibytes / 1024


def measure(case, wanted):
    """What each command took, those that make files for the wanted ones among them."""
    results = {}
    with tempfile.TemporaryDirectory() as folder:
        path = {
            name: os.path.join(folder, name) for name in ("object", "session", "thin", "decoded")
        }
        write_object(path["object"], case.size)
        for command, words in case.words().items():
            if command not in wanted and command not in ("encode", "certify"):
                continue
            if command == "decode":
                write_thin(case, path["session"], path["thin"])
            result = results[command] = run(command, words, folder)
            told = "no such command" if result is None else f"{result[0]:.2f} s"
            print(f"{case.name()}, {command}: {told}", file=sys.stderr)
            if command == "decode" and result:
                if not filecmp.cmp(path["object"], path["decoded"], shallow=False):
                    sys.exit(f"decode didn't give the object: {case.name()}")
    return results


def cell(case, result):
    if result is None:
        return "-"
    seconds, mebibytes = result
    # A command may end before it was ever seen.
    return f"{case.size / seconds / 1e6:.1f} " + (f"{mebibytes:5.0f}" if mebibytes else "    -")


def row(name, cells):
    print(f"{name:28}" + "".join(f"{text:>14}" for text in cells), flush=True)


def table(title, cases, wanted, measured):
    print(f"\n{title}")
    row("", wanted)
    row("k/n, E, object", ["MB/s   MiB"] * len(wanted))
    for case in cases:
        if case.name() not in measured:
            measured[case.name()] = measure(case, wanted)
        row(case.name(), [cell(case, measured[case.name()][command]) for command in wanted])


def main():
    options = argparse.ArgumentParser(
        description=__doc__, formatter_class=argparse.RawDescriptionHelpFormatter
    )
    options.add_argument("--quick", action="store_true", help="4 MiB of 128/160 alone")
    options.add_argument("--only", choices=COMMANDS, metavar="COMMAND", help=", ".join(COMMANDS))
    chosen = options.parse_args()
    wanted = [chosen.only] if chosen.only else COMMANDS
    measured = {}
    sizes = [Case(size * MIB, 1024, 128, 160) for size in (4, 16, 64)]
    if chosen.quick:
        table("Quick", sizes[:1], wanted, measured)
        return
    shapes = [Case(16 * MIB, 1024, k, n) for k, n in ((32, 40), (64, 96), (128, 160), (223, 255))]
    table("By the block's source and encoding symbols", shapes, wanted, measured)
    table("By the object's size", sizes, wanted, measured)
    table("One block of 255 source symbols", [Case(255 * 1400, 1400, 255, 255)], wanted, measured)


if __name__ == "__main__":
    main()
