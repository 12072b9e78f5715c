#!/usr/bin/env python3
"""Decodes large sessions, which `decode` reads at offsets, and compares what comes with the object.

The object has 280 MiB. Its sessions have it in both orders, with every symbol and with as few as
each block needs. Each run may hold 32 MiB at most. Then reads of the session fail, and give another
first byte, as those of a file that is changed meanwhile: some of the first and the last, and of all
between. Such a run gives the object or a fault, and never another object. A C compiler, `cc`,
builds the library that lets them fail.
"""
import filecmp
import os
import random
import subprocess
import sys
import tempfile

from failed_devices import FAILING, Call
from trying import BEFORE, OF_BULLETIN, PROGRAM, build

LENGTH = 280 << 20
SIZES = ["--symbol", "60000", "--block", "50", "--max", "60"]
BLOCKS = -(-LENGTH // (50 * 60000))
MOST_KIB = 32 << 10


def lost(order):
    """Places of ten symbols of each block, which is what it may lose. The last blocks, which are
    shorter, lose none."""
    chosen = random.Random(5)
    return [
        block * 60 + symbol if order == "blocks" else symbol * BLOCKS + block
        for block in range(BLOCKS - 8)
        for symbol in chosen.sample(range(49), 10)
    ]


class Room:
    """A folder with the object, its sessions and an output."""

    def __init__(self, folder):
        self.folder = folder
        self.library = self.path("failing.so")
        build(FAILING, self.library)
        with open(self.path("object"), "wb") as file:
            for seed in range(LENGTH >> 20):
                file.write(random.Random(seed).randbytes(1 << 20))

    def path(self, name):
        return os.path.join(self.folder, name)

    def alcrs(self, *words):
        subprocess.run([PROGRAM, *words], cwd=self.folder, check=True, stdout=subprocess.DEVNULL)

    def decode(self, session, **settings):
        """Status, what was printed, what the output is, and the KiB that were held."""
        with open(self.path("out"), "wb") as file:
            file.write(BEFORE)
        command = [PROGRAM, "decode", session, "out", *OF_BULLETIN]
        environment = {"LD_PRELOAD": self.library, **settings} if settings else {}
        with open(self.path("printed"), "wb") as printed:
            ran = subprocess.Popen(
                command,
                cwd=self.folder,
                env=environment,
                stdout=printed,
                stderr=subprocess.DEVNULL,
            )
            _, status, usage = os.wait4(ran.pid, 0)
            ran.returncode = os.waitstatus_to_exitcode(status)
        with open(self.path("printed"), encoding="ascii") as printed:
            return ran.returncode, printed.read(), self.left(), usage.ru_maxrss

    def left(self):
        if any(name.startswith("out.") for name in os.listdir(self.folder)):
            return "a part"
        if filecmp.cmp(self.path("out"), self.path("object"), shallow=False):
            return "object"
        with open(self.path("out"), "rb") as file:
            return "before" if file.read(len(BEFORE) + 1) == BEFORE else "another"


def some(calls):
    """The first and the last of the calls, and some between."""
    between = random.Random(7).sample(calls, min(8, len(calls)))
    return sorted({*calls[:2], *calls[-2:], *between})


def is_fault_or_object(ran):
    status, printed, left, _ = ran
    return left == "object" if status == 0 else status == 1 and printed and left == "before"


def main():
    bad, whole_runs, failed_runs, spoiled_runs = [], 0, 0, 0
    with tempfile.TemporaryDirectory() as folder:
        room = Room(folder)
        for order in ["blocks", "rounds"]:
            room.alcrs("encode", "object", "whole", *OF_BULLETIN, *SIZES, "--order", order)
            with open(room.path("places"), "w", encoding="ascii") as file:
                file.write("\n".join(map(str, lost(order))))
            room.alcrs("drop", "whole", "thin", "--places", "places")
            for session in ["whole", "thin"]:
                ran = room.decode(session)
                if ran[0] != 0 or ran[2] != "object" or ran[3] > MOST_KIB:
                    bad.append((order, session, "as it is", ran))
                whole_runs += 1
            room.decode("thin", TOLD=room.path("told"))
            with open(room.path("told"), encoding="utf-8") as file:
                told = [Call(line.rstrip("\n")) for line in file]
            os.remove(room.path("told"))
            reads = [n for n, call in enumerate(told, 1) if call.name.startswith("pread")]
            for n in some(reads):
                ran = room.decode("thin", FAILED=str(n), ERROR="5")
                if (ran[0], ran[2]) != (1, "before") or ran[1] != "fault S4 Io\n":
                    bad.append((order, "thin", f"read {n} fails", ran))
                failed_runs += 1
                ran = room.decode("thin", SPOILED=str(n))
                if not is_fault_or_object(ran):
                    bad.append((order, "thin", f"read {n} gives another byte", ran))
                spoiled_runs += 1
    for failure in bad:
        print(*failure)
    print(
        f"{whole_runs} large sessions decoded, {failed_runs} reads failed and {spoiled_runs} "
        f"changed in turn: {len(bad)} ended otherwise than they may"
    )
    return 1 if bad or not failed_runs else 0


if __name__ == "__main__":
    sys.exit(main())
