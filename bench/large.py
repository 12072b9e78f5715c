#!/usr/bin/env python3
"""Times the commands on a large object, in each order of sending: seconds, MB/s of object, and the
most memory that each held, in MiB.

The object is random bytes, 4 GiB of them by default, with 128 source symbols of 1,024 bytes in a
block, and 160 encoding symbols. `drop` leaves a thousand places out, by chance, and `decode` and
`follow` read what it wrote. What they write is compared with the object. `twin` reads a session in
which the first block is short. All files stand in one folder, which needs seven times the object's
size; the folder's file system decides how long reading and writing take. The table goes to standard
output, the seconds to standard error as they come.
"""
import argparse
import filecmp
import os
import random
import sys
import tempfile

from speed import IDENTIFIERS, MIB, Case, cell, row, run, write_object

SYMBOL, BLOCK, MOST = 1024, 128, 160
DROPPED = 1000
ORDERS = ["blocks", "rounds"]


def commands_of(case, order):
    """The words of each command, in an order in which each has its inputs."""
    sizes = ["--symbol", str(SYMBOL), "--block", str(BLOCK), "--max", str(MOST)]
    datagrams = sum(n for _, n in case.blocks())
    places = map(str, sorted(random.Random(1).sample(range(datagrams), DROPPED)))
    return {
        "encode": ["object", "session", *IDENTIFIERS, *sizes, "--order", order],
        "certify": ["object", "certificate", *IDENTIFIERS, *sizes],
        "check": ["session", "object", "certificate", *IDENTIFIERS, "--summary"],
        "drop": ["session", "thin", *places],
        "decode": ["thin", "decoded", *IDENTIFIERS],
        "follow": ["thin", "decoded", *IDENTIFIERS],
        "twin": ["short", "object", "certificate", "decoded", *IDENTIFIERS],
    }


def write_short(case, order, folder):
    """The session without as many symbols of the first block as leave it one short."""
    blocks = case.blocks()
    k, n = blocks[0]
    between = len(blocks) if order == "rounds" else 1
    places = (str(esi * between) for esi in range(n - k + 1))
    run("drop", ["session", "short", *places], folder)


def measure(case, order, wanted, folder):
    """What each wanted command took, and those that make files for it."""
    results = {}
    for command, words in commands_of(case, order).items():
        if command not in wanted and command not in ("encode", "certify", "drop"):
            continue
        if command == "twin":
            os.remove(os.path.join(folder, "thin"))
            write_short(case, order, folder)
        result = results[command] = run(command, words, folder)
        print(f"{order}, {command}: {result[0]:.1f} s", file=sys.stderr, flush=True)
        if command in ("decode", "follow", "twin"):
            path = [os.path.join(folder, name) for name in ("object", "decoded")]
            if filecmp.cmp(*path, shallow=False) != (command != "twin"):
                sys.exit(f"{command} didn't give what it should")
            os.remove(path[1])
    return results


def main():
    options = argparse.ArgumentParser(
        description=__doc__, formatter_class=argparse.RawDescriptionHelpFormatter
    )
    options.add_argument("--mib", type=int, default=4096, help="the object's size (4096)")
    options.add_argument("--folder", help="where the files are put for as long as it runs")
    options.add_argument("--only", nargs="+", metavar="COMMAND", help="these commands alone")
    chosen = options.parse_args()
    case = Case(chosen.mib * MIB, SYMBOL, BLOCK, MOST)
    wanted = chosen.only or list(commands_of(case, ORDERS[0]))
    with tempfile.TemporaryDirectory(dir=chosen.folder) as folder:
        write_object(os.path.join(folder, "object"), case.size)
        print(case.name())
        row("", wanted)
        row("order", ["MB/s   MiB"] * len(wanted))
        for order in ORDERS:
            measured = measure(case, order, wanted, folder)
            row(order, [cell(case, measured[command]) for command in wanted])


if __name__ == "__main__":
    main()
