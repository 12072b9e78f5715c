#!/usr/bin/env python3
"""Times some of the program's commands on inputs that are made to take long: MB/s of all input
files, the seconds, and the memory that was held.

Each row is one input in some commands that read it, once, on one core. Sessions that no encoder
sends are made here, the others by the program. The table goes to standard output; the whole takes
some minutes, and the greatest inputs are of 78 MB. Inputs named on the command line are the only
ones then.
"""
import os
import random
import struct
import subprocess
import sys
import tempfile
import time

ROOT = os.path.dirname(os.path.dirname(os.path.abspath(__file__)))
SCRIPT = os.path.abspath(__file__)
sys.path.insert(0, os.path.join(ROOT, "ci"))
from trying import PROGRAM

HEADER = bytes([0x10, 0xA0, 7, 5]) + bytes(7) + b"\1" + bytes(3) + b"\1\x40\3"
# Whose packets: the header has these.
IDENTIFIERS = ["--tsi", "1", "--toi", "1"]
WORDS = {
    "check": ["check", "s", "o", "c", *IDENTIFIERS],
    "decode": ["decode", "s", "out", *IDENTIFIERS],
    "follow": ["follow", "s", "out", *IDENTIFIERS],
    "twin": ["twin", "s", "o", "c", "out", *IDENTIFIERS],
    "drop": ["drop", "s", "out", "0"],
    "show": ["show", "s"],
}


def frame(fti, block, esi, symbol):
    """The frame of a packet."""
    length, size, most, encoding = fti
    content = struct.pack(">Q", length)[2:]
    content += struct.pack(">HBBI", size, most, encoding, block << 8 | esi)
    datagram = HEADER + content + symbol
    return struct.pack(">H", len(datagram)) + datagram


def put(name, data):
    with open(name, "wb") as file:
        file.write(data)


def get(name):
    with open(name, "rb") as file:
        return file.read()


def alcrs(*words):
    subprocess.run([PROGRAM, *words], check=True, stdout=subprocess.DEVNULL)


def send(length, fti, order):
    """An object of random bytes in `o`, its session in `s`, its certificate in `c`."""
    put("o", random.Random(1).randbytes(length))
    sizes = ["--symbol", str(fti[0]), "--block", str(fti[1]), "--max", str(fti[2])]
    alcrs("encode", "o", "s", *IDENTIFIERS, *sizes, "--order", order)
    alcrs("certify", "o", "c", *IDENTIFIERS, *sizes)


def keep(size, chosen):
    """Keeps of the session, whose frames have this size, those at chosen places."""
    data = get("s")
    put("s", b"".join(data[i : i + size] for i in range(0, len(data), size) if chosen(i // size)))


def one_packet():
    """One packet of 2^24 blocks."""
    put("s", frame((1 << 24, 1, 1, 1), (1 << 24) - 1, 0, b"\1"))


def one_packet_each():
    """One packet of each of 500,000 blocks of 255 symbols."""
    fti = ((1 << 24) * 255, 1, 255, 255)
    put("s", b"".join(frame(fti, block, 0, b"\1") for block in range(500_000)))


def small_blocks():
    """500,000 blocks of one source and 255 encoding symbols, one packet of each."""
    fti = (500_001, 1, 1, 255)
    put("s", b"".join(frame(fti, block, 0, b"\1") for block in range(500_000)))


def many_blocks():
    """2^21 blocks of one symbol."""
    send(1 << 21, (1, 1, 1), "blocks")


def repeats():
    """One block's 6 datagrams, 166,667 times."""
    send(29, (8, 8, 12), "blocks")
    put("s", get("s") * 166_667)


def neighbours():
    """32 blocks of one symbol, whose members share an allocation, and a million repeats of one."""
    send(32, (1, 1, 1), "blocks")
    session = get("s")
    put("s", session + session[: len(session) // 32] * 1_000_000)


def one_repeated():
    """One datagram a million times."""
    send(29, (8, 8, 12), "blocks")
    put("s", get("s")[:42] * 1_000_000)


def empty_datagrams():
    """A million datagrams of no bytes."""
    send(29, (8, 8, 12), "blocks")
    put("s", bytes(2_000_000))


def last_column():
    """A certificate whose last block has another polynomial in the last column."""
    send(16 << 20, (1024, 128, 160), "blocks")
    data = bytearray(get("c"))
    data[-128] ^= 1
    put("c", data)


def last_symbols():
    """A session whose last symbol has another last byte."""
    send(16 << 20, (1024, 128, 160), "rounds")
    data = bytearray(get("s"))
    data[-1] ^= 1
    put("s", data)


def one_lacks():
    """Blocks of 128 with just enough symbols, the last with one too few."""
    send(16 << 20, (1024, 128, 160), "blocks")
    count = (16 << 20) // 1024
    keep(1024 + 34, lambda place: place % 160 >= 32 and place != 160 * (count // 128) - 1)


def few_bytes():
    """Symbols of one byte in rounds, with more repair symbols than source symbols."""
    send(200_000, (1, 100, 255), "rounds")


def half_lost():
    """Symbols of one byte, all but one of each block's 128 source symbols lost."""
    send(128 * 1562, (1, 128, 255), "blocks")
    keep(35, lambda place: place % 255 >= 127)


def other_losses():
    """The same, but another loss in each block."""
    send(128 * 1562, (1, 128, 255), "blocks")
    chance = random.Random(2)
    kept = [set(chance.sample(range(255), 128)) for _ in range(1562)]
    keep(35, lambda place: place % 255 in kept[place // 255])


def tries_to_solve():
    """127 repair symbols of a block, and 2,000 source symbols by turns that are of no object with
    them.
    """
    fti = (255, 2, 128, 255)
    chance = random.Random(3)
    repair = b"".join(frame(fti, 0, esi, chance.randbytes(2)) for esi in range(128, 255))
    sources = frame(fti, 0, 0, chance.randbytes(2)) + frame(fti, 0, 1, chance.randbytes(2))
    put("s", repair + sources * 1000)


def places():
    """A session of 120,000 datagrams."""
    send(100_000, (1, 100, 120), "blocks")


ROWS = [
    (one_packet, ["decode", "follow", "show"]),
    (one_packet_each, ["decode", "follow", "show", "drop"]),
    (small_blocks, ["decode", "follow"]),
    (many_blocks, ["check", "decode", "follow", "twin"]),
    (repeats, ["check", "decode", "follow", "show", "drop"]),
    (neighbours, ["check", "decode", "follow"]),
    (one_repeated, ["check", "decode", "follow", "twin"]),
    (empty_datagrams, ["check", "decode", "follow", "show", "drop"]),
    (last_column, ["check"]),
    (last_symbols, ["check"]),
    (one_lacks, ["check", "decode", "follow", "twin"]),
    (few_bytes, ["check", "decode", "follow"]),
    (half_lost, ["check", "decode", "follow"]),
    (other_losses, ["check", "decode", "follow"]),
    (tries_to_solve, ["decode", "follow"]),
    (places, ["10,000 places", "100,000 places"]),
]


def words_of(command):
    if command.endswith("places"):
        count = int(command.split()[0].replace(",", ""))
        return ["drop", "s", "out", *map(str, range(count))]
    return WORDS[command]


def run(words):
    """The seconds of a run, its status and the most MiB that it held."""
    start = time.monotonic()
    child = subprocess.Popen(
        [PROGRAM, *words], stdout=subprocess.DEVNULL, stderr=subprocess.DEVNULL
    )
    _, status, used = os.wait4(child.pid, 0)
    child.returncode = os.waitstatus_to_exitcode(status)
    return time.monotonic() - start, child.returncode, used.ru_maxrss // 1024


def name_of(make):
    return " ".join(make.__doc__.split()).rstrip(".")


def main(names):
    print("| input | command | MB | seconds | MB/s | MiB held | status |")
    print("|---|---|---|---|---|---|---|")
    for make, commands in ROWS:
        if names and make.__name__ not in names:
            continue
        with tempfile.TemporaryDirectory() as folder:
            os.chdir(folder)
            # In a process of its own, since what this one holds counts for a command that it
            # starts.
            subprocess.run([sys.executable, SCRIPT, "--make", make.__name__], check=True)
            for command in commands:
                words = words_of(command)
                inputs = [word for word in words[1:] if word in ("s", "o", "c")]
                size = sum(map(os.path.getsize, inputs)) / 1e6
                seconds, status, held = run(words)
                row = f"{size:.1f} | {seconds:.2f} | {size / seconds:.1f} | {held} | {status}"
                print(f"| {name_of(make)} | `{command}` | {row} |", flush=True)
            os.chdir(ROOT)


if __name__ == "__main__":
    if sys.argv[1:2] == ["--make"]:
        globals()[sys.argv[2]]()
    else:
        main(sys.argv[1:])
