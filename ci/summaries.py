#!/usr/bin/env python3
"""Has the program show sessions with and without `--summary`, and compares the summaries with what
is worked out here of the lines of each datagram.

The sessions are made here, by chance from fixed seeds: several TSI and TOI, in turns and one behind
the other; FTIs that change, of few blocks and of 2^24; symbols that are repeated, are past their
block or of no block; datagrams that are no packets; and frames that are cut. Those of samples/ are
tried, too, and a pipe. Last come many identities, FTIs and blocks, which have to take no long time.
"""
import itertools
import os
import random
import re
import subprocess
import sys
import tempfile
import time

from trying import PROGRAM, SAMPLES

CARRIER = re.compile(r"tsi (\d+) toi (\d+) length (\d+) symbol (\d+) block (\d+) max (\d+) "
                     r"sbn (\d+) esi (\d+)")
OTHER = re.compile(r"tsi (\d+) toi (\d+) no fti symbol \d+ sbn (\d+) esi (\d+)")
# The order of the reasons.
REASONS = [
    "P1 TooShort", "P2 Version", "P3 Psi", "P4 Codepoint", "P5 NoIdentity", "P6 HeaderLength",
    "P7 Extension", "P8 FtiLength", "P9 TwoFti", "P11 FtiValue F1 LengthZero",
    "P11 FtiValue F2 LengthTooGreat", "P11 FtiValue F3 SymbolZero", "P11 FtiValue F4 BlockZero",
    "P11 FtiValue F5 MaxBelowBlock", "P11 FtiValue F6 TooManyBlocks", "P12 PayloadLength",
]
# So many datagrams are summed up in so many seconds, whatever they are.
MANY = 60_000
LONG = 30


def wrong(what):
    sys.exit(f"summaries.py: {what}")


def packet(tsi, toi, fti, sbn, esi, size=4):
    """A packet of a carrier, or without an FTI."""
    head = bytes([0x10, 0xA0, 7 if fti else 4, 5]) + bytes(4)
    head += tsi.to_bytes(4, "big") + toi.to_bytes(4, "big")
    if fti:
        length, size, block, most = fti
        head += b"\x40\x03" + length.to_bytes(6, "big") + size.to_bytes(2, "big")
        head += bytes([block, most])
    return head + sbn.to_bytes(3, "big") + bytes([esi]) + bytes(size)


def session(datagrams):
    return b"".join(len(d).to_bytes(2, "big") + d for d in datagrams)


def weakest(fti, symbols):
    """The block where what it has lies least above what it needs. Of those of which nothing came
    the first that is large and the first that is small are looked at."""
    length, size, block, most = fti
    count = -(-length // size)
    blocks = -(-count // block)
    small, large = divmod(count, blocks)
    came = {}
    for sbn, esi in symbols:
        came.setdefault(sbn, set()).add(esi)
    looked_at = [sbn for sbn in came if sbn < blocks]
    for start, end in (0, large), (large, blocks):
        looked_at += itertools.islice((b for b in range(start, end) if b not in came), 1)
    spares = []
    for sbn in looked_at:
        need = small + (sbn < large)
        have = sum(esi < need * most // block for esi in came.get(sbn, ()))
        spares.append((have - need, sbn, need, have))
    return min(spares)[1:]


def summary(lines):
    """The summary, and the status, of the lines of each datagram."""
    identities, reasons = {}, {}
    for place, line in enumerate(lines):
        at, words = line.split(" ", 1)
        if int(at) != place:
            wrong(f"the line of datagram {place} is {line}")
        carrier, other = CARRIER.fullmatch(words), OTHER.fullmatch(words)
        if carrier:
            tsi, toi, *fti, sbn, esi = map(int, carrier.groups())
            identities.setdefault((tsi, toi), []).append((place, (sbn, esi), tuple(fti)))
        elif other:
            tsi, toi, sbn, esi = map(int, other.groups())
            identities.setdefault((tsi, toi), []).append((place, (sbn, esi), None))
        else:
            reasons[words] = reasons.get(words, 0) + 1
    told = []
    for (tsi, toi), packets in sorted(identities.items()):
        who = f"tsi {tsi} toi {toi}"
        symbols = {ids for _, ids, _ in packets}
        ftis = [fti for _, _, fti in packets if fti]
        told.append(f"{who} datagrams {len(packets)} first {packets[0][0]} last {packets[-1][0]} "
                    f"carriers {len(ftis)} symbols {len(symbols)} "
                    f"repeats {len(packets) - len(symbols)}")
        for fti in sorted(set(ftis)):
            length, size, block, most = fti
            told.append(f"{who} length {length} symbol {size} block {block} max {most} "
                        f"carriers {ftis.count(fti)}")
        if ftis:
            sbn, need, have = weakest(ftis[0], symbols)
            told.append(f"{who} weakest block {sbn} need {need} have {have}")
    for reason in sorted(reasons, key=REASONS.index):
        told.append(f"no packet {reason} datagrams {reasons[reason]}")
    return told, 1 if reasons else 0


def shown(*words, **options):
    ran = subprocess.run([PROGRAM, "show", "-q", *words], capture_output=True, **options)
    return ran.stdout.decode().splitlines(), ran.returncode


def compare(name, told, wanted):
    if told != wanted:
        wrong(f"{name}: the program tells\n{told}\nand it should be\n{wanted}")


def try_session(path, name):
    """One session: from a file and from a pipe."""
    lines, status = shown(path)
    if lines and lines[-1].startswith("fault "):
        wanted = ([lines[-1]], 1)
    else:
        wanted = summary(lines)
        if wanted[1] != status:
            wrong(f"{name}: the status of show is {status}")
    compare(name, shown("--summary", path), wanted)
    with open(path, "rb") as file:
        compare(f"{name}, from a pipe", shown("--summary", "-", stdin=file), wanted)
    return lines


def chance(seed):
    """A session by chance."""
    dice = random.Random(seed)
    ftis = [
        (20000, 250, 27, 33), (1, 1, 1, 1), (2 ** 24, 1, 1, 1),
        (dice.randrange(1, 300), dice.randrange(1, 9), dice.randrange(1, 20), 33),
        (dice.randrange(1, 300), dice.randrange(1, 9), dice.randrange(1, 20), 21),
    ]
    whose = [(dice.randrange(3), dice.randrange(2 ** dice.randrange(1, 32))) for _ in range(4)]
    chosen = {who: dice.choice(ftis) for who in whose}
    datagrams = []
    for _ in range(dice.randrange(1, 300)):
        who = dice.choice(whose[:dice.randrange(1, 5)])
        fti = chosen[who] if dice.random() < 0.9 else dice.choice(ftis)
        if dice.random() < 0.3:
            fti = None
        sbn = dice.randrange(dice.choice([1, 3, 12, 2 ** 24]))
        datagram = packet(*who, fti, sbn, dice.randrange(dice.choice([2, 12, 40, 256])))
        if dice.random() < 0.1:
            at = dice.randrange(min(len(datagram), 30))
            datagram = datagram[:at] + bytes([dice.randrange(256)]) + datagram[at + 1:]
        if dice.random() < 0.03:
            datagram = datagram[:dice.randrange(len(datagram))]
        datagrams.append(datagram)
    dice.shuffle(datagrams)
    whole = session(datagrams)
    return whole[:-1] if seed % 7 == 6 else whole


def whole_first_blocks():
    """The first blocks have more than they need, and nothing came of one behind them."""
    fti = (100 * 8 - 5, 8, 10, 15)
    return session([packet(3, 3, fti, sbn, esi) for sbn in range(6) for esi in range(12)])


def try_many(room, name, datagrams):
    path = os.path.join(room, "many.session")
    with open(path, "wb") as file:
        file.write(session(datagrams))
    began = time.monotonic()
    lines, status = shown("--summary", path)
    took = time.monotonic() - began
    if status != 0 or took > LONG:
        wrong(f"{MANY} datagrams, {name}: status {status}, {took:.1f} seconds")
    return lines


def main():
    lines = 0
    tried = 0
    for name in sorted(os.listdir(SAMPLES)):
        if name.endswith(".session"):
            lines += len(try_session(os.path.join(SAMPLES, name), name))
            tried += 1
    with tempfile.TemporaryDirectory() as room:
        path = os.path.join(room, "made.session")
        made = [b"", whole_first_blocks()] + [chance(seed) for seed in range(40)]
        for seed, whole in enumerate(made):
            with open(path, "wb") as file:
                file.write(whole)
            lines += len(try_session(path, f"session {seed}"))
            tried += 1
        try_many(room, "each of another TOI, which claims 2^24 blocks",
                 [packet(1, place, (2 ** 24, 1, 1, 1), 0, 0) for place in range(MANY)])
        try_many(room, "each of another FTI",
                 [packet(1, 1, (place + 1, 1, 1, 1), place, 0) for place in range(MANY)])
        told = try_many(room, "each of another block",
                        [packet(1, 1, (255 * MANY, 1, 255, 255), place, place % 200)
                         for place in range(MANY)])
        compare("many blocks", told[-1], "tsi 1 toi 1 weakest block 0 need 255 have 1")
    print(f"{tried} summaries agree with the lines of {lines} datagrams")


if __name__ == "__main__":
    main()
