#!/usr/bin/env python3
"""Gives the program inputs that are cut, changed or claim great sizes, and tells whether each is
answered as it may be.

Three kinds, in each command that reads such a file, but `join`, with room for the inputs and 64 MiB
(`ulimit -v`):

- every beginning of the note's session, with the FTI in each datagram and in every fourth, of its
  certificate and of the object, with just the answer that it has;
- heads of packets and certificates that claim the greatest sizes, and greatest numbers on the
  command line, with just the answer that they have;
- each of the first 64 bytes of a session, of its last datagram, of one without FTI and of a
  certificate as each of 256 values: the status is 0, 1 or 3, and what is printed are lines that the
  command has for it, none of want of memory; a file is written where the status is 0, and else
  nothing is changed.

Of the third kind it tries 2,000 by chance, or as many as the first argument says, or all by `all`,
which takes minutes.
"""
import os
import random
import re
import struct
import sys
import tempfile

from trying import BEFORE, OF_NOTE, SAMPLES, Rooms, in_turn

ROOM = 64 << 20
FTI = "F1 LengthZero|F2 LengthTooGreat|F3 SymbolZero|F4 BlockZero|F5 MaxBelowBlock|F6 TooManyBlocks"
PACKET = (
    "(?:P1 TooShort|P2 Version|P3 Psi|P4 Codepoint|P5 NoIdentity|P6 HeaderLength|P7 Extension|"
    f"P8 FtiLength|P9 TwoFti|P11 FtiValue (?:{FTI})|P12 PayloadLength)"
)
FRAMES = "fault S[12] Cut(?:Length|Datagram)\n|fault S3 TooLong\n"
FAULTS = f"{FRAMES}|fault Z1 Magic\n|fault Z2 Fti (?:{FTI})\n|fault Z3 Size\n"
REASONS = (
    r"no (?:N12 OtherCertificate|N1 ObjectLength|N2 NotObject block \d+ column \d+ symbol \d+"
    rf"|N3 Empty|N4 Packet place \d+ {PACKET}"
    r"|N6 OtherFti place \d+|N7 Range place \d+|N8 Symbol place \d+ column \d+"
    r"|N9 Thin block \d+ have \d+ need \d+|N10 SymbolLength place \d+|N11 NoCarrier)\n"
)
LACKS = r"(?:empty|missing block \d+ have \d+ need \d+)\n"
REFUSALS = (
    rf"(?:refused \d+ (?:R1 Packet {PACKET}|R3 OtherFti|R4 Range|R5 Clash|R6 NotCode block \d+"
    r"|R7 SymbolLength|G2 Early)\n)*"
)
SHOWN = (
    r"\d+ tsi \d+ toi \d+ (?:length \d+ symbol \d+ block \d+ max \d+|no fti symbol \d+)"
    r" sbn \d+ esi \d+\n"
)

# What a command prints, by its status.
LINES = {
    "check": {
        0: r"yes\n(?:block \d+ need \d+ have \d+\n)+carriers \d+\nmargin \d+\n"
        r"kill(?: \d+)+\nburst \d+\n",
        1: f"{REASONS}|{FAULTS}",
    },
    "decode": {
        0: r"object \d+ bytes\n",
        1: rf"fault R1 Packet place \d+ {PACKET}\n"
        r"|fault R(?:3 OtherFti|4 Range|5 Clash|7 SymbolLength) place \d+\n"
        rf"|fault R6 NotCode block \d+\n|{FRAMES}",
        3: LACKS,
    },
    "follow": {
        0: REFUSALS + r"complete after \d+ datagrams\nobject \d+ bytes\n",
        1: rf"{REFUSALS}(?:{FRAMES}|fault file out\n)",
        3: REFUSALS + LACKS,
    },
    "show": {0: f"(?:{SHOWN})*", 1: rf"(?:{SHOWN}|\d+ {PACKET}\n)+|{FRAMES}"},
    "drop": {0: r"kept \d+ datagrams\n", 1: rf"fault S6 NoSuchPlace \d+\n|{FRAMES}"},
    "salvage": {0: r"kept \d+ datagrams\n", 1: r"kept \d+ datagrams\n"},
    "convert": {
        0: r"converted \d+ blocks\n",
        1: rf"fault Z1 Magic\n|fault Z2 Fti (?:{FTI})\n|fault Z3 Size\n|fault Z6 OtherIdentity\n",
    },
    "twin": {0: r"twin block \d+ have \d+ need \d+\n", 1: f"no twin\n|{REASONS}|{FAULTS}"},
}
LINES = {
    name: {status: re.compile(text) for status, text in told.items()}
    for name, told in LINES.items()
}

# The commands that read a session `s`, an object `o` and a certificate `c`.
WORDS = {
    "check": ["check", "s", "o", "c", *OF_NOTE],
    "decode": ["decode", "s", "out", *OF_NOTE],
    "follow": ["follow", "s", "out", *OF_NOTE],
    "show": ["show", "s"],
    "drop": ["drop", "s", "out", "0"],
    "salvage": ["salvage", "s", "out"],
    "twin": ["twin", "s", "o", "c", "out", *OF_NOTE],
    "convert": ["convert", "c", "out", *OF_NOTE],
}
OF_SESSION = [name for name in WORDS if name != "convert"]
OF_CERTIFICATE = ["check", "twin", "convert"]


def sample(name):
    with open(os.path.join(SAMPLES, name), "rb") as file:
        return file.read()


SESSION, OBJECT, CERTIFICATE = sample("note.session"), sample("note.txt"), sample("note.rsc")
# The same certificate in the older layout, and where its FTI and that of the other begins.
OLDER, OLDER_FTI, NAMED_FTI = sample("note.rsc1"), 4, 24
# The bytes of a frame, and of one whose packet carries no FTI; the datagrams at the places 0 and 4
# of SPARSE carry it.
FRAME, PLAIN_FRAME = 42, 30
SPARSE = sample("sparse.session")


class Try:
    """A command, the bytes of the files that aren't the sample's, and the answer that it has to
    have, if it is known.
    """

    def __init__(self, name, words, files, wanted=None):
        self.name, self.words, self.files, self.wanted = name, words, files, wanted

    def is_answered(self, ran):
        status, output, messages, left, parts = ran
        if messages or parts or (left != BEFORE and status != 0 and self.words[0] != "salvage"):
            return False
        if self.wanted is not None:
            return (status, output.decode()) == self.wanted
        told = LINES[self.words[0]].get(status)
        return told is not None and told.fullmatch(output.decode()) is not None


def frames_in(session):
    """How many whole frames there are, and the bytes behind them."""
    count = at = 0
    while at + 2 <= len(session):
        end = at + 2 + int.from_bytes(session[at : at + 2], "big")
        if end > len(session):
            break
        count, at = count + 1, end
    return count, len(session) - at


def of_beginning(command, session):
    """The answer to a beginning of a session, if it is no matter of what its datagrams say."""
    count, rest = frames_in(session)
    if command == "follow" and count >= 4:
        return 0, "complete after 4 datagrams\nobject 29 bytes\n"
    if command == "salvage":
        return 1 if rest else 0, f"kept {count} datagrams\n"
    if rest:
        return 1, "fault S1 CutLength\n" if rest == 1 else "fault S2 CutDatagram\n"
    short = f"block 0 have {count} need 4\n"
    if command in ("decode", "follow") and count < 4:
        return 3, f"missing {short}" if count else "empty\n"
    if command in ("check", "twin") and count < 4:
        thin = (0, f"twin {short}") if command == "twin" else (1, f"no N9 Thin {short}")
        return thin if count else (1, "no N3 Empty\n")
    if command == "drop":
        return (0, f"kept {count - 1} datagrams\n") if count else (1, "fault S6 NoSuchPlace 0\n")
    return None


def beginnings():
    for command in OF_SESSION:
        words = WORDS[command]
        for whole in [SESSION, SPARSE]:
            for size in range(len(whole) + 1):
                wanted = of_beginning(command, whole[:size])
                yield Try(f"session of {size} bytes", words, {"s": whole[:size]}, wanted)
    for command in OF_CERTIFICATE:
        for certificate in [CERTIFICATE, OLDER]:
            for size in range(len(certificate)):
                wanted = 1, "fault Z1 Magic\n" if size < 4 else "fault Z3 Size\n"
                yield Try(
                    f"certificate of {size} bytes",
                    WORDS[command],
                    {"c": certificate[:size]},
                    wanted,
                )
        for size in range(len(OBJECT) if command != "convert" else 0):
            wanted = 1, "no N1 ObjectLength\n"
            yield Try(f"object of {size} bytes", WORDS[command], {"o": OBJECT[:size]}, wanted)


def fti_bytes(length, symbol, block, most):
    return struct.pack(">Q", length)[2:] + struct.pack(">HBB", symbol, block, most)


def frame_of(fti, block, esi):
    """The frame of a packet of the note's session with a symbol of zeros."""
    head = bytes([0x10, 0xA0, 7, 5]) + bytes(7) + b"\7" + bytes(3) + b"\2\x40\3"
    datagram = head + fti_bytes(*fti) + struct.pack(">I", block << 8 | esi) + bytes(fti[1])
    return struct.pack(">H", len(datagram)) + datagram


def plain_frame_of(block, esi, size):
    """The frame of a packet without FTI of the note's session, with a symbol of so many zeros."""
    head = bytes([0x10, 0xA0, 4, 5]) + bytes(7) + b"\7" + bytes(3) + b"\2"
    datagram = head + struct.pack(">I", block << 8 | esi) + bytes(size)
    return struct.pack(">H", len(datagram)) + datagram


# So long a file every file system has that is in use: 2 TiB.
LONGEST = 1 << 41
# FTIs that claim much, the last block of each, and how many symbols the first and the last block
# need.
GREAT = [
    ((1 << 40, 65475, 255, 255), 65854, 255, 254),
    (((1 << 24) * 255 * 65475, 65475, 255, 255), (1 << 24) - 1, 255, 255),
    ((1 << 24, 1, 1, 1), (1 << 24) - 1, 1, 1),
    (((1 << 24) * 255, 1, 255, 255), (1 << 24) - 1, 255, 255),
    ((1 << 24, 1, 1, 255), (1 << 24) - 1, 1, 1),
]


def great_claims():
    for fti, last, need, _ in GREAT:
        first = frame_of(fti, 0, 0)
        far = frame_of(fti, last, 0)
        lacks = "block 1 have 0 need 1" if need == 1 else f"block 0 have 1 need {need}"
        for session, text in [
            (first, f"missing {lacks}\n"),
            (far, f"missing block 0 have 0 need {need}\n"),
            (far * 300, f"missing block 0 have 0 need {need}\n"),
        ]:
            yield Try(f"packet of {fti}", WORDS["decode"], {"s": session}, (3, text))
            # A file system may have no file as long as the object that is claimed.
            wanted = (3, text) if fti[0] <= LONGEST else None
            yield Try(f"packet of {fti}", WORDS["follow"], {"s": session}, wanted)
        shown = "tsi 7 toi 2 length {} symbol {} block {} max {}".format(*fti)
        yield Try(
            f"packet of {fti}", WORDS["show"], {"s": far}, (0, f"0 {shown} sbn {last} esi 0\n")
        )
        yield Try(f"packet of {fti}", WORDS["drop"], {"s": far}, (0, "kept 0 datagrams\n"))
        for command in ["check", "twin"]:
            wanted = 1, "no N6 OtherFti place 0\n"
            yield Try(f"packet of {fti}", WORDS[command], {"s": far}, wanted)
        for command in OF_CERTIFICATE:
            for head in [OLDER[:OLDER_FTI], CERTIFICATE[:NAMED_FTI]]:
                for behind in [b"", b"\0", bytes(100_000)]:
                    certificate = head + fti_bytes(*fti) + behind
                    yield Try(
                        f"certificate of {fti}",
                        WORDS[command],
                        {"c": certificate},
                        (1, "fault Z3 Size\n"),
                    )
    # Of a packet without FTI alone nothing is known but its place in the object that it claims.
    for size in [1, 8, 65487]:
        far = plain_frame_of((1 << 24) - 1, 255, size)
        reason = "N7 Range" if size == 8 else "N10 SymbolLength"
        for command, wanted in [
            ("decode", (3, "empty\n")),
            ("follow", (3, "refused 0 G2 Early\nempty\n")),
            ("show", (0, f"0 tsi 7 toi 2 no fti symbol {size} sbn {(1 << 24) - 1} esi 255\n")),
            ("check", (1, f"no {reason} place 0\n")),
            ("twin", (1, f"no {reason} place 0\n")),
        ]:
            yield Try(f"packet without FTI, of {size} bytes", WORDS[command], {"s": far}, wanted)
        behind = SESSION[:FRAME] + far
        reason = reason.replace("N7", "R4").replace("N10", "R7")
        wanted = 1, f"fault {reason} place 1\n"
        yield Try(f"packet without FTI, of {size} bytes", WORDS["decode"], {"s": behind}, wanted)
    for length, text in [
        (65507, "fault S2 CutDatagram\n"),
        (65508, "fault S3 TooLong\n"),
        (65535, "fault S3 TooLong\n"),
    ]:
        for command in OF_SESSION:
            wanted = 1, "kept 0 datagrams\n" if command == "salvage" else text
            yield Try(
                f"frame of {length} bytes",
                WORDS[command],
                {"s": struct.pack(">H", length) + bytes(100)},
                wanted,
            )
    sizes = ["--symbol", "65475", "--block", "1", "--max", "255"]
    yield Try(
        "great symbols",
        ["encode", "o", "out", *OF_NOTE, *sizes],
        {},
        (0, "encoded 255 datagrams\n"),
    )
    yield Try(
        "great symbols", ["certify", "o", "out", *OF_NOTE, *sizes], {}, (0, "certified 1 blocks\n")
    )
    yield Try(
        "a far place",
        ["drop", "s", "out", "4294967295"],
        {},
        (1, "fault S6 NoSuchPlace 4294967295\n"),
    )


def changes():
    """Each byte of the beginnings, of a session's last datagram and of one without FTI as each
    value.
    """
    last = len(SESSION) - FRAME
    changed = [
        (SESSION, [*range(64), *range(last, len(SESSION))]),
        (SPARSE, range(FRAME, FRAME + PLAIN_FRAME)),
    ]
    for command in OF_SESSION:
        for session, places in changed:
            for at in places:
                for value in range(256):
                    data = session[:at] + bytes([value]) + session[at + 1 :]
                    yield Try(f"session with byte {at} {value}", WORDS[command], {"s": data})
    for command in OF_CERTIFICATE:
        for certificate in [CERTIFICATE, OLDER]:
            for at in range(min(64, len(certificate))):
                for value in range(256):
                    data = certificate[:at] + bytes([value]) + certificate[at + 1 :]
                    yield Try(f"certificate with byte {at} {value}", WORDS[command], {"c": data})


def chosen(tries, words):
    tries = list(tries)
    if words[:1] == ["all"]:
        return tries
    return random.Random(5510).sample(tries, int(words[0]) if words else 2000)


def main(words):
    with tempfile.TemporaryDirectory() as folder:
        for name, data in [("s", SESSION), ("o", OBJECT), ("c", CERTIFICATE)]:
            with open(os.path.join(folder, name), "wb") as file:
                file.write(data)
        rooms = Rooms(folder)

        def is_right(one):
            size = ROOM + sum(map(len, one.files.values()))
            shell = f'ulimit -v {size // 1024} && exec "$0" "$@"'
            return one.is_answered(rooms.run(one.words, {}, files=one.files, shell=shell))

        counts, bad = [], []
        for kind in [list(beginnings()), list(great_claims()), chosen(changes(), words)]:
            counts.append(len(kind))
            bad += [one for one, right in zip(kind, in_turn(is_right, kind)) if not right]
        for one in bad:
            print(f"alcrs {' '.join(one.words)}: {one.name}: not answered as it may be")
        print("{} beginnings, {} great claims, {} changes:".format(*counts), end=" ")
        print(f"{len(bad)} answered otherwise than they may be")
        return 1 if bad else 0


if __name__ == "__main__":
    sys.exit(main(sys.argv[1:]))
