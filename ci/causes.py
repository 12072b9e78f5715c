#!/usr/bin/env python3
"""Tries causes for which a command ends with a fault, a no or a lack, and looks for file and cause
in the sentence.

Each case runs the program in a folder of its own, with copies of the samples. It tells the words,
the status, how standard output's last line begins, and what the sentence on standard error has to
say. Besides, it tries what is said behind refused lines, before a reception that can't be kept, at
once of an output that can't be created, and of progress; what a file of a MiB is that is no
session, for each command that reads one; and the system's own reason where a call of it fails.
"""
import ctypes
import gzip
import os
import pty
import random
import resource
import shutil
import socket
import struct
import subprocess
import sys
import tempfile
import time

from captures import FRAMES, pcap, section
from trying import PROGRAM, ROOT, SAMPLES

sys.path.insert(0, os.path.join(ROOT, "scripts"))
from frames import read_frames

OF_NOTE = ["--tsi", "7", "--toi", "2"]
OF_BULLETIN = ["--tsi", "7", "--toi", "1"]
NUMBERS = ["--symbol", "8", "--block", "8", "--max", "12"]


def read(name):
    with open(name, "rb") as file:
        return file.read()


def write(name, data):
    with open(name, "wb") as file:
        file.write(data)


def datagrams(name):
    with open(name, "rb") as file:
        return list(read_frames(file))


def session(name, held):
    write(name, b"".join(len(datagram).to_bytes(2, "big") + datagram for datagram in held))


def make_files():
    """What the cases read, made of the samples, which stand in the folder already."""
    note = datagrams("note.session")
    write("cut.session", read("note.session")[:-3])
    write("long.session", b"\xff\xff" + read("note.session"))
    write("captured.pcap", struct.pack("<IHHiIII", 0xA1B2C3D4, 2, 4, 0, 0, 65535, 1) + bytes(40))
    write(
        "captured.pcapng", bytes.fromhex("0a0d0d0a1c0000004d3c2b1a01000000ffffffffffffffff1c000000")
    )
    write("empty.txt", b"")
    write("places.txt", b"0\n1 x7\n2-3\n")
    write("short.rsc", read("note.rsc")[:-1])
    write("longer.txt", read("note.txt") + b"!")
    write("other.txt", bytes([read("note.txt")[0] ^ 1]) + read("note.txt")[1:])
    write("unruled.rsc", read("note.rsc")[:30] + b"\0" + read("note.rsc")[31:])
    session("stray.session", note[:2] + [b"hello"] + note[2:])
    damaged = bytearray(note[1])
    damaged[-1] ^= 1
    session("damaged.session", [note[0], bytes(damaged)] + note[2:])
    session("clash.session", [note[0], note[1], bytes(damaged)] + note[2:])
    session("thin.session", note[:3])
    session("exact.session", note[:4])
    session("first.session", datagrams("bulletin.session")[:10])
    session("closed.session", note + [note[0][:28]])
    # Behind the header's first word and the congestion control stand the TSI and the TOI.
    front, behind = note[0][:3] + b"\0" + note[0][4:12], note[0][16:]
    session("tabled.session", note + [front + bytes(4) + behind])
    session("twice.session", note + note)
    write("older.txt", read("note.txt")[:28])
    run(["encode", "older.txt", "older.session", *OF_NOTE, *NUMBERS])
    session("stale.session", datagrams("older.session")[5:] + note)
    numbers = ["--symbol", "8", "--block", "8", "--max", "16"]
    run(["encode", "note.txt", "other.session", *OF_NOTE, *numbers])
    run(["encode", "note.txt", "bare.session", *OF_NOTE, *NUMBERS, "--fti-every", "255"])
    carrier, *others = datagrams("bare.session")
    session("bare.session", others)
    # The encoding symbol ID of the only carrier stands before its symbol of 8 bytes.
    session("ranged.session", [carrier[:-9] + b"\xc8" + carrier[-8:], *others])
    numbers = ["--symbol", "65475", "--block", "255", "--max", "255"]
    run(["encode", "note.txt", "vast.session", *OF_NOTE, *numbers])
    length = len(read("note.txt")).to_bytes(6, "big")
    vast = datagrams("vast.session")[0].replace(length, (1 << 47).to_bytes(6, "big"), 1)
    # Its block is one behind the longest file of a file system. Its number stands before the ESI.
    front, block = vast[:-65475 - 4], (8_000_000).to_bytes(3, "big")
    session("vast.session", [front + block + vast[-65475 - 1:]])
    os.mkdir("folder")
    write("bad\nname.session", read("cut.session"))
    write("-", b"no session, as it is called -")
    for number in range(100):
        write("full.out.part" + (str(number) if number else ""), b"")


    for name, begin in FRONTS.items():
        write(name, (begin * (SIZE // len(begin) + 1))[:SIZE])
    holder = socket.socket(socket.AF_UNIX)
    holder.bind("socket")
    holder.close()
    write("closed.txt", read("note.txt"))
    os.chmod("closed.txt", 0)


SIZE = 1 << 20
CHANCE = random.Random(1).randbytes(50000)
# Files as large as an operator's, which are no sessions, each with what it is said to be. Of one
# that is packed what follows the first bytes looks like chance.
CAPTURE = pcap(FRAMES * 40)
FRONTS = {
    "air.pcap": CAPTURE,
    "air.nano": pcap(FRAMES * 40, order=">", magic=0xA1B23C4D),
    "air.pcapng": section(FRAMES * 40),
    "air.pcap.gz": gzip.compress(CAPTURE[:1000]) + CHANCE,
    "air.pcap.zst": bytes.fromhex("28b52ffd") + CHANCE,
    "air.rsc": b"RSC2" + CHANCE,
    "air.svg": b"<?xml version=\"1.0\" encoding=\"UTF-8\"?>\n<svg " + CHANCE,
    "air.txt": b"a letter to somebody, line by line\n",
}
KINDS = {
    "air.pcap": "is a capture (pcap), and no session: session_of_capture makes",
    "air.nano": "is a capture (pcap), and no session: session_of_capture makes",
    "air.pcapng": "is a capture (pcapng), and no session: session_of_capture makes",
    "air.pcap.gz": "is compressed by gzip, and no session: gzip -d",
    "air.pcap.zst": "is compressed by zstd, and no session: zstd -d",
    "air.rsc": "is a certificate, and no session",
    "air.svg": "is a picture (SVG), and no session",
    "air.txt": "is text, and no session",
}

CHECK = ["note.txt", "note.rsc", *OF_NOTE]
# The words, the status, how the last line begins, what the sentence says, and the file that is
# standard input.
CASES = [
    (["check", "nowhere.session", *CHECK], 1, "fault open", ["nowhere.session", "No such file"]),
    (["check", "note.session", "nowhere.txt", "note.rsc", *OF_NOTE], 1, "fault open",
     ["nowhere.txt", "No such file"]),
    (["check", "note.session", "note.txt", "folder", *OF_NOTE], 1, "fault Z4",
     ["folder: Is a directory (os error 21)"]),
    (["show", "folder"], 1, "fault S4", ["folder: Is a directory"]),
    (["encode", "nowhere.txt", "out", *OF_NOTE, *NUMBERS], 1, "fault open",
     ["nowhere.txt", "No such file"]),
    (["encode", "note.txt", "no/out", *OF_NOTE, *NUMBERS], 1, "fault open",
     ["no/out: No such file"]),
    (["encode", "note.txt", "note.txt/out", *OF_NOTE, *NUMBERS], 1, "fault open",
     ["note.txt/out: Not a directory"]),
    (["encode", "note.txt", "folder", *OF_NOTE, *NUMBERS], 1, "fault open",
     ["folder: Is a directory"]),
    (["encode", "note.txt", "full.out", *OF_NOTE, *NUMBERS], 1, "fault open",
     ["full.out: all names for its parts are taken"]),
    (["encode", "note.txt", "/dev/full", *OF_NOTE, *NUMBERS], 1, "fault O3",
     ["/dev/full: No space left on device (os error 28)"]),
    (["encode", "/proc/self/mem", "out", *OF_NOTE, *NUMBERS], 1, "fault file /proc/self/mem",
     ["/proc/self/mem: Input/output error"]),
    (["convert", "note.txt", "out", *OF_NOTE], 1, "fault Z1",
     ["note.txt is text", "the order is IN OUT"]),
    (["encode", "empty.txt", "out", *OF_NOTE, *NUMBERS], 1, "fault F1", ["empty.txt is empty"]),
    (
        ["encode", "note.txt", "out", *OF_NOTE, "--symbol", "8", "--block", "8", "--max", "4"],
        1,
        "fault F5",
        ["--max is below --block"],
    ),
    (["show", "cut.session"], 1, "fault S2", ["cut.session is cut off", "datagram 5", "byte "]),
    (["salvage", "cut.session", "out"], 1, "kept 5 datagrams",
     ["cut.session is cut off", "datagram 5"]),
    (["salvage", "note.session", "out"], 0, "kept 6 datagrams", None),
    (["decode", "cut.session", "out", *OF_NOTE], 1, "fault S2",
     ["cut.session is cut off", "datagram 5"]),
    (["join", "out", "note.session", "cut.session"], 1, "fault S2",
     ["cut.session is cut off", "datagram 5"]),
    (["show", "long.session"], 1, "fault S3", ["long.session", "datagram 0", "above 65507"]),
    (["show", "captured.pcap"], 1, "fault S",
     ["captured.pcap is a capture (pcap)", "From a capture"]),
    (["decode", "captured.pcapng", "out", *OF_NOTE], 1, "fault S",
     ["captured.pcapng is a capture (pcapng)"]),
    (["show", "note.rsc"], 1, "fault S", ["note.rsc is a certificate"]),
    (["show", "note.txt"], 1, "fault S", ["note.txt is text"]),
    (["show", "bad\nname.session"], 1, "fault S2", ["bad?name.session is cut off"]),
    (["drop", "note.session", "out", "9"], 1, "fault S6",
     ["note.session has 6 datagrams", "place 9"]),
    (["drop", "note.session", "out", "--places", "places.txt"], 1, "fault L1 NoPlace word 2",
     ["places.txt: word 2 (x7) is no place"]),
    (["drop", "note.session", "out", "--places", "-"], 1, "fault L1 NoPlace word 0",
     ["standard input: word 0 is no place"], "note.txt"),
    (["drop", "note.session", "out", "--places", "none.txt"], 1, "fault open none.txt",
     ["none.txt", "No such file"]),
    (["drop", "-", "out", "--places", "-"], 1, "fault open -",
     ["standard input: it can be read once"], "note.session"),
    (["check", "note.session", "note.txt", "note.txt", *OF_NOTE], 1, "fault Z1",
     ["note.txt is text", "SESSION OBJECT CERT"]),
    (["check", "note.session", "note.txt", "short.rsc", *OF_NOTE], 1, "fault Z3",
     ["short.rsc is shorter or longer"]),
    (["convert", "note.rsc", "out", *OF_BULLETIN], 1, "fault Z6",
     ["note.rsc is for TSI 7 and TOI 2, and not for TSI 7 and TOI 1: look at --tsi"]),
    (["check", "note.session", *CHECK[:2], *OF_BULLETIN], 1, "no N12",
     ["note.rsc is for TSI 7 and TOI 2, and not for TSI 7 and TOI 1"]),
    (["check", "note.session", "longer.txt", "note.rsc", *OF_NOTE], 1, "no N1",
     ["longer.txt", "note.rsc", "length"]),
    (["check", "note.session", "other.txt", "note.rsc", *OF_NOTE], 1, "no N2",
     ["note.rsc isn't of other.txt", "block 0"]),
    (["check", "bulletin.session", *CHECK], 1, "no N3",
     ["bulletin.session has no packet of TSI 7 and TOI 2"]),
    (["check", "stray.session", *CHECK], 1, "no N4",
     ["stray.session", "datagram 2 is no packet", "alcrs drop"]),
    (["check", "other.session", *CHECK], 1, "no N6",
     ["other.session", "datagram 0", "--max 16, and note.rsc", "--max 12"]),
    (["check", "damaged.session", *CHECK], 1, "no N8",
     ["damaged.session", "datagram 1", "note.txt"]),
    (["check", "thin.session", *CHECK], 1, "no N9",
     ["thin.session has 3 different symbols of block 0", "4 are needed"]),
    (["check", "first.session", "bulletin.txt", "bulletin.rsc", *OF_BULLETIN], 1, "no N9",
     ["first.session has 10 ", "(3 of 3 blocks are short, by 27 symbols at most)"]),
    (["check", "closed.session", *CHECK], 1, "no N4",
     ["datagram 6 is no packet but a header alone, as what closes a session is"]),
    (["decode", "tabled.session", "out", *OF_NOTE], 1, "fault R1",
     ["datagram 6 is no packet but one of TOI 0, as FLUTE's delivery table is"]),
    (["check", "bare.session", *CHECK], 1, "no N11", ["bare.session", "FTI"]),
    (["check", "thin.session", *CHECK, "--picture", "out.svg"], 1, "no N9",
     ["thin.session has 3", "no picture is drawn of a no"]),
    (["check", "note.session", *CHECK, "--picture", "no/out.svg"], 1, "fault open",
     ["no/out.svg: No such file"]),
    (["decode", "stale.session", "out", *OF_NOTE], 1, "fault R3",
     ["datagram 0 tells a length of 28", "datagram 1 tells a length of 29"]),
    (["decode", "clash.session", "out", *OF_NOTE], 1, "fault R5",
     ["clash.session", "datagram 2", "damaged"]),
    (["decode", "damaged.session", "out", *OF_NOTE], 1, "fault R6", ["damaged.session", "block 0"]),
    (["decode", "thin.session", "out", *OF_NOTE], 3, "missing",
     ["thin.session has 3 different symbols of block 0", "alcrs join"]),
    (["decode", "bare.session", "out", *OF_NOTE], 3, "empty", ["bare.session", "carries the FTI"]),
    (["check", "twice.session", *CHECK], 0, "burst",
     ["6 datagrams of twice.session are repeats of others"]),
    (["check", "note.session", *CHECK, "--margin", "3"], 3, "burst",
     ["note.session has a margin of 2, and --margin asks for 3", "--max"]),
    (["check", "note.session", *CHECK, "--burst", "4"], 3, "burst",
     ["note.session has a burst of 2, and --burst asks for 4"]),
    (["check", "exact.session", *CHECK], 0, "burst",
     ["a datagram of exact.session without which nobody gets the object", "join --turns"]),
    (["encode", "note.txt", "out", *OF_NOTE, "--symbol", "8", "--block", "8", "--max", "8"], 0,
     "encoded", ["a block has no repair symbol", "--max"]),
    (["encode", "note.txt", "note.txt", *OF_NOTE, "--symbol", "8", "--block", "8", "--max", "9"], 1,
     "fault open note.txt", ["note.txt: it is an input of this command"]),
    (["follow", "thin.session", "out", *OF_NOTE], 3, "missing",
     ["3 different symbols of block 0 were taken of thin.session", "alcrs join"]),
    (["follow", "ranged.session", "out", *OF_NOTE], 3, "empty",
     ["ranged.session: datagram 0 carries the FTI, and was refused"]),
    (["follow", "vast.session", "out", *OF_NOTE], 1, "fault file out",
     ["out: File too large", "by datagram 0 the object has 140737488355328 bytes"]),
    (["follow", "clash.session", "out", *OF_NOTE], 0, "object",
     ["1 datagrams of clash.session contradict", "the object wrong"]),
    (["check", "-", *CHECK[:2], *OF_BULLETIN], 1, "no N12",
     ["note.rsc is for TSI 7 and TOI 2"], "note.session"),
    (["twin", "-", *CHECK[:2], "out", *OF_BULLETIN], 1, "no N12",
     ["note.rsc is for TSI 7 and TOI 2"], "note.session|"),
    (["check", "-", "bulletin.txt", "bulletin.rsc", *OF_BULLETIN], 1, "no N3",
     ["standard input has no packet of TSI 7"], "note.session"),
    (["check", "-", "-", "note.rsc", *OF_NOTE], 1, "fault open -",
     ["standard input: it can be read once"], "note.session"),
    (["join", "out", "-", "-"], 1, "fault open -",
     ["standard input: it can be read once"], "note.session"),
    (["show", "-"], 1, "fault S4", ["standard input: Is a directory"], "folder"),
    (["decode", "note.session", "note.txt", *OF_NOTE, "-n"], 1, "fault open",
     ["note.txt: it is there already", "--no-clobber"]),
    (["check", "note.session", *CHECK, "-n", "--picture", "folder"], 1, "fault open",
     ["folder: it is there already", "--no-clobber"]),
    # What was done, or is told whole by its line, has no sentence.
    (["decode", "cut.session", "out", *OF_NOTE, "-q"], 1, "fault S2", None),
    (["check", "twice.session", *CHECK, "--quiet"], 0, "burst", None),
    (["decode", "note.session", "newer", *OF_NOTE, "-n"], 0, "object", None),
    (["show", "-"], 0, "5 tsi 7", None, "note.session"),
    (["decode", "-", "out", *OF_NOTE], 0, "object", None, "note.session"),
    (["check", "note.session", "-", "note.rsc", *OF_NOTE], 0, "burst", None, "note.txt"),
    (["check", "note.session", "note.txt", "-", *OF_NOTE], 0, "burst", None, "note.rsc"),
    (["convert", "-", "out", *OF_NOTE], 0, "converted", None, "note.rsc1"),
    # Standard input isn't looked at again.
    (["show", "-"], 1, "fault S2", None, "cut.session"),
    (["show", "/dev/stdin"], 1, "fault S2", None, "cut.session"),
    (["check", "note.session", *CHECK], 0, "burst", None),
    (["decode", "note.session", "out", *OF_NOTE], 0, "object", None),
]


# The words that are refused, and the sentence behind the refusal.
REFUSED = [
    (["decode", "note.session", "out", "--tsi", "x", "--toi", "2"],
     "--tsi takes a whole number from 0 to 4294967295"),
    (["decode", "note.session", "out", "--tsi", "7", "--toi", "4294967296"],
     "--toi takes a whole number from 0 to 4294967295"),
    (["decode", "note.session", "out", "--tsi=", "--toi", "2"],
     "--tsi takes a whole number from 0 to 4294967295"),
    (["encode", "a", "b", *OF_NOTE, "--symbol", "0", "--block", "1", "--max", "2"],
     "--symbol takes a whole number from 1 to 65475"),
    (["encode", "a", "b", *OF_NOTE, "--symbol", "8", "--block", "1", "--max", "300"],
     "--max takes a whole number from 1 to 255"),
    (["drop", "note.session", "out", "3", "x' for '--tsi"], None),
    (["drop", "note.session", "out"], None),
    (["decode", "note.session", "out", "--tsi", "-1", "--toi", "2"],
     "the tip is for a file of that name; no number is negative"),
    (["show", "note.session", "--order"],
     "the tip is for a file of that name; --help tells which options there are"),
    (["send", "note.session"], None),
    (["encode", "a", "b", *OF_NOTE, *NUMBERS, "--order", "x"], None),
]

# The words of receptions that can't be kept, and what is said before they begin.
LOST = [
    (["follow", "-", "no/out", *OF_NOTE],
     ["can't be kept: no/out: No such file"]),
    (["follow", "-", "folder", *OF_NOTE], ["can't be kept: folder: Is a directory"]),
    (["follow", "-", "/proc/out", *OF_NOTE], ["can't be kept: /proc/out: ", "(os error"]),
]


# What is said at once of an output that can't be created.
UNMADE = [
    (["encode", "note.txt", "no/out", *OF_NOTE, *NUMBERS],
     "no/out can't be created: No such file or directory (os error 2); what is left is done first"),
    (["encode", "note.txt", "folder", *OF_NOTE, *NUMBERS],
     "folder can't be created: Is a directory"),
    (["encode", "note.txt", "full.out", *OF_NOTE, *NUMBERS],
     "full.out can't be created: all names for its parts are taken"),
    (["decode", "note.session", "note.txt", *OF_NOTE, "-n"],
     "note.txt can't be created: it is there already, and stays by --no-clobber"),
    (["drop", "note.session", "no/\x1b[2J", "0"], "no/?[2J can't be created: No such file"),
]


def is_kind_told(case):
    """Whether a command that takes a large file for a session says what it is instead."""
    name, words = case
    ran = run(words)
    said = ran.stderr.decode()
    is_right = ran.returncode != 0 and said.startswith(f"alcrs: {name} {KINDS[name]}")
    if not is_right:
        print(f"alcrs {' '.join(words)}: {ran.returncode}, {ran.stdout[-80:]!r}, {said!r}")
    return is_right


def kind_cases():
    for name in KINDS:
        yield name, ["show", name]
        yield name, ["show", name, "--summary"]
        yield name, ["check", name, *CHECK]
        yield name, ["decode", name, "out", *OF_NOTE]
        yield name, ["follow", name, "out", *OF_NOTE]
        yield name, ["salvage", name, "out"]
        yield name, ["join", "out", "note.session", name]
        yield name, ["twin", name, *CHECK[:2], "out", *OF_NOTE]


def without_rights():
    """Takes from root what lets it read each file."""
    if os.geteuid() == 0:
        for capability in (1, 2):
            ctypes.CDLL(None).prctl(24, capability, 0, 0, 0)


def few_files():
    resource.setrlimit(resource.RLIMIT_NOFILE, (4, 4))


FULL = "standard output: No space left on device (os error 28)"
# The words, where standard output goes, what is done before, and the sentence.
OF_SYSTEM = [
    (["show", "bulletin.session"], "/dev/full", None, FULL),
    (["show", "bulletin.session", "--summary"], "/dev/full", None, FULL),
    (["check", "note.session", *CHECK], "/dev/full", None, FULL),
    (["encode", "note.txt", "out", *OF_NOTE, *NUMBERS], "/dev/full", None, FULL),
    (["decode", "note.session", "out", *OF_NOTE], "/dev/full", None, FULL),
    (["follow", "note.session", "out", *OF_NOTE], "/dev/full", None, FULL),
    (["decode", "nowhere", "out", *OF_NOTE], "/dev/full", None, FULL),
    (["--help"], "/dev/full", None, FULL),
    (["--version"], "/dev/full", None, FULL),
    (["check", "bulletin.session", "bulletin.txt", "bulletin.rsc", *OF_BULLETIN], os.devnull,
     few_files, "bulletin.txt: Too many open files (os error 24)"),
    (["certify", "closed.txt", "out", *OF_NOTE, *NUMBERS], os.devnull, without_rights,
     "closed.txt: Permission denied (os error 13)"),
    (["show", "socket"], os.devnull, None, "socket: No such device or address (os error 6)"),
]


def is_system_told(case):
    """Whether the system's own reason is said, with the file's name."""
    words, output, before, sentence = case
    with open(output, "wb") as out:
        ran = subprocess.run([PROGRAM, *words], stdin=subprocess.DEVNULL, stdout=out, timeout=60,
                             stderr=subprocess.PIPE, preexec_fn=before, check=False)
    said = ran.stderr.decode()
    is_right = ran.returncode == 1 and f"alcrs: {sentence}\n" == said
    if not is_right:
        print(f"alcrs {' '.join(words)} > {output}: {ran.returncode}, {said!r}")
    return is_right


FILLED = """mount -t tmpfs -o size=64k none full && shift && exec "$@" """


def is_full_disk_told(words):
    """Whether it is said that no room is left on a disk of 64 KiB, if one may be mounted."""
    if shutil.which("unshare") is None:
        return True
    inside = ["unshare", "-r", "-m", "sh", "-c", FILLED, "sh", "-"]
    if subprocess.run([*inside, "true"], capture_output=True, check=False).returncode:
        return True
    ran = subprocess.run([*inside, PROGRAM, *words], stdin=subprocess.DEVNULL, timeout=60,
                         capture_output=True, check=False)
    _, said = at_once(ran.stderr.decode())
    is_right = ran.returncode == 1 and said.startswith(
        "alcrs: full/out: No space left on device (os error 28)")
    if not is_right:
        print(f"alcrs {' '.join(words)}: {ran.returncode}, {ran.stdout!r}, {said!r}")
    return is_right


LARGE = ["--symbol", "1000", "--block", "100", "--max", "120"]
# What doesn't fit a disk of 64 KiB.
TOO_LARGE = [
    ["encode", "air.pcap", "full/out", *OF_NOTE, *LARGE],
    ["encode", "air.pcap", "full/out", *OF_NOTE, *LARGE, "--order", "rounds"],
    ["certify", "air.pcap", "full/out", *OF_NOTE, *LARGE],
    ["decode", "large.session", "full/out", *OF_NOTE],
    ["follow", "large.session", "full/out", *OF_NOTE],
    ["drop", "large.session", "full/out", "0"],
    ["join", "full/out", "large.session"],
    ["salvage", "large.session", "full/out"],
]


def run(words, given=os.devnull):
    """Runs the program with a file, or a folder, as its standard input, or with `NAME|` a pipe of
    a file's bytes."""
    if given.endswith("|"):
        return subprocess.run(
            [PROGRAM, *words], input=read(given[:-1]), capture_output=True, timeout=60, check=False
        )
    descriptor = os.open(given, os.O_RDONLY)
    try:
        return subprocess.run(
            [PROGRAM, *words], stdin=descriptor, capture_output=True, timeout=60, check=False
        )
    finally:
        os.close(descriptor)


def at_once(said):
    """What is said at once, if an output can't be created, and what is said at the end."""
    first, _, rest = said.partition("\n")
    return (first, rest) if " can't be created: " in first else ("", said)


def is_told_at_once(case):
    words, needle = case
    ran = run(words)
    said, _ = at_once(ran.stderr.decode())
    is_told = ran.returncode == 1 and said.startswith("alcrs: " + needle)
    is_told = is_told and not run([*words, "--quiet"]).stderr
    if not is_told:
        print(f"alcrs {' '.join(words)}: {ran.returncode}, {ran.stderr!r}")
    return is_told


def is_told(case):
    words, status, begins, needles, *given = case
    ran = run(words, *given)
    lines = ran.stdout.decode().splitlines()
    _, said = at_once(ran.stderr.decode())
    if ran.returncode != status or not lines or not lines[-1].startswith(begins):
        wrong = "the answer"
    elif needles is None:
        wrong = "a sentence" if said else None
    elif said.count("\n") != 1 or not said.startswith("alcrs: "):
        wrong = "not one sentence"
    else:
        wrong = next((needle for needle in needles if needle not in said), None)
    if wrong is not None:
        print(f"alcrs {' '.join(words)}: {wrong}: {ran.returncode}, {lines[-1:]}, {said!r}")
    return wrong is None


def is_refused(case):
    """Whether a command line is refused, and the sentence stands behind the refusal, or none."""
    words, sentence = case
    ran = run(words)
    lines = ran.stderr.decode().splitlines()
    behind = [line for line in lines if line.startswith("alcrs: ")]
    is_right = ran.returncode == 2 and not ran.stdout and lines[0].startswith("error: ")
    if sentence is None:
        is_right = is_right and not behind
    else:
        is_right = is_right and behind == lines[-1:] and sentence in lines[-1]
    if not is_right:
        print(f"alcrs {' '.join(words)}: {ran.returncode}, {ran.stdout!r}, {ran.stderr!r}")
    return is_right


def is_forewarned(case):
    """Whether a reception that can't be kept says so before it begins, and ends as it would."""
    words, needles = case
    pipes = {"stdin": subprocess.PIPE, "stdout": subprocess.PIPE, "stderr": subprocess.PIPE}
    with subprocess.Popen([PROGRAM, *words], **pipes) as running:
        said = running.stderr.readline().decode()
        printed, _ = running.communicate(read("note.session"), timeout=60)
    last = printed.decode().splitlines()[-1:]
    ends = running.returncode == 1 and last == [f"fault open {words[2]}"]
    is_right = ends and said.startswith("alcrs: ") and all(needle in said for needle in needles)
    if not is_right:
        print(f"alcrs {' '.join(words)}: {running.returncode}, {printed!r}, {said!r}")
    return is_right


def told_on_terminal(words, output):
    """What a run says on a terminal whose input comes for three seconds, and its status."""
    master, slave = pty.openpty()
    pipes = {"stdin": subprocess.PIPE, "stdout": output, "stderr": slave}
    with subprocess.Popen([PROGRAM, *words], **pipes) as running:
        os.close(slave)
        for _ in range(30):
            running.stdin.write(read("note.session"))
            running.stdin.flush()
            time.sleep(0.1)
        running.stdin.close()
        status = running.wait(timeout=60)
    said = b""
    try:
        while piece := os.read(master, 4096):
            said += piece
    except OSError:
        # So the end of a terminal is told.
        pass
    os.close(master)
    return status, said.decode()


def is_progress_told():
    """Whether progress is shown on a terminal, taken away in the end, and kept from lines."""
    with open("printed", "wb") as file:
        joined = told_on_terminal(["join", "out", "-"], file)
        shown = told_on_terminal(["show", "-"], file)
        piped = told_on_terminal(["show", "-"], subprocess.DEVNULL)
    lines = joined[1].split("\r")
    size = len(read("note.session"))
    is_right = (
        joined[0] == shown[0] == piped[0] == 0
        and len(lines) > 2
        and all(line.startswith("-: ") and " bytes, 0.0 MB/s" in line for line in lines[1:-1])
        and int(lines[1].split()[1]) >= 10 * size
        and lines[-1] == "\x1b[K"
        and shown[1].startswith("\r-: ")
        and piped[1] == ""
    )
    if not is_right:
        print(f"progress: {joined}, {shown}, {piped}")
    return is_right


def main():
    with tempfile.TemporaryDirectory() as room:
        for name in os.listdir(SAMPLES):
            if os.path.isfile(os.path.join(SAMPLES, name)):
                shutil.copy(os.path.join(SAMPLES, name), room)
        os.chdir(room)
        make_files()
        os.mkdir("full")
        run(["encode", "air.pcap", "large.session", *OF_NOTE, *LARGE])
        told = [is_told(case) for case in CASES] + [is_forewarned(case) for case in LOST]
        told += [is_refused(case) for case in REFUSED]
        told += [is_told_at_once(case) for case in UNMADE]
        told += [is_kind_told(case) for case in kind_cases()]
        told += [is_system_told(case) for case in OF_SYSTEM]
        told += [is_full_disk_told(words) for words in TOO_LARGE]
        told.append(is_progress_told())
    print(f"{sum(told)} of {len(told)} causes are told")
    sys.exit(not all(told))


if __name__ == "__main__":
    main()
