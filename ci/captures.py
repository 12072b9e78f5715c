#!/usr/bin/env python3
"""Tries `scripts/session_of_capture` with captures that it makes of the samples, of every kind that
the script reads, and compares the sessions with the samples.

It also tries what lacks a fragment, what is cut, at every byte of a frame, wrong checksums, lines
that are refused, damaged captures, and a reception that goes on, with `alcrs follow` behind the
script. Where tshark is installed, it compares with the datagrams that tshark finds.
"""
import contextlib
import gzip
import os
import random
import shutil
import socket
import struct
import subprocess
import sys
import tempfile

from trying import BEFORE, PROGRAM, ROOT, SAMPLES, in_turn

sys.path.insert(0, os.path.join(ROOT, "scripts"))
from frames import read_frames

SCRIPT = os.path.join(ROOT, "scripts", "session_of_capture")
SENDER, GROUP, SENDER6, GROUP6 = "192.0.2.1", "239.1.2.3", "2001:db8::1", "ff3e::8000:1"
TO_GROUP = ["--address", GROUP, "--port", "4001"]
TO_GROUP6 = ["--address", GROUP6, "--port", "4001"]
OF_BULLETIN = ["--tsi", "7", "--toi", "1"]
ETHERNET, COOKED, COOKED2, RAW, NULL, LOOP = 1, 113, 276, 101, 0, 108
PIECE = 136
# What tshark does otherwise: it has other fields for a TSI of more than 4 bytes, and waits longer.
OTHERWISE = ("forms of TSI 7", "number again")


def datagrams_of(name):
    with open(os.path.join(SAMPLES, name), "rb") as file:
        return list(read_frames(file))


BULLETIN, TWO = datagrams_of("bulletin.session"), datagrams_of("two.session")


def session_of(datagrams):
    return b"".join(len(datagram).to_bytes(2, "big") + datagram for datagram in datagrams)


def packed(address):
    return socket.inet_pton(socket.AF_INET6 if ":" in address else socket.AF_INET, address)


def folded(data):
    """The sum of RFC 1071, not inverted."""
    total = sum(struct.unpack(f">{(len(data) + 1) // 2}H", data + bytes(len(data) % 2)))
    while total >> 16:
        total = (total & 0xFFFF) + (total >> 16)
    return total


def udp(datagram, source=SENDER, destination=GROUP, port=4001, checksum=None):
    size = len(datagram) + 8
    header = struct.pack(">HHH", 4000, port, size)
    pseudo = packed(source) + packed(destination) + struct.pack(">II", size, 17)
    if checksum == "offloaded":
        checksum = folded(pseudo)
    elif checksum is None:
        checksum = 0xFFFF - folded(pseudo + header + bytes(2) + datagram) or 0xFFFF
    return header + checksum.to_bytes(2, "big") + datagram


def ip(held, number=1, begin=0, more=0, protocol=17, source=SENDER, destination=GROUP, options=b""):
    header = struct.pack(
        ">BBHHHBBH", 0x45 + len(options) // 4, 0, 20 + len(options) + len(held), number,
        more << 13 | begin // 8, 16, protocol, 0,
    )
    header += packed(source) + packed(destination) + options
    return header[:10] + (0xFFFF - folded(header)).to_bytes(2, "big") + header[12:] + held


def ip6(held, protocol=17):
    return struct.pack(">IHBB", 6 << 28, len(held), protocol, 16) + packed(SENDER6) + packed(
        GROUP6) + held


def udp6(datagram):
    return udp(datagram, SENDER6, GROUP6)


def fragments(held, number):
    return [
        ip(held[at:at + PIECE], number, at, at + PIECE < len(held))
        for at in range(0, len(held), PIECE)
    ]


def fragments6(held, number, protocol=17):
    return [
        ip6(struct.pack(">BBHI", protocol, 0, at | (at + PIECE < len(held)), number)
            + held[at:at + PIECE], 44)
        for at in range(0, len(held), PIECE)
    ]


def ethernet(packet, tags=()):
    kind = 0x0800 if packet[0] >> 4 == 4 else 0x86DD
    tagged = b"".join(struct.pack(">HH", tag, 100) for tag in tags)
    frame = bytes.fromhex("01005e010203020000000001") + tagged + kind.to_bytes(2, "big") + packet
    return frame + bytes(max(0, 60 - len(frame)))


def gre(packet, flags=0, kind=0x0800):
    options = bytes(4 * bin(flags & 0xB0).count("1"))
    held = struct.pack(">BBH", flags, 0, kind) + options + packet
    return ip(held, protocol=47, source="198.51.100.1", destination="198.51.100.2")


def quoted(packet):
    """An error of ICMP that quotes a packet."""
    return ip(struct.pack(">BBHI", 3, 3, 0, 0) + packet, protocol=1, destination=SENDER)


def pcap(frames, link=ETHERNET, order="<", magic=0xA1B2C3D4):
    """A capture of frames, each with its link type, or whole."""
    capture = struct.pack(order + "IHHiIII", magic, 2, 4, 0, 0, 262144, link)
    for number, frame in enumerate(frames):
        data, size = frame if isinstance(frame, tuple) else (frame, len(frame))
        capture += struct.pack(order + "IIII", number, 0, len(data), size) + data
    return capture


def block(order, kind, body):
    body += bytes(-len(body) % 4)
    size = struct.pack(order + "I", len(body) + 12)
    return struct.pack(order + "I", kind) + size + body + size


def section(frames, links=(ETHERNET,), order="<", kind=6):
    """A section of pcapng. A frame is its bytes, or those with its interface."""
    capture = block(order, 0x0A0D0D0A, struct.pack(order + "IHHq", 0x1A2B3C4D, 1, 0, -1))
    for link in links:
        capture += block(order, 1, struct.pack(order + "HHI", link, 0, 262144))
    # What is of another kind is passed over: statistics of an interface.
    capture += block(order, 5, struct.pack(order + "III", 0, 0, 0))
    for frame in frames:
        interface, data = frame if isinstance(frame, tuple) else (0, frame)
        sizes = struct.pack(order + "II", len(data), len(data))
        if kind == 6:
            head = struct.pack(order + "III", interface, 0, 0) + sizes
        elif kind == 2:
            head = struct.pack(order + "HHII", interface, 0, 0, 0) + sizes
        else:
            head = sizes[:4]
        capture += block(order, kind, head + data)
    return capture


PLAIN = [ip(udp(datagram), number) for number, datagram in enumerate(BULLETIN)]
FRAMES = [ethernet(packet) for packet in PLAIN]
PLAIN6 = [ip6(udp6(datagram)) for datagram in BULLETIN]
# An extension before each next one: of hop by hop and of the destination.
OPTIONS6 = [ip6(b"\x3c\0\x01\x04" + bytes(4) + b"\x11\x01" + bytes(14) + udp6(one), 0)
            for one in BULLETIN]
PARTS = [fragments(udp(datagram), number) for number, datagram in enumerate(BULLETIN)]
PARTS6 = [fragments6(udp6(datagram), number) for number, datagram in enumerate(BULLETIN)]
# The extension of the destination is in the first fragment.
DEEP6 = [fragments6(b"\x11\0\x01\x04" + bytes(4) + udp6(datagram), number, 60)
         for number, datagram in enumerate(BULLETIN)]


def of_all(parts):
    return [ethernet(part) for packet in parts for part in packet]


def mixed(parts):
    """The fragments of ten neighbours in another order."""
    orders = random.Random(1)
    frames = []
    for at in range(0, len(parts), 10):
        frames += orders.sample(some := of_all(parts[at:at + 10]), len(some))
    return frames


def whole_captures():
    """Captures that give the sample, and the words of each."""
    for order in "<>":
        for unit, magic in [("micro", 0xA1B2C3D4), ("nano", 0xA1B23C4D)]:
            yield f"pcap {order} {unit}", pcap(FRAMES, order=order, magic=magic), TO_GROUP
        for kind in (6, 3, 2):
            yield f"pcapng {order} {kind}", section(FRAMES, order=order, kind=kind), TO_GROUP
    yield "sections", section(FRAMES[:50]) + section(
        [(1, frame) for frame in FRAMES[50:]], (RAW, ETHERNET), ">"), TO_GROUP
    turns = [(number % 3, [ethernet, bytes, lambda it: bytes(14) + b"\x08\0" + it][number % 3](it))
             for number, it in enumerate(PLAIN)]
    yield "interfaces", section(turns, (ETHERNET, RAW, COOKED)), TO_GROUP
    yield "gzip", gzip.compress(pcap(FRAMES)), TO_GROUP
    yield "gzip of pcapng", gzip.compress(section(FRAMES[:9])) + gzip.compress(
        section(FRAMES[9:])), TO_GROUP
    for tags in [(0x8100,), (0x88A8, 0x8100), (0x9100, 0x8100)]:
        yield f"VLAN {tags}", pcap([ethernet(it, tags) for it in PLAIN]), TO_GROUP
    yield "cooked", pcap([bytes(14) + b"\x08\0" + it for it in PLAIN], COOKED), TO_GROUP
    yield "cooked 2", pcap([b"\x08\0" + bytes(18) + it for it in PLAIN], COOKED2), TO_GROUP
    yield "cooked, VLAN", pcap(
        [bytes(14) + b"\x81\0\0\x64\x08\0" + it for it in PLAIN], COOKED), TO_GROUP
    for link in (RAW, 12, 14, 228):
        yield f"raw {link}", pcap(PLAIN, link), TO_GROUP
    yield "raw, IPv6", pcap(PLAIN6, 229), TO_GROUP6
    for order in "<>":
        head = struct.pack(order + "I", 2)
        yield f"loopback {order}", pcap([head + it for it in PLAIN], NULL, order), TO_GROUP
    yield "loopback of OpenBSD", pcap([b"\0\0\0\2" + it for it in PLAIN], LOOP), TO_GROUP
    for flags in (0, 0x20, 0x80, 0xB0):
        yield f"GRE {flags:x}", pcap([ethernet(gre(it, flags)) for it in PLAIN]), TO_GROUP
    yield "GRE of Ethernet", pcap([ethernet(gre(it, kind=0x6558)) for it in FRAMES]), TO_GROUP
    yield "GRE of fragments", pcap(
        [ethernet(gre(part)) for packet in PARTS for part in packet]), TO_GROUP
    yield "IP in IP", pcap([ethernet(ip(it, protocol=4)) for it in PLAIN]), TO_GROUP
    yield "IPv6 in IP", pcap([ethernet(ip(it, protocol=41)) for it in PLAIN6]), TO_GROUP6
    yield "options of IP", pcap(
        [ethernet(ip(udp(it), options=b"\x94\4\0\0")) for it in BULLETIN]), TO_GROUP
    yield "IPv6", pcap([ethernet(it) for it in PLAIN6]), TO_GROUP6
    yield "IPv6, extensions", pcap([ethernet(it) for it in OPTIONS6]), TO_GROUP6
    yield "fragments", pcap(of_all(PARTS)), TO_GROUP
    yield "fragments, last first", pcap(of_all([packet[::-1] for packet in PARTS])), TO_GROUP
    yield "fragments of IPv6", pcap(of_all(PARTS6)), TO_GROUP6
    yield "fragments of IPv6, extensions", pcap(of_all(DEEP6)), TO_GROUP6
    strays = [ethernet(ip(udp(it, port=4002))) for it in BULLETIN[:3]]
    strays += [ethernet(ip(udp(it, destination="239.1.2.4"), destination="239.1.2.4"))
               for it in BULLETIN[:3]]
    strays += [ethernet(ip(udp(b""))), ethernet(ip(bytes(40), protocol=6)), bytes(60)]
    yield "strays", pcap(strays + FRAMES), TO_GROUP
    yield "errors of ICMP", pcap(
        [frame for it in PLAIN for frame in (ethernet(it), ethernet(quoted(it)))]), TO_GROUP
    others = [ethernet(ip(udp(it, "192.0.2.2"), source="192.0.2.2")) for it in BULLETIN]
    both = [frame for pair in zip(FRAMES, others) for frame in pair]
    yield "another source", pcap(both), [*TO_GROUP, "--source", SENDER]
    yield "another object", pcap([ethernet(ip(udp(it))) for it in TWO]), [*TO_GROUP, *OF_BULLETIN]


class Room:
    """A folder for the captures, and what is wrong so far."""

    def __init__(self, folder):
        self.folder, self.wrong, self.count = folder, [], 0

    def run(self, capture, words):
        """Status, session and messages, with an output that was there before."""
        with tempfile.TemporaryDirectory(dir=self.folder) as room:
            for name, data in [("capture", capture), ("out", BEFORE)]:
                with open(os.path.join(room, name), "wb") as file:
                    file.write(data)
            ran = subprocess.run(
                [sys.executable, SCRIPT, "capture", "out", *words], cwd=room, timeout=120,
                stdout=subprocess.PIPE, stderr=subprocess.PIPE, text=True, check=False,
            )
            with open(os.path.join(room, "out"), "rb") as file:
                left = file.read()
            if sorted(os.listdir(room)) != ["capture", "out"]:
                self.wrong.append(f"{words}: a part is left")
            return ran.returncode, left, ran.stdout + ran.stderr

    def compare(self, name, found, status, session, said):
        """Compares a run with what it has to do and to say."""
        self.count += 1
        missing = [text for text in said if text not in found[2]]
        if found[:2] != (status, session) or missing or "Traceback" in found[2]:
            same = "as it has to be" if found[1] == session else "another"
            self.wrong.append(f"{name}: status {found[0]}, session {same}: {found[2].strip()}")

    def try_all(self, cases):
        """Cases of a name, a capture, words, a status, a session and what is said."""
        cases = list(cases)
        for case, found in zip(cases, in_turn(lambda it: self.run(it[1], it[2]), cases)):
            self.compare(case[0], found, *case[3:])


def read_cases():
    whole = session_of(BULLETIN)
    for name, capture, words in whole_captures():
        yield name, capture, words, 0, whole, ["took 98 datagrams, passed over"]
    # What is there twice is taken twice.
    yield "two interfaces", section(
        [it for packet in PLAIN for it in ((0, ethernet(packet)), (1, packet))],
        (ETHERNET, RAW),
    ), TO_GROUP, 0, session_of([it for it in BULLETIN for _ in range(2)]), ["took 196 datagrams"]
    lost = [packet[:-1] if number == 3 else packet for number, packet in enumerate(PARTS)]
    left = session_of(BULLETIN[:3] + BULLETIN[4:])
    for name, parts in [
        ("a last fragment is lost", lost),
        ("a first one", [*PARTS[:3], PARTS[3][1:], *PARTS[4:]]),
        # They have bytes enough, and a gap.
        ("one has another place", [*PARTS[:3], [PARTS[3][0], ip(
            udp(BULLETIN[3])[128:264], 3, 128, 1), PARTS[3][2]], *PARTS[4:]]),
        # Its number comes again long after.
        ("number again", [*PARTS[:3], PARTS[3][1:], *PARTS[4:], *[[PLAIN[9]]] * 10_000,
                          [fragments(udp(BULLETIN[3]), 3)[0]]]),
    ]:
        again = session_of([BULLETIN[9]] * 10_000) if name == "number again" else b""
        count = 2 if again else 1
        yield name, pcap(of_all(parts)), TO_GROUP, 0, left + again, [
            f"lacks a fragment: {count} datagrams"]
    # The second byte says how long TSI and TOI are: of 2 and 2 bytes, of 6 and 10, none and 4. The
    # first one says how long what comes before is, 4 bytes or 12, and the version.
    forms = [
        b"\x10\x10\3\5" + bytes(5) + b"\7\0\1",
        b"\x18\xd0\x08\5" + bytes(17) + b"\7" + bytes(9) + b"\1",
        b"\x10\x20\3\5" + bytes(7) + b"\1",
        b"\x20\x10\3\5" + bytes(5) + b"\7\0\1",
    ]
    for tsi, found in [("7", forms[:2]), ("0", [])]:
        yield f"forms of TSI {tsi}", pcap([ethernet(ip(udp(it))) for it in [*forms, b"\x10"]]), [
            *TO_GROUP, "--tsi", tsi, "--toi", "1"
        ], 0 if found else 1, session_of(found) if found else BEFORE, [
            "took 2 datagrams, passed over 3" if found else "nothing came"]
    wrong = bytearray(FRAMES[5])
    wrong[-1] ^= 1
    found = session_of([*BULLETIN[:5], wrong[42:], *BULLETIN[6:]])
    yield "a wrong checksum", pcap([*FRAMES[:5], bytes(wrong), *FRAMES[6:]]), TO_GROUP, 0, found, [
        "took 98 datagrams, passed over 0", "wrong UDP checksum: 1 datagrams"]


def quiet_cases():
    """What is said of captures with nothing wrong in them."""
    whole = session_of(BULLETIN)
    alone = "took 98 datagrams, passed over 0\n"
    for checksum in (0, "offloaded", None):
        frames = [ethernet(ip(udp(it, checksum=checksum))) for it in BULLETIN]
        yield f"checksum {checksum}", pcap(frames), TO_GROUP, whole, alone
    frames = mixed(PARTS)
    yield "fragments in another order", pcap(frames), TO_GROUP, None, alone
    # It tells more bytes than were sent, so that no listener gets it.
    short = ethernet(ip(udp(BULLETIN[0])[:-1]))
    yield "a wrong length", pcap([short, *FRAMES]), TO_GROUP, whole, alone.replace("0\n", "1\n")
    # Fragments of others, which lack some.
    other = fragments(udp(BULLETIN[0], port=4002), 500)[:1]
    yield "others lack fragments", pcap(FRAMES + of_all([other])), TO_GROUP, whole, alone


def refused_cases():
    whole = pcap(FRAMES)
    nothing = "nothing came: of the capture's 98 datagrams none that has bytes "
    yield "another port", whole, ["--address", GROUP, "--port", "4002"], 1, BEFORE, [
        f"session_of_capture: {nothing}went to {GROUP} port 4002"]
    yield "another TOI", whole, [*TO_GROUP, "--tsi", "7", "--toi", "2"], 1, BEFORE, [
        f"{nothing}went to {GROUP} port 4001 with TSI 7 and TOI 2"]
    for name, capture in [("empty", b""), ("text", b"a text"), ("session", session_of(BULLETIN))]:
        yield name, capture, TO_GROUP, 1, BEFORE, ["is no capture in the format"]
    yield "link type", pcap(FRAMES, 105), TO_GROUP, 1, BEFORE, ["link type 105"]
    # Snapped at each byte of a frame, with and without the object told.
    frame = FRAMES[5]
    for size in range(0, len(frame), 5):
        snapped = pcap([*FRAMES[:5], (frame[:size], len(frame)), *FRAMES[6:]])
        for words in (TO_GROUP, [*TO_GROUP, *OF_BULLETIN]):
            yield f"snapped at {size}", snapped, words, 1, BEFORE, [
                "frame 6, to", "the capture has"]
    snapped = [(frame[:60], len(frame)) for frame in of_all(PARTS[:1])]
    yield "snapped fragments", pcap(snapped + FRAMES), TO_GROUP, 1, BEFORE, ["of 282 bytes"]
    # The first one is cut before the TSI, and the others are whole.
    first, *others = of_all(PARTS[:1])
    yield "a snapped fragment", pcap([(first[:46], len(first)), *others, *FRAMES]), [
        *TO_GROUP, *OF_BULLETIN], 1, BEFORE, ["frame 3, to", "has 4 of 282 bytes"]
    packed_too = gzip.compress(whole)
    for name, data in [("pcap", whole), ("pcapng", section(FRAMES)), ("gzip", packed_too)]:
        for size in range(25, len(data), len(data) // 40):
            yield f"{name} cut at {size}", data[:size], TO_GROUP, 1, BEFORE, ["is cut off after"]
    for words in (
        [], ["--address", GROUP], ["--address", GROUP6, "--port", "0"],
        ["--address", "fe80::1%lo", "--port", "1"], [*TO_GROUP, "--tsi", "7"],
        [*TO_GROUP, "--source", SENDER6], [*TO_GROUP, "--other"], [*TO_GROUP, "third"],
        [*TO_GROUP, "--tsi", "4294967296", "--toi", "0"],
    ):
        yield f"refused {words}", whole, words, 2, BEFORE, ["session_of_capture --help says how"]


def snapped_others():
    """What is cut but goes elsewhere, or is of another object, is passed over."""
    others = [ethernet(ip(udp(it, port=4002))) for it in BULLETIN]
    snapped = [(frame[:60], len(frame)) for frame in others]
    yield "others are snapped", pcap(snapped + FRAMES), TO_GROUP, 0, session_of(BULLETIN), [
        "passed over 98"]
    frames = [ethernet(ip(udp(it))) for it in TWO]
    note = [it[15] == 2 for it in TWO]
    frames = [(frame[:60], len(frame)) if is_note else frame
              for frame, is_note in zip(frames, note)]
    yield "another object is snapped", pcap(frames), [*TO_GROUP, *OF_BULLETIN], 0, session_of(
        BULLETIN), ["passed over 6"]


def try_quiet(room):
    for name, capture, words, session, said in quiet_cases():
        status, found, messages = room.run(capture, words)
        if session is None:
            found, session = b"".join(sorted(found[at:at + 284] for at in range(
                0, len(found), 284))), b"".join(sorted(session_of([it]) for it in BULLETIN))
        room.count += 1
        if (status, found, messages) != (0, session, said):
            room.wrong.append(f"{name}: status {status}: {messages}")


def try_damaged(room):
    """Captures with wrong bytes end with a sentence, whatever they are."""
    chance = random.Random(3)
    cases = []
    for whole in (pcap(of_all(PARTS[:9])), section(of_all(PARTS6[:9])), pcap(
            [ethernet(gre(it, 0xB0)) for it in PLAIN[:9]])):
        for _ in range(40):
            data = bytearray(whole)
            for _ in range(chance.randint(1, 30)):
                value = chance.choice([0, 255, chance.randrange(256)])
                data[chance.randrange(24, len(data))] = value
            cases.append(bytes(data))
    for found in in_turn(lambda it: room.run(it, TO_GROUP), cases):
        room.count += 1
        if found[0] not in (0, 1) or "Traceback" in found[2] or found[0] and found[1] != BEFORE:
            room.wrong.append(f"damaged: status {found[0]}: {found[2]}")


def try_live(room):
    """Each datagram is written as it comes, and `follow` has the object before the capture ends."""
    words = [sys.executable, SCRIPT, "-", "-", *TO_GROUP]
    capture = pcap(FRAMES)
    size = (len(capture) - 24) // len(FRAMES)
    room.count += 2
    with subprocess.Popen(words, stdin=subprocess.PIPE, stdout=subprocess.PIPE,
                          stderr=subprocess.DEVNULL, bufsize=0) as script:
        for number, datagram in enumerate(BULLETIN):
            end = 24 + size * (number + 1)
            script.stdin.write(capture[end - size if number else 0:end])
            found = next(read_frames(script.stdout))
            if found != datagram:
                room.wrong.append(f"live: datagram {number} is another")
        script.stdin.close()
        if script.wait(60):
            room.wrong.append(f"live: status {script.returncode}")
    out = os.path.join(room.folder, "heard")
    with subprocess.Popen(words, stdin=subprocess.PIPE, stdout=subprocess.PIPE,
                          stderr=subprocess.PIPE, bufsize=0) as script:
        follow = [PROGRAM, "follow", "-", out, *OF_BULLETIN]
        with subprocess.Popen(follow, stdin=script.stdout, stdout=subprocess.PIPE) as follower:
            script.stdout.close()
            script.stdin.write(capture)
            lines = follower.communicate(timeout=60)[0]
        # Nobody reads any more, and the capture goes on.
        with contextlib.suppress(BrokenPipeError):
            script.stdin.write(capture[24:] * 20)
            script.stdin.close()
        said = script.stderr.read()
        status = script.wait(60)
    with open(out, "rb") as heard, open(os.path.join(SAMPLES, "bulletin.txt"), "rb") as sample:
        if heard.read() != sample.read() or status or not lines.endswith(b"object 20000 bytes\n"):
            room.wrong.append(f"live: status {status}, {lines}, {said}")


def tshark_session(room, capture, words):
    """The session that tshark finds."""
    name = os.path.join(room.folder, "compared")
    with open(name, "wb") as file:
        file.write(capture)
    told = dict(zip(words[::2], words[1::2]))
    kind = "ipv6" if ":" in told["--address"] else "ip"
    wanted = f"{kind}.dst == {told['--address']} && udp.dstport == 4001 && !icmp && !icmpv6"
    if "--source" in told:
        wanted += f" && {kind}.src == {told['--source']}"
    if "--tsi" in told:
        wanted += f" && rmt-lct.tsi == {told['--tsi']} && rmt-lct.toi == {told['--toi']}"
    lines = subprocess.run(
        ["tshark", "-n", "-r", name, "-d", "udp.port==4001,alc", "-Y", wanted, "-T", "fields",
         "-e", "udp.payload"], stdout=subprocess.PIPE, stderr=subprocess.DEVNULL, text=True,
        check=False,
    ).stdout.split()
    return session_of([bytes.fromhex(line.replace(":", "")) for line in lines])


def try_tshark(room):
    for name, capture, words, status, session, _ in read_cases():
        if status == 0 and name not in OTHERWISE:
            room.count += 1
            if tshark_session(room, capture, words) != session:
                room.wrong.append(f"{name}: tshark finds other datagrams")


def main():
    with tempfile.TemporaryDirectory() as folder:
        room = Room(folder)
        room.try_all(read_cases())
        room.try_all(refused_cases())
        room.try_all(snapped_others())
        try_quiet(room)
        try_damaged(room)
        try_live(room)
        if shutil.which("tshark"):
            try_tshark(room)
        else:
            print("tshark isn't there: nothing is compared with it")
    print(*room.wrong, sep="\n", end="\n" if room.wrong else "")
    print(f"captures: {room.count} cases, {len(room.wrong)} wrong")
    return 1 if room.wrong else 0


if __name__ == "__main__":
    sys.exit(main())
