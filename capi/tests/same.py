#!/usr/bin/env python3
"""Compares the library's answers with the program's lines: same.py PROGRAM SAMPLES COUNT.

Sessions, objects and certificates are cut, thinned, joined, turned about and changed at random,
always the same way. Of each the library and the program check, decode and make a twin; the lines
have to be the same, and so do the files. A check that is fed with the datagrams of a session one at
a time has to give the lines of the check of the session, at its end and somewhere before.
"""
import os
import random
import re
import subprocess
import sys
import tempfile
from collections import Counter
from itertools import zip_longest
from typing import Callable, List, Optional, Tuple, Union

import alcrs


def frames_of(session: bytes) -> List[bytes]:
    found, at = [], 0
    while at < len(session):
        size = 2 + int.from_bytes(session[at : at + 2], "big")
        found.append(session[at : at + size])
        at += size
    return found


def is_whole(session: bytes) -> bool:
    """Whether the session is frames to its end, which are all that a receiver is fed with."""
    frames = frames_of(session)
    return all(
        len(it) >= 2 and len(it) - 2 == int.from_bytes(it[:2], "big") <= 65507 for it in frames
    )


def some_byte(turn: random.Random) -> int:
    return turn.choice((0, 1, 255, turn.randrange(256)))


def changed(data: bytes, turn: random.Random) -> bytes:
    """The bytes with a bit turned, a byte set, or some left out or put in."""
    at = turn.randrange(len(data))
    return {
        0: lambda: data[:at] + bytes([data[at] ^ 1 << turn.randrange(8)]) + data[at + 1 :],
        1: lambda: data[:at] + bytes([some_byte(turn)]) + data[at + 1 :],
        2: lambda: data[:at],
        3: lambda: data[:at] + data[at + turn.randrange(1, 9) :],
        4: lambda: data[:at] + turn.randbytes(turn.randrange(1, 9)) + data[at:],
    }[turn.choice((0, 0, 0, 1, 2, 3, 4))]()


def session_of(frames: List[bytes], others: List[bytes], turn: random.Random) -> bytes:
    """A session of some of the datagrams, in whatever order, with others among them, and maybe with
    one changed.
    """
    some = [it for it in frames if turn.random() < turn.choice((0.4, 0.8, 1.0))]
    if turn.random() < 0.3:
        some += turn.sample(others, min(len(others), 3))
    if turn.random() < 0.5:
        turn.shuffle(some)
    if some and turn.random() < 0.4:
        # A change within a datagram, whose length still fits.
        at = turn.randrange(len(some))
        datagram = bytearray(some[at])
        if turn.random() < 0.7:
            datagram[turn.randrange(2, min(len(datagram), 44))] ^= 1 << turn.randrange(8)
        else:
            # A symbol that is shorter, or longer.
            del datagram[len(datagram) - turn.randrange(1, 4) :]
            datagram += turn.randbytes(turn.choice((0, 0, 4)))
            datagram[:2] = (len(datagram) - 2).to_bytes(2, "big")
        some[at] = bytes(datagram)
    if some and turn.random() < 0.05:
        # A length that no datagram has, or the first byte of one at the end.
        some.append(turn.choice((b"\xff\xf4", b"\x00")))
    return b"".join(some)


Answer = Tuple[List[str], Optional[bytes]]


def program_answer(program: str, room: str, *words: str) -> Answer:
    out = f"{room}/out"
    if os.path.exists(out):
        os.remove(out)
    ran = subprocess.run(
        [program, *words], cwd=room, stdout=subprocess.PIPE, text=True, check=False
    )
    made = None
    if os.path.exists(out):
        with open(out, "rb") as file:
            made = file.read()
    return ran.stdout.splitlines(), made


def library_answer(call: Callable[[], Answer]) -> Answer:
    try:
        return call()
    except (alcrs.Missing, alcrs.Empty, alcrs.NoneShort) as told:
        return [str(told)], None
    except (alcrs.Refused, alcrs.NoSession, alcrs.NoCertificate) as told:
        return [f"fault {told}"], None
    except alcrs.AlcrsError as told:
        return [f"no {told}"], None


def differing(right: Answer, own: Answer) -> str:
    for line, said in zip_longest(right[0], own[0]):
        if line != said:
            return f"{line} is right, and the library says {said}"
    return "another file"


Verdict = Union[alcrs.Report, alcrs.No]


def lines_of(answer: Verdict) -> List[str]:
    if isinstance(answer, alcrs.No):
        return [f"no {answer}"]
    return [
        "yes",
        *[f"block {i} need {need} have {have}" for i, (need, have) in enumerate(answer.blocks)],
        f"carriers {answer.carriers}",
        f"margin {answer.margin}",
        "kill" + "".join(f" {place}" for place in answer.kill),
        f"burst {answer.burst}",
    ]


def check_lines(session: bytes, an_object: bytes, certificate: bytes, toi: int) -> Answer:
    return lines_of(alcrs.check(session, an_object, certificate, 7, toi)), None


def lasting(answer: Verdict) -> Optional[alcrs.No]:
    """The reason of a no that stays one whatever datagrams follow, which a feed has to give."""
    if isinstance(answer, alcrs.No) and answer.number not in (3, 9, 11):
        return answer
    return None


def fed_lines(parts: List[List[bytes]], an_object: bytes, certificate: bytes, toi: int) -> Answer:
    """What a check says that is fed with the datagrams of these frames, behind each part."""
    lines = []
    with alcrs.Checker(an_object, certificate, 7, toi) as checker:
        reason = lasting(checker.verdict())
        for part in parts:
            for frame in part:
                reason = checker.feed(frame[2:])
            answer = checker.verdict()
            lines += lines_of(answer)
            if reason != lasting(answer):
                lines.append(f"where the last feed gives {reason}")
    return lines, None


def part_lines(parts: List[List[bytes]], an_object: bytes, certificate: bytes, toi: int) -> Answer:
    """What the check says of the session up to the end of each part."""
    lines, session = [], b""
    for part in parts:
        session += b"".join(part)
        lines += check_lines(session, an_object, certificate, toi)[0]
    return lines, None


def decode_lines(session: bytes, toi: int) -> Answer:
    found = alcrs.decode(session, 7, toi)
    return [f"object {len(found)} bytes"], found


def twin_lines(session: bytes, an_object: bytes, certificate: bytes, toi: int) -> Answer:
    found = alcrs.twin(session, an_object, certificate, 7, toi)
    short = alcrs.check(session, an_object, certificate, 7, toi)
    return [f"twin block {short.block} have {short.have} need {short.need}"], found


def follow_lines(session: bytes, toi: int) -> Answer:
    """What `follow` prints: each datagram that is refused, when the object is there, and the object
    or what lacks.
    """
    lines = []
    with alcrs.Receiver(7, toi) as receiver:
        for place, frame in enumerate(frames_of(session)):
            try:
                if receiver.feed(frame[2:]):
                    lines.append(f"complete after {place + 1} datagrams")
                    break
            except alcrs.AlcrsError as told:
                # The place in the fault is that among the accepted datagrams, and isn't printed.
                lines.append(f"refused {place} " + re.sub(r" place \d+", "", str(told)))
        try:
            found = receiver.object()
            return [*lines, f"object {len(found)} bytes"], found
        except (alcrs.Missing, alcrs.Empty) as told:
            return [*lines, str(told)], None


def main(program: str, samples: str, count: int) -> int:
    def read(name: str) -> bytes:
        with open(f"{samples}/{name}", "rb") as file:
            return file.read()

    kinds = [
        (read("note.session"), read("note.txt"), read("note.rsc"), 2),
        (read("sparse.session"), read("note.txt"), read("note.rsc"), 2),
        (read("note.session"), read("note.txt"), read("note.rsc1"), 2),
        (read("two.session"), read("note.txt"), read("note.rsc"), 2),
        (read("bulletin.session"), read("bulletin.txt"), read("bulletin.rsc"), 1),
    ]
    others = frames_of(read("bulletin.session"))
    turn = random.Random(1)
    seen: Counter = Counter()
    differ = 0
    with tempfile.TemporaryDirectory() as room:
        for number in range(count):
            session, an_object, certificate, toi = kinds[number % len(kinds) if number % 10 else 4]
            if turn.random() < 0.8:
                session = session_of(frames_of(session), others, turn)
            for at in range(turn.choice((0, 0, 1))):
                which = turn.randrange(4)
                if which < 2 and session:
                    session = changed(session, turn)
                elif which == 2:
                    an_object = changed(an_object, turn)
                else:
                    certificate = changed(certificate, turn)
            for name, data in (
                ("session", session), ("object", an_object), ("certificate", certificate)
            ):
                with open(f"{room}/{name}", "wb") as file:
                    file.write(data)
            ids = ("--tsi", "7", "--toi", str(toi))
            three = ("session", "object", "certificate")
            calls = [
                ("check", three, lambda: check_lines(session, an_object, certificate, toi)),
                ("decode", ("session", "out"), lambda: decode_lines(session, toi)),
            ]
            # Each other call for some of the inputs, as starting a program takes long.
            if number % 4 == 0:
                twin = lambda: twin_lines(session, an_object, certificate, toi)
                calls.append(("twin", (*three, "out"), twin))
            if number % 4 == 2 and is_whole(session):
                calls.append(("follow", ("session", "out"), lambda: follow_lines(session, toi)))
            answers = [
                (what, program_answer(program, room, what, *names, *ids), library_answer(call))
                for what, names, call in calls
            ]
            if is_whole(session):
                frames = frames_of(session)
                half = number % (len(frames) + 1)
                inputs = ([frames[:half], frames[half:]], an_object, certificate, toi)
                right = library_answer(lambda: part_lines(*inputs))
                answers.append(("fed", right, library_answer(lambda: fed_lines(*inputs))))
            for what, right, own in answers:
                seen[" ".join([what, *right[0][0].split()[:2]])] += 1
                if right != own:
                    differ += 1
                    print(f"input {number}: {what}: {differing(right, own)}")
    print(f"same.py: {count} inputs, {len(seen)} kinds of answers, {differ} differ")
    if os.environ.get("VERBOSE"):
        for kind, times in sorted(seen.items()):
            print(f"  {times:6} {kind}")
    return differ != 0


if __name__ == "__main__":
    sys.exit(main(sys.argv[1], sys.argv[2], int(sys.argv[3])))
