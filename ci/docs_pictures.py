#!/usr/bin/env python3
"""Makes the pictures of docs/: of the sample session, of 200 MB after losses, and of 50,000 blocks
after losses.

`ci/docs_pictures.py` draws the sample session, and compares it with docs/picture.svg.
`ci/docs_pictures.py --write` makes all three, which takes a gigabyte below the folder for temporary
files, and tells how long the checks of both large sessions took with and without their pictures.
"""
import os
import random
import subprocess
import sys
import tempfile
import time

from trying import PROGRAM, ROOT, SAMPLES

DOCS = os.path.join(ROOT, "docs")
NAMES = ["--tsi", "7", "--toi", "1"]
RUNS = 5


class Large:
    """A session of random bytes that has lost datagrams, each by itself and some bursts of
    neighbours.
    """

    def __init__(self, picture, length, numbers, loss, bursts):
        self.picture, self.length, self.numbers = picture, length, numbers
        self.loss, self.bursts = loss, bursts


LARGE = [
    Large(
        "picture-losses.svg",
        200_000_000,
        ["--symbol", "1440", "--block", "160", "--max", "255"],
        0.20,
        10,
    ),
    Large(
        "picture-blocks.svg",
        64_000_000,
        ["--symbol", "64", "--block", "20", "--max", "32"],
        0.06,
        0,
    ),
]


def alcrs(folder, *words):
    subprocess.run([PROGRAM, *words], cwd=folder, check=True, stdout=subprocess.DEVNULL)


def draw_sample(folder):
    inputs = ["bulletin.session", "bulletin.txt", "bulletin.rsc"]
    out = os.path.join(folder, "picture.svg")
    alcrs(SAMPLES, "check", *inputs, *NAMES, "--picture", out)
    return out


def lose(folder, large):
    """Writes sent.session without the lost datagrams as received.session."""
    chance = random.Random(7)
    with open(os.path.join(folder, "sent.session"), "rb") as file:
        session = memoryview(file.read())
    frames, at = [], 0
    while at < len(session):
        end = at + 2 + int.from_bytes(session[at : at + 2], "big")
        frames.append(session[at:end])
        at = end
    lost = {place for place in range(len(frames)) if chance.random() < large.loss}
    for _ in range(large.bursts):
        first = chance.randrange(len(frames))
        lost.update(range(first, first + 300))
    with open(os.path.join(folder, "received.session"), "wb") as file:
        file.writelines(frame for place, frame in enumerate(frames) if place not in lost)


def make_large(folder, large):
    chance = random.Random(1)
    with open(os.path.join(folder, "object.bin"), "wb") as file:
        file.write(chance.randbytes(large.length))
    alcrs(
        folder,
        "encode",
        "object.bin",
        "sent.session",
        *NAMES,
        *large.numbers,
        "--order",
        "rounds",
        "--fti-every",
        "40",
    )
    alcrs(folder, "certify", "object.bin", "object.rsc", *NAMES, *large.numbers)
    lose(folder, large)
    os.remove(os.path.join(folder, "sent.session"))


def seconds(folder):
    """The least of some runs without the picture, and with it, in turns."""
    took = ([], [])
    for _ in range(RUNS):
        for runs, words in zip(took, ([], ["--picture", "drawn.svg"])):
            begun = time.perf_counter()
            alcrs(folder, "check", "received.session", "object.bin", "object.rsc", *NAMES, *words)
            runs.append(time.perf_counter() - begun)
    return min(took[0]), min(took[1])


def write(folder):
    os.replace(draw_sample(folder), os.path.join(DOCS, "picture.svg"))
    for large in LARGE:
        make_large(folder, large)
        bare, drawn = seconds(folder)
        print(f"{large.picture}: check {bare:.3f} s, with the picture {drawn:.3f} s")
        with open(os.path.join(folder, "drawn.svg"), "rb") as file, open(
            os.path.join(DOCS, large.picture), "wb"
        ) as out:
            out.write(file.read())


def main():
    with tempfile.TemporaryDirectory() as folder:
        if sys.argv[1:] == ["--write"]:
            write(folder)
            return 0
        with open(draw_sample(folder), "rb") as file, open(
            os.path.join(DOCS, "picture.svg"), "rb"
        ) as known:
            same = file.read() == known.read()
    if not same:
        print("docs/picture.svg isn't what the program draws: run ci/docs_pictures.py --write")
    return 0 if same else 1


if __name__ == "__main__":
    sys.exit(main())
