#!/usr/bin/env python3
"""Has the program draw sessions, and tells whether the sheets and the summaries of a yes say what
`check` prints and `show` gives.

Of each sheet: it is XML, in UTF-8, and short; its words tell the margin, the burst, the weakest
block, the kill and the carriers that the lines tell; its columns stand as high as what each block
has to spare, and its curve as high as the longest run from each place that may be missed, which are
counted here one by one of the session's datagrams. The lines and the status are those without a
picture. At a no, and at a fault, the file stays what it was. Where `rsvg-convert` is installed, one
sheet is made an image, whose size and some of whose pixels are looked at.
"""
import os
import re
import shutil
import subprocess
import sys
import tempfile
import zlib
import xml.etree.ElementTree as ElementTree

from trying import BEFORE, OF_BULLETIN, OF_NOTE, PROGRAM, make_inputs

SVG = "{http://www.w3.org/2000/svg}"

# Sessions that are drawn, with their objects and certificates.
DRAWN = [
    ("note.session", "note.txt", "note.rsc", OF_NOTE),
    ("sparse.session", "note.txt", "note.rsc", OF_NOTE),
    ("two.session", "note.txt", "note.rsc", OF_NOTE),
    ("two.session", "bulletin.txt", "bulletin.rsc", OF_BULLETIN),
    ("bulletin.session", "bulletin.txt", "bulletin.rsc", OF_BULLETIN),
    ("one.session", "bulletin.txt", "one.rsc", OF_BULLETIN),
    ("uneven.session", "bulletin.txt", "many.rsc", OF_BULLETIN),
    ("rounds.session", "bulletin.txt", "many.rsc", OF_BULLETIN),
    ("rounds_lossy.session", "bulletin.txt", "many.rsc", OF_BULLETIN),
    ("repair.session", "bulletin.txt", "repair.rsc", OF_BULLETIN),
    ("twice.session", "bulletin.txt", "bulletin.rsc", OF_BULLETIN),
    ("just.session", "note.txt", "note.rsc", OF_NOTE),
    (
        "<a> & 'b' \" \N{EM DASH} of a name that goes on and on, and on and on, "
        "until it is too long.session",
        "note.txt",
        "note.rsc",
        OF_NOTE,
    ),
]

# Those that aren't: two that are answered no, and two faults.
NOT_DRAWN = [
    ("thin.session", "bulletin.txt", "bulletin.rsc", OF_BULLETIN),
    ("note.session", "note.txt", "note.rsc", OF_BULLETIN),
    ("cut.session", "bulletin.txt", "bulletin.rsc", OF_BULLETIN),
    ("missing", "note.txt", "note.rsc", OF_NOTE),
]

# The panels, in the sheet's units: the lower edge, and the height.
SPARES = (608, 340)
RUNS = (1114, 300)


def wrong(what):
    sys.exit(f"pictures.py: {what}")


def run(room, *words):
    ran = subprocess.run([PROGRAM, *words], cwd=room, capture_output=True)
    return ran.returncode, ran.stdout.decode()


def number(text):
    return int(text.replace(",", ""))


class Told:
    """What the lines of a yes tell."""

    def __init__(self, lines):
        self.blocks = [
            tuple(map(int, pair)) for pair in re.findall(r"block \d+ need (\d+) have (\d+)", lines)
        ]
        self.carriers = int(re.search(r"carriers (\d+)", lines)[1])
        self.margin = int(re.search(r"margin (\d+)", lines)[1])
        self.kill = list(map(int, re.search(r"kill((?: \d+)+)", lines)[1].split()))
        self.burst = int(re.search(r"burst (\d+)", lines)[1])
        self.spares = [have - need for need, have in self.blocks]


def symbols(room, session, identity):
    """Of each datagram the block and the ESI, or none where it is another object's, and whether it
    is a carrier.
    """
    _, lines = run(room, "show", session)
    listed = []
    for line in lines.splitlines():
        words = line.split()
        own = words[2] == identity[1] and words[4] == identity[3]
        named = dict(zip(words[-4::2], words[-3::2]))
        listed.append((int(named["sbn"]), int(named["esi"]), "length" in words) if own else None)
    return listed


def does_harm(told, listed, missed):
    """The block that is short without these places, or `carriers`; none where the loss may be
    borne.
    """
    left = [packet for place, packet in enumerate(listed) if packet and place not in missed]
    for block, (need, _) in enumerate(told.blocks):
        if len({esi for sbn, esi, _ in left if sbn == block}) < need:
            return block
    return None if any(carries for _, _, carries in left) else "carriers"


def longest_runs(told, listed):
    """From each place on the longest run that may be missed; none where all to the end may be."""
    runs, length = [], 0
    for start in range(len(listed)):
        length = max(length - 1, 0)
        while start + length < len(listed):
            if does_harm(told, listed, range(start, start + length + 1)) is not None:
                break
            length += 1
        runs.append(length if start + length < len(listed) else None)
    return runs


def compare_words(name, told, listed, title, words):
    said = "there is a datagram that must not be missed"
    if told.margin > 0:
        one = "datagram" if told.margin == 1 else "datagrams"
        near = "neighbour" if told.burst == 1 else "neighbours"
        said = f"any {told.margin:,} {one} may be missed; any {told.burst:,} {near}"
    if title != f"yes: {said}":
        wrong(f"{name}: the title says {title}")
    block = told.spares.index(min(told.spares))
    need, have = told.blocks[block]
    many = "symbol" if have == 1 else "symbols"
    weakest = f"weakest: block {block:,} has {have:,} {many} and needs {need:,}"
    if f"{weakest}, {have - need:,} to spare" not in words:
        wrong(f"{name}: another block is weakest")
    shortest = re.search(
        r"shortest: ([\d,]+) neighbours? may be missed from place ([\d,]+) on, and one more leaves "
        r"(?:block ([\d,]+) short|no carrier)",
        words,
    )
    length, place = number(shortest[1]), number(shortest[2])
    if length != told.burst:
        wrong(f"{name}: {length} is shortest, and the burst {told.burst}")
    compare_harm(name, told, listed, range(place, place + length + 1), shortest[3])
    kill = re.search(
        r"kill: to miss (?:this datagram|these ([\d,]+) datagrams) leaves "
        r"(?:block ([\d,]+) short|no carrier)",
        words,
    )
    if number(kill[1] or "1") != len(told.kill):
        wrong(f"{name}: {kill[0]}")
    compare_harm(name, told, listed, told.kill, kill[2])
    count = re.search(r"carriers: (?:every datagram|([\d,]+) of ([\d,]+) datagrams?)", words)
    if number(count[1] or str(len(listed))) != told.carriers:
        wrong(f"{name}: {count[0]}")


def compare_harm(name, told, listed, missed, block):
    """The loss leaves this block short, or no carrier."""
    left = [packet for place, packet in enumerate(listed) if packet and place not in missed]
    if block is None:
        harmed = not any(carries for _, _, carries in left)
    else:
        number_of = number(block)
        harmed = len({esi for sbn, esi, _ in left if sbn == number_of}) < told.blocks[number_of][0]
    if not harmed:
        wrong(f"{name}: the loss of {list(missed)} doesn't harm block {block}")


def top_of(greatest):
    """The value of the topmost line."""
    for step in (unit * 10**power for power in range(8) for unit in (1, 2, 5)):
        for lines in range(1, 6):
            if step * lines >= greatest:
                return step * lines


def compare_heights(name, values, heights, panel, top):
    _, height = panel
    if [height * value // top for value in values] != heights:
        wrong(f"{name}: the heights are {heights}")


def compare_drawing(name, told, runs, paths):
    bars = next(path for path in paths if path.get("fill") == "#2f6ca8")
    heights = [int(height) for height in re.findall(r"v(\d+)", bars.get("d"))]
    compare_heights(name, told.spares, heights, SPARES, top_of(max(told.spares)))
    shown = [length for length in runs if length is not None]
    curve = next(path for path in paths if path.get("fill") == "none" and "H" in path.get("d"))
    heights = [RUNS[0] - int(y) for y in re.findall(r"[ML]\d+ (\d+)H", curve.get("d"))]
    compare_heights(name, shown, heights, RUNS, top_of(max(shown)))


def compare_summary(name, told, listed, runs, summary):
    """The summary says what the lines do, and where and what a burst and the kill leave short."""
    block = told.spares.index(min(told.spares))
    need, have = told.blocks[block]
    own = [packet for packet in listed if packet]
    repeats = len(own) - len({(sbn, esi) for sbn, esi, _ in own})
    place = runs.index(told.burst)
    short = r"(?:block (\d+)|carriers)\n"
    said = re.fullmatch(
        f"yes\nweakest block {block} need {need} have {have}\ncarriers {told.carriers}\n"
        f"repeats {repeats}\nmargin {told.margin}\nkill {short}"
        f"burst {told.burst} place {place} {short}",
        summary,
    )
    if said is None:
        wrong(f"{name}: the summary is {summary}")
    compare_harm(name, told, listed, told.kill, said[1])
    compare_harm(name, told, listed, range(place, place + told.burst + 1), said[2])


def compare(room, session, object, certificate, identity):
    words = ["check", session, object, certificate, *identity]
    without = run(room, *words)
    output = os.path.join(room, "out.svg")
    with open(output, "wb") as file:
        file.write(BEFORE)
    if run(room, *words, "--picture", "out.svg") != without:
        wrong(f"{session}: with a picture, check answers something else than {without}")
    if without[0] != 0 and run(room, *words, "--summary") != without:
        wrong(f"{session}: with a summary, check answers something else than {without}")
    with open(output, "rb") as file:
        return without, file.read()


def compare_drawn(room, session, object, certificate, identity):
    (status, lines), data = compare(room, session, object, certificate, identity)
    if status != 0 or len(data) > 100000:
        wrong(f"{session}: status {status}, {len(data)} bytes")
    sheet = ElementTree.fromstring(data.decode())
    told = Told(lines)
    listed = symbols(room, session, identity)
    compare_words(
        session, told, listed, sheet.findtext(f"{SVG}title"), sheet.findtext(f"{SVG}desc")
    )
    runs = longest_runs(told, listed)
    compare_drawing(session, told, runs, sheet.findall(f"{SVG}path"))
    words = ["check", session, object, certificate, *identity, "--summary"]
    both = [run(room, *words), run(room, *words, "--picture", "out.svg")]
    compare_summary(session, told, listed, runs, both[0][1])
    if both != [(0, both[0][1])] * 2:
        wrong(f"{session}: with a summary the answers are {both}")
    texts = [text.text for text in sheet.findall(f"{SVG}text")]
    is_named = any(text.startswith(f"session {session[:20]}") for text in texts)
    if f"object {object}" not in texts or not is_named:
        wrong(f"{session}: the names are {texts[2:4]}")


def make_more(room):
    """The bulletin's datagrams twice, with losses here and there, just what the note needs, and a
    session of a strange name.
    """

    def alcrs(*words):
        subprocess.run([PROGRAM, *words], cwd=room, check=True, stdout=subprocess.DEVNULL)

    alcrs("join", "twice.session", "bulletin.session", "bulletin.session")
    alcrs(
        "drop",
        "rounds.session",
        "uneven.session",
        *map(str, [*range(0, 400, 9), *range(7, 300, 31), 48, 64]),
    )
    alcrs("drop", "note.session", "just.session", "1", "4")
    alcrs("join", DRAWN[-1][0], "note.session")


# Pixels of the bulletin's sheet, and their colours: the paper, a bar, the shaded run, and the end
# from which all may be missed.
PIXELS = {
    (5, 5): (255, 255, 255),
    (186, 250): (47, 108, 168),
    (110, 450): (242, 219, 223),
    (925, 450): (236, 236, 236),
}


def image_of(png):
    """Width, height, bytes of a pixel and rows of a PNG in colours of eight bits."""
    width, height = (int.from_bytes(png[at : at + 4], "big") for at in (16, 20))
    if png[24] != 8 or png[25] not in (2, 6) or png[26:29] != bytes(3):
        wrong("the image is none in colours of eight bits")
    size = 3 if png[25] == 2 else 4
    packed, at = b"", 8
    while at < len(png):
        length = int.from_bytes(png[at : at + 4], "big")
        if png[at + 4 : at + 8] == b"IDAT":
            packed += png[at + 8 : at + 8 + length]
        at += 12 + length
    data, rows, above = zlib.decompress(packed), [], bytes(size * width)
    for start in range(0, len(data), size * width + 1):
        kind, row = data[start], bytearray(data[start + 1 : start + 1 + size * width])
        for i in range(len(row)):
            up = above[i]
            left, corner = (row[i - size], above[i - size]) if i >= size else (0, 0)
            near = left + up - corner
            paeth = min((left, up, corner), key=lambda value: abs(near - value))
            row[i] = (row[i] + (0, left, up, (left + up) // 2, paeth)[kind]) & 255
        rows.append(row)
        above = row
    return width, height, size, rows


def compare_image(room):
    """Looks at the image of one sheet, where the program that makes it is there."""
    if shutil.which("rsvg-convert") is None:
        print("pictures.py: no image is made, as there is no rsvg-convert")
        return
    words = ["check", "bulletin.session", "bulletin.txt", "bulletin.rsc", *OF_BULLETIN]
    run(room, *words, "--picture", "sheet.svg")
    made = subprocess.run(["rsvg-convert", "sheet.svg"], cwd=room, capture_output=True, check=True)
    width, height, size, rows = image_of(made.stdout)
    if (width, height) != (1000, 700):
        wrong(f"the image has {width} by {height} pixels")
    for (x, y), colour in PIXELS.items():
        found = tuple(rows[y][size * x : size * x + 3])
        if max(abs(one - other) for one, other in zip(found, colour)) > 3:
            wrong(f"the pixel at {x}, {y} is {found}")


def main():
    with tempfile.TemporaryDirectory() as room:
        make_inputs(room)
        make_more(room)
        for case in DRAWN:
            compare_drawn(room, *case)
        compare_image(room)
        for case in NOT_DRAWN:
            (status, _), data = compare(room, *case)
            if status != 1 or data != BEFORE:
                wrong(f"{case[0]}: status {status}, and {len(data)} bytes are there")


main()
