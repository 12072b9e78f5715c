"""What the scripts beside this one have in common: the program, inputs of many shapes, and runs in
folders of their own.

Each run has one of a few folders, where links to the inputs stand and the output `out` has known
bytes. C libraries are built by `cc`, and loaded before the program.
"""
import os
import subprocess
import tempfile
import threading
from concurrent.futures import ThreadPoolExecutor

ROOT = os.path.dirname(os.path.dirname(os.path.abspath(__file__)))
FINDER = os.path.join(ROOT, "release", "program")
PROGRAM = subprocess.check_output([FINDER], text=True).rstrip("\n")
# For what is run in other folders.
os.environ.update(ALCRS_PROGRAM=PROGRAM)
SAMPLES = os.path.join(ROOT, "samples")
BEFORE = b"what stood here before"
WORKERS = os.cpu_count() or 1

# Whose packets the sessions hold: those of the bulletin, and of the note.
OF_BULLETIN = ["--tsi", "7", "--toi", "1"]
OF_NOTE = ["--tsi", "7", "--toi", "2"]
NOTE = ["--symbol", "8", "--block", "8", "--max", "12"]
ONE_BLOCK = ["--symbol", "500", "--block", "50", "--max", "60"]
MANY_BLOCKS = ["--symbol", "64", "--block", "20", "--max", "26"]
ALL_REPAIR = ["--symbol", "200", "--block", "10", "--max", "30"]

# Commands that are done, those that end with a no, with a lack or with a fault, refused lines, and
# help.
COMMANDS = [
    ["encode", "note.txt", "out", *OF_NOTE, *NOTE],
    ["encode", "bulletin.txt", "out", *OF_BULLETIN, *ONE_BLOCK],
    ["encode", "bulletin.txt", "out", *OF_BULLETIN, *MANY_BLOCKS],
    ["encode", "bulletin.txt", "out", *OF_BULLETIN, *MANY_BLOCKS, "--order", "rounds"],
    ["encode", "bulletin.txt", "out", *OF_BULLETIN, "--symbol", "8", "--block", "9", "--max", "8"],
    ["encode", "note.txt", "out", *OF_NOTE, *NOTE, "--fti-every", "4"],
    ["encode", "bulletin.txt", "out", *OF_BULLETIN, *MANY_BLOCKS, "--order", "rounds",
     "--fti-every", "7"],
    ["certify", "note.txt", "out", *OF_NOTE, *NOTE],
    ["certify", "bulletin.txt", "out", *OF_BULLETIN, *ONE_BLOCK],
    ["certify", "bulletin.txt", "out", *OF_BULLETIN, *MANY_BLOCKS],
    ["convert", "note.rsc1", "out", *OF_NOTE],
    ["convert", "many.rsc", "out", *OF_BULLETIN],
    ["convert", "many.rsc", "out", *OF_NOTE],
    ["check", "note.session", "note.txt", "note.rsc1", *OF_NOTE],
    ["check", "note.session", "note.txt", "bulletin.rsc", *OF_NOTE],
    ["check", "note.session", "note.txt", "note.rsc", *OF_NOTE],
    ["check", "bulletin.session", "bulletin.txt", "bulletin.rsc", *OF_BULLETIN],
    ["check", "one.session", "bulletin.txt", "one.rsc", *OF_BULLETIN],
    ["check", "rounds.session", "bulletin.txt", "many.rsc", *OF_BULLETIN],
    ["check", "repair.session", "bulletin.txt", "repair.rsc", *OF_BULLETIN],
    ["check", "thin.session", "bulletin.txt", "bulletin.rsc", *OF_BULLETIN],
    ["check", "wrong.session", "bulletin.txt", "bulletin.rsc", *OF_BULLETIN],
    ["check", "cut.session", "bulletin.txt", "bulletin.rsc", *OF_BULLETIN],
    ["check", "two.session", "note.txt", "note.rsc", *OF_NOTE],
    ["check", "sparse.session", "note.txt", "note.rsc", *OF_NOTE],
    ["check", "bare.session", "note.txt", "note.rsc", *OF_NOTE],
    ["check", "note.session", "bulletin.txt", "note.rsc", *OF_NOTE],
    ["check", "note.session", "note.txt", "bulletin.txt", *OF_NOTE],
    ["check", "missing", "note.txt", "note.rsc", *OF_NOTE],
    ["check", "note.session", "note.txt", "note.rsc", *OF_NOTE, "--picture", "out"],
    ["check", "rounds.session", "bulletin.txt", "many.rsc", *OF_BULLETIN, "--picture", "out"],
    ["check", "thin.session", "bulletin.txt", "bulletin.rsc", *OF_BULLETIN, "--picture", "out"],
    ["check", "cut.session", "bulletin.txt", "bulletin.rsc", *OF_BULLETIN, "--picture", "out"],
    ["drop", "bulletin.session", "out", "0", "3", "7"],
    ["drop", "bulletin.session", "out", "99"],
    ["drop", "cut.session", "out", "0"],
    ["salvage", "cut.session", "out"],
    ["salvage", "bulletin.session", "out"],
    ["join", "out", "note.session"],
    ["join", "out", "note.session", "bulletin.session", "note.session", "--turns"],
    ["join", "out", "note.session", "cut.session"],
    ["join", "out", "note.session", "missing"],
    ["decode", "note.session", "out", *OF_NOTE],
    ["decode", "bulletin.session", "out", *OF_BULLETIN],
    ["decode", "one_lossy.session", "out", *OF_BULLETIN],
    ["decode", "rounds_lossy.session", "out", *OF_BULLETIN],
    ["decode", "thin.session", "out", *OF_BULLETIN],
    ["decode", "wrong.session", "out", *OF_BULLETIN],
    ["decode", "two.session", "out", *OF_BULLETIN],
    ["decode", "late.session", "out", *OF_NOTE],
    ["decode", "bare.session", "out", *OF_NOTE],
    ["decode", "note.session", "out", *OF_BULLETIN],
    ["decode", "empty.session", "out", *OF_BULLETIN],
    ["follow", "note.session", "out", *OF_NOTE],
    ["follow", "bulletin.session", "out", *OF_BULLETIN],
    ["follow", "one_lossy.session", "out", *OF_BULLETIN],
    ["follow", "rounds_lossy.session", "out", *OF_BULLETIN],
    ["follow", "spoiled.session", "out", *OF_BULLETIN],
    ["follow", "thin.session", "out", *OF_BULLETIN],
    ["follow", "two.session", "out", *OF_NOTE],
    ["follow", "sparse.session", "out", *OF_NOTE],
    ["follow", "late.session", "out", *OF_NOTE],
    ["follow", "cut.session", "out", *OF_BULLETIN],
    ["twin", "thin.session", "bulletin.txt", "bulletin.rsc", "out", *OF_BULLETIN],
    ["twin", "one_thin.session", "bulletin.txt", "one.rsc", "out", *OF_BULLETIN],
    ["twin", "note.session", "note.txt", "note.rsc", "out", *OF_NOTE],
    ["twin", "wrong.session", "bulletin.txt", "bulletin.rsc", "out", *OF_BULLETIN],
    ["show", "note.session"],
    ["show", "sparse.session"],
    ["show", "spoiled.session"],
    ["show", "cut.session"],
    ["show", "two.session", "--summary"],
    ["show", "spoiled.session", "--summary"],
    ["--help"],
    ["encode", "--help"],
    ["follow", "--help"],
    [],
    ["encode", "--max", "300"],
    ["drop", "note.session", "out", "x"],
    ["send", "note.session"],
]


def changed(data, place):
    """The bytes with another one at a place, which may be counted from the end."""
    data = bytearray(data)
    data[place] ^= 1
    return bytes(data)


def make_inputs(room):
    """Puts the inputs of the commands into a folder."""

    def alcrs(*words):
        subprocess.run([PROGRAM, *words], cwd=room, check=True, stdout=subprocess.DEVNULL)

    def put(name, data):
        with open(os.path.join(room, name), "wb") as file:
            file.write(data)

    def get(name):
        with open(os.path.join(room, name), "rb") as file:
            return file.read()

    for name in os.listdir(SAMPLES):
        if name.startswith(("bulletin.", "note.", "two.", "sparse.")):
            with open(os.path.join(SAMPLES, name), "rb") as file:
                put(name, file.read())
    for name, sizes in [("one", ONE_BLOCK), ("many", MANY_BLOCKS), ("repair", ALL_REPAIR)]:
        alcrs(
            "encode", "bulletin.txt", f"{name}.session", *OF_BULLETIN, *sizes, "--order", "rounds"
        )
        alcrs("certify", "bulletin.txt", f"{name}.rsc", *OF_BULLETIN, *sizes)
    os.rename(os.path.join(room, "many.session"), os.path.join(room, "rounds.session"))
    alcrs("drop", "one.session", "one_lossy.session", *map(str, range(10)))
    alcrs("drop", "one.session", "one_thin.session", *map(str, range(20)))
    # Other losses in each block.
    alcrs("drop", "rounds.session", "rounds_lossy.session", *map(str, range(0, 80)))
    alcrs("drop", "bulletin.session", "thin.session", *map(str, range(40)))
    # The carriers last, and none.
    alcrs("drop", "sparse.session", "bare.session", "0", "4")
    put("late.session", get("bare.session") + get("sparse.session"))
    session = get("bulletin.session")
    put("wrong.session", changed(session, -1))
    put("cut.session", session[:-1])
    put("empty.session", b"")
    frame = session[:284]
    put(
        "spoiled.session",
        b"\0\0" + frame + changed(frame, 283) + changed(frame, 15) + session[284:],
    )


class Rooms:
    """Folders with links to the inputs, one for each run that goes on."""

    def __init__(self, inputs, count=WORKERS):
        self.kept = tempfile.TemporaryDirectory()
        self.free = []
        self.lock = threading.Lock()
        for number in range(count):
            room = os.path.join(self.kept.name, str(number))
            os.mkdir(room)
            for name in os.listdir(inputs):
                os.symlink(os.path.join(inputs, name), os.path.join(room, name))
            self.free.append(room)

    def run(self, words, settings, files=None, shell=None):
        """Status, output, messages, the bytes of `out` and the names of its parts, of a run with
        these settings.

        `files` are inputs of this run alone, and `shell` is a command that ends in that of the run,
        as `"$0" "$@"`.
        """
        with self.lock:
            room = self.free.pop()
        try:
            output = os.path.join(room, "out")
            with open(output, "wb") as file:
                file.write(BEFORE)
            # An input of this run stands in the place of a link.
            linked = [(name, os.readlink(os.path.join(room, name))) for name in files or {}]
            for name, data in (files or {}).items():
                os.remove(os.path.join(room, name))
                with open(os.path.join(room, name), "wb") as file:
                    file.write(data)
            command = [PROGRAM, *words]
            if shell is not None:
                command = ["/bin/sh", "-c", shell, *command]
            ran = subprocess.run(command, cwd=room, env=settings, capture_output=True, timeout=60)
            for name, target in linked:
                os.remove(os.path.join(room, name))
                os.symlink(target, os.path.join(room, name))
            with open(output, "rb") as file:
                left = file.read()
            parts = [name for name in os.listdir(room) if name.startswith("out.")]
            for name in parts:
                os.remove(os.path.join(room, name))
            return ran.returncode, ran.stdout, without_causes(ran.stderr), left, parts
        finally:
            with self.lock:
                self.free.append(room)


def without_causes(messages):
    """What stands on standard error beside the sentences on causes, which `causes.py` tries."""
    return b"".join(
        line for line in messages.splitlines(keepends=True) if not line.startswith(b"alcrs: ")
    )


def build(source, library):
    """Builds a C library that is loaded before the program."""
    compiler = ["cc", "-O1", "-shared", "-fPIC", "-xc", "-", "-o", library, "-ldl"]
    subprocess.run(compiler, input=source.encode(), check=True)


def in_turn(task, items):
    """What a task answers to each of the items, some at a time."""
    with ThreadPoolExecutor(WORKERS) as pool:
        return list(pool.map(task, items))
