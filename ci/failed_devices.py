#!/usr/bin/env python3
"""Fails the program's reads, writes and other calls on files one by one, and tells whether each run
ends well.

Each command runs once as it is, and then once for each of its calls, which fails with EIO, and once
more with EINTR. A run ends well with status 1 and the line of the fault that fits the call: the
output is what it was, and no part of it is left. Where standard output fails, there is no line, and
the output may be whole; where standard error does, a file is closed or its access rights are set,
nothing changes. An interruption may also be passed over, and so may a call that creates the output,
which is tried twice. Then each command runs with reads and writes that move 1 to 7 bytes at a time,
which changes nothing, and with standard input, output and error closed, so that files get their
numbers: no input changes, and the output is whole or what it was. A C compiler, `cc`, builds the
library that fails.
"""
import os
import subprocess
import sys
import tempfile

from trying import BEFORE, COMMANDS, OF_BULLETIN, PROGRAM, Rooms, build, in_turn, make_inputs

ERRORS = {"EIO": 5, "EINTR": 4}
# The commands that go over a session's frames, and then read its symbols again.
CHECKING = ["check", "twin"]
SIZES = ["--symbol", "1000", "--block", "50", "--max", "60"]

# More than what stands between the program and a file.
GREAT_COMMANDS = [
    ["encode", "great.txt", "out", *OF_BULLETIN, *SIZES],
    ["certify", "great.txt", "out", *OF_BULLETIN, *SIZES],
    ["convert", "great.rsc", "out", *OF_BULLETIN],
    ["check", "great.session", "great.txt", "great.rsc", *OF_BULLETIN],
    ["drop", "great.session", "out", "0"],
    ["decode", "great.session", "out", *OF_BULLETIN],
    ["follow", "great.session", "out", *OF_BULLETIN],
    ["twin", "great_thin.session", "great.txt", "great.rsc", "out", *OF_BULLETIN],
]

# Counts calls, lets the one with the number FAILED fail with ERROR, and moves at most PIECE bytes
# at a time. The read with the number SPOILED gives another first byte. Tells each call, its
# descriptor and its file in the file TOLD.
FAILING = r"""
#define _GNU_SOURCE
#include <dlfcn.h>
#include <errno.h>
#include <stdlib.h>
#include <string.h>
#include <sys/syscall.h>

extern long syscall(long number, ...);

static long calls, failed = -1, error, piece, spoiled, told = -1;

static long number_of(const char *name) {
    char *number = getenv(name);
    return number ? atol(number) : 0;
}

static void put(const char *text) { syscall(SYS_write, told, text, strlen(text)); }

static void tell(const char *name, const char *path, long descriptor) {
    char link[64] = "/proc/self/fd/", target[512] = "", digits[8] = {' ', '-', ' '};
    if (!path) {
        digits[1] = '0' + descriptor % 10;
        link[14] = descriptor < 10 ? '0' + descriptor : '0' + descriptor / 10;
        if (descriptor >= 10) link[15] = '0' + descriptor % 10;
        syscall(SYS_readlinkat, -100, link, target, sizeof target - 1);
        path = target;
    }
    put(name), put(digits), put(path), put("\n");
}

static int fails(const char *name, const char *path, long descriptor) {
    if (failed < 0) {
        char *file = getenv("TOLD");
        if (file) told = syscall(SYS_openat, -100, file, 02101, 0600);
        error = number_of("ERROR");
        piece = number_of("PIECE");
        spoiled = number_of("SPOILED");
        failed = number_of("FAILED");
    }
    if (told >= 0) tell(name, path, descriptor);
    if (++calls != failed) return 0;
    errno = error;
    return 1;
}

typedef long call(long, long, long, long, long);

#define NEXT(name) \
    static call *next; \
    if (!next) next = (call *)dlsym(RTLD_NEXT, #name);

#define OF_PATH(name, path) \
    long name(long a, long b, long c, long d, long e) { \
        NEXT(name) \
        return fails(#name, (const char *)path, -1) ? -1 : next(a, b, c, d, e); \
    }

#define OF_FILE(name) \
    long name(long a, long b, long c, long d, long e) { \
        NEXT(name) \
        return fails(#name, 0, a) ? -1 : next(a, b, c, d, e); \
    }

#define MOVING(name) \
    long name(long a, long b, long c, long d, long e) { \
        NEXT(name) \
        if (fails(#name, 0, a)) return -1; \
        return next(a, b, piece > 0 && c > piece ? piece : c, d, e); \
    }

#define READING(name) \
    long name(long a, long b, long c, long d, long e) { \
        NEXT(name) \
        if (fails(#name, 0, a)) return -1; \
        long spoils = calls == spoiled; \
        long got = next(a, b, piece > 0 && c > piece ? piece : c, d, e); \
        if (spoils && got > 0) *(char *)b ^= 128; \
        return got; \
    }

struct part {
    char *start;
    unsigned long size;
};

#define MOVING_PARTS(name, one) \
    long name(long a, const struct part *parts, long count) { \
        static long (*next)(long, const struct part *, long); \
        if (!next) next = (long (*)(long, const struct part *, long))dlsym(RTLD_NEXT, #name); \
        if (fails(#name, 0, a)) return -1; \
        if (piece <= 0) return next(a, parts, count); \
        while (count > 1 && parts->size == 0) parts++, count--; \
        unsigned long size = parts->size > (unsigned long)piece ? piece : parts->size; \
        struct part first = {parts->start, size}; \
        return next(a, &first, 1); \
    }

OF_PATH(open, a) OF_PATH(open64, a) OF_PATH(creat, a) OF_PATH(openat, b) OF_PATH(openat64, b)
OF_PATH(stat, a) OF_PATH(stat64, a) OF_PATH(lstat, a) OF_PATH(lstat64, a) OF_PATH(statx, b)
OF_PATH(fstatat, b) OF_PATH(fstatat64, b) OF_PATH(access, a) OF_PATH(faccessat, b)
OF_PATH(rename, a) OF_PATH(renameat, b) OF_PATH(renameat2, b)
OF_PATH(unlink, a) OF_PATH(unlinkat, b) OF_PATH(remove, a)
OF_PATH(chmod, a) OF_PATH(fchmodat, b)
OF_FILE(fchmod) OF_FILE(flock) OF_FILE(fstat) OF_FILE(fstat64) OF_FILE(lseek) OF_FILE(lseek64)
OF_FILE(fsync) OF_FILE(ftruncate)
MOVING(read) MOVING(write) MOVING(__write)
READING(pread) MOVING(pwrite) READING(pread64) MOVING(pwrite64)
MOVING_PARTS(readv, read) MOVING_PARTS(writev, write)

// A file is closed, whatever is answered.
long close(long a) {
    static long (*next)(long);
    if (!next) next = (long (*)(long))dlsym(RTLD_NEXT, "close");
    int failing = fails("close", 0, a);
    long answer = next(a);
    if (failing) errno = error;
    return failing ? -1 : answer;
}
"""

# How a command tells that its output can't be written, or can't take its place; the others blame
# the file.
WRITING = {
    "encode": "fault O3 Io",
    "certify": "fault Z4 Io",
    "convert": "fault Z4 Io",
    "drop": "fault S4 Io",
    "salvage": "fault S4 Io",
    "join": "fault S4 Io",
}


# How a command tells that it can't read an input, by the inputs' places.
FRAMES, OBJECT, CERTIFICATE = "fault S4 Io", "fault file {}", "fault Z4 Io"
INPUTS = {
    "encode": [OBJECT],
    "certify": [OBJECT],
    "convert": [CERTIFICATE],
    "check": [FRAMES, OBJECT, CERTIFICATE],
    "drop": [FRAMES],
    "salvage": [FRAMES],
    "join": ["", FRAMES, FRAMES, FRAMES],
    "decode": [FRAMES],
    "follow": [FRAMES],
    "twin": [FRAMES, OBJECT, CERTIFICATE],
    "show": [FRAMES],
}


class Call:
    """One call of a run: its name, the descriptor, and the file's name without a folder."""

    def __init__(self, line):
        self.name, self.descriptor, path = line.split(" ", 2)
        self.file = os.path.basename(path)

    def changes_nothing(self):
        # Without the length of a file that is open the object is held; and a file that can't be
        # looked up isn't known as one that no output replaces.
        looks_up = self.name == "statx" and not self.file.startswith("out")
        # Without a lock, its mark, or a look whether it is still there, a part is written as well.
        is_of_lock = self.name == "flock" or "chmod" in self.name
        is_of_lock = is_of_lock or self.name == "statx" and self.file.startswith("out.part")
        return self.descriptor == "2" or self.name == "close" or is_of_lock or looks_up

    def creates(self):
        """Whether it is one by which the output is created, which is tried twice."""
        return self.name.startswith(("open", "statx")) and self.file.startswith("out")

    def faults(self, words):
        """The lines that may tell that it failed."""
        moves = self.name.strip("_").startswith(
            ("read", "write", "pread", "pwrite", "ftruncate", "lseek")
        )
        written = WRITING.get(words[0], "fault file out")
        if self.name.startswith(("rename", "fsync")):
            return [written]
        if self.file.startswith("out"):
            return [written]
        if not moves:
            return [f"fault open {self.file}"]
        place = words[1:].index(self.file)
        told = [INPUTS[words[0]][place].format(self.file)]
        # A symbol that `check` or `twin` reads again, where it stands.
        is_again = words[0] in CHECKING and place == 0 and self.name.startswith("pread")
        return told + [OBJECT.format(self.file)] * is_again


def is_read_behind(words, call, whole):
    """Whether a call may read frames behind the reason of a no."""
    is_check = bool(words) and words[0] in CHECKING
    is_frame = is_check and call.name.startswith("pread") and call.file == words[1]
    return is_frame and whole[1].startswith(b"no ")


def is_told(words, call, whole, ran):
    """Whether a run tells what the failed call comes to."""
    status, output, messages, left, parts = ran
    if call.changes_nothing():
        # A file without a length is shown as a pipe is.
        shown = whole[1] if words[:1] == ["show"] and output.endswith(whole[1]) else output
        return (status, shown, left, parts) == (whole[0], whole[1], whole[3], whole[4])
    if call.name.startswith("unlink"):
        # What can't be removed stays, unless the next part takes its place.
        is_same = (status, output, left) == (whole[0], whole[1], whole[3])
        return is_same and parts in ([], ["out.part"])
    if status != 1 or messages != whole[2] or parts:
        return False
    if call.descriptor == "1":
        return whole[1].startswith(output) and left in (BEFORE, whole[3])
    lines = output.decode().splitlines(keepends=True)
    before = "".join(lines[:-1]).encode()
    may_print = words[0] in ("show", "follow") and "--summary" not in words
    is_before = before == b"" or may_print and whole[1].startswith(before)
    return left == BEFORE and is_before and "".join(lines[-1:]).rstrip("\n") in call.faults(words)


# What is closed, as a shell says it.
CLOSED = ["<&-", ">&-", "2>&-", "<&- >&-", ">&- 2>&-", "<&- >&- 2>&-"]


def is_told_closed(closed, whole, ran):
    """Whether a run without some of its standard streams ends as it may."""
    status, output, messages, left, parts = ran
    if " >&-" not in f" {closed}":
        return (status, output, left, parts) == (whole[0], whole[1], whole[3], [])
    is_fault = status == (whole[0] if whole[0] == 2 else 1)
    return is_fault and output == b"" and left in (BEFORE, whole[3]) and not parts


def contents(folder):
    """What the files of a folder hold."""
    return {entry.name: open(entry.path, "rb").read() for entry in os.scandir(folder)}


def main():
    with tempfile.TemporaryDirectory() as folder:
        library = os.path.join(folder, "failing.so")
        build(FAILING, library)
        inputs = os.path.join(folder, "inputs")
        os.mkdir(inputs)
        make_inputs(inputs)
        make_great_inputs(inputs)
        rooms = Rooms(inputs)
        before = contents(inputs)

        def run(words, **settings):
            return rooms.run(words, {"LD_PRELOAD": library, **settings})

        def run_without(words, closed):
            return rooms.run(words, {}, shell=f'exec "$0" "$@" {closed}')

        runs, short_runs, closed_runs, bad = 0, 0, 0, []
        for words in COMMANDS + GREAT_COMMANDS:
            told = os.path.join(folder, "told")
            if os.path.exists(told):
                os.remove(told)
            whole = run(words, TOLD=told)
            calls = calls_in(told)
            printed = max(
                (place for place, call in enumerate(calls, 1) if call.descriptor == "1"),
                default=len(calls),
            )
            tries = [(place, error) for place in range(1, len(calls) + 1) for error in ERRORS]
            answers = in_turn(
                lambda t: run(words, FAILED=str(t[0]), ERROR=str(ERRORS[t[1]])), tries
            )
            for (place, error), ran in zip(tries, answers):
                call = calls[place - 1]
                # The output is created all the same, and only a sentence tells of it.
                if call.creates() and (ran[:2], ran[3:]) == (whole[:2], whole[3:]):
                    continue
                # Behind its last line the program looks at files again for the cause: that changes
                # no answer.
                if place > printed and ran == whole:
                    continue
                # Behind the reason of a no a check still goes over frames: that changes no answer.
                if ran == whole and is_read_behind(words, call, whole):
                    continue
                if not is_told(words, call, whole, ran) and not (error == "EINTR" and ran == whole):
                    bad.append(
                        (words, f"{error} of {call.name} {call.descriptor} {call.file}", ran)
                    )
            runs += len(tries)
            answers = in_turn(lambda closed: run_without(words, closed), CLOSED)
            bad += [
                (words, c, ran)
                for c, ran in zip(CLOSED, answers)
                if not is_told_closed(c, whole, ran)
            ]
            closed_runs += len(CLOSED)
            if words not in GREAT_COMMANDS:
                answers = in_turn(lambda piece: run(words, PIECE=str(piece)), range(1, 8))
                bad += [
                    (words, f"pieces of {i + 1}", ran)
                    for i, ran in enumerate(answers)
                    if ran != whole
                ]
                short_runs += 7
        if contents(inputs) != before:
            bad.append((["..."], "an input has changed", whole))
    for words, failure, ran in bad:
        print(f"alcrs {' '.join(words)}: {failure}: status {ran[0]}, {ran[1][-200:]}, {ran[4]}")
    print(
        f"{runs} calls failed in turn, of {len(COMMANDS + GREAT_COMMANDS)} runs, "
        f"{short_runs} runs in small pieces and {closed_runs} with streams closed: "
        f"{len(bad)} ended otherwise than they may"
    )
    return 1 if bad else 0


def make_great_inputs(room):
    with open(os.path.join(room, "bulletin.txt"), "rb") as file:
        text = file.read()
    with open(os.path.join(room, "great.txt"), "wb") as file:
        file.write(text * 10)

    def alcrs(*words):
        subprocess.run([PROGRAM, *words], cwd=room, check=True, stdout=subprocess.DEVNULL)

    alcrs("encode", "great.txt", "great.session", *OF_BULLETIN, *SIZES)
    alcrs("certify", "great.txt", "great.rsc", *OF_BULLETIN, *SIZES)
    alcrs("drop", "great.session", "great_thin.session", *map(str, range(30)))


def calls_in(told):
    if not os.path.exists(told):
        return []
    with open(told) as file:
        return [Call(line.rstrip("\n")) for line in file]


if __name__ == "__main__":
    sys.exit(main())
