#!/usr/bin/env python3
"""Refuses the program's allocations one by one, and tells whether each run ends well.

Each command runs once with all the memory it asks for, and then once for each allocation, which is
refused. A run ends well where it prints the same and writes the same, or `fault memory` as its last
line with status 1; before that line a run may have printed whole lines of `follow` and, without a
summary, of `show`, and nothing else, and its output is what it was. A C compiler, `cc`, builds the
library that refuses.
"""
import os
import sys
import tempfile

from trying import BEFORE, COMMANDS, Rooms, build, in_turn, make_inputs

# Counts the calls that allocate and fails the one with the number REFUSED; writes their number to
# COUNTED.
REFUSING = r"""
#define _GNU_SOURCE
#include <dlfcn.h>
#include <stdio.h>
#include <stdlib.h>

static long calls = 0, refused = -1;

static int is_refused(void) {
    if (refused < 0) {
        char *number = getenv("REFUSED");
        refused = number ? atol(number) : 0;
    }
    return ++calls == refused;
}

void *malloc(size_t size) {
    static void *(*next)(size_t);
    if (!next) next = dlsym(RTLD_NEXT, "malloc");
    return is_refused() ? 0 : next(size);
}

void *realloc(void *old, size_t size) {
    static void *(*next)(void *, size_t);
    if (!next) next = dlsym(RTLD_NEXT, "realloc");
    return is_refused() ? 0 : next(old, size);
}

void *aligned_alloc(size_t align, size_t size) {
    static void *(*next)(size_t, size_t);
    if (!next) next = dlsym(RTLD_NEXT, "aligned_alloc");
    return is_refused() ? 0 : next(align, size);
}

int posix_memalign(void **made, size_t align, size_t size) {
    static int (*next)(void **, size_t, size_t);
    if (!next) next = dlsym(RTLD_NEXT, "posix_memalign");
    return is_refused() ? 12 : next(made, align, size);
}

__attribute__((destructor)) static void tell(void) {
    char *name = getenv("COUNTED");
    FILE *file = name ? fopen(name, "w") : 0;
    if (file) {
        fprintf(file, "%ld", calls);
        fclose(file);
    }
}
"""


def ends_well(words, whole, ran):
    """Whether a run is as the whole one, or tells want of memory and leaves the output as it was.
    """
    status, output, messages, left, parts = ran
    lines = output.splitlines(keepends=True)
    before = b"".join(lines[:-1])
    may_print = words[:1] in (["show"], ["follow"]) and "--summary" not in words
    told = (status, lines[-1:], messages, left, parts) == (1, [b"fault memory\n"], b"", BEFORE, [])
    return ran == whole or told and (before == b"" or may_print and whole[1].startswith(before))


def main():
    with tempfile.TemporaryDirectory() as folder:
        library = os.path.join(folder, "refusing.so")
        build(REFUSING, library)
        inputs = os.path.join(folder, "inputs")
        os.mkdir(inputs)
        make_inputs(inputs)
        rooms = Rooms(inputs)

        def run(words, **settings):
            return rooms.run(words, {"LD_PRELOAD": library, **settings})

        runs, bad = 0, []
        for number, words in enumerate(COMMANDS):
            counted = os.path.join(folder, "counted")
            whole = run(words, COUNTED=counted)
            with open(counted) as file:
                count = int(file.read())
            places = range(1, count + 1)
            answers = in_turn(lambda place: run(words, REFUSED=str(place)), places)
            bad += [
                (words, place)
                for place, ran in zip(places, answers)
                if not ends_well(words, whole, ran)
            ]
            runs += count
    for words, place in bad:
        print(f"alcrs {' '.join(words)}: not well where allocation {place} is refused")
    print(
        f"{runs} allocations of {len(COMMANDS)} runs refused in turn: "
        f"{len(bad)} ended otherwise than they may"
    )
    return 1 if bad else 0


if __name__ == "__main__":
    sys.exit(main())
