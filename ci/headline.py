#!/usr/bin/env python3
"""Makes docs/headline.md: the contract of the call that the program makes, and the text of all
definitions of `specs/` that it stands on, in the order to read them: what is used stands before its
user, crate by crate. ci/trusted.py finds them.

    ci/headline.py            fails where docs/headline.md is another
    ci/headline.py --write    writes it
"""
import re
import sys
import textwrap

import trusted

PAGE = trusted.ROOT / "docs" / "headline.md"
# The calls whose contracts are shown: functions of a crate's source file.
CALLS = [("tool/src/answering.rt", ("answer", "carry_out")), ("tool/src/running.rt", ("run",))]
PROMISES = ("commands", "program")
HEAD = """\
# The statement of the program, in Rattle

The contract of the call that the program makes, and all definitions that it stands on, as they
stand in the sources: {count} definitions, in {lines} lines of 100 columns. What is used stands
before its user, crate by crate from the lowest up. `ci/headline.py --write` makes this page, and
the gate compares it.

`alcrs` calls `carry_out` on what `command_line` has read; `answer` is these two calls. A contract
stands after `ensures`: `x.old` and `x.new` are what an `&mut` holds before and after the call, and
`result` is what the call returns. Types such as `Request` and `Identity` are declared in the
sources of their crates. [THEOREMS](THEOREMS.md) says the same in words, and how many definitions of
the kit are used. The promise of a yes alone needs fewer: `ci/trusted.py --read headline` lists
them.
"""
LEFT_OUT = "Calls only hand these relations on to one another, so they aren't here: {}."


def contract(file, name):
    """The comment, the signature and the contract of a public function."""
    text = (trusted.CRATES / file).read_text()
    found = re.search(rf"(?:^/// .*\n)*^pub fn {name}\b(?:.*\n)+?(?=\{{\n)", text, re.M)
    return found.group().rstrip()


def texts_of(path):
    """The text of each definition of a file with the comment before it, and the file's comment."""
    texts, comment, current, about = {}, [], None, []
    for line in path.read_text().splitlines():
        if not line.strip():
            # What stands alone at the top is about the file.
            about, comment, current = about or comment, [], None
        elif re.match(r"(pub )?(use|mod) ", line):
            about, comment = about or comment, []
        elif line.startswith("--"):
            comment.append(line)
        else:
            head = trusted.HEAD.match(line)
            current = head.group(2) if head else current
            texts.setdefault(current, [])
            texts[current] += comment + [line]
            comment = []
    return texts, about


def needed(modules):
    """The definitions that the contracts stand on, as (path, name)."""
    return set().union(*(trusted.promised(modules, promise) for promise in PROMISES))


def ordered(names, texts, uses):
    """The names of a file's definitions, each after those that it uses."""
    done, on_the_way = [], set()

    def put(name):
        if name in done or name in on_the_way:
            return
        on_the_way.add(name)
        for other in names:
            if other in uses[name]:
                put(other)
        done.append(name)

    for name in names:
        put(name)
    return done


def file_block(module, wanted):
    """The lines of a file's definitions."""
    texts, about = texts_of(module.path)
    names = [name for name in module.definitions if (module.path, name) in wanted]
    uses = {name: set(trusted.NAME.findall("\n".join(module.definitions[name]))) for name in names}
    place = f"{module.path.parts[-3]}/specs/{module.path.stem}"
    words = " ".join(line.removeprefix("--").strip() for line in about)
    yield from textwrap.wrap(f"-- {place}" + (f": {words}" if words else ""), trusted.WIDTH,
                             subsequent_indent="-- ", break_on_hyphens=False)
    for name in ordered(names, texts, uses):
        yield ""
        yield from texts[name]


def page(modules):
    wanted = needed(modules)
    files = {module.path: module for module in modules.values()}
    head = HEAD.format(count=len(wanted), lines=trusted.lines_of(files, wanted))
    handed_on = (f"`{crate}/specs/{file}`" for _, crate, _, file in
                 (name.split(".") for name in sorted(trusted.HANDED_ON)))
    lines = [head, *textwrap.wrap(LEFT_OUT.format(", ".join(handed_on)), trusted.WIDTH,
                                  break_on_hyphens=False), "", "## The contracts", ""]
    for file, names in CALLS:
        for name in names:
            lines += ["```", f"// {file}", contract(file, name), "```", ""]
    crate = None
    for path in trusted.reading_order({path for path, _ in wanted}, modules):
        if path.parts[-3] != crate:
            lines += ["```", ""] if crate else []
            crate = path.parts[-3]
            lines += [f"## {crate}", "", "```"]
        else:
            lines.append("")
        lines += file_block(files[path], wanted)
    return "\n".join(lines + ["```"]) + "\n"


def main():
    if sys.argv[1:] not in ([], ["--write"]):
        sys.exit("ci/headline.py [--write]")
    text = page(trusted.spec_modules())
    if sys.argv[1:]:
        PAGE.write_text(text)
    elif not PAGE.is_file() or PAGE.read_text() != text:
        sys.exit("docs/headline.md isn't what the sources say: run ci/headline.py --write")
    print(f"docs/headline.md has the contract of the program's call, {text.count(chr(10))} lines:"
          " same")


if __name__ == "__main__":
    main()
