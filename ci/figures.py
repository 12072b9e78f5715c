#!/usr/bin/env python3
"""Fails where a document has a figure that isn't what can be counted, a list of commands or calls
that lacks one, or a link that leads nowhere; and where a crate's page has a caller that isn't
compiled. Tells of how many crates the mutants of mutants/ were tried over today's sources.

Each figure stands below with the documents that have it, and what finds it there. A document that
has it no more is a failure, too, so that no figure goes unseen by being put into other words.
"""
import ast
import collections
import re
import subprocess
import sys
from pathlib import Path

ROOT = Path(__file__).resolve().parent.parent
sys.path.insert(0, str(ROOT / "scripts"))
import random_loss

DOCUMENTS = sorted(
    path for pattern in ("*.md", "docs/*.md", "*/README.md", "crates/*/*.md")
    for path in ROOT.glob(pattern)
)


def text_of(name):
    return (ROOT / name).read_text(encoding="utf-8")


WORDS = ("none one two three four five six seven eight nine ten eleven twelve thirteen fourteen "
         "fifteen sixteen").split()


def number(text):
    return WORDS.index(text) if text in WORDS else int(text.replace(",", ""))


def length_of(name, list_name):
    """How many members a list of a script has."""
    for node in ast.parse(text_of(name)).body:
        if isinstance(node, ast.Assign) and [it.id for it in node.targets] == [list_name]:
            return len(node.value.elts)
    sys.exit(f"{name}: no list {list_name}")


def commands():
    """The commands of the transcripts, but of the one that is wrong, as they are counted there."""
    told = re.findall(r"^\w+\.txt: (\d+) commands as", text_of("crates/transcripts/stdout"), re.M)
    return sum(map(int, told))


def random_sessions():
    """The sessions in random orders beside which a receiver is fed."""
    text = text_of("crates/vectors/src/receiver_tests.rt")
    [orders] = re.findall(r"^(?:pub\(crate\) )?const ORDERS: usize = (\d+);", text, re.M)
    objects = re.findall(r"^        \((?:\d+, ){4}\d+\),$|assert!\(rt; agree\(", text, re.M)
    return int(orders) * len(objects)


def disturbed_sessions():
    """The sessions of which a check of files is compared with one of readers."""
    text = text_of("crates/vectors/src/checked_file_tests.rt")
    objects = re.findall(r"^        \((?:\d+, ){4}\d+\),$|assert!\(rt; same_in_all\(", text, re.M)
    orders = constant("crates/vectors/src/receiver_tests.rt",
                      r"^pub\(crate\) const ORDERS: usize = (\d+);")
    return orders * len(objects)


def constant(name, pattern):
    """A number that a source file has once."""
    [told] = re.findall(pattern, text_of(name), re.M)
    return number(told.replace("_", ","))


def symbols_of(name):
    """`--block` and `--max` of a script's sessions."""
    [told] = re.findall(r'"--block", "(\d+)", "--max", "(\d+)"', text_of(name))
    return [int(it) for it in told]


def constants():
    """Limits of the program that documents have, too."""
    symbol = constant("crates/request/src/requests.rt", r"MOST_SYMBOL_BYTES: u16 = ([\d_]+);")
    most = {name: int(it) for name, it in re.findall(
        r'Number \(codes "([\w-]+)"\) [01] (\d+)', text_of("crates/request/specs/Grammar.antt")
    )}
    yield "README.md", r"of the object are at most (\d+)\.", [most["tsi"]]
    yield "docs/FORMATS.md", r"`--symbol` is E in bytes, 1 to ([\d,]+)", [symbol]
    yield "docs/FORMATS.md", r"its length in two bytes, at most ([\d,]+)", [
        constant("crates/session/src/frame.rt", r"^pub const MOST_BYTES: usize = (\d+);")
    ]
    parts = constant("crates/program_host/src/parts.rt", r"^const MOST_PARTS: u8 = (\d+);")
    yield "docs/FORMATS.md", r"up to `OUT.part(\d+)`", [parts - 1]
    columns = r"^const COLUMNS: usize = (\d+);"
    yield "docs/FORMATS.md", r"there are more than (\d+) blocks", [
        constant("crates/picture/src/spares.rt", columns)
    ]
    yield "docs/FORMATS.md", r"blocks or (\d+) places", [
        constant("crates/picture/src/bursts.rt", columns)
    ]
    most = r"^const MOST_GROUP_BYTES: usize = 1 << (\d+);"
    group = 2 ** constant("crates/encoder/src/rounds_from.rt", most) >> 20
    yield "docs/BENCHMARKS.md", r"within 1\.25 and (\d+) MiB", [group]
    shift = r"^const MOST_BYTES: usize = 1 << (\d+);"
    batch = 2 ** constant("crates/encoder/src/rounds.rt", shift) >> 20
    for name in ("docs/BENCHMARKS.md", "docs/EMBEDDING.md"):
        yield name, r"up to (\d+) MiB of repair symbols", [batch]
    values = constant("crates/block_code/src/codes.rt", r"LEAST_BY_VALUES: usize = (\d+);")
    yield "docs/BENCHMARKS.md", r"from (\d+) source symbols on", [values]
    products = constant("crates/evaluation/src/values.rt", r"MOST_PRODUCTS: usize = (\d+);")
    yield "docs/BENCHMARKS.md", r"by the transform above ([\d,]+) products", [products]
    values = re.search(r"max 1 \(min \d+ \((\d+) / max 1 length\)\)",
                       text_of("crates/shared_lists/src/sharing.rt")).group(1)
    yield "docs/DECISIONS.md", r"are moved: (\d+) at most, as", [int(values) - 2]
    yield from constants_of_files(batch, group)


def constants_of_files(batch, group):
    """Sizes of what is read, written and kept at once."""
    shift = r"^const {}: usize = 1 << (\d+);"
    line, lane = (constant("crates/streams/src/ahead.rt", shift.format(it))
                  for it in ("LINE_BYTES", "LANE_BYTES"))
    kept = constant("crates/alcrs/src/words.rt", shift.format("KEPT_BYTES"))
    runs = constant("crates/encoder/src/rounds_from.rt", r"^const LONG_RUN_BLOCKS: usize = (\d+);")
    yield "docs/DECISIONS.md", r"One more lane, of (\d+) KiB", [2 ** line >> 10]
    for name in ("docs/ARCHITECTURE.md", "docs/DECISIONS.md"):
        yield name, r"(\d+) KiB ahead", [2 ** lane >> 10]
    yield "docs/ARCHITECTURE.md", r"`rounds\.rt`\), if (\d+) MiB hold them", [batch]
    yield "docs/DECISIONS.md", r"many rounds as take (\d+) MiB", [batch]
    yield "docs/ARCHITECTURE.md", r"1\.25 to (\d+) MiB of encoding", [group]
    yield "docs/BENCHMARKS.md", r"as much as (\d+) blocks", [runs]
    yield "docs/DECISIONS.md", r"The program takes (\d+) MiB once", [2 ** kept >> 20]
    memory = constant("scripts/build.py", r"^MEMORY = (\d+) << 30$")
    yield "CONTRIBUTING.md", r"up to (\d+) GiB of memory", [memory]
    room = constant("ci/claims.py", r"^ROOM = (\d+) << 20$")
    yield "docs/ASSURANCE.md", r"as its inputs and (\d+) MiB", [room]
    head = dict(re.findall(r"^header_size (None|\(Some f\)) = (\d+)$",
                           text_of("crates/alc/specs/Written.antt"), re.M))
    bare, carrier = int(head["None"]), int(head["(Some f)"])
    yield "docs/THEOREMS.md", r"a frame of (\d+) \+ E", [carrier + 2]
    yield "docs/THEOREMS.md", r"and of (\d+) \+ E for each other", [bare + 2]


def definitions():
    """Those that public contracts speak of, all, and their lines; of the headline number and lines:
    as ci/trusted.py writes them."""
    whole = re.search(r"^(\d+) of (\d+) definitions, (\d+) lines\.$",
                      text_of("docs/definitions.txt"), re.M)
    first = re.search(r"^\| \*headline\*.*\| (\d+) \| (\d+) \|$", text_of("docs/THEOREMS.md"),
                      re.M)
    return [int(it) for it in whole.groups() + first.groups()]


def counted():
    gated = len(list(ROOT.glob("crates/*/must-fail/*.edit")))
    by_hand = len(list(ROOT.glob("mutants/*/*.edit")))
    spoken, every, lines, first, first_lines = definitions()
    causes = length_of("ci/causes.py", "CASES")
    sizes = re.findall(r"sizeof\(struct (alcrs_\w+)\) == (\d+)", text_of("capi/tests/calls.c"))
    inputs = int(re.search(r"\$\{1:-(\d+)\}", text_of("capi/try")).group(1))
    changes = int(re.search(r"else (\d+)\)$", text_of("ci/claims.py"), re.M).group(1))
    errors = constant("crates/transcripts/stdout", r"^wrong\.txt: \d+ commands, (\d+) wrong$")
    many = constant("ci/summaries.py", r"^MANY = ([\d_]+)$")
    large = constant("ci/large_sessions.py", r"^LENGTH = (\d+) << 20$")
    held = constant("ci/large_sessions.py", r"^MOST_KIB = (\d+) << 10$")
    need, have = symbols_of("ci/large_sessions.py")
    yield "README.md", r"plants (\d+) bugs", [gated]
    yield "README.md", r"(\d+) of them, in (\d+) lines, for the promise", [first, first_lines]
    yield "docs/MUTANTS.md", r"must-fail/` \| (\d+) \|", [gated]
    yield "docs/MUTANTS.md", r"mutants/CRATE/` \| (\d+) \|", [by_hand]
    yield "docs/ASSURANCE.md", r"each of the (\d+)\nthat stand in `must-fail/`", [gated]
    yield "docs/ASSURANCE.md", r"(\d+) more stand in `mutants/`", [by_hand]
    yield "docs/ASSURANCE.md", r"no others: ([\d,]+) of ([\d,]+), in ([\d,]+) lines", [
        spoken, every, lines,
    ]
    yield "docs/ASSURANCE.md", r"the headline (\d+), in (\d+) lines", [first, first_lines]
    yield "docs/ASSURANCE.md", r"yes promises (\d+) of these", [first]
    yield "docs/ASSURANCE.md", r"tries (\d+) causes", [causes]
    yield "docs/ASSURANCE.md", r"each allocation of (\d+) runs", [
        length_of("ci/trying.py", "COMMANDS")
    ]
    yield "docs/ASSURANCE.md", r"Tests: (\d+) commands in transcripts", [commands()]
    yield "docs/ASSURANCE.md", r"lines for ([\d,]+) cut and changed inputs", [inputs]
    yield "docs/ASSURANCE.md", r"each byte changed, ([\d,]+) changed inputs", [changes]
    yield "docs/ASSURANCE.md", r"(\d+) sessions in random orders", [random_sessions()]
    yield "docs/THEOREMS.md", r"tries (\d+) causes", [causes]
    crates = len({it.parent for it in ROOT.glob("crates/*/must-fail/*.edit")})
    yield "docs/MUTANTS.md", r"They stand in the (\w+) crates", [crates]
    tried = r"mutants of (\w+) crates that matter first\*\*, (\d+) in all; (\d+) others"
    yield "docs/DECISIONS.md", tried, [crates, gated, by_hand]
    yield "docs/BENCHMARKS.md", r"The gate has (\d+) mutants", [gated]
    yield "docs/ASSURANCE.md", r"One transcript has (\d+) deliberate", [errors]
    yield "docs/DECISIONS.md", r"One transcript has (\d+) deliberate", [errors]
    yield "docs/ASSURANCE.md", r"It tries ([\d,]+) datagrams, each", [many]
    yield "docs/ASSURANCE.md", r"sessions of (\d+) MiB decoded", [large * have // need]
    yield "ci/README.md", r"sessions of (\d+) MiB in (\d+) MiB", [large * have // need, held]
    for name, size in sizes:
        yield "docs/EMBEDDING.md", rf"`{name}` (\d+)", [int(size)]


def counted_in_crates():
    """What stands in the sources so many times."""
    yield "docs/ASSURANCE.md", r"(\d+) disturbed sessions, each", [disturbed_sessions()]
    kinds = re.search(r"^enum Argument\b[^{]*\{(.*?)^\}", text_of("crates/request/src/grammar.rt"),
                      re.M | re.S).group(1)
    kinds = len(re.findall(r"^    [A-Z]\w*", kinds, re.M))
    yield "docs/THEOREMS.md", r"the (\w+) kinds of arguments", [kinds]
    told = text_of("crates/commands/specs/Summary.antt")
    summary = told.partition("summary_text report weakest =")
    yield "docs/OPERATING.md", r"prints (\w+) lines in all", [
        len(re.findall(r"^    (?:\+\+ )?line_of", summary[2].partition("\n\n")[0], re.M))
    ]
    sources = sorted(ROOT.glob("crates/alcrs_c/src/*.rt"))
    unsafe = "".join(text_of(it) for it in sources if it.stem in ("held", "apart"))
    yield "docs/DECISIONS.md", r"The (\w+) functions of `held\.rt` and `apart\.rt`", [
        len(re.findall(r"^ *(?:pub(?:\(crate\))? )?fn ", unsafe, re.M))
    ]


def tens(numbers):
    """The least and the greatest of them, each to the next ten."""
    return [10 * round(it / 10) for it in (min(numbers), max(numbers))]


def measured():
    """What was measured, as docs/BENCHMARKS.md has it, where other documents tell it."""
    text = text_of("docs/BENCHMARKS.md")
    speeds = collections.defaultdict(list)
    for table in re.findall(r"^\| order of .*\n\|[-|]*\n(?:\|.*\n)*", text, re.M):
        names, _, *rows = ([it.strip() for it in row.strip("|").split("|")]
                           for row in table.splitlines())
        for row in rows:
            for name, cell in zip(names[1:], row[1:]):
                speeds[name.strip("`")].append(int(cell.split()[0]))
    received = speeds["check"] + speeds["decode"] + speeds["nothing lost"]
    yield "README.md", r"process (\d+) to (\d+) MB of object a second", tens(received)


def blocks_of(symbols, block, most):
    """How many source and encoding symbols each block has."""
    return list(collections.Counter(random_loss.blocks_of(symbols, block, most)).elements())


def burst_of(blocks, order):
    """How many neighbours may be missed, where `order` has the block of each datagram."""
    shortest = len(order)
    for b, (need, have) in enumerate(blocks):
        places = [place for place, other in enumerate(order) if other == b]
        spare = have - need
        shortest = min(shortest, *(places[i + spare] - places[i] for i in range(need)))
    return shortest


def losses_of(block, most):
    """A row of the table of losses in docs/OPERATING.md."""
    blocks = blocks_of(1000, block, most)
    by_blocks = [b for b, (_, have) in enumerate(blocks) for _ in range(have)]
    by_rounds = [b for esi in range(most) for b, (_, have) in enumerate(blocks) if esi < have]
    margin = min(have - need for need, have in blocks)
    large = blocks_of(-(-200_000_000 // 1440), block, most)
    random = [
        f"{100 * random_loss.greatest_loss(collections.Counter(it), 1 / 1000):.1f} %"
        for it in (blocks, large)
    ]
    sent = len(by_blocks)
    return [f"{sent:,}", f"{(sent - 1000) / 10:.0f} %", f"{margin}",
            f"{burst_of(blocks, by_blocks)}", f"{burst_of(blocks, by_rounds)}", *random]


def wrong_losses():
    """The rows of that table that aren't what can be worked out."""
    rows = re.findall(r"^\| (\d+) \| (\d+) \| (.*) \|$", text_of("docs/OPERATING.md"), re.M)
    for block, most, rest in rows:
        wanted = losses_of(int(block), int(most))
        if rest.split(" | ") != wanted:
            yield f"docs/OPERATING.md: --block {block} --max {most}: {' | '.join(wanted)}"
    if not rows:
        yield "docs/OPERATING.md: no table of losses"


def wrong_texts():
    """The texts of faults and reasons that docs/FORMATS.md lacks, or that no command prints."""
    text = re.compile(r"\b[NPFSZROG]\d+ [A-Z][A-Za-z]+")
    printed = {it for path in ROOT.glob("crates/commands/specs/*.antt") for quoted in
               re.findall(r'"[^"]*"', path.read_text(encoding="utf-8"))
               for it in text.findall(quoted)}
    # It is among the library's faults, and docs/FORMATS.md says that no command prints it.
    printed.discard("O1 Length")
    listed = set(text.findall(text_of("docs/FORMATS.md")))
    for it in sorted(printed ^ listed):
        yield f"docs/FORMATS.md: {it}: {'not listed' if it in printed else 'printed by no command'}"


def options_in(text):
    """The options of one command alone."""
    return set(re.findall(r"--[a-z-]+", text)) - {"--help", "--quiet", "--no-clobber"}


def wrong_commands():
    """The commands that docs/FORMATS.md lacks or has with other options, or that there aren't, and
    those that README lacks.
    """
    there = {
        it.stem: options_in(" ".join(re.findall(r"^ +(?:-\w, )?(--\S+)", text_of(it), re.M)))
        for it in ROOT.glob("samples/help/*.txt") if it.stem not in ("alcrs", "version")
    }
    listed = set(re.findall(r"`(\w+)`", " ".join(re.findall(r"^\| (`\w+`(?:, `\w+`)*) \|",
                                                           text_of("README.md"), re.M))))
    for it in sorted(there.keys() ^ listed):
        yield f"README.md: alcrs {it}: {'not listed' if it in there else 'no command'}"
    name = "docs/FORMATS.md"
    told = {it: options_in(rest) for it, rest in
            re.findall(r"`alcrs (\w+) ([A-Z][^`]*)`", text_of(name))}
    for it in sorted(there.keys() ^ told.keys()):
        yield f"{name}: alcrs {it}: {'not listed' if it in there else 'no command'}"
    for it in sorted(there.keys() & told.keys()):
        if there[it] != told[it]:
            yield f"{name}: alcrs {it}: {' '.join(sorted(there[it] ^ told[it]))}"


def wrong_calls():
    """The calls for C that docs/EMBEDDING.md lacks, or that there aren't; and those whose comment
    in capi/alcrs.h names other statuses than their contract.
    """
    header = text_of("capi/alcrs.h")
    calls = re.findall(r"/\*((?:(?!\*/).)*)\*/\n\w[\w ]* (alcrs_\w+)\(", header, re.S)
    named = {call: set(re.findall(r"^ \* ALCRS_(\w+)", told, re.M)) for told, call in calls}
    structs = set(re.findall(r"^struct (alcrs_\w+) \{", header, re.M)) | {"alcrs_status"}
    listed = set(re.findall(r"\balcrs_[a-z_]+\b", text_of("docs/EMBEDDING.md")))
    for it in sorted(named.keys() ^ (listed - structs - {"alcrs_c"})):
        yield f"docs/EMBEDDING.md: {it}: {'not listed' if it in named else 'no call'}"
    code = "".join(text_of(it) for it in ROOT.glob("crates/alcrs_c/src/*.rt"))
    for call, body in re.findall(r'extern "C" fn (alcrs_\w+)\((.*?)\n\{', code, re.S):
        returned = re.search(r"ensures statuses \{ IsOneOf\s*\((.*?)\)", body, re.S)
        there = set(re.findall(r"\w+", returned.group(1).upper())) if returned else set()
        if named.pop(call, None) != there:
            yield f"capi/alcrs.h: {call}: its contract has the statuses {', '.join(sorted(there))}"
    for call in named:
        yield f"capi/alcrs.h: {call}: no contract"


def wrong_crates():
    """The crates that docs/ARCHITECTURE.md lacks, or that there aren't, or that it has above one
    that they stand on; and those that its picture lacks. `coder` has no code, and isn't drawn.
    """
    lines = re.findall(r"^(\w+)[\w ]*:(.*)$", text_of("crates.txt"), re.M)
    listed, above = {name: set(names.split()) for name, names in lines}, set()
    for name in crates_of_architecture():
        for it in sorted(listed.get(name, set()) & listed.keys() - above):
            yield f"docs/ARCHITECTURE.md: {name} stands above {it}"
        above.add(name)
    for it in sorted(listed.keys() ^ above):
        yield f"docs/ARCHITECTURE.md: {it}: {'not listed' if it in listed else 'no crate'}"
    drawn = re.sub(r"<[^>]*>", " ", text_of("docs/crates.svg"))
    for it in sorted(listed.keys() - {"coder"} - set(re.findall(r"\w+", drawn))):
        yield f"docs/crates.svg: no crate {it}"


def wrong_callers():
    """The crates' pages whose caller, the lines between ```, isn't compiled as it stands there: in
    crates/examples, or among a crate's tests.
    """
    compiled = [
        [line.strip() for line in path.read_text(encoding="utf-8").splitlines()]
        for path in sorted(ROOT.glob("crates/*/src/*.rt")) if path.name != "lib.rt"
    ]
    for page in sorted(ROOT.glob("crates/*/src/lib.rt")):
        text = re.sub(r"^//! ?", "", page.read_text(encoding="utf-8"), flags=re.M)
        for caller in re.findall(r"^```\n(.*?)^```$", text, re.M | re.S):
            wanted = [line.strip() for line in caller.splitlines()]
            if not any(wanted == lines[at:at + len(wanted)]
                       for lines in compiled for at in range(len(lines))):
                yield f"{page.relative_to(ROOT)}: its caller isn't compiled anywhere"


def anchors(path):
    """What a link may name behind a `#`, of a document's headings."""
    for heading in re.findall(r"^#+ (.*)$", path.read_text(encoding="utf-8"), re.M):
        yield re.sub(r"[^\w\- ]", "", heading.lower()).replace(" ", "-")


def crates_of_architecture():
    """The crates that docs/ARCHITECTURE.md lists, from the field up."""
    return re.findall(r"^- \*\*(\w+)\*\*:", text_of("docs/ARCHITECTURE.md"), re.M)


def tell_tried():
    """Prints how many crates have changed since all their mutants were last tried."""
    lines = text_of("mutants/TRIED").splitlines()
    sums = {crate: sources for crate, _, sources, *_ in map(str.split, lines)}
    changed, crates = [], sorted({it.parent.name for it in ROOT.glob("mutants/*/*.edit")})
    for crate in crates:
        words = [ROOT / "release" / "sum", crate]
        said = subprocess.run(words, capture_output=True, text=True, check=True).stdout.strip()
        changed += [crate] if said != sums.get(crate) else []
    print(f"mutants/TRIED: {len(changed)} of {len(crates)} crates have changed since their mutants"
          f" were tried, or weren't tried{': ' if changed else ''}{' '.join(changed)}")


def main():
    wrong, count = [*wrong_losses(), *wrong_texts(), *wrong_commands(), *wrong_calls()], 0
    figures = [*counted(), *counted_in_crates(), *constants(), *measured()]
    for name, pattern, wanted in figures:
        # A line of a document ends anywhere.
        found = re.findall(pattern.replace(" ", r"\s+"), text_of(name))
        count += 1
        if not found:
            wrong.append(f"{name}: no figure {pattern}")
        for told in found:
            told = [number(it) for it in ([told] if isinstance(told, str) else told)]
            if told != wanted:
                wrong.append(f"{name}: {pattern}: {told}, and not {wanted}")
    wrong += [*wrong_crates(), *wrong_callers()]
    for path in DOCUMENTS:
        for link in re.findall(r"\]\(([^)\s]+)[^)]*\)", path.read_text(encoding="utf-8")):
            count += 1
            if "://" in link:
                continue
            name, _, anchor = link.partition("#")
            to = path.parent / name if name else path
            if not to.exists():
                wrong.append(f"{path.relative_to(ROOT)}: no file {name}")
            elif anchor and anchor not in anchors(to):
                wrong.append(f"{path.relative_to(ROOT)}: no heading {link}")
    tell_tried()
    for line in wrong:
        print(line)
    print(f"{count} figures and links of documents, {len(wrong)} wrong")
    return 1 if wrong else 0


if __name__ == "__main__":
    sys.exit(main())
