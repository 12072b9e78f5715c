#!/usr/bin/env python3
"""Lists the definitions that public contracts speak of: what has to be read to trust what they
promise.

A public contract is one of a `pub fn`, of a method of a public trait or type, or of a public type's
model. From the names that it cites the list goes through the definitions of `specs/` that these
stand on, but not into a relation that these calls only hand on to one another, as what a receiver
stands for; and not from what crates of the library offer to those above them alone, and the crates
of the commands to `tool` alone. All other definitions of `specs/` are the vocabulary of such
contracts, of private ones and of proofs, and need no trust. They stand in files of their own.

docs/definitions.txt has the list, and docs/THEOREMS.md a table of the promises, each with how many
of the definitions have to be read to believe it. Lines are those of definitions alone, without
comments and imports, counted at 100 columns.

    ci/trusted.py               fails where the table or the list is another, where a file has
                                definitions of both kinds, or where a document names what isn't
                                there: a file, a definition, a law, a clause or a mutant
    ci/trusted.py --write       writes table and list
    ci/trusted.py --read WHAT   lists the definitions that a promise of the table stands on, in the
                                order to read them
"""
import math
import re
import subprocess
import sys
import textwrap
from functools import lru_cache
from pathlib import Path

ROOT = Path(__file__).resolve().parent.parent
CRATES = ROOT / "crates"
HEAD = re.compile(r"^(?:(?:pub|abbrev|unfoldable) )*(record |data )?([^\s:(){}]+)(?=[\s:(])")
USE = re.compile(r"(?:ghost )?use ([\w.]+?)(?:\.\{([^}]*)\}| as (\w+))?;?$")
NAME = re.compile(r"[^\s(){}\[\],;.`]+")
FIELD = re.compile(r"^  (?:pub )?\S+ :", re.M)
TABLE_HEADING = "## What to read for each promise"
WIDTH = 100

# Relations that public calls only hand on to one another: what they say inside isn't needed to
# trust the calls.
HANDED_ON = {"Rattle.cert.specs.Fed", "Rattle.file_check.specs.Answers",
             "Rattle.receiver.specs.Stands", "Rattle.file_decoder.specs.PlacesOf",
             "Rattle.inventory.specs.Tells"}

# The crates that offer what they have to those above them in the library alone: no promise to
# callers.
INNER_LIBRARIES = {"block_recovery", "certified_symbols", "chart"}

# The crates of the program's commands offer what they have to the crate that runs them alone.
COMMANDS = {"commands", "send_commands", "receive_commands", "check_commands"}

INNER_CRATES = INNER_LIBRARIES | COMMANDS

# What `certificate` offers to `certified_symbols` alone.
INNER = {("certificate", "rows")}

# The files of what `cert` and `certificate` offer to `file_check` alone, and `decoder` to
# `file_decoder`, in the same way, and one of `block_bytes` that offers nothing beyond it.
INNER_FILES = {
    *(("cert", file) for file in ("tally", "datagrams")),
    ("certificate", "in_file"), ("block_bytes", "recent"),
    *(("decoder", file) for file in (
        "coded_source", "counting", "source", "verdict", "writing",
    )),
}


# What the table tells: a short name, the promise, the clauses that say it (crate, function, labels;
# none for all of them), and the promises that it is told beyond.
PROMISES = [
    ("headline", "what a yes of `check` promises of every selection", [
        ("cert", "check", ["decodes", "undecided", "tells"]),
        ("decoder", "decode", []),
        ("decoder", "decode_selection", []),
    ], []),
    ("bearing", "that the object bears the losses that a yes reports, and no more",
     [("cert", "check", ["losses"])], ["headline"]),
    ("losses", "margin, kill and burst", [("cert", "check", ["report"])], ["headline"]),
    ("receiver", "a receiver of one datagram at a time", [
        ("receiver", "new", []),
        ("receiver", "feed", []),
        ("receiver", "take", []),
        ("receiver", "stored", []),
    ], ["headline"]),
    (
        "verdict",
        "exactly which verdict `check` answers",
        [("cert", "check", ["verdict"])],
        ["headline"],
    ),
    ("laws", "that answers and verdicts are unique, and that faults come in their order", [
        ("session", "one_session", []),
        ("alc", "one_reading", []),
        ("reception", "first_fault", []),
        ("reception", "fault_order", []),
        ("reception", "empty_answer", []),
        ("reception", "isolation", []),
        ("decoder", "one_answer", []),
        ("cert", "one_verdict", []),
        ("certificate", "one_certificate", []),
        ("cert", "own_name_changes_nothing", []),
        ("cert", "first_reason", []),
        ("cert", "reason_order", []),
        ("cert", "first_column", []),
    ], ["headline", "verdict"]),
    ("sending", "`encode`, `certify` and their sessions, also of what a reader gives", [
        ("encoder", "encode", []),
        ("encoder", "certify", []),
        ("encoder", "certify_to", []),
        ("encoder", "encode_from", []),
        ("encoder", "encode_rounds_from", []),
        ("encoder", "certify_from", []),
        ("encoder", "sent_checks_yes", []),
    ], ["headline", "verdict"]),
    ("reading", "`check_from`: a check of what a reader gives", [
        ("cert", "check_from", []),
        ("cert", "feed_all", []),
        ("certificate", "view", []),
        ("certificate", "into_view", []),
    ], ["headline", "bearing", "verdict", "losses"]),
    ("feeding", "`Checker`: a check of one datagram at a time", [
        ("cert", "new", []),
        ("cert", "feed", []),
        ("cert", "verdict", []),
    ], ["headline", "bearing", "verdict", "losses"]),
    ("picture", "`Checker::survey`: what a picture shows", [("cert", "survey", [])],
     ["headline", "verdict", "losses", "reading"]),
    (
        "twins",
        "`twin`",
        [("cert", "twin", []), ("cert", "session_twin", [])],
        ["headline", "verdict"],
    ),
    ("library", "the library's public calls, but what is offered to crates above alone", None, []),
    ("embedding", "the calls for C", [
        ("alcrs_c", f"alcrs_{call}", []) for call in (
            "check", "object_length", "decode", "encode", "certify", "twin",
            "receiver_open", "receiver_feed", "receiver_object", "receiver_close",
            "checker_open", "checker_feed", "checker_verdict", "checker_close",
        )
    ], ["library"]),
    ("commands", "the program's commands", [("tool", "run", [])], ["library"]),
    (
        "program",
        "the program, from its words to its output",
        [("tool", "answer", [])],
        ["library", "commands"],
    ),
]
# The crates that stand on the library and offer it further.
ABOVE_THE_LIBRARY = {
    "request", "inspection", "causes", "inventory", "host", "progress", "program_host", "tool",
    "alcrs", "alcrs_c",
} | COMMANDS


class Module:
    """A file of `specs/`: its definitions, each with its text, and what its names stand for."""

    def __init__(self, path):
        self.path = path
        self.uses, self.aliases, self.definitions, self.constructors = {}, {}, {}, {}
        lines = path.read_text().splitlines()
        current = None
        for line in lines:
            if line.startswith(("use ", "pub use ")):
                add_use(line.removeprefix("pub "), self.uses, self.aliases)
            elif line.startswith("--") or not line.strip():
                current = None if not line.strip() else current
            elif line.startswith("pub mod "):
                continue
            elif not line[0].isspace():
                found = HEAD.match(line)
                name = found.group(2) if found else None
                if name and name not in ("module", "open"):
                    if name not in self.definitions:
                        self.definitions[name] = []
                    current = name
                if current:
                    self.definitions[current].append(line)
            elif current:
                self.definitions[current].append(line)
                made = re.match(r"  (\w+) :", line)
                if made and " data " in " " + self.definitions[current][0]:
                    self.constructors[made.group(1)] = current


def add_use(line, uses, aliases):
    """Notes what the names of an import stand for: (module, name)."""
    found = USE.match(line.strip())
    if not found:
        return
    module, names, alias = found.groups()
    if names is not None:
        for item in names.split(","):
            parts = item.split(" as ")
            uses[parts[-1].strip()] = (module, parts[0].strip())
    elif alias:
        aliases[alias] = module


def spec_modules():
    modules = {}
    for path in sorted(CRATES.glob("*/specs/*.antt")):
        if path.stem != "Lib":
            modules[f"Rattle.{path.parts[-3]}.specs.{path.stem}"] = Module(path)
    for path in sorted(CRATES.glob("*/specs/Lib.antt")):
        for line in path.read_text().splitlines():
            passed_on = re.match(r"pub use (Rattle\.\w+\.specs\.(\w+))$", line)
            if passed_on and passed_on.group(1) in modules:
                name = f"Rattle.{path.parts[-3]}.specs.{passed_on.group(2)}"
                modules[name] = modules[passed_on.group(1)]
    return modules


def cited(text, uses, aliases):
    """The definitions that a text cites, by the imports around it."""
    found = set()
    for name in NAME.findall(text):
        if name in uses:
            found.add(uses[name])
    for alias, name in re.findall(r"(\w+)\.(\w+)", text):
        if alias in aliases:
            found.add((aliases[alias], name))
    return found


def uses_of(path):
    """What the ghost imports of a source file bring."""
    uses, aliases = {}, {}
    for line in path.read_text().splitlines():
        if line.strip().startswith("ghost use "):
            add_use(line.strip(), uses, aliases)
    return uses, aliases


def private_types(path):
    """The types of a source file's crate that other crates can't name."""
    sources = "\n".join(source.read_text() for source in sorted(path.parent.glob("*.rt")))
    return set(re.findall(r"^(?:pub\(crate\) )?(?:struct|enum) (\w+)", sources, re.M))


def public_clauses(path):
    """The clauses of a source file's public functions, trait methods and models, as one text."""
    return "\n".join(text for _, _, text in contracts(path))


@lru_cache(maxsize=None)
def facts():
    """The ghosts of public traits whose value is a proof: their type says what is proved."""
    found = set()
    for path in CRATES.glob("*/src/*.rt"):
        for trait in re.findall(r"^pub trait .*?^}", path.read_text(), re.M | re.S):
            ghosts = re.findall(r"^    ghost (\w+): \{(.*?)\};", trait, re.M | re.S)
            found |= {name for name, kind in ghosts if re.search(r"≡|^ *(Is|Are)[A-Z]", kind)}
    return found


def contracts(path):
    """The public clauses of a source file: (function, label, text). A model's facts go by the
    function `Model`, and what an impl of a trait says of its ghosts by `impl`.
    """
    private = private_types(path)
    function, label, lines = None, "", []
    in_trait = in_model = in_impl = in_private = in_ghost = False
    source = re.sub(r"^(impl[^{;]*)\n +", r"\1 ", path.read_text(), flags=re.M)
    for line in source.splitlines():
        text = line.strip()
        if text and not line.startswith((" ", "}", ")")):
            of = re.match(r"impl.* for (\w+)|impl(?:<[^>]*>)? (\w+)", text)
            in_trait = text.startswith("pub trait ")
            in_private = bool(of) and (of.group(1) or of.group(2)) in private
            in_model = bool(re.match(r"impl(<.*>)? Model for ", text)) and not in_private
            of_trait = bool(re.match(r"impl(<.*>)? [A-Z][\w<>, ]* for ", text))
            in_impl = of_trait and not in_model and not in_private
            function, in_ghost = None, False
        named = re.match(r"(pub(?:\(crate\))? )?(?:extern \"C\" )?(?:const )?fn (\w+)", text)
        if named:
            is_public = (named.group(1) == "pub " and not in_private) or in_trait or in_impl
            function, label = (named.group(2) if is_public else None), ""
            if text.endswith(("{", "}")):
                function = None
        elif text in ("{", "{}") or (
            text.endswith("{") and not text.startswith(("requires", "ensures"))
        ):
            function = None
        elif function and not text.startswith("ghost "):
            clause = re.match(r"(requires|ensures)\*? (\w+ )?\{", text)
            if clause:
                label = (clause.group(2) or "").strip()
            lines.append((function, label, text))
        elif in_ghost or (in_model or in_impl) and re.match(r"ghost (?!use )", text):
            in_ghost = not text.endswith(("};", "}"))
            if in_model or re.sub(r"ghost (\w+).*", r"\1", text) not in facts():
                lines.append(("Model" if in_model else "impl", "", text))
        elif in_trait and text.startswith("ghost "):
            lines.append(("trait", "", text))
    return lines


def roots(wanted=lambda crate, function, label: True):
    """The definitions that public clauses cite, of those that are wanted."""
    found = set()
    for path in sorted(CRATES.glob("*/src/*.rt")):
        if path.parts[-3] in INNER_CRATES or (path.parts[-3], path.stem) in INNER_FILES:
            continue
        uses, aliases = uses_of(path)
        texts = [
            text
            for function, label, text in contracts(path)
            if wanted(path.parts[-3], function, label) and (path.parts[-3], function) not in INNER
        ]
        found |= cited("\n".join(texts), uses, aliases)
    return found


def inner_roots():
    """The definitions that the inner files cite."""
    found = set()
    for crate, file in sorted(INNER_FILES):
        path = CRATES / crate / "src" / f"{file}.rt"
        found |= cited(path.read_text(), *uses_of(path))
    return found


def closure(modules, start=None):
    """All definitions that the roots stand on, as (module, name)."""
    todo, done = list(roots() if start is None else start), set()
    while todo:
        module, name = todo.pop()
        known = modules.get(module)
        if known is None or module in HANDED_ON:
            continue
        name = known.constructors.get(name, name)
        if name not in known.definitions and name in known.uses:
            todo.append(known.uses[name])
        if name not in known.definitions or (known.path, name) in done:
            continue
        done.add((known.path, name))
        # A field isn't the definition that has its name.
        text = FIELD.sub("  ", "\n".join(known.definitions[name]))
        todo += cited(text, known.uses, known.aliases)
        todo += [(module, other) for other in set(NAME.findall(text)) if other in known.definitions]
    return done


def lines_of(files, wanted):
    """How many lines of 100 columns the definitions have."""
    lines = (line for path, name in wanted for line in files[path].definitions[name])
    return sum(max(1, math.ceil(len(line.rstrip()) / WIDTH)) for line in lines)


# ---- the kit's definitions

@lru_cache(maxsize=None)
def kit():
    """The folder of the toolchain's crates, if it can be found."""
    try:
        page = subprocess.run(
            ["rt", "doc"], capture_output=True, text=True, check=True
        ).stdout.strip()
    except (OSError, subprocess.CalledProcessError):
        return None
    folder = Path(page).parent / "rattle"
    return folder if folder.is_dir() else None


@lru_cache(maxsize=None)
def kit_module(name):
    parts = name.split(".")
    if kit() is None or len(parts) < 4 or parts[0] != "Rattle":
        return None
    if parts[2] != "specs" or parts[3] == "declared":
        return None
    path = kit() / parts[1] / "specs" / Path(*parts[3:]).with_suffix(".antt")
    return Module(path) if path.is_file() else None


def kit_closure(modules, wanted):
    """The definitions of the kit that clauses and our definitions stand on, as (crate, path, name).
    """
    files = {module.path: module for module in modules.values()}
    todo = list(roots())
    for path, name in wanted:
        known = files[path]
        todo += cited("\n".join(known.definitions[name]), known.uses, known.aliases)
    done, seen = set(), set()
    while todo:
        item = todo.pop()
        if item in seen or item[0] in modules:
            continue
        seen.add(item)
        module, name = item
        known = kit_module(module)
        if known is None:
            continue
        name = known.constructors.get(name, name)
        if name not in known.definitions:
            todo += [known.uses[name]] if name in known.uses else []
            continue
        if (known.path, name) in {(path, other) for _, path, other in done}:
            continue
        done.add((module.split(".")[1], known.path, name))
        text = FIELD.sub("  ", "\n".join(known.definitions[name]))
        todo += cited(text, known.uses, known.aliases)
        todo += [(module, other) for other in set(NAME.findall(text)) if other in known.definitions]
    return done


def kit_sentence(modules, wanted):
    """What of the kit the clauses use, in a sentence."""
    sizes = {}
    for crate, path, name in kit_closure(modules, wanted):
        lines = [line for line in kit_module_at(path).definitions[name]]
        group = "clap" if crate == "clap" else "others"
        sizes.setdefault(group, [0, 0])
        sizes[group][0] += 1
        sizes[group][1] += sum(max(1, math.ceil(len(line.rstrip()) / WIDTH)) for line in lines)
    told = [f"{sizes[g][0]} definitions of the kit's {n}, in {sizes[g][1]} lines" for g, n in
            (("others", "std and byteorder"), ("clap", "clap")) if g in sizes]
    text = "The clauses also use " + ", and ".join(told) + "."
    return textwrap.fill(text, WIDTH)


@lru_cache(maxsize=None)
def kit_module_at(path):
    return Module(path)


# ---- the order to read in

def depends_on(module, files, names):
    """The files whose definitions a file uses."""
    used = {name for name, _ in module.uses.values()} | set(module.aliases.values())
    paths = {names[name].path for name in used if name in names}
    return {path for path in paths if path in files and path != module.path}


def reading_order(paths, modules):
    """Each file behind those that it uses, crates from the field up, else by name."""
    files = {module.path: module for module in modules.values()}
    order = {name: place for place, name in enumerate(crate_order())}
    left, done = sorted(paths, key=lambda p: (order.get(p.parts[-3], len(order)), p.name)), []
    while left:
        ready = next((p for p in left if not depends_on(files[p], set(left), modules)), left[0])
        done.append(ready)
        left.remove(ready)
    return done


def crate_order():
    lines = (ROOT / "crates.txt").read_text().splitlines()
    return [
        line.split(":")[0].split()[0] for line in lines if line.strip() and not line.startswith("#")
    ]


def mixed(modules, wanted):
    """The files that have definitions of both kinds. Those that only the inner files speak of may
    stand beside either.
    """
    files = {module.path: module for module in modules.values()}
    offered = closure(modules, inner_roots()) - wanted
    for path in sorted(files):
        kinds = {
            (path, name) in wanted
            for name in files[path].definitions
            if (path, name) not in offered
        }
        if len(kinds) > 1:
            yield f"{path.parts[-3]}/specs/{path.stem}"


def entries(modules, wanted):
    """A line for each file that has definitions to read, in the order to read them."""
    files = {module.path: module for module in modules.values()}
    for path in reading_order({path for path, _ in wanted}, modules):
        names = [name for name in files[path].definitions if (path, name) in wanted]
        size = lines_of(files, [(path, name) for name in names])
        entry = f"- `{path.parts[-3]}/specs/{path.stem}` ({size} lines): " + ", ".join(
            f"`{n}`" for n in names
        )
        yield from textwrap.wrap(
            entry, WIDTH, subsequent_indent="  ", break_long_words=False, break_on_hyphens=False
        )


def listing(modules, wanted):
    files = {module.path: module for module in modules.values()}
    everything = sum(len(module.definitions) for module in files.values())
    handed_on = sorted("`{1}/specs/{3}`".format(*it.split(".")) for it in HANDED_ON)
    about = (
        "The definitions that public contracts speak of, from the field up, in the order to read "
        "them. Left out are the files of relations that calls only hand on to one another: "
        f"{', '.join(handed_on)}. The rest of `specs/` is the vocabulary of private contracts, of "
        "what crates of the library offer to those above them alone, and of proofs. "
        "`ci/trusted.py` makes this list, and the gate compares it."
    )
    head = [
        *textwrap.wrap(about, WIDTH, break_long_words=False, break_on_hyphens=False),
        "",
        f"{len(wanted)} of {everything} definitions, {lines_of(files, wanted)} lines.",
        "",
    ]
    return "\n".join(head + list(entries(modules, wanted))) + "\n"


def promised(modules, name):
    """The definitions that a promise of the table stands on."""
    clauses = next(clauses for short, _, clauses, _ in PROMISES if short == name)

    def is_wanted(crate, function, label):
        if clauses is None:
            return crate not in ABOVE_THE_LIBRARY
        return any(
            crate == c and function == f and (not labels or label in labels)
            for c, f, labels in clauses
        )

    return closure(modules, roots(is_wanted))


def table(modules, wanted):
    files = {module.path: module for module in modules.values()}
    rows = []
    for short, promise, _, beyond in PROMISES:
        needed = promised(modules, short)
        before = set().union(*(promised(modules, other) for other in beyond)) if beyond else set()
        more = needed - before
        sign = "+" if beyond else ""
        behind = " and ".join(f"*{other}*" for other in beyond)
        size = f"{sign}{len(more)} | {sign}{lines_of(files, more)}"
        rows.append(f"| *{short}*: {promise} | {behind} | {size} |")
    about = (
        "How many definitions have to be read to believe a promise, and how many lines of 100 "
        "columns these are. `ci/trusted.py --read headline` lists them in the order to read them, "
        "and so for each row; [definitions.txt](definitions.txt) has those of all."
    )
    text = [
        TABLE_HEADING,
        "",
        *textwrap.wrap(about, WIDTH, break_long_words=False, break_on_hyphens=False),
        "",
        "| promise | beyond | definitions | lines |",
        "|---|---|---|---|",
    ]
    sentence = kit_sentence(modules, wanted)
    return "\n".join(text + rows + ["", sentence]) + "\n"


# ---- what documents name

FILE = r"`(?:crates/)?(\w+/(?:specs|proofs|src|must-fail)(?:/[\w-]+)*(?:\.\w+)?)`"
LIST = r"((?:`[\w:]+`(?:, | and ))*`[\w:]+`):"
CODE = (".rt", ".antt", ".py", ".h")


def words_in(paths):
    return {word for path in paths for word in re.findall(r"\w+", path.read_text())}


def source_of(place):
    """The file or folder that a document calls `crate/specs/File`, if it is there."""
    path = CRATES / place
    ends = (path, path.with_suffix(".antt"), path.with_suffix(".rt"))
    return next((end for end in ends if end.exists()), None)


def missing_clauses(flat):
    """The clauses that ASSURANCE lists behind calls, and none of them has."""
    labels = {}
    for path in CRATES.glob("*/src/*.rt"):
        for function, label, _ in contracts(path):
            labels.setdefault(function, set()).add(label)
    for calls, clauses in re.findall(LIST + r" ((?:\w+, )*\w+)(?=[;.)])", flat):
        known = set().union(*(labels.get(c, set()) for c in re.findall(r"(\w+)`", calls)))
        yield from (f"{calls}: {clause}" for clause in clauses.split(", ") if clause not in known)


def missing_promises(text, crates):
    """The clauses that a section of THEOREMS tells of, and no crate has that it names."""
    for section in re.split(r"\n+(?=(?:- )?\*\*|#)", text):
        of = crates & set(re.findall(r"`(\w+)", section))
        known = crates | words_in(file for c in of for file in CRATES.glob(f"{c}/src/*.rt"))
        for names in re.findall(LIST, re.sub(r"\s+", " ", section)) if "/src" in section else []:
            yield from (name for name in re.findall(r"`(\w+)`", names) if name not in known)


def missing_names():
    """What documents name that isn't there, as (document, name): files of crates, and what stands
    in one of them; definitions, laws, mutants and functions, but in DECISIONS, which has those that
    are gone, too; and clauses. What ci/headline.py makes is the sources' own text.
    """
    edits = {path.stem for path in [*ROOT.glob("mutants/*/*"), *CRATES.glob("*/must-fail/*")]}
    crates = {path.name for path in CRATES.iterdir()}
    folders = ("crates/*/src", "crates/*/specs", "crates/*/proofs", "capi", "ci", "bench")
    code = (path for folder in folders for path in ROOT.glob(f"{folder}/**/*"))
    known = edits | crates | words_in(path for path in code if path.suffix in CODE)
    left_out = {ROOT / "CHANGELOG.md", ROOT / "docs" / "headline.md"}
    for path in sorted({*ROOT.glob("*.md"), *ROOT.glob("docs/*.md")} - left_out):
        text = path.read_text()
        flat = re.sub(r"\s+", " ", text)
        missing = [place for place in re.findall(FILE, text) if source_of(place) is None]
        for name, place in re.findall(r"`([\w-]+)`,? (?:in|under|of|from) " + FILE, flat):
            file = source_of(place)
            if file and file.is_file() and name not in re.findall(r"[\w-]+", file.read_text()):
                missing.append(f"{name} in {place}")
        names = re.findall(r"`([A-Za-z]+(?:_|[a-z][A-Z])\w*)`", text)
        missing += [name for name in names if name not in known and path.name != "DECISIONS.md"]
        missing += missing_clauses(flat) if path.name == "ASSURANCE.md" else []
        missing += missing_promises(text, crates) if path.name == "THEOREMS.md" else []
        yield from ((path.name, name) for name in missing)


def main():
    modules = spec_modules()
    if sys.argv[1:2] == ["--read"]:
        names = [short for short, _, _, _ in PROMISES]
        if len(sys.argv) != 3 or sys.argv[2] not in names:
            sys.exit("ci/trusted.py --read WHAT, of " + ", ".join(names))
        print("\n".join(entries(modules, promised(modules, sys.argv[2]))))
        return
    path, list_path = (ROOT / "docs" / name for name in ("THEOREMS.md", "definitions.txt"))
    opening, found, rest = path.read_text().partition(TABLE_HEADING)
    if not found:
        sys.exit(f"docs/THEOREMS.md has no heading '{TABLE_HEADING}'")
    wanted = closure(modules)
    both = list(mixed(modules, wanted))
    missing = list(dict.fromkeys(missing_names()))
    text = opening + table(modules, wanted) + rest[rest.index("\n## "):]
    listed = listing(modules, wanted)
    if sys.argv[1:] == ["--write"]:
        path.write_text(text)
        list_path.write_text(listed)
    elif missing:
        sys.exit("not there:\n" + "\n".join(f"{document}: {name}" for document, name in missing))
    elif both:
        names = ", ".join(both)
        sys.exit(f"definitions that public contracts speak of stand beside others in: {names}")
    elif path.read_text() != text or list_path.read_text() != listed:
        sys.exit("docs/THEOREMS.md or docs/definitions.txt has another count or list of what has to"
                 " be read: run ci/trusted.py --write")
    else:
        print("docs/definitions.txt lists what has to be read: same")


if __name__ == "__main__":
    main()
