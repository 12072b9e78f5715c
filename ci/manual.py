#!/usr/bin/env python3
"""Makes man pages, and completions of bash, zsh and fish, from the help texts of samples/help.

ci/compare compares the help texts with what the program prints. So the man pages and the
completions say what the program says: which commands there are, and of each its arguments, options,
lines and statuses. What no help text has is taken from the documents: alcrs(1) has what README and
docs/FORMATS.md say of its purpose, terms, inputs and outputs, alcrs-answers(7) what
docs/OPERATING.md says of each answer, and docs/FORMATS.md of each code.

    ci/manual.py            fails where a file isn't what it would write, and tells which
    ci/manual.py --write    writes docs/man/ and completions/
"""
import itertools
import re
import sys
from pathlib import Path

ROOT = Path(__file__).resolve().parent.parent
HELP = ROOT / "samples" / "help"
MADE_BY = "ci/manual.py makes this file of samples/help"
SECTIONS = ("Commands:", "Arguments:", "Options:")
# An option's names and its value, or an argument, which may be left out or repeated.
HEAD = re.compile(r"((?:-\w, )?--[\w-]+)? ?(?:[<[]([\w-]+)[>\]])?(\.\.\.)?")
# What takes a number tells its range.
RANGE = re.compile(r"\b\d+ to \d+\b")
# What groff reads as something else.
ESCAPED = str.maketrans({
    "\\": "\\e", "-": "\\-", "'": "\\(aq", "`": "\\(ga", "^": "\\(ha", "~": "\\(ti"
})
# A code of an answer, and its name.
CODE = re.compile(r"\b[A-Z]\d+ [A-Z][A-Za-z]+")
# The command that has no help text of its own: it prints those of the others.
HELP_COMMAND = "help"

MANUALS = {1: "User Commands", 7: "Miscellaneous"}
MOST_LINES = 200
DOCUMENTS = "README.md, docs/OPERATING.md and docs/FORMATS.md of the source"
STANDARDS = ("RFC 5775 (ALC), RFC 5651 (LCT), RFC 5510 (Reed-Solomon, FEC Encoding ID 5), "
             "RFC 5052 (blocks)")


# ---- the help texts

class Entry:
    """An argument or an option: its names, the name of its value, its help, and what words it
    takes.
    """

    def __init__(self, head, text):
        found = HEAD.fullmatch(head)
        if not found:
            sys.exit(f"samples/help: neither an argument nor an option: {head}")
        names, value, dots = found.groups()
        self.names = names.split(", ") if names else []
        self.value = value or ""
        self.is_repeated = bool(dots)
        found = re.search(r" \[possible values: ([^\]]+)\]", text)
        self.words = found.group(1).split(", ") if found else []
        found = re.search(r" \[default: ([^\]]+)\]", text)
        self.default = found.group(1) if found else None
        self.text = re.sub(r" \[(default|possible values): [^\]]+\]", "", text)
        self.is_number = bool(RANGE.search(text))
        self.is_file = bool(self.value) and not self.words and not self.is_number

    def long_name(self):
        return self.names[-1]


class Help:
    """What a help text says. A line that has no place in it is an error, so that nothing is left
    out.
    """

    def __init__(self, name):
        self.name = name
        self.commands, self.arguments, self.options = [], [], []
        self.text, self.statuses, self.examples = [], [], []
        lines = (HELP / f"{name}.txt").read_text().splitlines()
        self.about, blank, usage = lines[:3]
        if blank or not usage.startswith("Usage: alcrs"):
            sys.exit(f"samples/help/{name}.txt: no usage in its third line")
        self.usage = usage.removeprefix("Usage: ")
        section, entries = None, []
        for line in lines[3:]:
            if not line.strip():
                continue
            if not line.startswith("  "):
                section = None
            if line in SECTIONS:
                section = line
            elif section == "Commands:":
                self.add_command(line)
            elif section and line.startswith(" " * 10):
                entries[-1][2].append(line.strip())
            elif section:
                entries.append((section, line.strip(), []))
            elif line.startswith("Statuses: "):
                self.statuses = statuses(line)
            elif line.startswith("Example: "):
                self.examples.append(line.removeprefix("Example: "))
            elif self.examples and self.examples[-1].endswith("\\"):
                self.examples[-1] = self.examples[-1].removesuffix("\\") + line.strip()
            elif line.startswith("  ") and "  " not in line.strip():
                sys.exit(f"samples/help/{name}.txt: a printed line without its meaning: {line}")
            else:
                self.text.append(line)
        # An argument or an option stands on a line, and its text on those behind it.
        for section, head, texts in entries:
            if not texts:
                sys.exit(f"samples/help/{self.name}.txt: a line without a text: {head}")
            listed = self.arguments if section == "Arguments:" else self.options
            listed.append(Entry(head, " ".join(texts)))

    def add_command(self, line):
        head, gap, text = line.strip().partition("  ")
        if not gap:
            sys.exit(f"samples/help/{self.name}.txt: a line without a text: {line}")
        self.commands.append((head, text.strip()))

    def file_arguments(self):
        """How many of the arguments are files; None where the last file may be repeated."""
        files = [argument for argument in self.arguments if argument.is_file]
        if self.arguments[:len(files)] != files:
            sys.exit(f"samples/help/{self.name}.txt: a file behind an argument that is none")
        return None if any(argument.is_repeated for argument in files) else len(files)


def read_helps():
    """The help of the program, and that of each of its commands, in the order in which it lists
    them.
    """
    top = Help("alcrs")
    named = [name for name, _ in top.commands]
    there = sorted(
        path.stem for path in HELP.glob("*.txt") if path.stem not in ("alcrs", "version")
    )
    if sorted(set(named) - {HELP_COMMAND}) != there:
        sys.exit(
            f"samples/help has texts of {', '.join(there)}; alcrs.txt lists {', '.join(named)}"
        )
    return top, [Help(name) for name in named if name != HELP_COMMAND]


def version():
    name, _, number = (HELP / "version.txt").read_text().strip().partition(" ")
    if name != "alcrs" or not number:
        sys.exit("samples/help/version.txt: no version")
    return number


def statuses(text):
    """Of a line of statuses the pairs of status and meaning."""
    pairs = re.split(r", (?=\d+ )", text.removeprefix("Statuses:").strip().removesuffix("."))
    return [tuple(pair.split(" ", 1)) for pair in pairs]


# ---- the man pages

def code(text):
    """Text that is typed or printed as it stands."""
    return text.translate(ESCAPED)


def bold(text):
    return "\\fB" + code(text) + "\\fR"


def prose(text):
    """Text to read: what stands between backquotes or stars is bold, links are their words, options
    have their hyphens, and sentences have lines.
    """
    text = re.sub(r"\*\*([^*`]+)\*\*", r"`\1`", text).replace("**", "")
    parts = re.sub(r"\[([^\]]+)\]\([^)]+\)", r"\1", text).split("`")
    parts[1::2] = map(bold, parts[1::2])
    for place, part in list(enumerate(parts))[::2]:
        part = part.replace("\\", "\\e").replace("^", "\\(ha")
        option = r"(?<![\w-])-(-[\w-]+|\w\b)"
        parts[place] = re.sub(option, lambda found: found.group().replace("-", "\\-"), part)
    text = re.sub(r"(?<=[\w)][.:]) (?=[A-Z]|\\fB)", "\n", "".join(parts))
    return re.sub(r"^(?=[.'])", r"\\&", text, flags=re.M)


def named(entry, names):
    """Names of an option or an argument, and its value."""
    value = "\\fI" + code(entry.value) + "\\fR" if entry.value else ""
    value += "..." if entry.is_repeated else ""
    return "\\ ".join(part for part in (", ".join(map(bold, names)), value) if part)


def synopsis_lines(help_):
    """The usage's words, with each option that may be left out in place of [OPTIONS], in lines that
    break between words alone.
    """
    needed, others = [], []
    for option in (it for it in help_.options if "--help" not in it.names):
        text = named(option, option.names[-1:])
        if option.words:
            text = f"{bold(option.long_name())}\\ {'|'.join(map(bold, option.words))}"
        if f"{option.long_name()} " in help_.usage:
            needed.append(text)
        else:
            others.append(f"[{text}]")
    arguments = [
        f"[{named(it, [])}]" if f"[{it.value}]" in help_.usage else named(it, [])
        for it in help_.arguments
    ]
    return [".HP 4", f"\\fBalcrs\\ {help_.name}\\fR"] + needed + others + arguments


def tagged(pairs, most=24):
    """A list of tags, each with its text beside it, or below it where that is wider."""
    shown = [len(re.sub(r"\\f[BIR]|\\(?=[- ])", "", tag)) for tag, _ in pairs]
    lines = [".PD 0"]
    for tag, text in pairs:
        lines += [f".TP {min(max(shown) + 2, most)}", tag, text]
    return lines + [".PD"]


def sentence(text):
    """A meaning as a sentence; the name of a command stays as it is typed."""
    is_name = (HELP / f"{text.split()[0]}.txt").is_file()
    return prose((text if is_name else text[:1].upper() + text[1:]) + ".")


def listed(entries):
    """A list of options or arguments: their names and values, and the help of each, with its words
    and its default as sentences.
    """
    pairs = []
    for entry in entries:
        text = entry.text + "."
        if entry.words:
            text += " It is " + " or ".join(f"`{word}`" for word in entry.words) + "."
        if entry.default:
            text += f" Where it isn't given it is `{entry.default}`."
        pairs.append((named(entry, entry.names), prose(text)))
    return tagged(pairs) if pairs else []


def body_lines(help_):
    """What a help text says behind its options: sentences, and the lines that are printed, each
    with its meaning.
    """
    lines = []
    for is_list, group in itertools.groupby(help_.text, lambda line: line.startswith("  ")):
        if is_list:
            pairs = [line.strip().split("  ", 1) for line in group]
            printed = [(bold(tag), sentence(text.strip())) for tag, text in pairs]
            lines += [".RS 4"] + tagged(printed) + [".RE"]
        else:
            lines += [".PP", prose(" ".join(group))]
    return lines


def shown_lines(shown):
    """What is typed and printed, as it stands."""
    return [".PP", ".nf"] + [code(line) for line in shown] + [".fi"]


def page(name, number, about, sections):
    """A page of the manual. A section is a title and its lines."""
    lines = [
        f'.\\" {MADE_BY} and of documents.',
        f'.TH {name.upper()} {number} "" "alcrs {version()}" "{MANUALS[number]}"',
        ".nh",
        ".ad l",
        ".SH NAME",
        f"{code(name)} \\- {about[0].lower() + about[1:]}",
    ]
    for title, body in sections:
        if body:
            lines += [f".SH {title}"] + body[body[0] == ".PP":]
    return "\n".join(lines) + "\n"


def command_page(help_):
    return page(f"alcrs-{help_.name}", 1, help_.about, [
        ("SYNOPSIS", synopsis_lines(help_)),
        ("DESCRIPTION", body_lines(help_)),
        ("ARGUMENTS", listed(help_.arguments)),
        ("OPTIONS", listed(help_.options)),
        ("EXIT STATUS", tagged(help_.statuses)),
        ("EXAMPLES", shown_lines(help_.examples)),
        ("SEE ALSO", [prose("`alcrs`(1), `alcrs-answers`(7)")]),
    ])


def overview(top):
    commands = [
        (prose(f"`alcrs {name}`" if name == HELP_COMMAND else f"`alcrs-{name}`(1)"), sentence(text))
        for name, text in top.commands
    ]
    forms = ["\\fICOMMAND\\fR", "\\fBhelp\\fR [\\fICOMMAND\\fR]"]
    forms += [bold(option.long_name()) for option in top.options]
    text = page("alcrs", 1, top.about.partition(":")[0], [
        ("SYNOPSIS", ["\n.br\n".join(f"\\fBalcrs\\fR {form}" for form in forms)]),
        ("DESCRIPTION", [prose(top.about + ".")] + of_markdown(blocks("README.md", "alcrs")[:1])),
        ("COMMANDS", tagged(commands)),
        ("OPTIONS", listed(top.options)),
        ("EXIT STATUS", tagged(top.statuses) + body_lines(top)),
        ("TERMS", of_markdown(blocks("docs/FORMATS.md", "Terms"))),
        ("INPUTS", of_markdown(blocks("docs/FORMATS.md", "Inputs"))),
        ("OUTPUTS", of_markdown(blocks("docs/FORMATS.md", "Outputs"))),
        ("EXAMPLES", shown_lines(top.examples)),
        ("SEE ALSO", [prose(f"`alcrs-answers`(7); {DOCUMENTS}; {STANDARDS}.")]),
    ])
    if len(text.splitlines()) > MOST_LINES:
        sys.exit(f"alcrs(1) has {len(text.splitlines())} lines, and may have {MOST_LINES}")
    return text


def answers():
    return page("alcrs-answers", 7, "What each answer of alcrs means, and what to do", [
        ("DESCRIPTION", of_markdown(blocks("docs/OPERATING.md", "When the answer is no"))),
        ("CODES", [prose("When each is printed. `alcrs`(1) has the terms."), ".PP"] + codes()),
        ("SEE ALSO", [prose(f"`alcrs`(1); {DOCUMENTS}.")]),
    ])


def codes():
    """The rows of docs/FORMATS.md that have codes: these, and the cell that says when they come."""
    pairs = []
    for block in re.split(r"\n\n+", (ROOT / "docs/FORMATS.md").read_text(encoding="utf-8")):
        head, *rows = cells(block) if block.startswith("|") else [[]]
        for row in rows:
            found = [f"`{one}`" for one in dict.fromkeys(CODE.findall(" ".join(row)))]
            if found:
                without = [it for it in zip(head, row) if not CODE.search(it[1])]
                title, text = (without or [(head[0], row[0])])[0]
                text = f"{title} {text}" if title.startswith("the ") else text
                pairs.append((prose(", ".join(found)), prose(text)))
    return tagged(pairs)


# ---- Markdown

def blocks(name, title):
    """What stands in a document between a heading and the next: paragraphs, tables, code."""
    text = (ROOT / name).read_text(encoding="utf-8")
    found = re.search(rf"^#+ {re.escape(title)}\n+(.*?)\n+(?=#+ |\Z)", text, re.M | re.S)
    if not found:
        sys.exit(f"{name}: no heading {title}")
    return re.split(r"\n\n+", found.group(1))


def cells(table):
    """The rows of a table, without the rule below its head."""
    rows = [re.split(r"(?<!\\)\|", row)[1:-1] for row in table.splitlines()]
    rows = [[cell.strip().replace("\\|", "|") for cell in row] for row in rows]
    return rows[:1] + rows[2:]


def of_markdown(texts):
    lines = []
    for text in texts:
        if text.startswith("```"):
            lines += shown_lines(text.replace("./alcrs", "alcrs").splitlines()[1:-1])
        elif text.startswith("|"):
            head, *rows = cells(text)
            pairs = []
            for tag, *told in rows:
                if told[1:]:
                    told = [f"{title.capitalize()}: {it}." for title, it in zip(head[1:], told)]
                pairs.append((prose(tag), "\n.br\n".join(map(prose, told))))
            lines += [".PP"] + tagged(pairs, 24 if len(head) == 2 else 4)
        elif text.startswith("- "):
            for item in re.split(r"\n- ", text[2:]):
                lines += [".IP * 2", prose(" ".join(item.split()))]
        else:
            lines += [".PP", prose(" ".join(text.split()))]
    return lines


# ---- completions

def quoted(text):
    """A text between single quotes, as zsh reads it."""
    return "'" + text.replace("'", "'\\''") + "'"


BASH = """\
# Completion of alcrs for bash. {made_by}.

# The words that begin as the one that is typed.
_alcrs_words() {{
    local word
    for word in $1; do
        [[ "$word" == "$2"* ]] && COMPREPLY+=("$word")
    done
    return 0
}}

# The files whose names begin as the one that is typed.
_alcrs_files() {{
    local name
    while IFS= read -r name; do
        COMPREPLY+=("$name")
    done < <(compgen -f -- "$1")
    compopt -o filenames 2>/dev/null
    return 0
}}

# What the value of an option is: number, file or words; nothing where it takes none.
_alcrs_value() {{
    case "$1" in
{values}
    esac
}}

_alcrs() {{
    local commands="{commands}"
    local typed="${{COMP_WORDS[COMP_CWORD]}}" before="" given=" " places=0 only_arguments=""
    local options files at word
    COMPREPLY=()
    if [ "$COMP_CWORD" -le 1 ]; then
        _alcrs_words "$commands {options}" "$typed"
        return
    fi
    case "${{COMP_WORDS[1]}}" in
{of_commands}
        {help_command})
            [ "$COMP_CWORD" -gt 2 ] || _alcrs_words "$commands" "$typed"
            return
            ;;
        *) return ;;
    esac
    # What stands before the word that is typed: options, their values, and arguments.
    for ((at = 2; at < COMP_CWORD; at++)); do
        word="${{COMP_WORDS[at]}}"
        if [ -n "$only_arguments" ]; then
            places=$((places + 1))
        elif [ "$word" = = ] && [ -n "$before" ]; then
            continue
        elif [ -n "$before" ]; then
            before=""
        elif [ "$word" = -- ]; then
            only_arguments=yes
        elif [[ "$word" == -* ]]; then
            given+="$word "
            [ -z "$(_alcrs_value "$word")" ] || before="$word"
        else
            places=$((places + 1))
        fi
    done
    if [ -n "$before" ]; then
        [ "$typed" != = ] || typed=""
        word="$(_alcrs_value "$before")"
        case "$word" in
            number) ;;
            file) _alcrs_files "$typed" ;;
            *) _alcrs_words "$word" "$typed" ;;
        esac
    elif [ -z "$only_arguments" ] && [[ "$typed" == -* ]]; then
        _alcrs_options "$options" "$given" "$typed"
    elif [ "$files" = any ] || [ "$places" -lt "$files" ]; then
        _alcrs_files "$typed"
    elif [ -z "$only_arguments" ]; then
        _alcrs_options "$options" "$given" "$typed"
    fi
}}

# The options that don't stand there already.
_alcrs_options() {{
    local option
    for option in $1; do
        [[ "$2" == *" $option "* ]] || _alcrs_words "$option" "$3"
    done
}}

complete -F _alcrs alcrs
"""


def choices_of(options, text, wanted):
    """Lines of a `case` over the options of a kind."""
    names = [option.long_name() for option in options if wanted(option)]
    return [f"        {' | '.join(names)}) {text} ;;"] if names else []


def bash_completion(top, helps):
    commands = " ".join(name for name, _ in top.commands)
    every = {
        option.long_name(): option for help_ in helps for option in help_.options if option.value
    }
    values = choices_of(every.values(), "echo number", lambda option: option.is_number)
    values += choices_of(every.values(), "echo file", lambda option: option.is_file)
    values += [
        f"        {name}) echo {' '.join(option.words)} ;;"
        for name, option in every.items()
        if option.words
    ]
    of_commands = []
    for help_ in helps:
        options = " ".join(option.long_name() for option in help_.options)
        files = help_.file_arguments()
        files = "any" if files is None else files
        of_commands.append(f'        {help_.name}) options="{options}" files={files} ;;')
    return BASH.format(
        made_by=MADE_BY,
        values="\n".join(values),
        commands=commands,
        options=" ".join(name for option in top.options for name in option.names),
        of_commands="\n".join(of_commands),
        help_command=HELP_COMMAND,
    )


def zsh_text(text):
    return text.replace("\\", "\\\\").replace("[", "\\[").replace("]", "\\]").replace(":", "\\:")


def zsh_option(option):
    if len(option.names) > 1:
        # Nothing else stands beside help and version.
        ends = {"--help", "--version"} & set(option.names)
        others = "- *" if ends else " ".join(option.names)
        return f"'({others})'{{{','.join(option.names)}}}" + quoted(f"[{zsh_text(option.text)}]")
    if not option.value:
        return quoted(f"{option.long_name()}[{zsh_text(option.text)}]")
    action = f"({' '.join(option.words)})" if option.words else "_files" if option.is_file else " "
    return quoted(f"{option.long_name()}=[{zsh_text(option.text)}]:{option.value}:{action}")


def zsh_argument(argument, place):
    head = "*" if argument.is_repeated else str(place)
    return quoted(f"{head}:{argument.value}:{'_files' if argument.is_file else ' '}")


def zsh_completion(top, helps):
    lines = ["#compdef alcrs", f"# Completion of alcrs for zsh. {MADE_BY}.", ""]
    for help_ in helps:
        specs = [zsh_option(option) for option in help_.options]
        specs += [
            zsh_argument(argument, place) for place, argument in enumerate(help_.arguments, 1)
        ]
        lines += [f"_alcrs_{help_.name}() {{", "  local -a specs", "  specs=("]
        lines += [f"  {spec}" for spec in specs] + ["  )", '  _arguments -S "${specs[@]}"', "}", ""]
    lines += ["_alcrs_commands() {", "  local -a commands", "  commands=("]
    lines += [f"    {quoted(name + ':' + zsh_text(text))}" for name, text in top.commands]
    lines += [
        "  )",
        "  _describe -t commands command commands",
        "}",
        "",
        f"_alcrs_{HELP_COMMAND}() {{",
        "  (( CURRENT > 2 )) || _alcrs_commands",
        "}",
        "",
        "_alcrs() {",
        "  local context state state_descr line",
        "  typeset -A opt_args",
        "  _arguments -C \\",
    ]
    lines += [f"    {zsh_option(option)} \\" for option in top.options]
    lines += [
        "    '1:command:_alcrs_commands' \\",
        "    '*::argument:->argument' && return 0",
        '  if [[ "$state" = argument ]] && (( $+functions[_alcrs_$words[1]] )); then',
        '    "_alcrs_$words[1]"',
        "  fi",
        "}",
        "",
        '_alcrs "$@"',
    ]
    return "\n".join(lines) + "\n"


def fish_quoted(text):
    return "'" + text.replace("\\", "\\\\").replace("'", "\\'") + "'"


def fish_completion(top, helps):
    lines = [
        f"# Completion of alcrs for fish. {MADE_BY}.",
        "",
        "# The command is the first word behind the program's name.",
        "function __alcrs_has_no_command",
        "    test (count (commandline -opc)) -lt 2",
        "end",
        "",
        "function __alcrs_command_is",
        "    set -l words (commandline -opc)",
        '    test (count $words) -gt 1; and test "$words[2]" = $argv[1]',
        "end",
        "",
        "complete -c alcrs -n __alcrs_has_no_command -f",
    ]
    for option in top.options:
        lines.append(fish_option("__alcrs_has_no_command", option))
    for name, text in top.commands:
        lines += [
            f"complete -c alcrs -n __alcrs_has_no_command -a {name} \\",
            f"    -d {fish_quoted(text)}",
        ]
    commands = fish_quoted(" ".join(name for name, _ in top.commands))
    lines += [
        "",
        f"complete -c alcrs -n '__alcrs_command_is {HELP_COMMAND}' -f \\",
        f"    -a {commands}",
    ]
    for help_ in helps:
        lines.append("")
        for option in help_.options:
            lines.append(fish_option(f"'__alcrs_command_is {help_.name}'", option))
    return "\n".join(lines) + "\n"


def fish_option(condition, option):
    line = f"complete -c alcrs -n {condition}"
    for name in option.names:
        line += f" -l {name[2:]}" if name.startswith("--") else f" -s {name[1:]}"
    if option.words:
        line += f" -x -a {fish_quoted(' '.join(option.words))}"
    elif option.value:
        line += " -r -F" if option.is_file else " -x"
    return line + f" \\\n    -d {fish_quoted(option.text)}"


def main():
    if sys.argv[1:] not in ([], ["--write"]):
        sys.exit("ci/manual.py [--write]")
    top, helps = read_helps()
    texts = {f"docs/man/alcrs-{help_.name}.1": command_page(help_) for help_ in helps} | {
        "docs/man/alcrs.1": overview(top),
        "docs/man/alcrs-answers.7": answers(),
        "completions/alcrs.bash": bash_completion(top, helps),
        "completions/_alcrs": zsh_completion(top, helps),
        "completions/alcrs.fish": fish_completion(top, helps),
    }
    texts = {ROOT / name: text for name, text in texts.items()}
    there = {path: path.read_text() for name in ("docs/man/*.[17]", "completions/*alcrs*")
             for path in ROOT.glob(name)}
    others = sorted(path for path in texts.keys() | there if texts.get(path) != there.get(path))
    if sys.argv[1:] == ["--write"]:
        for path in others:
            path.parent.mkdir(exist_ok=True)
            path.write_text(texts[path]) if path in texts else path.unlink()
    elif others:
        names = ", ".join(str(path.relative_to(ROOT)) for path in others)
        sys.exit(f"{names}: not what help texts and documents say: run ci/manual.py --write")
    else:
        print("docs/man/ and completions/ say what help texts and documents say: same")


if __name__ == "__main__":
    main()
