"""The commands of rawgrid and their options, of docs/commands, and the lists that are printed of them.

tools/pages writes these lists, tests/documents compares with the rows what is written by hand, and tests/hostile draws
words from them.
"""
import collections
import glob
import importlib
import os
import re
import subprocess
import sys
import textwrap

ROOT = os.path.dirname(os.path.dirname(os.path.realpath(__file__)))
ROWS, FORMATS, MANUAL = "docs/commands", "docs/FORMATS.md", "docs/rawgrid.1"
PROGRAM = os.environ.get("RAWGRID", f"{ROOT}/crates/rawgrid/out/rawgrid")
BASH, ZSH = "editors/completions/rawgrid.bash", "editors/completions/_rawgrid"
# the definitions of help texts, what is the same in the code, and the case of it
HELP = [
    ("crates/raw_owed/specs/Answers.antt", "crates/raw_commands/src/commands.rt", "tests/words/help/out"),
    ("crates/raw_live_run/specs/Answers.antt", "crates/raw_live_run/src/top.rt", None),
]
DEFINED = re.compile(r'(?<=help_text =\n)    codes (".*?")\n\n', re.S)
CODED = re.compile(r'(?<=b"\\\n).*?\\n(?="\n\}\n)', re.S)
HELP_WIDTH, LEFT = 80, 21
BEGIN, END = "# (printed from docs/commands)", "# (up to here)"
PRINTED = re.compile(rf"( *){re.escape(BEGIN)}\n(?:.*\n)*?\1{re.escape(END)}\n")
# the places that list the operations of flows: the region, the names in it, and the files
LISTS_OF_OPERATIONS = [
    (r"^OPERATIONS = \[(.*?)\]", r"\w+", ["bench/flows", "bench/streams"]),
    (r'^OPERATIONS = "const pre (.*?)"', r"\w+", ["editors/textmate/make"]),
    (r"const\\\|pre\\\|(.*?)\\\)", r"\w+",
     ["editors/vim/syntax/rawgrid-flow.vim", "editors/vim/syntax/rawgrid-set.vim"]),
    (r'^FLOW_OPS = "(.*?)"', r"\w+", ["tests/hostile/inputs.py"]),
    (r"^OPERATIONS = \{(.*?)^\}", r'"(\w+)": lambda',
     ["tests/schedules/direct.py", "tests/streams/model.py", "tests/streams/prove"]),
    (r"^\| OP \| value \|\n(.*?)\n\n", r"`(\w+)`", [FORMATS]),
    (r"^is (add, .*? or sra)\.", r"\w+(?=,| or |$)", [MANUAL]),
]

# A command or an option: its name, what stands behind that, and its fields, each a list of texts.
Command = collections.namedtuple("Command", "name number streams fields")
# An option has all its names, of which one is taken, and the option without which it is not taken.
Option = collections.namedtuple("Option", "names number needs of fields")


def text_of(path):
    with open(os.path.join(ROOT, path), encoding="utf-8", errors="replace") as it:
        return it.read()


def read():
    """The commands and the options, in the order of their rows."""
    commands, options = [], []
    for row in re.split(r"\n\n+", re.sub(r"^#.*\n", "", text_of(ROWS), flags=re.M).strip()):
        head, *lines = row.split("\n")
        fields = collections.defaultdict(list)
        for line in lines:
            name, _, text = line[4:].partition(" ")
            if name:
                fields[name].append(text.strip())
            else:
                last[-1] += " " + text.strip()
            last = fields[name] if name else last
        if "of" in fields:
            words = head.split()
            names = [it for it in words if it.startswith("--")]
            needs = names.pop(0) if len(names) > 1 and "|" not in words else None
            number = words[-1] if not words[-1].startswith("--") else None
            options.append(Option(names, number, needs, re.findall(r"[\w-]+", fields["of"][0]), fields))
        else:
            words, *streams = re.split(r" (?=[<>])", head)
            name, _, number = words.partition(" ")
            commands.append(Command(name, number or None, streams, fields))
    return commands, options


COMMANDS, OPTIONS = read()
FORMS = next(it for it in OPTIONS if len(it.names) > 1)


def taken_by(command):
    """The options that a command takes."""
    return [it for it in OPTIONS if command.name in it.of]


def joined(*words):
    return " ".join(it for it in words if it)


def listed(words, last):
    return f" {last} ".join([", ".join(words[:-1]), words[-1]]) if words[1:] else words[0]


def quoted(words):
    return ", ".join(f"`{it}`" for it in words)


# ---- the help text

def help_lines():
    """The lines of the help text on commands and options."""
    for it in COMMANDS:
        yield from helped(f"rawgrid {joined(it.name, it.number)}", it.fields["help"][0])
    yield ""
    before = None
    for it in OPTIONS:
        for text in it.fields["help"]:
            # (of options of which one is taken, a line begins with the names of which it speaks)
            left, right = text.split(": ", 1) if text.startswith("--") else (joined(*it.names, it.number), text)
            right = right.replace("{of}", ", ".join(it.of)).replace("{or}", listed(it.of, "or"))
            yield from helped(left if left != before else "", right)
            before = left


def helped(left, text):
    return textwrap.wrap(text, HELP_WIDTH, initial_indent=left.ljust(LEFT), subsequent_indent=" " * LEFT,
                         break_long_words=False, break_on_hyphens=False)


def help_texts():
    """The files that have help texts, as they are to be."""
    for definition, code, case in HELP:
        text = text_of(definition)
        body = DEFINED.search(text)[1]
        lines = [it[:-2] for it in re.findall(r'"(.*)"', body)]
        if case:
            first = next(at for at, it in enumerate(lines) if it.startswith("rawgrid run "))
            end = lines.index("", lines.index("", first) + 1)
            lines[first:end] = help_lines()
            yield case, "".join(f"{it}\n" for it in lines)
        body = "\n    ++ ".join(f'codes "{it}\\n"' for it in lines)
        yield definition, DEFINED.sub(lambda _: f"    {body}\n\n", text, count=1)
        body = "\\\n".join("    " + re.sub("^ ", r"\\x20", it) + "\\n" for it in lines)
        yield code, CODED.sub(lambda _: body, text_of(code), count=1)


# ---- documents

def in_formats():
    """The tables of commands and options of docs/FORMATS.md."""
    yield "| words | what it does | reads | options | status |"
    yield "|---|---|---|---|---|"
    for it in COMMANDS:
        options = quoted(name for option in taken_by(it) for name in option.names)
        yield f"| `{joined(it.name, it.number)}` | {it.fields['does'][0]} | {it.fields['reads'][0]} | {options} | " \
              f"{it.fields['status'][0]} |".replace("|  |", "| |")
    yield ""
    yield "| option | of | what the command does with it |"
    yield "|---|---|---|"
    for it in OPTIONS:
        names = quoted(joined(it.needs, name, it.number) for name in it.names)
        yield f"| {names} | {quoted(it.of)} | {'; '.join(it.fields['says'])} |"


def roman(text):
    return text.replace("-", r"\-")


def in_manual():
    """The synopsis of the manual page."""
    for it in COMMANDS[:-2]:
        name, _, number = (it.fields["synopsis"] or [joined(it.name, it.number)])[0].partition(" ")
        yield f".B rawgrid {name}"
        if number:
            yield f".I {number}"
        taken = taken_by(it)
        for option in taken:
            needed = [other for other in taken if other.needs in option.names]
            if not option.needs:
                yield from in_brackets(option, needed)
        for stream in it.streams:
            yield from (stream[0], f".I {stream[2:]}")
        yield ".br"
    yield rf".B rawgrid {roman(COMMANDS[-2].name)}"
    yield "|"
    yield rf".B {roman(COMMANDS[-1].name)}"


def in_brackets(option, needed):
    """An option in the synopsis, and within its brackets those that are taken with it alone."""
    names = ' " | " '.join(roman(it) for it in option.names)
    parts = [(names, option.number)] + [(roman(name), it.number) for it in needed for name in it.names]
    for at, (names, number) in enumerate(parts):
        close = "]" * len(parts) if at + 1 == len(parts) else ""
        yield f".RB [ {names}" + ("" if number or not close else f" {close}")
        if number:
            yield f".IR {number} {close}".rstrip()


# ---- completions

def arms(ending):
    """The commands that take the same options, and these."""
    found = collections.defaultdict(list)
    for it in COMMANDS:
        if taken_by(it) or it.number:
            found[tuple(ending(option) for option in taken_by(it)), it.number].append(it.name)
    return [(names, options, number) for (options, number), names in found.items()]


def in_bash():
    """What completion in bash has of the rows, part by part."""
    valued = [it for it in OPTIONS if it.fields["values"]]
    bare = [it.names[0] for it in OPTIONS if it.number and not it.fields["values"]]
    yield [f'{it.names[0]}) offered="{it.fields["values"][0]}" ;;' for it in valued] + [f"{' | '.join(bare)}) ;;"]
    yield [f'offered="{" ".join(it.name for it in COMMANDS)}"']
    guard = '[ "$COMP_CWORD" -eq 2 ] || '
    yield [f'{" | ".join(names)}) {guard if number else ""}offered="{" ".join(options)}" ;;'
           for names, options, number in arms(lambda it: "$(_rawgrid_forms)" if it is FORMS else it.names[0])]
    yield [" | ".join(f'*" {it} "*' for it in FORMS.names) + ") ;;", f'*) echo "{" ".join(FORMS.names)}" ;;']


def in_zsh():
    """What completion in zsh has of the rows, part by part."""
    valued = [it for it in OPTIONS if it.fields["values"]]
    named = {it.names[0]: f"${it.names[0][2:]}" for it in valued}
    named[FORMS.names[0]] = "$forms"
    yield [f"'{it.name}:{it.fields['help'][0]}'" for it in COMMANDS if not it.name.startswith("-")]
    forms = [f"    {described(FORMS, at)}" for at in range(len(FORMS.names))]
    yield [*(f"local {it.names[0][2:]}={described(it, 0)}" for it in valued), "local -a forms=(", *forms, ")"]
    found = arms(lambda it: named.get(it.names[0]) or described(it, 0))
    yield [f"({'|'.join(names)}) _arguments {joined(*options, number and repr(f':{number}:'))} ;;"
           for names, options, number in found]


def described(option, at):
    """An option as _arguments takes it."""
    others = [it for it in option.names if it != option.names[at]]
    number = f":{option.number}:" + (f"({option.fields['values'][0]})" if option.fields["values"] else "")
    return f"'{'(' + ' '.join(others) + ')' if others else ''}{option.names[at]}[{option.fields['says'][at]}]" \
           f"{number if option.number else ''}'"


def with_parts(path, parts):
    """A file with these parts in place of those that are printed."""
    left = iter(parts)
    return PRINTED.sub(lambda it: "".join(f"{it[1]}{line}\n" for line in [BEGIN, *next(left), END]), text_of(path))


def made():
    """The files that have lists of commands or options, as they are to be."""
    found = dict(help_texts())
    found[FORMATS] = re.sub(r"(?<=\n## Words\n\n).*?(?=\n\nN is a number)", lambda _: "\n".join(in_formats()),
                            text_of(FORMATS), count=1, flags=re.S)
    found[MANUAL] = re.sub(r"(?<=\.SH SYNOPSIS\n).*?(?=\n\.SH DESCRIPTION)", lambda _: "\n".join(in_manual()),
                           text_of(MANUAL), count=1, flags=re.S)
    found[BASH] = with_parts(BASH, in_bash())
    found[ZSH] = with_parts(ZSH, in_zsh())
    return found


# ---- what is written by hand

def section(page, name):
    """A section of a manual page, as plain text with its macros."""
    return re.search(rf"\n\.SH \"?{name}\"?\n(.*?)(?=\n\.SH |\Z)", text_of(page).replace(r"\-", "-"), re.S)[1]


def entries(text):
    """The entries of a section: of each the words of its first line, and those in bold behind it."""
    for entry in re.split(r"^\.TP.*\n", text, flags=re.M)[1:]:
        first, _, rest = entry.partition("\n")
        yield re.findall(r"--\w+|\b[a-z0-9]+\b", first[2:]), re.findall(r'^\.B\w* "?(--\w+|\w+)', rest, re.M)


def statuses(command):
    """The statuses of a command, but for those that each may end with."""
    found = set()
    for first, last in re.findall(r"(\d+)(?: to (\d+))?", command.fields["status"][0]):
        found.update(range(int(first), int(last or first) + 1))
    return found


def cases():
    """The words and the status of each case of rawgrid whose words are a command."""
    for path in sorted(glob.glob(f"{ROOT}/tests/*/*/words")):
        if "/live/" not in path:
            folder = os.path.dirname(path)
            yield os.path.relpath(folder, ROOT), text_of(path).split(), int(text_of(f"{folder}/status"))


def said():
    """What each place says by hand, and what it has to say by the rows: names of commands and of options."""
    named = {it.name for it in COMMANDS}
    options = {name for it in OPTIONS for name in it.names}
    fixed = {it for it in named if it.startswith("-")}
    yield "crates/raw_command_line/specs/Arguments.antt", \
        set(re.findall(r'codes "(.*?)"', text_of("crates/raw_command_line/specs/Arguments.antt"))), named | options
    yield f"{MANUAL}, COMMANDS", {names[0] for names, _ in entries(section(MANUAL, "COMMANDS"))}, named
    told = collections.defaultdict(set)
    for names, bold in entries(section(MANUAL, "OPTIONS")):
        for name in names:
            told[name].update(named.intersection(bold))
    yield f"{MANUAL}, OPTIONS", set(told), options
    for name in sorted(options & set(told)):
        yield f"{MANUAL}, {name}", told[name], {of for it in OPTIONS if name in it.names for of in it.of}
    rows = dict(re.findall(r"^\| (\d+) \| (.*?) \|", text_of(FORMATS).partition("\n## Statuses")[2], re.M))
    for (status, *_), bold in entries(section(MANUAL, "EXIT STATUS")):
        due = {it.name for it in COMMANDS if (3 not in statuses(it) if status == "0" else int(status) in statuses(it))}
        if status in ("0", "11", "12", "13"):
            yield f"{MANUAL}, status {status}", named.intersection(bold), due
        if status in ("11", "12", "13"):
            yield f"{FORMATS}, status {status}", set(re.findall(r"`([\w-]+)", rows[status])), due
    table = re.search(r"\n## Commands\n\n(.*?)\n\n", text_of("README.md"), re.S)[1]
    first = set(re.findall(r"`(\w+)(?: N)?`", " ".join(re.findall(r"^\|([^|]*)", table, re.M))))
    yield "README.md, Commands", first, named - fixed
    yield "README.md, Commands", set(re.findall(r"`.*?(--\w+)", table)) - options, set()
    sys.path[:0] = [f"{ROOT}/tests/hostile", f"{ROOT}/tests/model"]
    rows = importlib.import_module("rows")
    words = [(text or text_of(f"tests/{case}/words")).split() for case, text in rows.SMALL if "live/" not in case]
    yield "tests/hostile/rows.py", {it for line in words for it in line} & (named | options), named | options
    emulated = {*importlib.import_module("rawmodel").COMMANDS, "explore"}
    yield "tests/model/rawmodel.py", emulated - named, set()
    handbook = re.search(r"by an emulator in Python.*?It has (.*?) too", text_of("docs/HANDBOOK.md"), re.S)[1]
    yield "docs/HANDBOOK.md, the emulator", {"run", *re.findall(r"`(\w+)`", handbook)}, emulated


def said_of_scripts():
    """The commands of the debugger, as their table has them, and what editors know of lines behind a set."""
    table = text_of(FORMATS).partition("\n## Debugger script\n")[2].partition("\n## ")[0]
    rows = " ".join(re.findall(r"^\|( `[^|]*)", table, re.M))
    due = {"put", *re.findall(r"`(\w+)", rows)}
    for path, pattern in (("editors/vim/syntax/rawgrid-set.vim", r"^syntax keyword rawgridCommand contained (.*?)$"),
                          ("editors/textmate/make", r'^COMMANDS = "(.*?)"')):
        yield path, set(re.search(pattern, text_of(path), re.M)[1].split()), due


def said_of_rawlive():
    """The options of rawlive, as its help text has them, and in other places."""
    due = set(re.findall(r"--\w+", DEFINED.search(text_of(HELP[1][0]))[1]))
    manual = entries(section("docs/rawlive.1", "OPTIONS"))
    yield "docs/rawlive.1, OPTIONS", {it for names, _ in manual for it in names}, due
    for path, pattern in ((FORMATS, r"^`rawlive` has no words, (.*?)\."), (BASH, r"^_rawlive\(\)(.*?)^\}"),
                          (ZSH, r"== rawlive \]\]; then\n(.*?)\n *return")):
        found = set(re.findall(r"--\w+|\$workers", re.search(pattern, text_of(path), re.M | re.S)[1]))
        yield f"{path}, rawlive", {it.replace("$", "--") for it in found}, due


def astray():
    """What is said otherwise by hand, or by the program where it is built, than by the rows."""
    for place, found, due in [*said(), *said_of_scripts(), *said_of_rawlive()]:
        for name in sorted(found ^ due):
            yield f"{place}: {'has' if name in found else 'lacks'} {name}, unlike {ROWS}, a help text or a table"
    for case, words, status in cases():
        own = [it for it in COMMANDS if words[:1] == [it.name]]
        if status not in {2, 7, 8, 9, 10}.union(*map(statuses, own)):
            yield f"{case}: docs/commands has no status {status} of {words[0]}"
    yield from operations_astray()
    if os.path.exists(PROGRAM):
        yield from refused_astray()


def operations_astray():
    """The places that have other operations of flows than their definition, or in another order."""
    due = re.findall(r'op_name op\.\w+ = codes "(\w+)"', text_of("crates/raw_flow_text/specs/Forms.antt"))
    for region, name, paths in LISTS_OF_OPERATIONS:
        for path in paths:
            found = re.findall(name, re.search(region, text_of(path), re.M | re.S)[1])
            if found != due:
                yield f"{path}: the operations {' '.join(found)} are not {' '.join(due)}"


def refused_astray():
    """The options of which the program says otherwise than the rows with which commands they are taken."""
    for command in COMMANDS:
        for it in OPTIONS:
            for name in it.names:
                words = joined(command.name, command.number and "1", it.needs, name, it.number and "1").split()
                ended = subprocess.run([PROGRAM, *words], stdin=subprocess.DEVNULL,
                                       stdout=subprocess.DEVNULL, stderr=subprocess.PIPE, check=False)
                taken = any(name in other.names for other in taken_by(command))
                if (ended.stderr == b"refused use\n") == taken:
                    yield f"docs/commands: rawgrid {' '.join(words)} is {'refused' if taken else 'taken'}"
