"""What is made from the tables of tools/words: tables of GUIDE, FORMATS and MESSAGES, the man pages of plift and
plift-view, the help of plift, and the completion of both.

In a document a part that is made stands between `<!-- made by tools/tables.py: NAME -->` and `<!-- end -->`, in a man
page between `.\\" made by tools/tables.py: NAME` and `.\\" end`. Of a help text the first paragraph is made, the usage,
and the one with the options; completion is made as a whole.
"""

from __future__ import annotations

import re
import textwrap
from typing import Callable, Dict, Iterable, List

from hints.data import ASKING, Row, commands, options_of, table

PART = re.compile(r"(<!-- made by tools/tables.py: (.*?) -->\n)(.*?)(<!-- end -->)", re.S)
MAN_PART = re.compile(r'(\.\\" made by tools/tables.py: (.*?)\n)(.*?)(\.\\" end\n)', re.S)
CODE = re.compile(r"`([^`]*)`")
HEADS = {"1": "Behind `not sound: `", "2": "Behind `usage: `", "2 view": "Behind `usage: `", "3": "Cause"}
HEADS["4"] = "Behind the colon"
CAUSES = {
    "model": ("Cause", "Where"),
    "row": ("Note", "Fault"),
    "region": ("Name", "Where"),
    "view": ("Cause", "Where"),
}
FILES = {"model": "model.drn", "report": "report"}
WIDTH, INDENT, RANGE = 80, 32, 11  # of a help text: its width, and where an option's text and its range begin
VIEWED = 18  # where the text of an option of plift-view begins, behind the indentation
SHORT = 12  # letters of what holds without an option, where that is told before "if left out"
LAUNCHED = ("--help", "--version")  # what the launchers answer


class Unmade(Exception):
    """A part that a page has and that isn't made, or a page without the parts that it should have."""


# ---- what is said of an option


def grouped(number: str) -> str:
    """A number with a comma before each three digits."""
    return f"{int(number):,}"


def range_of(option: Row, is_grouped: bool = False) -> str:
    """The range of an option's value."""
    if option["range"] or not option["digits"]:
        return option["range"]
    low, high = (grouped(option[key]) if is_grouped else option[key] for key in ("low", "high"))
    return f"{low} to {high}"


def plain(text: str) -> str:
    """A text without the marks of code."""
    return CODE.sub(r"\1", text)


def ranged(option: Row) -> str:
    """The range, where it is one of numbers."""
    told = range_of(option)
    return told if told[:1].isdigit() else ""


def told(option: Row, has_range: bool) -> str:
    """What is said of an option in a sentence: what it is, its range, and what holds without it."""
    parts = [option["meaning"]]
    parts += [ranged(option)] if has_range and ranged(option) else []
    left = option["left"]
    parts += [f"if left out, {left}" if len(left) > SHORT else f"{left} if left out"] if left else []
    return "; ".join(parts)


def named(option: Row) -> str:
    """An option with its value."""
    return " ".join(filter(None, [option["option"], option["value"]])) if option["option"] != "N" else "N"


# ---- tables of documents


def markdown(head: Iterable[str], rows: Iterable[Iterable[str]]) -> str:
    """A table."""
    first = list(head)
    lines = [first, ["---"] * len(first), *(list(row) for row in rows)]
    return "".join(f"| {' | '.join(line)} |\n" if line[0] != "---" else f"|{'|'.join(line)}|\n" for line in lines)


def command_table() -> str:
    """The commands, for GUIDE."""
    rows = []
    for row in table("commands"):
        name = row["command"]
        needed = [named(option) for option in options_of(name)]
        behind = " with options" if name in ASKING else "".join(f" {words}" for words in needed)
        first = f"`{name}`{behind}" if name in ASKING else f"`{name}{behind}`"
        rows.append((first, row["meaning"]))
    return markdown(("Command", "What it does"), rows)


def of_commands(option: Row) -> str:
    """The commands of an option; nothing where all that read a model have it."""
    names = option["commands"].split()
    return "all five" if names == list(ASKING) else ", ".join(f"`{name}`" for name in names)


def asking_options() -> List[Row]:
    """The options of the commands that read a model."""
    return [row for row in table("options") if set(row["commands"].split()) <= set(ASKING)]


def option_table() -> str:
    """The options of what reads a model, for GUIDE."""
    rows = []
    for option in asking_options():
        left = option["left"] or "required"
        rows.append((f"`{named(option)}`", of_commands(option), option["meaning"], range_of(option, True), left))
    return markdown(("Option", "Of", "Meaning", "Range", "If left out"), rows)


def status_table() -> str:
    """The statuses, for GUIDE."""
    rows = [(row["status"], row["meaning"], row["note"]) for row in table("statuses")]
    return markdown(("Status", "Meaning", "Note"), rows)


def value_table() -> str:
    """The grammar and the range of each value, for FORMATS."""
    rows = []
    for option in table("options"):
        name = f"`{option['option']}`" if option["option"] != "N" else "the number of blocks"
        of = " of `refine`" if option["commands"] == "refine" else ""
        if option["digits"] and option["commands"] != "plift-view":
            rows.append((name + of, f"1 to {option['digits']} digits, {range_in_formats(option)}"))
        elif option["grammar"] and option["commands"] != "plift-view":
            rows.append((name + of, option["grammar"]))
    return markdown(("Value", "Grammar and range"), rows)


def range_in_formats(option: Row) -> str:
    """A range of numbers, whose end may be the precision."""
    return range_of(option, True).replace(" to W", " to the precision")


def view_table() -> str:
    """The options of plift-view, for FORMATS."""
    rows = [(f"`{named(option)}`", option["grammar"]) for option in options_of("plift-view")]
    return markdown(("Option", "What it asks for"), [("none", "a picture of the region"), *rows])


def limit_table() -> str:
    """The limits, for FORMATS."""
    rows = []
    for row in table("limits"):
        number = grouped(row["number"]) if row["number"].isdigit() else row["number"]
        rows.append((row["limit"], f"{row['sign']} {number} {row['of']}".strip()))
    return markdown(("What", "How much"), rows)


def cause_table(of: str) -> str:
    """The causes of a refusal, and where they come, for FORMATS."""
    return markdown(CAUSES[of], [(row["causes"], row["where"]) for row in table("causes") if row["of"] == of])


def note_table(name: str) -> str:
    """What notes mean and what to do, for MESSAGES."""
    rows = [(row["notes"], row["meaning"], row["remedy"]) for row in table("notes") if row["table"] == name]
    return markdown((HEADS.get(name, "Note"), "Meaning", "What to do"), rows)


TABLES: Dict[str, Callable[[], str]] = {
    "commands": command_table,
    "options": option_table,
    "statuses": status_table,
    "values": value_table,
    "options of the view": view_table,
    "limits": limit_table,
}


def part_of(name: str) -> str:
    """The part of a document of this name."""
    front, _, rest = name.partition(" ")
    if name in TABLES:
        return TABLES[name]()
    if front == "notes" and any(row["table"] == rest for row in table("notes")):
        return note_table(rest)
    causes = re.fullmatch(r"(?:causes|faults) of a (\w+)", name)
    if causes and causes[1] in CAUSES:
        return cause_table(causes[1])
    raise Unmade(f"nothing makes the part {name!r}")


def document(text: str) -> str:
    """A document with its parts made anew."""
    return PART.sub(lambda found: found[1] + part_of(found[2]) + found[4], text)


# ---- man pages


def roff(text: str) -> str:
    """A text in a man page, code in bold."""
    text = text.replace("\\", "\\e").replace("--", "\\-\\-").replace("'", "\\(aq")
    return CODE.sub(r"\\fB\1\\fR", text)


def man_usage(command: str) -> List[str]:
    """A command's words in a synopsis."""
    lines = [f".B plift {command}"]
    for option in sorted(options_of(command), key=lambda it: not it["needed"]):
        name, value = roff(option["option"]), option["value"]
        if option["option"] == "N":
            lines.append(".I N")
        elif option["needed"]:
            lines.append(f".BI {name} \\ {value}")
        else:
            lines += [f".RB [ {name}", f".IR {value} ]"]
    reads = next(row["reads"] for row in table("commands") if row["command"] == command)
    return [*lines, *([f".RI < {FILES[reads]}"] if reads in FILES else []), ".br"]


def man_synopsis() -> str:
    """The synopsis of plift, but for what its launcher answers."""
    return "".join(f"{line}\n" for command in commands() for line in man_usage(command))


def man_commands() -> str:
    """The commands of plift."""
    lines = []
    for row in table("commands"):
        takes_value = any(option["option"] == "N" for option in options_of(row["command"]))
        head = f".BI {row['command']} \\ N" if takes_value else f".B {row['command']}"
        lines += [".TP", head, roff(row["more"])]
    return "".join(f"{line}\n" for line in lines)


def man_options(rows: Iterable[Row]) -> str:
    """Options, each with what is said of it."""
    lines = []
    for option in rows:
        name = roff(option["option"])
        head = f".BI {name} \\ {option['value']}" if option["value"] else f".B {name}"
        names = option["commands"].split()
        of = f"of {', '.join(f'`{name}`' for name in names)}: " if names not in (list(ASKING), ["plift-view"]) else ""
        required = "; required" if option["needed"] else ""
        more = f" {option['more']}." if option["more"] else ""
        lines += [".TP", head, roff(f"{of}{told(option, True)}{required}.{more}")]
    return "".join(f"{line}\n" for line in lines)


def man_statuses() -> str:
    """The exit statuses."""
    return "".join(f".TP\n.B {row['status']}\n{roff(row['meaning'])}\n" for row in table("statuses"))


MAN_PARTS: Dict[str, Callable[[], str]] = {
    "synopsis": man_synopsis,
    "commands": man_commands,
    "options": lambda: man_options(
        row for row in table("options") if row["option"] != "N" and "plift-view" not in row["commands"]
    ),
    "options of plift-view": lambda: man_options(options_of("plift-view")),
    "statuses": man_statuses,
}


def man_page(text: str) -> str:
    """A man page with its parts made anew."""
    return MAN_PART.sub(lambda found: found[1] + MAN_PARTS[found[2]]() + found[4], text)


# ---- help


def usage(command: str) -> str:
    """The words of a command, in lines of a help text."""
    words = [f"plift {command}"]
    for option in sorted(options_of(command), key=lambda it: not it["needed"]):
        shown = named(option).replace(" ", "\0")
        words.append(shown if option["needed"] else f"[{shown}]")
    return " ".join(words)


def wrapped(text: str, first: str, rest: str) -> str:
    """A text in lines of a help text; a blank that isn't to be broken is a zero byte."""
    lines = textwrap.wrap(text, WIDTH, initial_indent=first, subsequent_indent=rest, break_on_hyphens=False)
    return "\n".join(lines).replace("\0", " ")


def help_usage(command: str, indent: str = "") -> str:
    """The usage of a command; its later lines begin behind the command."""
    return wrapped(usage(command), indent, " " * len(f"{indent}plift {command} "))


def help_option(option: Row) -> str:
    """An option in a help text."""
    span = ranged(option) if len(ranged(option)) < RANGE - 1 else ""
    second = span or ("required" if option["needed"] else "")
    text = ("required: " if span and option["needed"] else "") + told(option, not span)
    first = f"    {named(option):<17}{second:<{RANGE}}"
    return wrapped(plain(text), first, " " * INDENT)


def help_text(command: str, text: str) -> str:
    """The help of a command, with its usage and its options made anew."""
    _, *rest = text.split("\n\n")
    options = [option for option in options_of(command) if option["option"] != "N"]
    block = "\n".join(help_option(option) for option in options)
    made = [block if part.lstrip().startswith("--") else part for part in rest]
    if options and block not in made:
        raise Unmade(f"the help of {command} has no paragraph of options")
    return "\n\n".join([help_usage(command), *made])


def help_of_all(text: str) -> str:
    """The help of plift, with usage, commands and statuses made anew."""
    parts = text.split("\n\n")
    names = commands()
    rows = "\n".join(wrapped(plain(row["help"]), f"{row['command']:<11}", " " * 11) for row in table("commands"))
    statuses = ", ".join(f"{row['status']} {row['short']}" for row in table("statuses"))
    made = {
        f"    plift {names[0]} ": "\n".join(help_usage(name, "    ") for name in names),
        f"{names[0]} ": rows,
        "Statuses: ": wrapped(
            f"Statuses: {statuses}. A refusal is one line on standard error. At a terminal, or where "
            "PLIFT_HINTS is 1, lines that begin with `hint: ` follow; PLIFT_HINTS=0 turns them off.",
            "",
            "",
        ),
    }
    for front, block in made.items():
        at = next((n for n, part in enumerate(parts) if part.startswith(front)), None)
        if at is None:
            raise Unmade(f"the help of plift has no paragraph that begins with {front!r}")
        parts[at] = block
    return "\n\n".join(parts).rstrip("\n") + "\n"


def help_of_view(text: str) -> str:
    """The help of plift-view with its options made anew."""
    options = options_of("plift-view")
    block = "\n".join(
        wrapped(plain(told(it, True)), f"    {named(it):<{VIEWED}}", " " * (VIEWED + 4)) for it in options
    )
    parts = text.split("\n\n")
    made = [block if part.startswith("    --x ") else part for part in parts]
    if block not in made:
        raise Unmade("the help of plift-view has no paragraph of options")
    return "\n\n".join(made)


# ---- completion


def bash_cases() -> List[str]:
    """The options of each command, in a case of a shell."""
    return [
        f"    {command}) options='{' '.join(names)}' ;;"
        for command in commands()
        if (names := [option["option"] for option in options_of(command) if option["option"] != "N"])
    ]


def fill(template: str, **parts: str) -> str:
    """A text with each @NAME@ replaced."""
    for name, part in parts.items():
        template = template.replace(f"@{name}@", part)
    return template


def bash() -> str:
    """The completion for bash."""
    valued = sorted(
        {row["option"] for row in table("options") if row["value"] and row["commands"] != "plift-view"} - {"N"}
    )
    view = [option["option"] for option in options_of("plift-view")]
    return fill(
        BASH,
        commands=" ".join(commands()),
        cases="\n".join(bash_cases()),
        valued=" | ".join(valued),
        view=" ".join(view),
        stops=" | ".join([*view, *LAUNCHED]),
        once=" ".join(name for name in view[:2]),
    )


def quoted(text: str) -> str:
    """A text inside a quoted word of zsh, in brackets."""
    for sign in "\\:[]":
        text = text.replace(sign, "\\" + sign)
    return text.replace("'", "'\\''")


def zsh_option(option: Row, more: str = "") -> str:
    """An option as zsh is told of it."""
    is_named = option["commands"] == "plift-view" or option["value"] == "NAME"
    wanted = option["value"].lower() if is_named else option["option"][2:]
    value = f":{wanted}:" if option["value"] else ""
    return f"'{more}{option['option']}{'=' if value else ''}[{quoted(option['short'])}]{value}'"


def zsh_command(command: str) -> str:
    """What zsh offers behind a command."""
    options = [zsh_option(option) for option in options_of(command) if option["option"] != "N"]
    if not options:
        return f"    {command}) ((CURRENT == 3)) && compadd -- --help ;;"
    lines = [f"    {command})", "        shift words", "        ((CURRENT--))", "        _arguments \\"]
    return "\n".join(
        [
            *lines,
            *(f"            {option} \\" for option in options),
            "            '--help[options and an example]'",
            "        ;;",
        ]
    )


def zsh_view() -> str:
    """The options of plift-view: those without a value stand alone."""
    options = options_of("plift-view")
    alone = [option["option"] for option in options if not option["value"]]
    lines = []
    for option in options:
        name = option["option"]
        others = alone if option["value"] else [it["option"] for it in options if it["option"] != name]
        lines.append(f"        {zsh_option(option, f'({chr(32).join(others)})' + '*' * (name == '--at'))} \\")
    return "\n".join(lines)


def zsh() -> str:
    """The completion for zsh."""
    return fill(
        ZSH,
        commands="\n".join(f"        '{row['command']}:{quoted(row['short'])}'" for row in table("commands")),
        view=zsh_view(),
        cases="\n".join(zsh_command(command) for command in commands()),
    )


BASH = r"""# Completion of plift and plift-view for bash. Made by tools/tables.py.

_plift_unused() {
    # Of these options those that don't stand on the line yet.
    local option word
    for option; do
        for word in "${COMP_WORDS[@]:1:COMP_CWORD-1}"; do
            [[ $word == "$option" || $word == "$option="* ]] && continue 2
        done
        printf '%s\n' "$option"
    done
}

_plift_offer() {
    COMPREPLY=($(compgen -W "$1" -- "${COMP_WORDS[COMP_CWORD]}"))
}

_plift() {
    local at=1 options=
    [[ ${COMP_WORDS[1]} == --quick && COMP_CWORD -gt 1 ]] && at=2
    COMPREPLY=()
    if ((COMP_CWORD == at)); then
        _plift_offer "@commands@ --help --version $( ((at == 1)) && echo --quick)"
        return
    fi
    case ${COMP_WORDS[at]} in
    --help | -h | help)
        ((COMP_CWORD == at + 1)) && _plift_offer '@commands@'
        return
        ;;
@cases@
    esac
    if [[ -n $options ]]; then
        case ${COMP_WORDS[COMP_CWORD - 1]} in
        @valued@ | =) ;;
        *) _plift_offer "$(_plift_unused $options --help)" ;;
        esac
    elif ((COMP_CWORD == at + 1)) && [[ " @commands@ " == *" ${COMP_WORDS[at]} "* ]]; then
        _plift_offer --help
    fi
}

_plift_view() {
    COMPREPLY=()
    case ${COMP_WORDS[COMP_CWORD - 1]} in
    @stops@ | =) ;;
    plift-view | */plift-view) _plift_offer '@view@ --help --version --quick' ;;
    --quick) _plift_offer '@view@ --help --version' ;;
    *) _plift_offer "$(_plift_unused @once@) --at" ;;
    esac
}

complete -o default -F _plift plift
complete -o default -F _plift_view plift-view
"""
ZSH = r"""#compdef plift plift-view
# Completion of plift and plift-view for zsh. Made by tools/tables.py.

_plift_view() {
    _arguments \
        '--quick[the program that is built without the prover]' \
@view@
        '--help[what the words are]' \
        '--version[the version, the commit, proved or quick]'
}

_plift() {
    local -a commands
    commands=(
@commands@
    )
    if [[ $service == plift-view ]]; then
        _plift_view
        return
    fi
    if [[ ${words[2]} == --quick && CURRENT -gt 2 ]]; then
        words=(${words[1]} ${words[3,-1]})
        ((CURRENT--))
    fi
    if ((CURRENT == 2)); then
        _describe command commands
        compadd -- --help --version --quick
        return
    fi
    case ${words[2]} in
    --help | -h | help) _describe command commands ;;
@cases@
    esac
}

_plift "$@"
"""

WHOLE: Dict[str, Callable[[], str]] = {"completion/plift.bash": bash, "completion/_plift": zsh}


def helper(command: str) -> Callable[[str], str]:
    """What makes the help of a command."""
    return lambda text: help_text(command, text)


def whole(make: Callable[[], str]) -> Callable[[str], str]:
    """What makes a file as a whole."""
    return lambda _: make()


def makers() -> Dict[str, Callable[[str], str]]:
    """What makes each file from what stands in it."""
    made: Dict[str, Callable[[str], str]] = {f"docs/{name}.md": document for name in ("GUIDE", "FORMATS", "MESSAGES")}
    made.update({f"man/{name}.1": man_page for name in ("plift", "plift-view")})
    made.update({"man/help/plift.txt": help_of_all, "man/help/plift-view.txt": help_of_view})
    made.update({f"man/help/{command}.txt": helper(command) for command in commands()})
    made.update({name: whole(make) for name, make in WHOLE.items()})
    return made
