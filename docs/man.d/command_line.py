"""Reads the command line from crates/mon_cli: commands, their options and operands, help texts."""
import re
from pathlib import Path
from typing import NamedTuple

TOP = Path(__file__).resolve().parent.parent.parent
CLI = TOP / "crates/mon_cli/src"
TEXT = r'"((?:[^"\\]|\\.)*)"'
LINE = re.compile(
    r'const (\w+): Line = Line \{\s*id: "([^"]+)",\s*form: Form::(\w+)(?:\(\'(.)\'\))?,'
    r"\s*takes: Takes::(\w+)(?:\(Value::(\w+)(?:\(([^)]*)\))?\))?,"
    r'\s*needed: (\w+),\s*shown: "([^"]*)",\s*help:\s*' + TEXT + r",\s*\}"
)


class Argument(NamedTuple):
    """An option or an operand of a command."""

    id: str
    form: str  # Place, Long, Short or Both
    letter: str | None
    takes: str  # Nothing, One, Each or Many
    value: str | None  # Text, Format, Kind, Sort, Number, Natural
    needed: bool
    shown: str
    help: str

    @property
    def flags(self):
        """How the option is written, the letter first; nothing for an operand."""
        letter = [f"-{self.letter}"] if self.letter else []
        return letter + ([f"--{self.id}"] if self.form in ("Long", "Both") else [])


class Command(NamedTuple):
    """A command, with what help says of it."""

    word: str
    about: str
    more: str
    arguments: list[Argument]


def source(name):
    return (CLI / name).read_text(encoding="utf-8")


def unescaped(text):
    return text.replace('\\"', '"').replace("\\\\", "\\").replace("\\\n", "")


def function(text, name):
    """The body of a function, from its name to the brace in the first column."""
    return re.search(rf"fn {name}\b.*?\n\}}", text, re.S)[0]


def arms(body, pattern):
    """What each variant of `Choice` gives in a match."""
    return {
        choice: found[2]
        for found in re.finditer(rf"((?:Choice::\w+(?: \| )?)+)\s*=>\s*{pattern}", body)
        for choice in re.findall(r"Choice::(\w+)", found[1])
    }


def tables():
    """The files of the arguments."""
    return source("lines.rt") + source("survey_lines.rt")


def arguments():
    """All arguments by the names of their constants."""
    text = tables()
    found = {
        m[1]: Argument(m[2], m[3], m[4], m[5], m[6], m[8] == "true", m[9], " ".join(unescaped(m[10]).split()))
        for m in LINE.finditer(text)
    }
    if len(found) != text.count(": Line = Line {"):
        raise SystemExit("docs/man: mon_cli has an argument that cannot be read")
    return found


def lists(known):
    """The lists of arguments by the names of their statics."""
    found = re.finditer(r"static (\w+): \[Line; (\d+)\] = \[([^\]]*)\];", tables())
    named = {m[1]: (int(m[2]), [known[word] for word in re.findall(r"\w+", m[3])]) for m in found}
    if any(size != len(listed) for size, listed in named.values()):
        raise SystemExit("docs/man: mon_cli has a list that cannot be read")
    return {name: listed for name, (_, listed) in named.items()}


def texts():
    """The long help texts by the names of their constants."""
    found = re.finditer(rf"const (\w+): &str =\s*{TEXT};", source("texts.rt"))
    return {m[1]: unescaped(m[2]) for m in found}


def commands():
    """The commands in the order in which help has them."""
    named, long = lists(arguments()), texts()
    lines = function(source("lines.rt"), "lines_of")
    listed = arms(lines, r"(\w+)\.as_slice\(\)") | arms(lines, r"&(\[\])")
    abouts = arms(function(source("texts.rt"), "about"), TEXT)
    mores = arms(function(source("texts.rt"), "more"), r"(\w+)")
    words = arms(function(source("choice.rt"), "word"), TEXT)
    order = re.search(r"const CHOICES.*?= \[(.*?)\];", source("parser.rt"), re.S)[1]
    return [
        Command(
            words[choice],
            unescaped(abouts[choice]),
            long[mores[choice]],
            named.get(listed[choice], []),
        )
        for choice in re.findall(r"Choice::(\w+)", order)
    ]


def first_arguments():
    """The options before any command."""
    return lists(arguments())["FIRST"]


def names_of(value):
    """The texts of which a value of this sort must be one; nothing if it may be any."""
    static = {"Format": "FORMATS", "Kind": "KINDS", "Sort": "SORTS"}.get(value)
    found = static and re.search(rf"static {static}: .*?= \[(.*?)\];", source("parser.rt"), re.S)
    return re.findall(TEXT, found[1]) if found else []


def about_program():
    """What the program is for, and what help says after the list of the commands."""
    return texts()["ABOUT"], texts()["MORE"]


def version():
    """The version, as `--version` prints it after the name."""
    return re.search(r'VERSION: &str = "snmpmon (\d+\.\d+\.\d+)', source("parser.rt"))[1]
