"""Cases of single calls: a file a group, in tests/cases/calls.

    == NAME          begins a case; no two of a group have one name
    > LINE           is passed to mon_rows
    < LINE           is a line that it must print after that
    # TEXT           says what the next is about

A case begins with what it needs, so that it can be run by itself.
"""
from dataclasses import dataclass, field
from pathlib import Path

from library.crates import TOP

FOLDER = TOP / "tests/cases/calls"


@dataclass
class Calls:
    """A case: what is passed to mon_rows, and what it must print."""

    name: str
    asked: list[str] = field(default_factory=list)
    answers: list[str] = field(default_factory=list)


def read(path: Path):
    """The cases of a file, in their order."""
    found = []
    for number, line in enumerate(path.read_text().splitlines(), 1):
        mark, text = line[:2], line[2:]
        if line.startswith("== "):
            found.append(Calls(f"{path.name}/{line[3:]}"))
        elif mark == "> " and found:
            found[-1].asked.append(text)
        elif mark in ("< ", "<") and found:
            found[-1].answers.append(text)
        elif line and not line.startswith("#"):
            raise ValueError(f"{path}, line {number}: a line of cases begins with '==', '>', '<' or '#'")
    names = [it.name for it in found]
    twice = {name for name in names if names.count(name) > 1} if len(set(names)) < len(names) else set()
    if twice:
        raise ValueError(f"{path}: two cases are named {sorted(twice)[0]}")
    return found


def write(group, about, cases):
    """Writes a group: `about` says where its answers come from; a case is a name and pairs of a line and its answer."""
    lines = [f"# {line}" for line in about.splitlines()]
    for name, pairs in cases:
        lines.append(f"== {name}")
        for asked, answer in pairs:
            lines.append(f"> {asked}")
            if answer is not None:
                lines += [f"< {line}" for line in answer.split("\n")]
    (FOLDER / group).write_text("\n".join(lines) + "\n")


def numbered(rows):
    """Cases of a line each, named by its first word and a number."""
    counts = {}
    for asked, answer in rows:
        word = asked.split(" ")[0]
        counts[word] = counts.get(word, 0) + 1
        yield f"{word}-{counts[word]}", [(asked, answer)]
