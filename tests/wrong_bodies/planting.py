"""Wrong bodies: what the lists of lists/ name, where each is, and what a check with some of them planted says of each."""
import re
import runpy
from contextlib import contextmanager
from pathlib import Path

from library.crates import TOP

# So many bugs are planted together.
AT_ONCE = 10
LISTS = Path(__file__).resolve().parent / "lists"
FUNCTION = re.compile(r"^(\s*)(?:pub(?:\([a-z]+\))?\s+)?(?:const\s+)?fn\s+(\w+)")
OWNER = re.compile(r"^impl(?:<[^{]*?>)? (\w+)(?:<.*>)? \{")
# What an answer says that names a step which is gone, in place of a goal that is not met.
GONE = re.compile(r"has no field|is not in scope|has no `|was not admitted")


def bugs_of(crate, names):
    """The bugs of a crate by name; the must-fail edits too, where names ask for them."""
    file = LISTS / f"{crate}.py"
    bugs = runpy.run_path(str(file))["BUGS"] if file.is_file() else {}
    if not names:
        return bugs
    for name in names:
        edit = TOP / "crates" / crate / "must-fail" / f"{name}.edit"
        if edit.is_file():
            lines = [line.partition(": ") for line in edit.read_text().splitlines()]
            file = next(text for word, _, text in lines if word == "file")
            bugs[name] = (file, *(text for word, _, text in lines if word != "file"))
    return {name: bugs[name] for name in names}


def function_at(text, at):
    """The name of the function in whose lines this place stands, or None."""
    lines = text.splitlines()
    line = text.count("\n", 0, at)
    for first in range(line, -1, -1):
        found = FUNCTION.match(lines[first])
        if found:
            last = next((n for n in range(first, len(lines)) if lines[n].rstrip() in (found[1] + "}", found[1] + "{}")), first)
            return found[2] if line <= last else None
    return None


def owner_at(text, at):
    """The type of the `impl` in whose lines this place stands, or None."""
    for line in reversed(text[:at].splitlines()):
        found = OWNER.match(line)
        if found or line.startswith("}"):
            return found and found[1]
    return None


class Bug:
    """A bug: its name, its file, and the pairs of what stands there and what is put in its place."""

    def __init__(self, folder, name, entry):
        self.name, self.file = name, entry[0]
        self.pairs = list(zip(entry[1::2], entry[2::2]))
        self.path = folder / self.file
        text = self.path.read_text()
        self.stands = all(text.count(old) == 1 for old, _ in self.pairs)
        found = {function_at(text, text.find(old)) for old, _ in self.pairs}
        self.function = found.pop() if len(found) == 1 else None
        self.owner = owner_at(text, text.find(self.pairs[0][0]))

    def module(self):
        """The path of the file's module, as rattle writes it."""
        return [part for part in Path(self.file).with_suffix("").parts[1:] if part != "lib"]

    def is_in(self, path):
        """Whether a path of a function, in parts after the crate's name, is that of the bug's function."""
        module = self.module()
        # A method of a type of another file has the path of that file.
        return path[-1] == self.function and (path[: len(module)] == module or path[-2:-1] == [self.owner])

    def plant(self):
        text = self.path.read_text()
        for old, new in self.pairs:
            text = text.replace(old, new, 1)
        self.path.write_text(text)


def lines_of(told, bug):
    """The notes and errors of a check that are about the bug's function, or all of them for a bug outside of functions."""
    found = []
    verdict = None
    # The notes of a function stand before the line of its verdict.
    notes = []
    for line in told.splitlines():
        if line.startswith("note: src/"):
            notes.append(line)
        answer = re.match(r"(?:\./)?proofs/(\S+)/(?:Answers|Invariants|Proof)\.antt\S* error", line)
        if answer and (bug.function is None or bug.is_in(answer[1].split("/"))):
            found.append(line)
        own = re.match(r"fn \w+::(\S+): (.*)", line)
        if own:
            if bug.function is None or bug.is_in(own[1].split("::")):
                found += notes
                if not own[2].startswith(("no holes", "proved")):
                    verdict = own[2]
            notes = []
    return found, verdict


def refusal(told, bug):
    """What refused the bug, None where nothing did, or 'again' where the check tells nothing of it."""
    found, verdict = lines_of(told, bug)
    clauses = [line for line in found if "what the function ensures" in line]
    fits = [line for line in found if re.search(r"error: `returns", line) and not GONE.search(line)]
    if clauses or fits:
        return "clause"
    if any("it is not proved" in line for line in found):
        return "goal"
    if found:
        return "answer"
    if verdict is None:
        return None
    return "again" if verdict.startswith("no proof: it calls") else "goal"


def is_broken(told):
    """Whether the text does not even compile, which tells nothing of a contract."""
    return bool(re.search(r"^src/\S+: error|^src/.*error\[|^error", told, re.M)) and "no holes" not in told


@contextmanager
def planted(bugs):
    """Has these bugs stand in their files, until its end."""
    kept = {bug.path: bug.path.read_text() for bug in bugs}
    for bug in bugs:
        bug.plant()
    try:
        yield
    finally:
        for path, text in kept.items():
            path.write_text(text)


def batches(bugs):
    """The bugs in lists of which each function has one bug at most; those outside of functions alone."""
    made = [[bug] for bug in bugs if bug.function is None]
    shared = []
    for bug in (bug for bug in bugs if bug.function is not None):
        key = (bug.file, bug.function)
        room = next((it for it in shared if len(it) < AT_ONCE and key not in {(b.file, b.function) for b in it}), None)
        if room is None:
            shared.append(room := [])
        room.append(bug)
    return shared + made


def verdicts(check, bugs):
    """Each bug with what its check gave, as soon as it is known. `check` plants some of them and returns what is said of the crate then."""
    left = batches(bugs)
    while left:
        batch = left.pop(0)
        told = check(batch)
        for bug in batch:
            given = "does not compile" if is_broken(told) else refusal(told, bug) or "let through"
            if len(batch) > 1 and given in ("does not compile", "again", "let through"):
                left.append([bug])
            else:
                yield bug, "goal" if given == "again" else given
