"""How a script tries its cases: its command line, one case or all of them, side by side, and its last line.

A script gives a list of `Case`, each a name and a function. The function is passed a `Checks`, counts what it
finds there, and takes nothing for granted that another case did.

    tests/SCRIPT [--program FILE] [--list] [--jobs N] [--leave-out WORD].. [CASE | WORD]..

A case that rests on time tells nothing if it fails while the machine paused, as where another guest of its host
had the processors: it is tried again, and left out, which is said, if that was so each time.

A CASE is a case's whole name. A WORD is a group, as `help` of `help/settings`, or else a part of names: all cases that
have it are tried, or left out, and then said to be. A word that no name has ends the script with status 2, and says what
there is. Without --program it is what the gate left, or else what tests/quick built of these sources.
"""
import argparse
import os
import subprocess
import sys
import tempfile
import threading
import time
import traceback
from concurrent.futures import ThreadPoolExecutor
from contextlib import nullcontext
from dataclasses import dataclass
from pathlib import Path
from typing import Callable

from library import trial
from library.crates import TOP

PROGRAM = TOP / "crates/snmpmon/out/snmpmon"
ROWS_PROGRAM = TOP / "crates/mon_rows/out/mon_rows"
LISTED = 40
# How often a case that rests on time is tried while the machine stands still.
TURNS = 3


@dataclass
class Case:
    """A case: its name, and what tries it, which is passed its checks and the words of the command line."""

    name: str
    run: Callable
    # A case that measures time is tried when no other one runs.
    alone: bool = False
    # A case that waits for what must come in time, and so tells nothing where it fails while the machine stands still.
    timed: bool = False


class Checks:
    """What a case found."""

    def __init__(self, name):
        self.name, self.passed, self.failed, self.faults = name, 0, 0, []

    def that(self, what, well, found=None):
        """Counts one thing that must hold; says what was found if it does not."""
        if well:
            self.passed += 1
        else:
            self.fail(what, found)
        return bool(well)

    def fail(self, what, found=None):
        """Counts one thing that does not hold, which is said at the end of the case."""
        self.failed += 1
        self.faults.append(f"{self.name}: {what}" + (f": {found!r:.1500}" if found is not None else ""))

    def count(self, passed, failed):
        """Counts many at once."""
        self.passed += passed
        self.failed += failed


# Sleeps 5 ms again and again, and writes a line for each time that it woke 20 ms late or more: when, and how late.
SLEEPER = """import sys, time
with open(sys.argv[1], "w", buffering=1) as file:
    while True:
        began = time.monotonic()
        time.sleep(0.005)
        ended = time.monotonic()
        if ended - began > 0.025:
            file.write(f"{ended} {ended - began - 0.005}\\n")
"""


class Stalls:
    """When the machine paused, as a process of its own sees it."""

    def __enter__(self):
        self.file = tempfile.NamedTemporaryFile("r")
        self.process = subprocess.Popen([sys.executable, "-c", SLEEPER, self.file.name])
        return self

    def __exit__(self, *_):
        self.process.kill()
        self.process.wait()
        self.file.close()

    def since(self, started):
        """How long it paused in all, and at once, in seconds."""
        late = [float(line.split()[1]) for line in Path(self.file.name).read_text().splitlines() if float(line.split()[0]) >= started]
        return sum(late), max(late, default=0)


SAYING = threading.Lock()


def say(text):
    with SAYING:
        print(text, flush=True)


def arguments(doc, program=PROGRAM, more=()):
    """The arguments of a script; `more` are functions that add options of its own."""
    parser = argparse.ArgumentParser(description=doc, formatter_class=argparse.RawDescriptionHelpFormatter)
    parser.add_argument("--program", type=Path, metavar="FILE", help="the program; what the gate left, or else tests/quick, if not given")
    parser.add_argument("--list", action="store_true", help="prints the names of the cases")
    parser.add_argument("--jobs", type=int, default=os.cpu_count() or 1, metavar="N", help="how many cases run side by side")
    parser.add_argument("--leave-out", action="append", default=[], metavar="WORD", help="a part of names that are not tried")
    for add in more:
        add(parser)
    parser.add_argument("cases", nargs="*", metavar="CASE|WORD", help="a case's name, or a part of names; all if none is given")
    words = parser.parse_args()
    words.program, words.crate = (words.program or there(program)).resolve(), program.name
    return words


def there(program):
    """The program that the gate left; where there is none, that of a trial run of these sources, if it is kept."""
    return program if program.is_file() or not trial.kept(program.name).is_file() else trial.kept(program.name)


def named(cases, word):
    """The cases that a word names: by its whole name, by a group before a slash, or by a part of it."""
    some = [it for it in cases if it.name == word] or [it for it in cases if it.name.startswith(f"{word}/")] or [it for it in cases if word in it.name]
    if not some:
        group = word.split("/")[0] + "/"
        names = sorted({it.name for it in cases if it.name.startswith(group)} or {it.name.split("/")[0] for it in cases})
        print(f"no case has '{word}' in its name. There are: {', '.join(names[:LISTED])}" + (" .." if len(names) > LISTED else ""), file=sys.stderr)
        sys.exit(2)
    return some


def chosen(cases, words):
    """The cases that the words name, all if they name none, but for those that are left out."""
    names = {it.name for word in words.cases for it in named(cases, word)}
    left_out = {it.name for word in words.leave_out for it in named(cases, word)}
    if left_out:
        print(f"left out: {len(left_out)} cases, of {', '.join(words.leave_out)}")
    return [it for it in cases if (it.name in names or not words.cases) and it.name not in left_out]


def need(words):
    """Ends the script if its program is not there, and says how it is built."""
    if not words.program.is_file():
        print(f"there is no program {words.program}: (cd crates/{words.crate} && rt run) proves and builds {words.crate}, and tests/quick builds it without a proof", file=sys.stderr)
        print("0 passed, 1 failed")
        sys.exit(2)


def show(names):
    """Prints names, a line each, to a reader that may go away."""
    try:
        print("\n".join(names), flush=True)
    except BrokenPipeError:
        os._exit(0)


def tried_once(case, words):
    """What a case found; an error in it is a failure of it."""
    checks = Checks(case.name)
    try:
        case.run(checks, words)
    except Exception:
        checks.fail("it ended with an error", None)
        checks.faults.append(traceback.format_exc())
    return checks


def tried(case, words, stalls=None):
    """What a case found, and says what does not hold. With `stalls` it is tried again where the machine paused."""
    for _ in range(TURNS):
        started = time.monotonic()
        checks = tried_once(case, words)
        still, longest = stalls.since(started) if stalls else (0, 0)
        if not checks.failed or (longest < 0.05 and still < 0.01 * (time.monotonic() - started)):
            break
        say(f"busy: {case.name}: the machine paused for {still:.2f} s in all, {longest:.2f} s at once; " + "; ".join(it[:200] for it in checks.faults))
    else:
        say(f"left out: {case.name}: the machine paused each time")
        return Checks(case.name)
    for fault in checks.faults:
        say(f"failed: {fault}")
    if checks.failed:
        # (a fault of the command itself is shown above)
        program = f" --program {words.program}" if words.program not in (PROGRAM, ROWS_PROGRAM) else ""
        say(f"alone: tests/{Path(sys.argv[0]).name}{program} '{case.name}'")
    return checks


def run(words, cases):
    """Tries the chosen cases and ends the script: the last line counts what was found."""
    cases = chosen(cases, words)
    if words.list:
        show(it.name for it in cases)
        sys.exit(0)
    need(words)
    started = time.monotonic()
    with Stalls() if any(it.timed for it in cases) else nullcontext() as stalls:
        with ThreadPoolExecutor(max(words.jobs, 1)) as pool:
            found = list(pool.map(lambda it: tried(it, words, it.timed and stalls), [it for it in cases if not it.alone]))
        found += [tried(it, words, it.timed and stalls) for it in cases if it.alone]
    passed, failed = sum(it.passed for it in found), sum(it.failed for it in found)
    print(f"{len(cases)} cases, {time.monotonic() - started:.1f} s")
    print(f"{passed} passed, {failed} failed")
    sys.exit(0 if passed and not failed else 1)
