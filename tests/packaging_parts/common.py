"""What the parts of tests/packaging share."""
import shutil
import subprocess
from pathlib import Path

TOP = Path(__file__).resolve().parent.parent.parent
PACKAGING = TOP / "packaging"


class LeftOut(Exception):
    """A part that cannot be tried here, with the reason."""


def need(*tools):
    """Leaves the part out if one of these tools is not installed."""
    for tool in tools:
        if not shutil.which(tool):
            raise LeftOut(f"{tool} is not installed")


def run(*words, **more):
    """Runs a program, and returns its status and all that it prints."""
    done = subprocess.run(
        [str(w) for w in words],
        stdout=subprocess.PIPE,
        stderr=subprocess.STDOUT,
        text=True,
        errors="replace",
        timeout=600,
        **more,
    )
    return done.returncode, done.stdout


def ran(*words, **more):
    """Runs a program, which must succeed, and returns what it prints."""
    status, printed = run(*words, **more)
    if status != 0:
        raise AssertionError(
            f"{Path(str(words[0])).name} ended with status {status}: {printed[-600:]}"
        )
    return printed


def same(what, got, wanted):
    """Fails if a result is not the expected one."""
    if got != wanted:
        raise AssertionError(f"{what}: {got!r}, expected {wanted!r}")


def holds(what, is_so):
    """Fails if something is not so."""
    if not is_so:
        raise AssertionError(what)
