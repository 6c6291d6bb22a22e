"""Completion by bash on the lines of `completions`, and the syntax of zsh's."""
import os
import pty
import re
import select
import tempfile
import time
from pathlib import Path

from packaging_parts.common import PACKAGING, holds, need, ran, same

SCRIPT = PACKAGING / "completions/snmpmon.bash"
# Calls the completion as bash does: with the line, and with its words, split at equals signs too.
CALL = r"""
source "$1"
COMP_LINE=$2 COMP_POINT=${#2}
read -ra COMP_WORDS <<< "${2//=/ = }"
[[ $2 != *' ' ]] || COMP_WORDS+=('')
COMP_CWORD=$((${#COMP_WORDS[@]} - 1))
_snmpmon
printf '%s\n' "${COMPREPLY[@]}"
"""


def make_folder(folder):
    for name in ("edge.toml", "notes.txt", "old.toml"):
        (Path(folder) / name).touch()
    (Path(folder) / "sub").mkdir()


def lines():
    """Each line as it is typed, with the words that must be offered."""
    for line in (Path(__file__).parent / "completions").read_text(encoding="utf-8").splitlines():
        if not line.startswith("#"):
            typed, offered = line.split(" ->")
            yield typed.replace("_", " "), sorted(offered.split())


def read_until(terminal, wanted):
    """What a terminal shows until this text comes, at most for three minutes."""
    shown, end = "", time.monotonic() + 180
    while wanted not in shown and select.select([terminal], [], [], end - time.monotonic())[0]:
        # A space that is taken back, as zsh's after a word, is not shown.
        shown = (shown + os.read(terminal, 4096).decode(errors="replace")).replace(" \x08", "")
        if time.monotonic() > end:
            break
    return shown


def try_tabs(shell, first, typed, wanted):
    """An interactive shell, after a first line, completes another one with tabs in it."""
    with tempfile.TemporaryDirectory() as folder:
        make_folder(folder)
        child, terminal = pty.fork()
        if child == 0:
            os.chdir(folder)
            environment = {"PATH": os.environ["PATH"], "PS1": "> ", "TERM": "dumb", "HOME": folder}
            os.execvpe(shell[0], shell, environment)
        try:
            os.write(terminal, f"{first}; echo rea''dy\n".encode())
            read_until(terminal, "ready")
            os.write(terminal, f"{typed}\t".encode())
            shown = read_until(terminal, wanted)
            holds(
                f"tabs of {shell[0]} did not complete the line: {shown[-300:]!r}", wanted in shown
            )
        finally:
            os.kill(child, 9)
            os.close(terminal)
            os.waitpid(child, 0)


def completed(typed, folder=None):
    """What bash's completion offers at the end of a line."""
    return sorted(ran("bash", "--norc", "-c", CALL, "bash", SCRIPT, typed, cwd=folder).split())


def try_bash(_):
    need("bash")
    with tempfile.TemporaryDirectory() as folder:
        make_folder(folder)
        tried = list(lines())
        holds("fewer than ten lines of completions", len(tried) >= 10)
        for typed, offered in tried:
            same(f"completion of '{typed}'", completed(typed, folder), offered)


def try_help(program):
    """What is offered after each command, and the options in its man page, are those of its help."""
    need("bash")
    page = (PACKAGING / "man/snmpmon.1").read_text(encoding="utf-8").replace("\\-", "-")
    commands = re.findall(r"^  (\w+)  ", ran(program, "--help"), re.M)
    same("commands", completed("snmpmon "), sorted(commands))
    for command in set(commands) - {"help"}:
        options = ran(program, command, "--help").split("\nOptions:\n")[1]
        rows = re.findall(r"^ {2,6}(-.*?)(?: <.*>)?$", options, re.M)
        flags = sorted(flag for row in rows for flag in row.split(", "))
        same(f"options of {command}", completed(f"snmpmon {command} -"), flags)
        part = page.split(f".Ss {command}\n")[1].split("\n.Ss ")[0]
        shown = re.findall(r"Fl (\S+)", "\n".join(re.findall(r"^\.It Fl .*", part, re.M)))
        same(
            f"options of {command} in snmpmon.1",
            sorted([*("-" + f for f in shown), "--help", "-h"]),
            flags,
        )


def try_tab(_):
    need("bash")
    bash = ["bash", "--norc", "--noprofile", "-i"]
    try_tabs(bash, f"source {SCRIPT}", "snmpmon stati\told", "snmpmon station old.toml")


def try_zsh(_):
    need("zsh")
    ran("zsh", "-n", PACKAGING / "completions/_snmpmon")
    first = f"fpath=({PACKAGING}/completions $fpath); autoload -Uz compinit; compinit -D -u"
    typed = "snmpmon stati\told\t--form\tpro"
    try_tabs(["zsh", "-f", "-i"], first, typed, "station old.toml --format prometheus")
