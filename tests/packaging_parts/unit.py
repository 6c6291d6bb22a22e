"""The unit and the man pages, by systemd's and mandoc's own checks."""
import os
import re
import shutil
import tempfile
from pathlib import Path

from packaging_parts.common import PACKAGING, TOP, holds, need, ran, same

UNIT = PACKAGING / "snmpmon@.service"
UNITS = ["snmpmon@edge.service", "snmpmon-settings@edge.service", "snmpmon-settings@edge.path"]


def try_verify(_):
    """`systemd-analyze verify` under a root with systemd's own units and a program."""
    need("systemd-analyze")
    with tempfile.TemporaryDirectory() as folder:
        units = Path(folder) / "usr/lib/systemd/system"
        shutil.copytree("/usr/lib/systemd/system", units, symlinks=True)
        for unit in UNITS:
            shutil.copy(PACKAGING / unit.replace("edge", ""), units)
        for name in ("usr/bin/snmpmon", "usr/bin/systemctl", "bin/sh"):
            program = Path(folder) / name
            program.parent.mkdir(parents=True, exist_ok=True)
            program.touch(0o755)
        for unit in UNITS:
            same(
                f"what systemd-analyze verify says of {unit}",
                ran(
                    "systemd-analyze",
                    "verify",
                    "--man=no",
                    "--recursive-errors=no",
                    f"--root={folder}",
                    unit,
                ),
                "",
            )


def try_security(_):
    """The exposure is at most 2.0."""
    need("systemd-analyze")
    printed = ran(
        "systemd-analyze", "security", "--no-pager", "--offline=true", "--threshold=20", UNIT
    )
    holds(
        "systemd-analyze printed no exposure",
        re.search(r"Overall exposure level .*: [01]\.\d|: 2\.0", printed),
    )


def try_pages(_):
    ran(TOP / "docs/man", "--check")


def try_mandoc(_):
    need("mandoc")
    for page in sorted((PACKAGING / "man").iterdir()):
        same(f"what mandoc says of {page.name}", ran("mandoc", "-Tlint", "-Wwarning", page), "")


def try_man(_):
    """The unit names pages that man finds, and man prints them without a complaint."""
    need("man")
    pages = re.search(r"^Documentation=(.*)$", UNIT.read_text(), re.M)[1]
    with tempfile.TemporaryDirectory() as folder:
        for page in (PACKAGING / "man").iterdir():
            to = Path(folder) / f"man{page.suffix[1:]}"
            to.mkdir(exist_ok=True)
            shutil.copy(page, to)
        for name, section in re.findall(r"man:([\w.-]+)\((\d)\)", pages):
            shown = ran(
                "man",
                "--warnings",
                "-P",
                "cat",
                "-M",
                folder,
                section,
                name,
                env=os.environ | {"MANWIDTH": "80", "LC_ALL": "C.UTF-8"},
            )
            holds(
                f"man shows no NAME of {name}",
                f"{name} " in shown.split("SYNOPSIS")[0].split("DESCRIPTION")[0],
            )
            holds(f"man complains of {name}", "warning:" not in shown)
