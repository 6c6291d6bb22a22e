"""The install script, the tarball and the Debian package: what they hold, and equal builds."""
import hashlib
import os
import re
import tempfile
from pathlib import Path

from packaging_parts.common import PACKAGING, TOP, holds, need, ran, same

INSTALLED = [
    "bin/snmpmon",
    "share/man/man1/snmpmon.1",
    "share/man/man5/snmpmon.toml.5",
    "share/man/man5/snmpmon-formats.5",
    "share/bash-completion/completions/snmpmon",
    "share/zsh/site-functions/_snmpmon",
    "share/snmpmon/grafana/overview.json",
    "share/snmpmon/grafana/device.json",
    "share/snmpmon/grafana/interface.json",
    "share/snmpmon/grafana/stations.json",
    "share/snmpmon/prometheus/prometheus.yml",
    "share/snmpmon/prometheus/alertmanager.yml",
    "share/snmpmon/prometheus/snmpmon-rules.yml",
    "share/snmpmon/prometheus/snmpmon-alerts.yml",
    "share/snmpmon/prometheus/snmpmon-tests.yml",
    "share/snmpmon/prometheus/targets/edge.yml",
    "share/doc/snmpmon/LICENSE",
    "share/doc/snmpmon/OPERATING.md",
    "share/doc/snmpmon/examples/station.toml",
    "lib/systemd/system/snmpmon@.service",
    "lib/systemd/system/snmpmon-settings@.service",
    "lib/systemd/system/snmpmon-settings@.path",
]


def digest(path):
    return hashlib.sha256(Path(path).read_bytes()).hexdigest()


def built_twice(script, program, folder):
    """A package that is built twice, once by another umask, zone and locale; its path."""
    paths = []
    for number, mask, more in (
        (1, 0o022, {"TZ": "UTC"}),
        (2, 0o077, {"TZ": "Asia/Tokyo", "LC_ALL": "C.UTF-8"}),
    ):
        printed = ran(
            PACKAGING / script,
            program,
            Path(folder) / str(number),
            env=os.environ | more,
            umask=mask,
        )
        paths.append(printed.split()[-1])
    same(f"octets of two builds of packaging/{script}", digest(paths[0]), digest(paths[1]))
    return paths[0]


def try_install(program):
    with tempfile.TemporaryDirectory() as folder:
        ran(
            PACKAGING / "install",
            "/opt/snmpmon",
            program,
            env=os.environ | {"DESTDIR": folder},
            umask=0o077,
        )
        to = Path(folder) / "opt/snmpmon"
        same(
            "what packaging/install lacks",
            [name for name in INSTALLED if not (to / name).is_file()],
            [],
        )
        same("the installed program", digest(to / "bin/snmpmon"), digest(program))
        same(
            "folders that not all may read",
            [str(path) for path in to.rglob("*") if path.stat().st_mode & 0o444 != 0o444],
            [],
        )
        pages = to / "share/doc/snmpmon"
        same(
            "links of installed documents that lead nowhere",
            [
                f"{page.name}: {link}"
                for page in pages.glob("*.md")
                for link in re.findall(r"\]\((?!https?:|#)([^)#]+)", page.read_text())
                if not (pages / link).exists()
            ],
            [],
        )
        build = dict(
            line.split(" ", 1) for line in (to / "share/doc/snmpmon/BUILD").read_text().splitlines()
        )
        same("the program of BUILD", build["program"], digest(program))
        same(
            "the commit of BUILD",
            build["commit"],
            ran("git", "-C", TOP, "rev-parse", "HEAD").strip(),
        )
        for name in ("snmpmon@", "snmpmon-settings@"):
            unit = (to / f"lib/systemd/system/{name}.service").read_text()
            holds(
                f"{name}.service runs another program than the installed one",
                "\nExecStart=/opt/snmpmon/bin/snmpmon station " in unit
                and "/usr/bin/snmpmon" not in unit,
            )


def try_tarball(program):
    with tempfile.TemporaryDirectory() as folder:
        tarball = built_twice("tarball", program, folder)
        names = [
            tuple(name.rstrip("/").split("/")) for name in ran("tar", "-tf", tarball).splitlines()
        ]
        same("order of the tarball", names, sorted(names))
        ran("tar", "-C", folder, "-xf", tarball)
        to = next(Path(folder).glob("snmpmon-*"))
        files = sorted(str(path.relative_to(to)) for path in to.rglob("*") if path.is_file())
        same(
            "what the tarball lacks",
            [name for name in [*INSTALLED, "LICENSE", "SHA256SUMS"] if name not in files],
            [],
        )
        checked = ran("sha256sum", "-c", "SHA256SUMS", cwd=to).splitlines()
        same(
            "files with a sum",
            sorted(line.split(":")[0].removeprefix("./") for line in checked),
            [name for name in files if name != "SHA256SUMS"],
        )
        same("the packed program", digest(to / "bin/snmpmon"), digest(program))


def try_deb(program):
    need("dpkg-deb")
    with tempfile.TemporaryDirectory() as folder:
        built_twice("deb", program, folder)


def try_lintian(program):
    need("dpkg-deb", "lintian")
    with tempfile.TemporaryDirectory() as folder:
        deb = ran(PACKAGING / "deb", program, folder).split()[-1]
        ran("lintian", "--fail-on", "error", "--allow-root", deb)
