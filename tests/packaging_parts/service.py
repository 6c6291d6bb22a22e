"""The Debian package in use: installed, run, upgraded, removed and purged.

It runs as the unit's command line under the unit's restrictions, in a root of dpkg's, or in a
system that debootstrap makes.
"""
import contextlib
import errno
import mmap
import os
import re
import shutil
import signal
import socket
import subprocess
import tempfile
import time
from pathlib import Path

from library.ports import free_port
from packaging_parts.common import PACKAGING, LeftOut, holds, need, ran, same
from packaging_parts.dashboard import SAMPLE, metrics_of
from packaging_parts.packages import digest
from packaging_parts.sandbox import UID, Sandbox

INSTANCE = "edge"
UNIT = "usr/lib/systemd/system/snmpmon@.service"


class DpkgRoot:
    """A folder in which dpkg installs, with the C library of this machine."""

    def __init__(self, folder, program):
        self.folder = Path(folder)
        self.folder.chmod(0o755)
        for name in ("info", "updates", "triggers"):
            (self.folder / "var/lib/dpkg" / name).mkdir(parents=True)
        for name in ("status", "available"):
            (self.folder / "var/lib/dpkg" / name).touch()
        for library in re.findall(r"(/\S+) \(0x", ran("ldd", program)):
            to = self.folder / library[1:]
            to.parent.mkdir(parents=True, exist_ok=True)
            shutil.copy(os.path.realpath(library), to)

    def dpkg(self, *words):
        ran(
            "dpkg",
            f"--root={self.folder}",
            f"--log={self.folder}/dpkg.log",
            "--force-script-chrootless",
            "--force-depends",
            *words,
        )

    def install(self, deb):
        self.dpkg("-i", deb)


class System(DpkgRoot):
    """A system that debootstrap made."""

    def __init__(self, folder, _):
        self.folder = Path(folder)
        self.folder.chmod(0o755)
        release = re.search(r"VERSION_CODENAME=(\w+)", Path("/etc/os-release").read_text())[1]
        try:
            ran(
                "debootstrap",
                "--variant=minbase",
                "--include=man-db,bash-completion",
                release,
                folder,
            )
        except AssertionError as error:
            raise LeftOut(f"debootstrap could not make a system: {str(error)[-200:]}") from None

    def dpkg(self, *words):
        self.run("dpkg", *words)

    def install(self, deb):
        shutil.copy(deb, self.folder / "tmp/snmpmon.deb")
        self.dpkg("-i", "/tmp/snmpmon.deb")

    def run(self, *words):
        return ran(
            "chroot",
            self.folder,
            *words,
            env={"PATH": "/usr/sbin:/usr/bin:/sbin:/bin", "HOME": "/root", "LC_ALL": "C.UTF-8"},
        )


def within(root, words, cwd="/"):
    """What the installed program prints in a root, in this working directory."""

    def enter():
        os.chroot(root.folder)
        os.chdir(cwd)

    words = ["/usr/bin/snmpmon", *words]
    return subprocess.run(
        words, preexec_fn=enter, env={}, capture_output=True, check=True, text=True
    ).stdout


def write_settings(root):
    """Writes the settings of an agent and of a station over it, by the package's examples."""
    examples = root.folder / "usr/share/doc/snmpmon/examples"
    agent_at, station_at = free_port(), free_port()
    agent = (
        (examples / "agent.toml").read_text().replace("127.0.0.1:16100", f"127.0.0.1:{agent_at}")
    )
    (root.folder / "agent.toml").write_text(agent)
    station = (
        (examples / "station.toml")
        .read_text()
        .replace("127.0.0.1:16100", f"127.0.0.1:{agent_at}")
        .replace("127.0.0.1:16101", f"127.0.0.1:{station_at}")
    )
    station = re.sub(
        r"\[\[peer\]\]\n(?:\w.*\n)+", "", re.sub(r"^modules = .*\n", "", station, flags=re.M)
    )
    path = root.folder / f"etc/snmpmon/{INSTANCE}.toml"
    path.write_text(station)
    path.chmod(0o600)


@contextlib.contextmanager
def agent_of(root):
    """An agent that serves meanwhile, in the root and without restrictions."""
    words = ["/usr/bin/snmpmon", "agent", "/agent.toml", "--count", "1000"]
    agent = subprocess.Popen(
        words, preexec_fn=lambda: os.chroot(root.folder), env={}, stderr=subprocess.DEVNULL
    )
    try:
        yield
    finally:
        agent.kill()
        agent.wait()


def figures_of_run(root, sandbox):
    """Runs the unit until its first round is over; returns its report of that and its log."""
    prom, log = sandbox.runtime / "station.prom", root.folder / "log"
    prom.unlink(missing_ok=True)
    station = sandbox.start(log)
    try:
        for _ in range(1800):
            if prom.is_file() or station.poll() is not None:
                break
            time.sleep(0.1)
        holds(f"no report after a round: {log.read_text()[-400:]}", prom.is_file())
        holds(f"the station ended: {log.read_text()[-400:]}", station.poll() is None)
        figures = prom.read_text()
        station.terminate()
        same("how the station ended at SIGTERM", station.wait(timeout=60), -signal.SIGTERM)
    finally:
        station.kill()
        station.wait()
    return figures, log.read_text()


def write_to(path):
    return lambda: open(path, "w").close()


def probe(sandbox):
    """Tries what the unit must not be able to do, and what it needs."""
    refused = sandbox.probe(
        {
            "etc": write_to("/etc/snmpmon/x"),
            "usr": write_to("/usr/bin/x"),
            "private": write_to("/var/lib/private/x"),
            "settings": lambda: open(f"/etc/snmpmon/{INSTANCE}.toml").close(),
            "inet6": lambda: socket.socket(socket.AF_INET6, socket.SOCK_DGRAM).close(),
            "packet": lambda: socket.socket(socket.AF_INET, socket.SOCK_RAW, 1).close(),
            "executable": lambda: mmap.mmap(
                -1, 4096, prot=mmap.PROT_READ | mmap.PROT_WRITE | mmap.PROT_EXEC
            ).close(),
            "root": lambda: os.setuid(0),
            "chroot": lambda: os.chroot("/"),
            "resources": lambda: os.sched_setaffinity(0, os.sched_getaffinity(0)),
            "inet": lambda: socket.socket(socket.AF_INET, socket.SOCK_DGRAM).close(),
            "state": write_to(f"/var/lib/snmpmon/{INSTANCE}/x"),
            "runtime": write_to(f"/run/snmpmon/{INSTANCE}/x"),
            "credential": lambda: open(f"{sandbox.credentials}/{INSTANCE}.toml").close(),
        }
    )
    same(
        "what the unit can do",
        [name for name, number in refused.items() if number == 0],
        ["inet", "state", "runtime", "credential"],
    )
    same(
        "why a folder is refused",
        {refused[name] for name in ("etc", "usr", "private")},
        {errno.EROFS},
    )
    (sandbox.state / "x").unlink()


def built(program, folder, **environment):
    return ran(PACKAGING / "deb", program, folder, env=os.environ | environment).split()[-1]


def try_first_run(root, sandbox):
    """The unit polls, reports and saves, each where the unit says."""
    figures, log = figures_of_run(root, sandbox)
    up = re.search(r'^snmpmon_target_up\{.*,number="1",.*\} 1$', figures, re.M)
    holds(f"the target is not up: {figures}", up)
    sample = metrics_of(SAMPLE.read_text())
    # The unit sends no notifications.
    del sample["snmpmon_notifications_dropped_total"]
    same("metrics of a running station", metrics_of(figures), sample)
    holds(f"no incarnation 1: {log}", ", incarnation 1, " in log)
    kept = (sandbox.state / "a.mon").stat()
    same("owner and size of the file", (kept.st_uid, kept.st_size), (UID, 2097152))
    report = saved_report(root)
    holds(f"the report has no sample: {report}", "n=1 " in report)


def try_upgrade(root, sandbox, deb):
    """An upgrade leaves the file, and the next run goes on over it, by other options."""
    kept = sandbox.state / "a.mon"
    before = digest(kept), saved_report(root)
    root.install(deb)
    same("the file after an upgrade", (digest(kept), saved_report(root)), before)
    out = f"/run/snmpmon/{INSTANCE}/station.prom"
    options = root.folder / f"etc/snmpmon/{INSTANCE}.env"
    options.write_text(f"OPTIONS=--interval 1 --format json --out {out}\n")
    figures, log = figures_of_run(root, sandbox)
    holds(f"the options are not those of the file: {figures}", figures.startswith("{"))
    holds(f"no incarnation 2 after an upgrade: {log}", ", incarnation 2, " in log)


def try_removal(root, sandbox):
    """A removal keeps the file, a purge does not; neither touches settings."""

    def left():
        paths = ["usr/bin/snmpmon", "var/lib/snmpmon", "var/lib/private/snmpmon"]
        return [path for path in paths if (root.folder / path).exists()]

    root.dpkg("--remove", "snmpmon")
    same("what a removal leaves", left(), ["var/lib/snmpmon", "var/lib/private/snmpmon"])
    holds("a removal took the file", (sandbox.state / "a.mon").is_file())
    root.dpkg("--purge", "snmpmon")
    same("what a purge leaves", left(), [])
    settings = root.folder / f"etc/snmpmon/{INSTANCE}.toml"
    holds("a purge took settings that were written by hand", settings.is_file())


def try_in(root, program):
    """The package's life in a root."""
    with tempfile.TemporaryDirectory() as debs:
        root.install(built(program, debs))
        same("the installed program", digest(root.folder / "usr/bin/snmpmon"), digest(program))
        write_settings(root)
        sandbox = Sandbox(root.folder, root.folder / UNIT, INSTANCE)
        probe(sandbox)
        with agent_of(root):
            try_first_run(root, sandbox)
            try_upgrade(root, sandbox, built(program, debs, VERSION="0.1.0-2"))
        try_removal(root, sandbox)


def saved_report(root):
    return within(root, ["report", f"/etc/snmpmon/{INSTANCE}.toml"], f"/var/lib/snmpmon/{INSTANCE}")


def need_root():
    if os.geteuid() != 0:
        raise LeftOut("it needs root")


def try_dpkg_root(program):
    need("dpkg", "dpkg-deb", "ldd")
    need_root()
    with tempfile.TemporaryDirectory() as folder:
        try_in(DpkgRoot(folder, program), program)


def try_system(program):
    """In a system of debootstrap's, with what a new user tries: man and bash's completion."""
    need("debootstrap", "dpkg-deb")
    need_root()
    with tempfile.TemporaryDirectory() as folder, tempfile.TemporaryDirectory() as debs:
        root = System(folder, program)
        root.install(ran(PACKAGING / "deb", program, debs).split()[-1])
        holds(
            "man shows no page",
            "SNMPMON(1)" in root.run("man", "-P", "cat", "snmpmon").split("\n")[0],
        )
        load = (
            "source /usr/share/bash-completion/bash_completion;"
            "_completion_loader snmpmon; complete -p snmpmon"
        )
        holds(
            "bash does not find the completion",
            "-F _snmpmon snmpmon" in root.run("bash", "-c", load),
        )
        holds(
            "snmpmon --version prints nothing",
            root.run("snmpmon", "--version").startswith("snmpmon "),
        )
        root.dpkg("--purge", "snmpmon")
        try_in(root, program)
