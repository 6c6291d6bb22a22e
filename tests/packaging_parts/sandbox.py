"""Runs the command line of a unit by hand, under restrictions that systemd makes of its options.

These are its user, folders, credentials and environment; a file system of which only its folders
can be written; no privileges; its system calls and address families; and no memory that is writable
and executable.
"""
import ctypes
import os
import re
import resource
import shlex
import subprocess
import sys
from functools import cache
from pathlib import Path

from packaging_parts.common import LeftOut, need, ran, run, same

LIBC = ctypes.CDLL(None, use_errno=True)
UID = 61321  # of the range that systemd's dynamic users have
CLONE_NEWNS, MS_RDONLY, MS_NOSUID, MS_NODEV, MS_REMOUNT, MS_BIND, MS_REC, MS_PRIVATE = (
    0x20000,
    1,
    2,
    4,
    32,
    4096,
    16384,
    1 << 18,
)
PR_SET_NO_NEW_PRIVS, PR_CAPBSET_DROP = 38, 24
ALLOW, EQUAL, MASKED = 0x7FFF0000, 4, 7
# What `enter` does whatever the unit says, so the unit must say it.
ALWAYS = {
    "DynamicUser": ["yes"],
    "ProtectSystem": ["strict"],
    "NoNewPrivileges": ["yes"],
    "CapabilityBoundingSet": [""],
    "AmbientCapabilities": [""],
}
FAMILIES = {"AF_UNIX": 1, "AF_INET": 2, "AF_INET6": 10}


class Compared(ctypes.Structure):
    """libseccomp's `scmp_arg_cmp`."""

    _fields_ = [
        ("arg", ctypes.c_uint),
        ("op", ctypes.c_int),
        ("a", ctypes.c_uint64),
        ("b", ctypes.c_uint64),
    ]


@cache
def seccomp():
    try:
        library = ctypes.CDLL("libseccomp.so.2")
    except OSError:
        raise LeftOut("libseccomp is not installed") from None
    library.seccomp_init.restype = ctypes.c_void_p
    return library


def options_of(unit, instance):
    """The options of a unit's sections, each with its values in order, for an instance."""
    found = {}
    for line in Path(unit).read_text(encoding="utf-8").splitlines():
        if m := re.match(r"(\w+)=(.*)$", line):
            value = m[2].replace("%i", instance).replace("%t", "/run").replace("%S", "/var/lib")
            found.setdefault(m[1], []).append(value)
    return found


@cache
def group(name):
    """The system calls of a group of systemd's."""
    if not name.startswith("@"):
        return {name}
    printed = ran("systemd-analyze", "syscall-filter", "--no-pager", name).splitlines()[1:]
    words = [line.strip() for line in printed if line.strip() and not line.strip().startswith("#")]
    return set().union(*(group(word) for word in words))


def calls_of(options):
    """The system calls that a unit's filters leave."""
    allowed = set(group("@default"))
    for words in options["SystemCallFilter"]:
        listed = set().union(*(group(word) for word in words.lstrip("~").split()))
        allowed = allowed - listed if words.startswith("~") else allowed | listed
    return allowed


def rules_of(options):
    """Each allowed system call with what its arguments must be."""
    families = [FAMILIES[name] for name in options["RestrictAddressFamilies"][0].split()]
    special = {"socket": [[(0, EQUAL, family, 0)] for family in families]}
    if options["MemoryDenyWriteExecute"] == ["yes"]:
        special["mmap"] = [[(2, MASKED, 6, bits)] for bits in (0, 2, 4)]
        special |= {name: [[(2, MASKED, 4, 0)]] for name in ("mprotect", "pkey_mprotect")}
    return [(name, rule) for name in sorted(calls_of(options)) for rule in special.get(name, [[]])]


def load_filter(rules):
    """Lets only these system calls be made from now on; others fail with EPERM."""
    library = seccomp()
    context = ctypes.c_void_p(library.seccomp_init(ctypes.c_uint32(0x00050000 | 1)))
    for name, compared in rules:
        number = library.seccomp_syscall_resolve_name(name.encode())
        if number >= 0:
            array = (Compared * len(compared))(*(Compared(*one) for one in compared))
            library.seccomp_rule_add_array(
                context, ctypes.c_uint32(ALLOW), number, len(compared), array
            )
    if library.seccomp_load(context) != 0:
        raise OSError("seccomp_load")


def mount(source, target, kind, flags, data=None):
    if LIBC.mount(os.fsencode(source), os.fsencode(target), kind, flags, data) != 0:
        number = ctypes.get_errno()
        raise OSError(number, f"mount {target}: {os.strerror(number)}")


def bind(source, target, flags=0):
    mount(source, target, None, MS_BIND | MS_REC)
    mount("none", target, None, MS_REMOUNT | MS_BIND | MS_NOSUID | MS_NODEV | flags)


class Sandbox:
    """An instance of the unit of a root folder."""

    def __init__(self, root, unit, instance):
        need("systemd-analyze", "unshare")
        seccomp()
        if run("unshare", "-m", "true")[0] != 0:
            raise LeftOut("no file systems may be mounted here")
        self.root, self.instance = Path(root), instance
        self.options = options_of(unit, instance)
        same("options of the unit", {name: self.options.get(name) for name in ALWAYS}, ALWAYS)
        self.rules = rules_of(self.options)
        self.work = self.options["WorkingDirectory"][0]
        self.state = self.root / "var/lib/private" / self.options["StateDirectory"][0]
        self.runtime = self.root / "run" / self.options["RuntimeDirectory"][0]
        self.credentials = f"/run/credentials/snmpmon@{instance}.service"

    def make_folders(self):
        """Makes what systemd makes before it starts a unit."""
        for folder, mode in (
            (self.state, int(self.options["StateDirectoryMode"][0], 8)),
            (self.runtime, 0o755),
            (self.root / self.credentials[1:], 0o500),
        ):
            folder.mkdir(parents=True, exist_ok=True)
            folder.chmod(mode)
            os.chown(folder, UID, UID)
        for kept in self.state.iterdir():
            os.chown(kept, UID, UID)
        (self.root / "var/lib/private").chmod(0o700)
        link = self.root / "var/lib" / self.options["StateDirectory"][0]
        link.parent.mkdir(parents=True, exist_ok=True)
        if not link.is_symlink():
            link.symlink_to(os.path.relpath(self.state, link.parent))
        for credential in self.options["LoadCredential"]:
            name, source = credential.split(":")
            copy = self.root / self.credentials[1:] / name
            copy.unlink(missing_ok=True)
            copy.write_bytes((self.root / source[1:]).read_bytes())
            copy.chmod(0o400)
            os.chown(copy, UID, UID)

    def environment(self):
        found = {"PATH": "/usr/bin", "CREDENTIALS_DIRECTORY": self.credentials}
        texts = [value.strip('"') for value in self.options.get("Environment", [])]
        for name in self.options.get("EnvironmentFile", []):
            path = self.root / name.lstrip("-")[1:]
            texts += path.read_text().splitlines() if path.is_file() else []
        return found | dict(text.split("=", 1) for text in texts if "=" in text)

    def command(self):
        """The words of the unit's command line."""
        environment, words = self.environment(), []
        for word in shlex.split(self.options["ExecStart"][0]):
            if m := re.fullmatch(r"\$(\w+)", word):
                words += shlex.split(environment.get(m[1], ""))
            else:
                words.append(re.sub(r"\$\{(\w+)\}", lambda m: environment.get(m[1], ""), word))
        return words

    def enter(self):
        """Makes the calling process one of the unit's."""
        if LIBC.unshare(CLONE_NEWNS) != 0:
            raise OSError("unshare")
        mount("none", "/", None, MS_REC | MS_PRIVATE)
        bind(self.root, self.root)
        aside = self.root / "run/state"
        aside.mkdir(exist_ok=True)
        bind(self.state, aside)
        private = self.root / "var/lib/private"
        mount("tmpfs", private, b"tmpfs", MS_NOSUID | MS_NODEV, b"mode=755")
        self.state.mkdir(parents=True)
        bind(aside, self.state)
        bind(self.runtime, self.runtime)
        mount("none", private, None, MS_REMOUNT | MS_RDONLY | MS_NOSUID | MS_NODEV)
        mount("none", self.root, None, MS_REMOUNT | MS_BIND | MS_RDONLY | MS_NOSUID)
        os.chroot(self.root)
        self.drop()
        os.chdir(self.work)
        load_filter(self.rules)

    def drop(self):
        """Takes the unit's user and limits, and gives up all privileges."""
        os.umask(0o022)
        files = int(self.options["LimitNOFILE"][0])
        resource.setrlimit(resource.RLIMIT_NOFILE, (files, files))
        for capability in range(64):
            LIBC.prctl(PR_CAPBSET_DROP, capability, 0, 0, 0)
        os.setgroups([])
        os.setresgid(UID, UID, UID)
        os.setresuid(UID, UID, UID)
        LIBC.prctl(PR_SET_NO_NEW_PRIVS, 1, 0, 0, 0)

    def start(self, log):
        """Starts the unit's command line, with its output in a file, and returns the process."""
        self.make_folders()
        with open(log, "wb") as out:
            return subprocess.Popen(
                self.command(),
                env=self.environment(),
                stdout=out,
                stderr=out,
                stdin=subprocess.DEVNULL,
                preexec_fn=self.enter,
            )

    def probe(self, tries):
        """Makes each call of `tries` within the sandbox; returns the errno of each, 0 if none."""
        self.make_folders()
        read, write = os.pipe()
        child = os.fork()
        if child == 0:
            self.probe_in_child(tries, write)
        os.close(write)
        with os.fdopen(read) as pipe:
            lines = pipe.read().splitlines()
        os.waitpid(child, 0)
        return {name: int(number) for name, number in (line.split(" ") for line in lines)}

    def probe_in_child(self, tries, write):
        try:
            self.enter()
            for name, call in tries.items():
                try:
                    call()
                    number = 0
                except OSError as error:
                    number = error.errno
                os.write(write, f"{name} {number}\n".encode())
        except Exception as error:
            print(f"the sandbox was not made: {error}", file=sys.stderr, flush=True)
        finally:
            os._exit(0)
