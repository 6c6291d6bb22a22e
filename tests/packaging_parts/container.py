"""The image of a container, a station that runs in it, and the manifests for Kubernetes."""
import contextlib
import copy
import io
import json
import os
import re
import shutil
import tarfile
import tempfile
import time
from pathlib import Path

from library.lab import Lab
from library.ports import free_port
from library.web import get
from packaging_parts import manifests
from packaging_parts.common import PACKAGING, TOP, LeftOut, holds, need, ran, run, same
from packaging_parts.packages import digest
from packaging_parts.watched import replace
from packaging_parts.service import need_root

NAME = "snmpmon:tested"
STATE = "/var/lib/snmpmon"
USER = 65532
# The greatest size of an image, and of what it has besides the program.
IMAGE_SIZE, REST_SIZE = 20_000_000, 5_000_000
# A container has what the unit has: no privilege, no file but those of its volumes, few handles.
LIMITS = "--network host --read-only --cap-drop all --security-opt no-new-privileges".split()
LIMITS += "--ulimit nofile=64:64 --ulimit nproc=64:64".split()
# Where crun refuses a system that has control groups of both versions, it starts containers if it
# doesn't see those of version 2.
WITHOUT_UNIFIED = ["unshare", "--mount", "sh", "-c"]
WITHOUT_UNIFIED += ['umount /sys/fs/cgroup/unified; exec "$@"', "sh"]
HEALTH_CHECK = ["CMD", "/usr/bin/snmpmon", "healthz", "127.0.0.1:9732"]
# How long what is waited for may take.
SECONDS = 600
# The first objects of two interfaces of examples/agent-large.toml: the start of the count and what
# is counted in a second.
COUNTED = {"1.3.6.1.2.1.31.1.1.1.6.1": (4294900000, 125000)}
COUNTED |= {"1.3.6.1.2.1.31.1.1.1.6.3": (500, 2000)}
ENGINES = ["80007ed903505152535455", "80007ed903505152535456"]
STATION = """station = 1
listen = "127.0.0.1:{port}"
file = "edge.mon"
window = 64
wait_ms = 200
"""
TARGET = """
[[target]]
address = "127.0.0.1:{port}"
community = "public"
engine = "{engine}"
tries = 3
objects = [ {{ name = "mib-2.31.1.1.1.6.1" }}, {{ name = "mib-2.31.1.1.1.6.3" }} ]
"""


class Storage:
    """Podman or buildah, with images, containers and volumes in a folder of its own."""

    def __init__(self, tool, folder):
        need(tool, "ldd")
        self.tool, self.folder = tool, Path(folder)
        self.words = [tool, "--storage-driver", "vfs", "--root", f"{folder}/images"]
        self.words += ["--runroot", f"{folder}/run"]
        if tool == "podman":
            self.words += ["--tmpdir", f"{folder}/tmp"]
        (self.folder / "Containerfile").write_text("FROM scratch\nCOPY Containerfile /\n")
        status, said = run(*self.words, "build", "--tag", "small", self.folder)
        if status != 0:
            raise LeftOut(f"{tool} builds no image here: {said[-300:].strip()}")

    def __call__(self, *words):
        return ran(*self.words, *words)

    def build(self, program, **environment):
        """Builds the image and returns its id."""
        more = {"BUILDER": " ".join(self.words)} | environment
        words = PACKAGING / "container", program, NAME
        printed = ran(*words, env=os.environ | more, umask=0o077)
        same("the last line of packaging/container", printed.splitlines()[-1], NAME)
        return self("images", "--quiet", "--no-trunc", NAME).strip()

    def image(self):
        """The image, as it would be sent to a registry."""
        archive = self.folder / f"{time.monotonic_ns()}.tar"
        if self.tool == "podman":
            self("save", "--format", "oci-archive", "--output", archive, NAME)
        else:
            self("push", NAME, f"oci-archive:{archive}")
        return Image(archive)

    def close(self):
        """Removes what runs in it and all that it keeps."""
        if self.tool == "podman":
            self("rm", "--force", "--time", "0", "--all")
            self("volume", "rm", "--force", "--all")
        self("rmi", "--force", "--all")


class Image:
    """What an archive of the OCI's format has: the configuration, and each file with its octets."""

    def __init__(self, archive):
        self.files = {}
        with tarfile.open(archive) as tar:
            index = json.load(tar.extractfile("index.json"))
            manifest = json.loads(blob_of(tar, index["manifests"][0]))
            self.config = json.loads(blob_of(tar, manifest["config"]))["config"]
            for layer in manifest["layers"]:
                self.add(blob_of(tar, layer))

    def add(self, layer):
        with tarfile.open(fileobj=io.BytesIO(layer)) as tar:
            for entry in tar:
                octets = tar.extractfile(entry).read() if entry.isreg() else b""
                self.files["/" + entry.name.strip("/")] = entry, octets

    def named(self, holds_of):
        """The paths of the files and folders of which this holds."""
        return sorted(path for path, (entry, _) in self.files.items() if holds_of(entry))


def blob_of(tar, descriptor):
    return tar.extractfile("blobs/" + descriptor["digest"].replace(":", "/")).read()


def libraries_of(program):
    """The files that a program loads; none if it is static."""
    return re.findall(r"(/\S+) \(0x", run("ldd", program)[1])


def check_files(image, program):
    """Only the program and what it loads can be executed, so there is no shell."""
    sources = {"/usr/bin/snmpmon": program} | {path: path for path in libraries_of(program)}
    executed = image.named(lambda it: not it.isdir() and it.mode & 0o111)
    same("what can be executed, or is a link", executed, sorted(sources))
    for path, source in sources.items():
        same(f"octets of {path}", image.files[path][1] == Path(source).read_bytes(), True)
    same("files by their kind", image.named(lambda it: not it.isdir() and not it.isreg()), [])
    writable = image.named(lambda it: it.mode & 0o6022)
    same("files that others may write, or that give a user", writable, [])
    same("what is not root's", image.named(lambda it: (it.uid, it.gid) != (0, 0)), [STATE])
    entry = image.files[STATE][0]
    found = entry.uid, entry.gid, entry.mode & 0o7777
    same("owner and mode of the folder", found, (USER, USER, 0o755))
    hidden = image.named(lambda it: it.mode & 0o444 != 0o444)
    same("files that not all may read", hidden, [])


def check_contents(image):
    """It has its licence, and the files that the manifests name."""
    build = dict(
        line.split(" ", 1)
        for line in image.files["/usr/share/doc/snmpmon/BUILD"][1].decode().splitlines()
    )
    commit = ran("git", "-C", TOP, "rev-parse", "HEAD").strip()
    same("the commit of BUILD", build["commit"], commit)
    for path in ["/etc/snmpmon", "/usr/share/doc/snmpmon/LICENSE", *manifests.paths_of_image()]:
        holds(f"the image has no {path}", path in image.files)


def check_config(image):
    same("its user", image.config.get("User"), f"{USER}:{USER}")
    same("its entry point", image.config.get("Entrypoint"), ["/usr/bin/snmpmon"])
    same("its volumes", image.config.get("Volumes"), {STATE: {}})
    same("its folder", image.config.get("WorkingDir"), STATE)
    same("the signal that stops it", image.config.get("StopSignal"), "SIGKILL")


def check_size(image, program):
    """A program of a trial run is larger than a proved one: then only the rest counts."""
    sizes = {path: len(octets) for path, (_, octets) in image.files.items()}
    rest = sum(sizes.values()) - sizes["/usr/bin/snmpmon"]
    holds(f"{rest} octets besides the program", rest < REST_SIZE)
    is_trial = b"__asan_init" in Path(program).read_bytes()
    holds(f"{sum(sizes.values())} octets", is_trial or sum(sizes.values()) < IMAGE_SIZE)


def check_image(image, program):
    check_files(image, program)
    check_contents(image)
    check_config(image)
    check_size(image, program)


def wrong_images(image, program):
    """Images that are wrong in one place each."""

    def wrong():
        made = copy.copy(image)
        made.files, made.config = dict(image.files), dict(image.config)
        return made

    def added(path, octets, **attributes):
        entry, made = copy.copy(image.files["/usr/share/doc/snmpmon/LICENSE"][0]), wrong()
        for name, value in attributes.items():
            setattr(entry, name, value)
        made.files[path] = entry, octets
        return made

    yield "a shell", added("/bin/sh", b"shell", mode=0o755)
    yield "a shell by a link", added("/bin/sh", b"", type=tarfile.SYMTYPE, linkname="/lib/ld")
    yield "a file that all may write", added("/etc/settings", b"", mode=0o666)
    yield "a file of its user", added("/etc/settings", b"", uid=USER)
    yield "much", added("/usr/share/much", b" " * REST_SIZE)
    for path in ["/usr/bin/snmpmon", *libraries_of(program)]:
        yield f"another {path}", added(path, b"other", mode=0o755)
    for path in ["/etc/snmpmon", STATE, "/usr/share/doc/snmpmon/LICENSE"]:
        made = wrong()
        del made.files[path]
        yield f"no {path}", made
    for key, value in {"User": "0:0", "Entrypoint": ["/bin/sh"], "StopSignal": "SIGTERM"}.items():
        made = wrong()
        made.config[key] = value
        yield f"{key} {value}", made


def refused(check, *words):
    """Returns true if a check fails."""
    try:
        check(*words)
    except (AssertionError, KeyError, ValueError):
        return True
    return False


def try_tool(tool, program):
    """Builds the image twice, by other zones and locales, and looks into it."""
    with tempfile.TemporaryDirectory() as folder, contextlib.ExitStack() as stack:
        storage = Storage(tool, folder)
        stack.callback(storage.close)
        ids = [storage.build(program, TZ="UTC"), storage.build(program, TZ="Asia/Tokyo")]
        same("ids of two builds", ids[0], ids[1])
        image = storage.image()
        check_image(image, program)
        for what, wrong in wrong_images(image, program):
            holds(f"an image with {what} is not refused", refused(check_image, wrong, program))
        storage.build(program, BUILDAH_FORMAT="docker")
        same("its health check in Docker's format", health_check(storage), HEALTH_CHECK)


def health_check(storage):
    """The command of the image's health check; the OCI's format has none."""
    said = json.loads(storage("inspect", "--type", "image", NAME))
    found = said[0]["Healthcheck"] if storage.tool == "podman" else said["Docker"]["config"]["Healthcheck"]
    return found["Test"]


def try_podman(program):
    try_tool("podman", program)


def try_buildah(program):
    try_tool("buildah", program)


class Edge:
    """Two agents outside, and a station in a container, over a volume and the host's network."""

    def __init__(self, podman, lab):
        self.podman, self.lab = podman, lab
        self.prefix, self.more = self.find_way()
        self.address = "127.0.0.1", free_port()
        self.write_settings(lab.ports["16110"], lab.ports["16102"])

    def write_settings(self, first, second):
        """Writes those of another agent, and those of a station that polls both by these ports."""
        folder = self.lab.folder
        shutil.copy(folder / "agent-large.toml", folder / "agent-two.toml")
        listens = f"127.0.0.1:{first}", f"127.0.0.1:{second}"
        replace(folder / "agent-two.toml", listens, (ENGINES[0], ENGINES[1]))
        text = STATION.format(port=self.lab.ports["16101"])
        for port, engine in zip((first, second), ENGINES):
            text += TARGET.format(port=port, engine=engine)
        (folder / "etc").mkdir()
        (folder / "etc/edge.toml").write_text(text)

    def find_way(self):
        """How podman runs a container here: a program that is not ours must end well in it."""
        root = self.podman.folder / "true"
        for path in [shutil.which("true"), *libraries_of(shutil.which("true"))]:
            to = root / path[1:]
            to.parent.mkdir(parents=True, exist_ok=True)
            shutil.copy(os.path.realpath(path), to)
        for prefix in ([], WITHOUT_UNIFIED):
            for more in ([], ["--cgroups=disabled"]):
                words = [*prefix, *self.podman.words, "run", "--rm", *LIMITS, *more]
                status, said = run(*words, "--rootfs", root, shutil.which("true"))
                if status == 0:
                    return prefix, more
        raise LeftOut(f"podman runs no container here: {said[-300:].strip()}")

    def command(self, *words):
        return ran(*self.prefix, *self.podman.words, *words)

    def start_agents(self, boots):
        for name in ("agent-large", "agent-two"):
            words = ("--count", "4294967295", "--boots", boots)
            self.lab.start("agent", f"{name}.toml", *words)

    def kill_agents(self):
        for number in range(len(self.lab.running)):
            self.lab.kill(number)

    def start_station(self):
        settings = f"{self.lab.folder}/etc:/etc/snmpmon:ro,Z"
        volumes = "--volume", settings, "--volume", f"state:{STATE}"
        made = "run", "--detach", "--name", "edge", *LIMITS, *self.more, *volumes, NAME
        words = "--rounds", "1000000", "--interval", "1", "--http", "{}:{}".format(*self.address)
        self.command(*made, "station", "/etc/snmpmon/edge.toml", *words)

    def answer(self, path):
        """The head and the body of what the station serves; empty if it doesn't serve."""
        try:
            return get(self.address, path)
        except OSError:
            return "", b""

    def report(self):
        """The report that the station serves, or None if it serves none."""
        head, body = self.answer("/report.json")
        return json.loads(body) if head.startswith("HTTP/1.1 200 ") else None

    def is_healthy(self, _):
        return self.answer("/healthz")[0].startswith("HTTP/1.1 200 ")

    def wait_for(self, what, found):
        """Waits for a report of which this holds, and returns it."""
        end = time.monotonic() + SECONDS
        while time.monotonic() < end:
            report = self.report()
            if report and found(report):
                return report
            time.sleep(0.2)
        said = self.command("logs", "edge")
        raise AssertionError(f"{what}: not in {SECONDS} s; the station said {said[-600:]!r}")


def windows_of(report):
    return {(it["engine"], it["name"]): it["samples"] for it in report["instances"]}


def polls_given_up(report):
    return [target["given_up"] for target in report["station"]["targets"]]


def check_windows(windows):
    """They are of both agents, and each value is what its agent counts in that time."""
    expected = {(engine, name) for engine in ENGINES for name in COUNTED}
    same("instances", set(windows), expected)
    for (_, name), samples in windows.items():
        start, rate = COUNTED[name]
        for sample in samples:
            same(name, int(sample["value"]), start + rate * sample["time"])


def try_first_life(edge):
    """The station takes samples of both agents until these end; returns its windows."""
    edge.start_agents("1")
    edge.start_station()
    edge.wait_for(
        "samples of all instances",
        lambda it: min(len(samples) for samples in windows_of(it).values()) >= 3,
    )
    pid = edge.command("inspect", "--format", "{{.State.Pid}}", "edge").strip()
    status = Path(f"/proc/{pid}/status").read_text()
    same("its user", re.search(r"^Uid:\t(.*)$", status, re.M)[1].split(), [str(USER)] * 4)
    same("its capabilities", re.search(r"^CapEff:\t(.*)$", status, re.M)[1], "0" * 16)
    edge.kill_agents()
    # From the first poll that is given up now no sample comes.
    before = polls_given_up(edge.wait_for("a report", bool))
    report = edge.wait_for(
        "the end of both agents",
        lambda it: all(one > other for one, other in zip(polls_given_up(it), before)),
    )
    same("its incarnation", report["station"]["incarnation"], 1)
    check_windows(windows_of(report))
    return windows_of(report)


def check_file(edge, windows):
    """The program outside reads the file in the volume: it has these windows."""
    volume = edge.command("volume", "inspect", "--format", "{{.Mountpoint}}", "state").strip()
    out, _, status = edge.lab.run("report", "--file", f"{volume}/edge.mon", "--format", "json")
    same("status of report", status, 0)
    same("windows in the file", windows_of(json.loads(out)), windows)
    kept = (Path(volume) / "edge.mon").stat()
    same("owner and size of the file", (kept.st_uid, kept.st_size), (USER, 2097152))


def try_second_life(edge, windows):
    """In another container over the volume it has these windows, and goes on."""
    edge.start_station()
    report = edge.wait_for("a report", bool)
    same("windows after a kill", windows_of(report), windows)
    same("the incarnation after a kill", report["station"]["incarnation"], 2)
    edge.start_agents("2")
    report = edge.wait_for(
        "samples after a kill",
        lambda it: all(samples[-1]["boots"] == 2 for samples in windows_of(it).values()),
    )
    check_windows(windows_of(report))
    edge.wait_for("a round in time", edge.is_healthy)
    asked = edge.lab.run("healthz", "{}:{}".format(*edge.address))
    same("what healthz says", (asked[0], asked[2]), ("healthy\n", 0))


def live(edge):
    windows = try_first_life(edge)
    edge.command("kill", "edge")
    same("status of a station that is killed", edge.command("wait", "edge").strip(), "137")
    edge.command("rm", "edge")
    check_file(edge, windows)
    try_second_life(edge, windows)
    # (it comes back at once: else the case would not end in its time)
    edge.command("stop", "--time", "100000", "edge")


def left_of(folder):
    """The processes that name this folder."""
    lines = {path: read_line(path) for path in Path("/proc").glob("[0-9]*/cmdline")}
    return [line for line in lines.values() if str(folder) in line]


def read_line(path):
    try:
        return path.read_text(errors="replace").replace("\0", " ")
    except OSError:
        return ""


def try_station(program):
    """A station is killed in its container: its windows and its incarnation are kept. A minute."""
    need_root()
    with tempfile.TemporaryDirectory() as folder, contextlib.ExitStack() as stack:
        stack.callback(lambda: same("what runs after it", left_of(folder), []))
        (Path(folder) / "podman").mkdir()
        podman = Storage("podman", f"{folder}/podman")
        stack.callback(podman.close)
        podman.build(program)
        (Path(folder) / "lab").mkdir()
        lab = Lab(program, f"{folder}/lab")
        stack.callback(lab.close)
        live(Edge(podman, lab))
    holds("its folder is left", not Path(folder).exists())


def try_manifests(program):
    """The manifests name one another and the program accepts their settings; wrong ones fail."""
    manifests.check_all(manifests.FOLDER, program)
    with tempfile.TemporaryDirectory() as folder:
        for name, text, other in manifests.WRONG:
            shutil.copytree(manifests.FOLDER, folder, dirs_exist_ok=True)
            replace(Path(folder) / name, (text, other))
            is_refused = refused(manifests.check_all, Path(folder), program)
            holds(f"{other!r} for {text!r} in {name} is not refused", is_refused)


def try_kubectl(_):
    """Kubernetes' types have each field of the stations' manifests."""
    need("kubectl")
    manifests.check_types(manifests.FOLDER)
    with tempfile.TemporaryDirectory() as folder:
        shutil.copytree(manifests.FOLDER, folder, dirs_exist_ok=True)
        replace(Path(folder) / "stations.yaml", ("livenessProbe:", "livenesProbe:"))
        is_refused = refused(manifests.check_types, Path(folder))
        holds("a field that Kubernetes has not is not refused", is_refused)
