"""A lab: an agent and two stations of examples/ on free ports of loopback, in a folder of their own."""
import re
import signal
import subprocess
import tempfile
import time
import tomllib
from pathlib import Path

from library.cases import Case
from library.crates import TOP
from library.ports import free_port
from models import images
from models import slots
from models import watches

# How long a process may take for what is waited for.
SECONDS = 180
# What `report` says of a file's age.
AGE = re.compile(r"^snmpmon: \S+ was saved \d+ s ago\n")


def wait_until(what, lasting=0):
    """Waits until this has been true for so many seconds. Returns False if that takes too long."""
    end, since = time.monotonic() + SECONDS, None
    while time.monotonic() < end:
        since = (since or time.monotonic()) if what() else None
        if since and time.monotonic() - since >= lasting:
            return True
        time.sleep(0.1)
    return False


class Lab:
    """A folder with the settings of an agent and two stations, on free ports, and the processes that run by them."""

    def __init__(self, program, folder):
        self.program, self.folder, self.running = program, Path(folder), []
        ports = {"16110": free_port(), "16101": free_port(), "16102": free_port()}
        for name in ("agent-large", "station-two-a", "station-two-b"):
            text = (TOP / f"examples/{name}.toml").read_text()
            for was, port in ports.items():
                text = text.replace(f":{was}", f":{port}")
            (self.folder / f"{name}.toml").write_text(text)
        self.ports = ports

    def start(self, *words):
        """A process whose streams go to files, since nobody reads them while it runs."""
        number = len(self.running)
        streams = [open(self.folder / f"{number}.{which}", "w+b") for which in ("stdout", "stderr")]
        process = subprocess.Popen([self.program, *words], cwd=self.folder, stdin=subprocess.DEVNULL, stdout=streams[0], stderr=streams[1])
        self.running.append((process, *streams))
        return number

    def said(self, number, stream):
        return (self.folder / f"{number}.{stream}").read_text()

    def agent(self):
        return self.start("agent", "agent-large.toml", "--count", "4294967295")

    def station(self, which, rounds, *more):
        return self.start("station", f"station-two-{which}.toml", "--rounds", str(rounds), *more)

    def station_of(self, settings, rounds, *more):
        return self.start("station", settings, "--rounds", rounds, *more)

    def wait_for(self, number, what):
        """Waits until a process has said this on standard error."""
        for _ in range(SECONDS * 20):
            if re.search(what, self.said(number, "stderr")):
                return True
            time.sleep(0.05)
        return False

    def kill(self, number):
        process = self.running[number][0]
        process.send_signal(signal.SIGKILL)
        process.wait()

    def ended(self, number):
        """The status of a process that is to end by itself."""
        try:
            return self.running[number][0].wait(SECONDS)
        except subprocess.TimeoutExpired:
            return None

    def run(self, *words, **more):
        done = subprocess.run([self.program, *words], cwd=self.folder, stdin=subprocess.DEVNULL, capture_output=True, timeout=SECONDS, **more)
        return done.stdout.decode(), done.stderr.decode(), done.returncode

    def report(self, *words):
        """What `report` prints, what else it says than how old the file is, and its status."""
        out, err, status = self.run("report", *words)
        return out, AGE.sub("", err, count=1), status

    def windows(self, settings):
        """The windows in the file of a station, by instance, as models read it; none while they can't, as within a save."""
        path = self.folder / settings
        watch, file = watches.watch_of(path), self.folder / tomllib.loads(path.read_text())["file"]
        try:
            return {(it.engine, it.name): records for it, records in zip(watch, watches.saved(file, watch)[1])}
        except (images.Refused, slots.Refused):
            return {}

    def close(self):
        for process, *streams in self.running:
            if process.poll() is None:
                process.kill()
            process.wait()
            for stream in streams:
                stream.close()


def in_lab(run, name=None, alone=False):
    """A case that is tried in a lab of its own."""
    def tried(checks, words):
        with tempfile.TemporaryDirectory() as folder:
            lab = Lab(words.program, folder)
            try:
                run(lab, checks)
            finally:
                lab.close()

    return Case(name or run.__name__.replace("_", "-"), tried, alone)
