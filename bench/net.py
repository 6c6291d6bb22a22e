"""Agents on loopback that serve interfaces, settings of stations that poll them, and the processor time of processes."""
import os
import resource
import subprocess
import sys
import time
from dataclasses import dataclass
from pathlib import Path

TOP = Path(__file__).resolve().parent.parent
sys.path.append(str(TOP / "tests"))
from library.ports import free_port  # noqa: E402
from models import images  # noqa: E402
from models import slots  # noqa: E402

PROGRAM = TOP / "crates/snmpmon/out/snmpmon"
ENGINE = "8000000001"
TICKS = os.sysconf("SC_CLK_TCK")
# ifHCInOctets, ifHCOutOctets, ifHCInUcastPkts, whose mark is ifCounterDiscontinuityTime, and ifInErrors.
COLUMNS = ["1.3.6.1.2.1.31.1.1.1.6", "1.3.6.1.2.1.31.1.1.1.10", "1.3.6.1.2.1.31.1.1.1.7", "1.3.6.1.2.1.2.2.1.14"]
MARK = "1.3.6.1.2.1.31.1.1.1.19"
IN_PACKETS = "1.3.6.1.2.1.11.1.0"

AGENT = """listen = "{listen}"
limit = 8192
engine = "{engine}"
descr = ""
object_id = "1.3.6.1.4.1.32473.1"
contact = ""
name = ""
location = ""
services = 4
community = [{{ community = "public", security = "ro" }}]
group = [{{ security = "ro", group = "g" }}]
access = [{{ group = "g", model = 2, read = "all" }}]
view = [{{ view = "all", subtree = "1.3.6.1", included = true }}]
"""

INTERFACE = """[[interface]]
index = {0}
descr = "e{0}"
type = 6
mtu = 1500
speed = 1000000000
phys = ""
name = "e{0}"
alias = ""
in_octets = {{ start = 0, rate = {0}000 }}
in_packets = {{ start = 0, rate = {0} }}
out_octets = {{ start = 0, rate = {0}000 }}
out_packets = {{ start = 0, rate = {0} }}
"""

STATION = """station = {number}
listen = "{listen}"
file = "{file}"
window = {window}
wait_ms = {wait}
"""


class Net:
    """Agents, each given by its address, its engine id and the numbers of its interfaces. Agent N listens on an address of its own."""

    def __init__(self, folder, agents, each):
        self.folder, self.agents, self.processes = Path(folder), [], []
        port = free_port()
        for number in range(agents):
            host = f"127.0.{1 + number // 250}.{1 + number % 250}"
            self.start(f"{host}:{port}", f"80000000{number + 1:04x}", range(number * each + 1, (number + 1) * each + 1))

    def start(self, address, engine, interfaces):
        settings = self.folder / f"agent{len(self.agents)}.toml"
        settings.write_text(AGENT.format(listen=address, engine=engine) + "".join(INTERFACE.format(i) for i in interfaces))
        words = [PROGRAM, "agent", settings, "--count", "4294967295"]
        process = subprocess.Popen(words, stderr=subprocess.PIPE, stdin=subprocess.DEVNULL)
        self.processes.append(process)
        said = process.stderr.readline().decode()
        assert "agent at" in said, said
        self.agents.append((address, engine, list(interfaces)))

    def heard(self):
        """How many datagrams all agents have heard."""
        return sum(
            int(subprocess.run([PROGRAM, "get", address, "public", IN_PACKETS], capture_output=True, check=True, text=True).stdout.split()[-1])
            for address, _, _ in self.agents
        )

    def stop(self):
        for process in self.processes:
            process.kill()
            process.wait()
            process.stderr.close()

    def __enter__(self):
        return self

    def __exit__(self, *_):
        self.stop()


def target(agent, interfaces, marks=True):
    """The settings of a target: four objects of each of some interfaces of an agent, three of them with their mark, or none."""
    address, engine, _ = agent
    marked = 3 if marks else 0
    objects = []
    for i in interfaces:
        objects += [f'{{ name = "{column}.{i}", mark = "{MARK}.{i}" }}' for column in COLUMNS[:marked]]
        objects += [f'{{ name = "{column}.{i}" }}' for column in COLUMNS[marked:]]
    return f'[[target]]\naddress = "{address}"\ncommunity = "public"\nengine = "{engine}"\ntries = 2\nobjects = [{", ".join(objects)}]\n'


def targets(agents, at_once=4, marks=True):
    """The settings of targets for all interfaces of some agents, so many interfaces in each poll."""
    cut = [(agent, agent[2][first : first + at_once]) for agent in agents for first in range(0, len(agent[2]), at_once)]
    return "".join(target(agent, interfaces, marks) for agent, interfaces in cut)


def instances(interface):
    return [f"{column}.{interface}" for column in COLUMNS]


def full_image(net, window):
    """An image in which each window is full, with samples of before the agents' start."""
    records = [(0).to_bytes(4, "big") + time.to_bytes(4, "big") + bytes(4) + b"\x46" + bytes(8) for time in range(window)]
    names = sorted((bytes.fromhex(engine), tuple(map(int, name.split(".")))) for _, engine, its in net.agents for i in its for name in instances(i))
    watch = [images.Watched(engine, name, window, window) for engine, name in names]
    return images.written(2, watch, 1, [(window, window, records)] * len(watch))


def fill(net, file, window):
    """Makes a station's file in which each window is full."""
    file.write_bytes(slots.saved(slots.laid_out(b""), full_image(net, window)))


def rules(net, agents=None):
    """The settings of an alarm on each instance of the first agents, which no sample raises."""
    return "".join(
        f'[[alarm]]\nengine = "{engine}"\nname = "{name}"\nrising = {10**18}\nfalling = {10**17}\n'
        for _, engine, its in net.agents[:agents] for i in its for name in instances(i)
    )


def used_by(process):
    """The processor time that a running process has used, user and system, in seconds."""
    fields = Path(f"/proc/{process.pid}/stat").read_text().rpartition(")")[2].split()
    return (int(fields[11]) + int(fields[12])) / TICKS


@dataclass
class Spent:
    """What a command took: seconds of processor and by the clock; and what it printed and said."""

    used: float
    wall: float
    out: str
    err: str


def spent(words):
    before, began = resource.getrusage(resource.RUSAGE_CHILDREN), time.monotonic()
    done = subprocess.run(words, stdin=subprocess.DEVNULL, capture_output=True, check=True, text=True)
    after = resource.getrusage(resource.RUSAGE_CHILDREN)
    return Spent(after.ru_utime + after.ru_stime - before.ru_utime - before.ru_stime, time.monotonic() - began, done.stdout, done.stderr)
