"""Two stations that are peers, their agents, and Prometheus with the installed rules."""
import json
import shutil
import socket
import subprocess
import time
import urllib.parse
import urllib.request

from library.ports import free_port
from library.web import get
from packaging_parts.common import PACKAGING, TOP, holds, same

FOLDER = PACKAGING / "prometheus"
RULES, ALERTS = "snmpmon-rules.yml", "snmpmon-alerts.yml"
# How long what is waited for may take: a slow machine may need most of it.
SECONDS = 180
# What the stations read beside the octets of examples/station-two-a.toml: packets, errors, packets
# that were dropped, and the state of the first interface.
MORE = "".join(
    f'    {{ name = "mib-2.{name}", mark = "mib-2.31.1.1.1.19.1" }},\n'
    for name in "31.1.1.1.7.1 31.1.1.1.11.1 2.2.1.14.1 2.2.1.20.1 2.2.1.13.1 2.2.1.19.1".split()
) + '    { name = "mib-2.2.2.1.8.1" },\n'
# A device without a label, which has no answer.
DEAD = """
[[target]]
address = "{}"
community = "public"
engine = "{}"
tries = 1
objects = [{{ name = "mib-2.2.2.1.10.1" }}]
"""
PEER = '\n[[peer]]\nstation = 3\naddress = "{}"\n'


def replace(path, *changes):
    """Replaces texts of a file, each of which it must have."""
    text = path.read_text()
    for was, then in changes:
        holds(f"{path.name} has no {was!r}", was in text)
        text = text.replace(was, then)
    path.write_text(text)


def asked(port, path, **query):
    with urllib.request.urlopen(
        f"http://127.0.0.1:{port}/api/v1/{path}?{urllib.parse.urlencode(query, doseq=True)}",
        timeout=60,
    ) as reply:
        return json.load(reply)["data"]


def is_healthy(port):
    """Returns True if a station has ended a round."""
    try:
        return get(("127.0.0.1", port), "/healthz")[0].startswith("HTTP/1.1 200 ")
    except OSError:
        return False


def silent_address(stack):
    """An address at which nothing answers, and which nobody else gets meanwhile."""
    port = stack.enter_context(socket.socket(socket.AF_INET, socket.SOCK_DGRAM))
    port.bind(("127.0.0.1", 0))
    return f"127.0.0.1:{port.getsockname()[1]}"


class Watched:
    """An agent, two stations that are peers, and Prometheus with the installed files.

    The agent is device edge1. Stations have --station-label, and know ifName, ifAlias and speeds.
    """

    def __init__(self, lab, stack):
        self.lab, self.stack, self.folder = lab, stack, lab.folder / "prometheus"
        self.ports = [free_port() for _ in range(4)]
        self.agent, self.stations = lab.agent(), {}
        self.device = f"127.0.0.1:{lab.ports['16110']}"

    def settings(self, which):
        return self.lab.folder / f"station-two-{which}.toml"

    def name_device(self):
        """Gives the device its label, and more that is read of it."""
        octets = '    { name = "mib-2.31.1.1.1.6.2"'
        for which in "ab":
            label = ("tries = 3\n", 'tries = 3\nlabel = "edge1"\n')
            replace(self.settings(which), label, (octets, MORE + octets))

    def add_faults(self):
        """Adds a device of another engine, and a device and a peer of the first that are silent."""
        self.dead, self.silent = f"127.0.0.1:{free_port()}", silent_address(self.stack)
        text = (self.lab.folder / "agent-large.toml").read_text().replace(self.device, self.dead)
        (self.lab.folder / "agent-dead.toml").write_text(text)
        self.lab.start("agent", "agent-dead.toml", "--count", "4294967295")
        for which in "ab":
            with self.settings(which).open("a") as file:
                file.write(DEAD.format(self.dead, "8000000001"))
                file.write(DEAD.format(self.silent, "8000000002"))
        with self.settings("a").open("a") as file:
            file.write(PEER.format(silent_address(self.stack)))

    def start_stations(self):
        """Starts both, and waits until each has ended a round."""
        lab = self.lab
        names = ("--names", "-m", str(TOP / "examples/served.mib"), "--station-label")
        end = time.monotonic() + SECONDS
        while True:
            _, said, status = lab.run("settings", self.device, "public", "--labels", "labels.toml")
            if status == 0 or time.monotonic() > end:
                break
        same(f"status of settings: {said}", status, 0)
        for which, port in zip("ab", self.ports):
            http_words = ("--labels", "labels.toml", "--http", f"127.0.0.1:{port}")
            words = ("--interval", "1", *names, *http_words)
            self.stations[which] = lab.station(which, 100000, *words)
        for port in self.ports[:2]:
            self.wait_for("a round", lambda port=port: is_healthy(port))

    def write_settings(self):
        """The installed files, with ports of this lab and shorter times."""
        shutil.copytree(FOLDER, self.folder)
        targets = [(f"192.0.2.1{k}:9732", f"127.0.0.1:{self.ports[k - 1]}") for k in (1, 2)]
        replace(self.folder / "targets/edge.yml", *targets)
        replace(
            self.folder / "prometheus.yml",
            ("scrape_interval: 15s", "scrape_interval: 3s"),
            ("evaluation_interval: 15s", "evaluation_interval: 1s"),
            ("127.0.0.1:9093", f"127.0.0.1:{self.ports[2]}"),
        )

    def start_server(self, *words):
        """Starts a server, whose log is kept in the lab until it ends."""
        log = self.stack.enter_context(open(self.lab.folder / f"{words[0]}.log", "wb"))
        server = subprocess.Popen(words, stdout=log, stderr=log)
        self.stack.callback(server.wait)
        self.stack.callback(server.terminate)

    def start_prometheus(self):
        self.start_server(
            "prometheus",
            f"--config.file={self.folder}/prometheus.yml",
            f"--storage.tsdb.path={self.folder}/data",
            f"--web.listen-address=127.0.0.1:{self.ports[3]}",
        )

    def series(self, query):
        """The series of a query, as Prometheus has them now: labels, and a value each."""
        try:
            result = asked(self.ports[3], "query", query=query)["result"]
        except OSError:
            return []
        return [(it["metric"], float(it["value"][1])) for it in result]

    def wait_for(self, what, found, more=lambda: ""):
        """Waits until a function returns something true, and returns it."""
        end = time.monotonic() + SECONDS
        while time.monotonic() < end:
            if result := found():
                return result
            time.sleep(0.1)
        raise AssertionError(f"{what}: not in {SECONDS} s; {more()}")
