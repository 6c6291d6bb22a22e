"""A station that serves HTTP on loopback over a target that counts steadily, and exchanges with it."""
import re
import socket
import subprocess
import sys
import tempfile
import time
from email.utils import parsedate_to_datetime
from pathlib import Path

from library.logged import Logged

HERE = Path(__file__).resolve().parent
SETTINGS = """station = 1
listen = "127.0.0.1:0"
file = "{folder}/{name}.mon"
window = 64
wait_ms = {wait}
[[target]]
address = "{address}"
community = "public"
engine = "8000000001"
tries = 1
objects = [ {objects} ]
"""
DATE = re.compile(rb"\r\nDate: ([^\r\n]*)\r\n")
AGE = re.compile(rb"(round \d+ ended )\d+( s ago\n)")
HEALTH = re.compile(rb"(ok|no round ended in time): round (\d+) ended (\d+) s ago\n|no round ended in time\n")
SECONDS = 60


class Target:
    """The program `steady.py`, and when polls came to it."""

    def __init__(self, folder, name, rate=0):
        self.file = Path(folder) / f"{name}.polls"
        words = [sys.executable, "-B", HERE / "steady.py", self.file, str(rate)]
        self.process = subprocess.Popen(words, stdout=subprocess.PIPE, stdin=subprocess.DEVNULL)
        self.address = self.process.stdout.readline().decode().strip()

    def polls(self):
        return [float(line) for line in self.file.read_text().splitlines()]

    def close(self):
        self.process.kill()
        self.process.wait()
        self.process.stdout.close()


class Station(Logged):
    """A station of one target with some instances, which serves HTTP or doesn't."""

    def __init__(self, program, folder, name, address, words, served=True, wait=20, many=4, environment=None, pass_fds=()):
        objects = ", ".join(f'{{ name = "mib-2.2.2.1.10.{n + 1}" }}' for n in range(many))
        self.program, self.settings = program, Path(folder) / f"{name}.toml"
        self.settings.write_text(SETTINGS.format(folder=folder, name=name, wait=wait, address=address, objects=objects))
        http = ["--http", "127.0.0.1:0"] if served else []
        super().__init__(folder, name, [program, "station", self.settings, *http, *words], env=environment, pass_fds=pass_fds)
        self.address = self.find_address() if served else None

    def find_address(self):
        """Where it serves HTTP, or None where it ended before that."""
        for _ in range(SECONDS * 100):
            found = re.search(r"^snmpmon: HTTP at (\S+):(\d+)$", self.said(), re.M)
            if found:
                return found[1], int(found[2])
            if not self.is_alive():
                return None
            time.sleep(0.01)
        return None


def connect(address, seconds=15):
    stream = socket.create_connection(address, seconds)
    stream.setsockopt(socket.IPPROTO_TCP, socket.TCP_NODELAY, 1)
    return stream


def read_all(stream):
    """What comes until the station closes, and whether it closed in order."""
    octets = b""
    try:
        while piece := stream.recv(65536):
            octets += piece
    except (ConnectionError, TimeoutError):
        return octets, False
    return octets, True


def exchange(address, pieces, ends=True):
    """What is answered to these pieces, of which the last one ends what is sent; and whether it was closed in order."""
    with connect(address) as stream:
        try:
            for piece in pieces:
                stream.sendall(piece)
            if ends:
                stream.shutdown(socket.SHUT_WR)
        except ConnectionError:
            pass
        return read_all(stream)


def undated(octets):
    """Responses without their dates."""
    return DATE.sub(b"\r\n", octets)


def dates(octets):
    return [parsedate_to_datetime(date.decode()) for date in DATE.findall(octets)]


def ageless(octets):
    """Responses without the seconds since the last round."""
    return AGE.sub(rb"\1N\2", octets)


def health_in(body):
    """Whether the body of /healthz says that rounds end in time, which ended last and how many seconds ago; None if it says neither."""
    found = HEALTH.fullmatch(body)
    return found and (found[1] == b"ok", *(number and int(number) for number in found.group(2, 3)))


def exchange_at_an_age(address, pieces):
    """An exchange during which the body of /healthz keeps its length, and that body before it."""
    before, after = b"", b"-"
    while len(before) != len(after):
        before = get(address, "/healthz")[1]
        told, closed = exchange(address, pieces)
        after = get(address, "/healthz")[1]
    return told, closed, before


def get(address, path, method="GET", accept=()):
    """The head and the body of a response to a request with these fields Accept."""
    fields = "".join(f"Accept: {value}\r\n" for value in accept)
    octets, _ = exchange(address, [f"{method} {path} HTTP/1.1\r\nHost: localhost\r\n{fields}Connection: close\r\n\r\n".encode()])
    head, _, body = octets.partition(b"\r\n\r\n")
    return head.decode(), body


class Folder:
    """A folder with a target, stations and what they write."""

    def __init__(self):
        self.folder, self.parts = tempfile.TemporaryDirectory(), []

    def target(self, name="target", rate=0):
        self.parts.append(Target(self.folder.name, name, rate))
        return self.parts[-1]

    def station(self, program, name, address, words, **more):
        self.parts.append(Station(program, self.folder.name, name, address, words, **more))
        return self.parts[-1]

    def __enter__(self):
        return self

    def __exit__(self, *_):
        for part in reversed(self.parts):
            part.close()
        self.folder.cleanup()
