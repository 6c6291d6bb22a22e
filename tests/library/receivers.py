"""A receiver of notifications on loopback: it keeps what comes on each connection, and answers by acts, one for each connection, the last one again and
again. What came is read by RFC 9112 alone."""
import contextlib
import re
import socket
import struct
import threading
import time
from dataclasses import dataclass, field

SECONDS = 30
LINE = re.compile(rb"([A-Z]+) (\S+) HTTP/1\.1")
FIELD = re.compile(rb"([!#$%&'*+.^_`|~0-9A-Za-z-]+):[ \t]*(.*?)[ \t]*")
# SO_LINGER with no time: the connection is reset when it is closed.
RESET = struct.pack("ii", 1, 0)


@dataclass
class Visit:
    """A connection: when it came, was answered and its client was gone, by the monotonic clock, when its request was whole by the wall clock, and its
    octets; what surely becomes of its text, if an act says so, and how many octets it was flooded with."""

    number: int
    came: float
    octets: bytes = b""
    whole_at: float | None = None
    gone: float | None = None
    answered: float | None = None
    verdict: str = "any"
    flooded: int = 0
    faults: list = field(default_factory=list)

    def parts(self):
        """The request line, the fields by their names in small letters, and the body; or None if the request is not whole."""
        head, end, body = self.octets.partition(b"\r\n\r\n")
        line, *lines = head.split(b"\r\n")
        fields = [FIELD.fullmatch(it) for it in lines]
        if not end or not all(fields) or not LINE.fullmatch(line):
            return None
        return line, {it[1].decode().lower(): it[2] for it in fields}, body

    def is_whole(self):
        """Whether the whole request came."""
        parts = self.parts()
        if parts is None or not parts[1].get("content-length", b"").isdigit():
            return False
        return len(parts[2]) >= int(parts[1]["content-length"])

    def body(self):
        return self.parts()[2]


class Receiver:
    """Listens on a free port; if it is dead at first, nothing listens there until `revive`. `visits` are in the order in which they came."""

    def __init__(self, *acts, is_dead=False):
        self.acts, self.visits, self.streams, self.lock = list(acts) or [answer()], [], [], threading.Lock()
        self.listener = socket.socket()
        self.listener.bind(("127.0.0.1", 0))
        self.port = self.listener.getsockname()[1]
        self.address = f"127.0.0.1:{self.port}"
        if not is_dead:
            self.revive()

    def revive(self):
        self.listener.listen(128)
        threading.Thread(target=self.serve, daemon=True).start()

    def url(self, path="/alerts"):
        return f"http://{self.address}{path}"

    def serve(self):
        while True:
            try:
                stream, _ = self.listener.accept()
            except OSError:
                return
            with self.lock:
                visit = Visit(len(self.visits) + 1, time.monotonic())
                self.visits.append(visit)
                self.streams.append(stream)
                act = self.acts[min(visit.number, len(self.acts)) - 1]
            threading.Thread(target=self.receive, args=(stream, visit, act), daemon=True).start()

    def receive(self, stream, visit, act):
        stream.setsockopt(socket.IPPROTO_TCP, socket.TCP_NODELAY, 1)
        stream.settimeout(SECONDS)
        with stream:
            try:
                act(stream, visit)
            except OSError as error:
                visit.faults.append(repr(error))
            visit.gone = visit.gone or time.monotonic()

    def whole(self):
        """The visits whose request came whole."""
        return [it for it in list(self.visits) if it.whole_at is not None]

    def bodies(self):
        return [it.body() for it in self.whole()]

    def overlaps(self):
        """The pairs of visits of which the second came while the first went on."""
        visits = list(self.visits)
        return [(one.number, other.number) for one, other in zip(visits, visits[1:]) if one.gone is None or one.gone > other.came + 0.3]

    def close(self):
        with contextlib.suppress(OSError):
            self.listener.shutdown(socket.SHUT_RDWR)
        self.listener.close()
        for stream in self.streams:
            with contextlib.suppress(OSError):
                stream.shutdown(socket.SHUT_RDWR)

    def __enter__(self):
        return self

    def __exit__(self, *_):
        self.close()


def read_request(stream, visit):
    """Reads the whole request. False if the client closed before."""
    while not visit.is_whole():
        octets = stream.recv(65536)
        if not octets:
            visit.gone = time.monotonic()
            return False
        visit.octets += octets
    visit.whole_at = time.time()
    return True


def drain(stream, visit):
    """Reads until the client closes, and keeps what comes, which must be nothing."""
    try:
        while octets := stream.recv(65536):
            visit.octets += octets
    except TimeoutError:
        return
    except OSError:
        pass
    visit.gone = time.monotonic()


def rests(stream, visit, seconds):
    """Waits so long, or until the client is gone, without reading what it sent. Whether it is still there."""
    end = time.monotonic() + seconds
    while (left := end - time.monotonic()) > 0:
        # TCP_INFO's first octet is the state of the connection: 1 is ESTABLISHED.
        if stream.getsockopt(socket.IPPROTO_TCP, socket.TCP_INFO, 1)[0] != 1:
            visit.gone = time.monotonic()
            return False
        time.sleep(min(left, 0.01))
    return True


def response(status, fields=b"Content-Length: 0\r\n", body=b"", reason=b"Said"):
    return b"HTTP/1.1 %d %s\r\n%s\r\n%s" % (status, reason, fields, body)


# ---- acts: what is done on a connection


def sends(*pieces, pause=0.0, before=0.0, closes=True):
    """Reads the request, waits, sends pieces with pauses before all but the first, and closes, or waits until the client does."""

    def act(stream, visit):
        if not read_request(stream, visit):
            return
        for number, piece in enumerate(pieces):
            if not rests(stream, visit, pause if number else before):
                return
            stream.sendall(piece)
        visit.answered = time.monotonic()
        if closes:
            with contextlib.suppress(OSError):
                stream.shutdown(socket.SHUT_WR)
        drain(stream, visit)

    return act


def answer(status=200, **more):
    """Reads the request and answers with a status."""
    return sends(response(status), **more)


def is_silent(reads=True):
    """Reads the request, or nothing, and sends nothing until the client is gone."""

    def act(stream, visit):
        if not reads or read_request(stream, visit):
            drain(stream, visit) if reads else rests(stream, visit, SECONDS)

    return act


def closes(reads=True):
    """Closes without a response, after the request or at once."""

    def act(stream, visit):
        if reads:
            read_request(stream, visit)
        visit.gone = time.monotonic()

    return act


def resets(reads=True, octets=b""):
    """Resets the connection after the request, or at once, and after some octets."""

    def act(stream, visit):
        if reads:
            read_request(stream, visit)
        stream.sendall(octets)
        stream.setsockopt(socket.SOL_SOCKET, socket.SO_LINGER, RESET)
        visit.gone = time.monotonic()

    return act


def drips(octets, pause):
    """Reads the request, and sends octets one by one."""

    def act(stream, visit):
        if not read_request(stream, visit):
            return
        for octet in octets:
            stream.sendall(bytes([octet]))
            if not rests(stream, visit, pause):
                return
        visit.answered = time.monotonic()
        drain(stream, visit)

    return act


def floods(head, octets):
    """Reads the request, sends a head and then so many octets, or until the client is gone."""

    def act(stream, visit):
        if not read_request(stream, visit):
            return
        stream.sendall(head)
        visit.answered = time.monotonic()
        sent = 0
        with contextlib.suppress(OSError):
            while sent < octets:
                sent += stream.send(b"x" * 65536)
        visit.flooded = sent
        drain(stream, visit)

    return act
