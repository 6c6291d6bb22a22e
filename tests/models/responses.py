"""Responses of HTTP, good ones and mutated ones, and what a strict reading of RFC 9112, sections 4 and 5, makes of octets."""
import re

LINE = re.compile(rb"HTTP/1\.[01] ([0-9]{3})(?: [\t \x21-\x7e\x80-\xff]*)?\r\n")
FIELD = re.compile(rb"[!#$%&'*+.^_`|~0-9A-Za-z-]+:[\t \x21-\x7e\x80-\xff]*\r\n")
MAX_OCTETS, MAX_FIELDS = 8192, 32
BAD = "bad"
SEEDS = [
    b"HTTP/1.1 200 OK\r\nContent-Length: 3\r\n\r\nok\n",
    b"HTTP/1.0 503 Service Unavailable\r\n\r\n",
    b"HTTP/1.1 100 Continue\r\n\r\nHTTP/1.1 200 OK\r\nServer: a\r\n\r\n",
    b"HTTP/1.1 103 Early Hints\r\nLink: </a>\r\n\r\nHTTP/1.1 404 Not Found\r\nA: b\r\nC:d \r\n\r\n<p>",
    b"HTTP/1.1 204 \r\n\r\n",
    b"HTTP/1.1 200\r\n\r\n",
    b"HTTP/2 200 OK\r\n\r\n",
    b"SSH-2.0-OpenSSH\r\n",
    b"HTTP/1.1 200 OK\r\n" + b"A: b\r\n" * 32 + b"\r\n",
    b"HTTP/1.1 200 OK\r\n" + b"A: b\r\n" * 33 + b"\r\n",
    b"HTTP/1.1 200 OK\r\nA: " + b"x" * 9000 + b"\r\n\r\n",
    b"HTTP/1.1 101 Switching\r\n\r\n" * 200,
]
OCTETS = [b"\r", b"\n", b"\r\n", b" ", b":", b"\t", b"\x00", b"\x7f", b"\xff", b"HTTP/1.1 ", b"200", b"100", b"\r\n\r\n", b"1", b"/"]


def mutated(chance):
    """A response with some octets put in, taken out, changed or cut off, or as it is."""
    text = chance.choice(SEEDS)
    for _ in range(chance.choice([0, 1, 1, 2, 4])):
        at = chance.randrange(min(len(text), 120) + 1)
        text = chance.choice([
            lambda: text[:at] + chance.choice(OCTETS) + text[at:],
            lambda: text[:at] + text[at + chance.randrange(1, 5):],
            lambda: text[:at] + bytes([chance.randrange(256)]) + text[at + 1:],
            lambda: text[:at],
        ])()
    return text


def strict(octets):
    """The status of the first response that is not interim by the strict grammar, BAD if there can be none, or None if that is not decided."""
    past = 0
    while True:
        line = LINE.match(octets, past)
        if not line:
            return BAD if not octets[past:].lstrip(b"\r\n").startswith(b"HTTP/1.") else None
        at, fields = line.end(), 0
        while field := FIELD.match(octets, at):
            at, fields = field.end(), fields + 1
        if octets[at : at + 2] != b"\r\n":
            return BAD if b"\n\n" not in octets[past:] and b"\n\r\n" not in octets[past:] else None
        past = at + 2
        if past > MAX_OCTETS or fields > MAX_FIELDS:
            return BAD
        status = int(line[1])
        if not 100 <= status < 200:
            return status if 200 <= status < 600 else BAD


def written(octets):
    """All statuses that octets write."""
    return {int(it) for it in re.findall(rb"(?=(\d{3}))", octets)}


def pieces_of(chance, octets, most):
    """The octets in at most so many pieces."""
    cuts = sorted(chance.randrange(len(octets) + 1) for _ in range(chance.randrange(most)))
    return [octets[a:b] for a, b in zip([0, *cuts], [*cuts, len(octets)]) if a < b]
