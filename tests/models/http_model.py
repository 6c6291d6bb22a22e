"""What a station answers to the octets of a connection, worked out from RFC 9110 and RFC 9112 without mon_http.

`said(octets, bodies, names)` gives what is sent and whether the connection is closed; `bodies` maps a route to its answer, a tuple
of status, media type and body, and `names` are the names of hosts that are served. `streams(random, many)` makes streams of requests, good ones and mutated ones.
"""
import ipaddress
import re
from fractions import Fraction

REASONS = {
    200: "OK",
    400: "Bad Request",
    404: "Not Found",
    405: "Method Not Allowed",
    414: "URI Too Long",
    421: "Misdirected Request",
    431: "Request Header Fields Too Large",
    501: "Not Implemented",
    503: "Service Unavailable",
    505: "HTTP Version Not Supported",
}
PROMETHEUS = "text/plain; version=0.0.4; charset=utf-8"
OPEN_METRICS = "application/openmetrics-text; version=1.0.0; charset=utf-8"
HTML = "text/html; charset=utf-8"
PLAIN = "text/plain; charset=utf-8"
POLICY = "default-src 'none'; style-src 'unsafe-inline'; base-uri 'none'; form-action 'none'; frame-ancestors 'none'"
TOKEN = rb"[!#$%&'*+\-.^_`|~0-9A-Za-z]+"
REQUEST_LINE = re.compile(rb"(" + TOKEN + rb") ([\x21-\x7e\x80-\xff]+) HTTP/1\.([01])")
FIELD_LINE = re.compile(rb"(" + TOKEN + rb"):([\t\x20-\x7e\x80-\xff]*)")
MAX_OCTETS, MAX_FIELDS = 8192, 32
# Methods of RFC 9110 and RFC 5789 that are not served.
KNOWN = (b"POST", b"PUT", b"DELETE", b"CONNECT", b"OPTIONS", b"TRACE", b"PATCH")
# RFC 3986, section 3.2.2: a registered name, an IPv4 address among them, or a literal in brackets; then maybe a port.
NAMED = re.compile(rb"((?:[A-Za-z0-9\-._~!$&'()*+,;=]|%[0-9A-Fa-f]{2})*)(?::[0-9]*)?")
LITERAL = re.compile(rb"\[([0-9A-Fa-f:.]+)\](?::[0-9]*)?")
# RFC 9110, sections 12.5.1, 5.6.6 and 12.4.2, but for quoted strings.
PARAMETER = rb"(" + TOKEN + rb")=(" + TOKEN + rb")"
RANGE = re.compile(rb"(" + TOKEN + rb"/" + TOKEN + rb")((?:[ \t]*;[ \t]*(?:" + TOKEN + rb"=" + TOKEN + rb")?)*)")
QUALITY = re.compile(rb"0(\.[0-9]{0,3})?|1(\.0{0,3})?")
# By how exactly they name it, the media types that name a format; and its version.
FORMATS = {
    "open_metrics": ([b"application/openmetrics-text"], b"1.0.0"),
    "text": ([b"*/*", b"text/*", b"text/plain"], b"0.0.4"),
}


def head_of(octets):
    """The octets up to the end of the first empty line, or None."""
    at = 0
    while (end := octets.find(b"\n", at)) >= 0:
        if not octets[at:end].strip(b"\r"):
            return octets[: end + 1]
        at = end + 1
    return None


def parts_of(head):
    """Method, target, minor version and fields of a head, or None if it is no request."""
    lines = [line[:-1] if line.endswith(b"\r") else line for line in head.split(b"\n")[:-1]]
    first = REQUEST_LINE.fullmatch(lines[0])
    fields = [FIELD_LINE.fullmatch(line) for line in lines[1:-1]]
    if not first or lines[-1] or not all(fields):
        return None
    try:
        first[2].decode()
    except UnicodeDecodeError:
        return None
    return first[1], first[2], int(first[3]), [(field[1].lower(), field[2].strip(b" \t")) for field in fields]


def name_in(host):
    """The name in a host, empty where it is an address or empty, and None if it is no host."""
    if literal := LITERAL.fullmatch(host):
        try:
            ipaddress.IPv6Address(literal[1].decode())
        except ValueError:
            return None
        return b""
    named = NAMED.fullmatch(host)
    if not named:
        return None
    return b"" if re.fullmatch(rb"[0-9.]*", named[1]) else named[1].lower()


def authority_of(target):
    """The authority of a target in absolute form, or None."""
    return re.match(rb"[^/?]*", target[7:])[0] if target[:7].lower() == b"http://" else None


def path_of(target):
    """The path of a target in origin or absolute form, without its query."""
    if target[:7].lower() == b"http://":
        rest = re.sub(rb"^[^/?]*", b"", target[7:])
        target = rest if rest.startswith(b"/") else b"/"
    return target.split(b"?")[0]


def quality(ranges, name):
    """How much a format is wanted: as the range says that names it most exactly."""
    types, version = FORMATS[name]
    ranks = [
        (types.index(media), b"version" in said, weight)
        for media, said, weight in ranges
        if media in types and said.get(b"version", version) == version
    ]
    return max(ranks, default=(0, False, 0))[2]


def prefers_open_metrics(values):
    """Whether fields Accept with these values ask for OpenMetrics at least as much as for the text format."""
    ranges = []
    for element in b",".join(values).split(b","):
        if not element.strip(b" \t"):
            continue
        found = RANGE.fullmatch(element.strip(b" \t"))
        if not found:
            return False
        said = {}
        for parameter, value in re.findall(PARAMETER, found[2]):
            said.setdefault(parameter.lower(), value)
        weight = said.get(b"q", b"1")
        if not QUALITY.fullmatch(weight):
            return False
        ranges.append((found[1].lower(), said, Fraction(weight.decode().rstrip("."))))
    return 0 < quality(ranges, "open_metrics") >= quality(ranges, "text")


def length_is_0(values):
    return all(re.fullmatch(rb"0+", value) for value in values)


def judge(head, names):
    """Status or route, whether GET, and whether the connection stays open."""
    if head.count(b"\n") > MAX_FIELDS + 2:
        return 431, True, False
    parts = parts_of(head)
    if not parts:
        line = re.split(rb"[\r\n]", head)[0]
        other = re.search(rb" HTTP/\d\.\d$", line) and line[-4:] not in (b"/1.0", b"/1.1")
        return (505 if other else 400), True, False
    method, target, minor, fields = parts
    named = lambda name: [value for known, value in fields if known == name]
    hosts = len(named(b"host"))
    if hosts > 1 or (hosts == 0 and minor == 1):
        return 400, True, False
    if named(b"transfer-encoding") or not length_is_0(named(b"content-length")):
        return 400, True, False
    host, authority = (named(b"host") or [b""])[0], authority_of(target)
    if name_in(host) is None:
        return 400, True, False
    if authority is not None and (name_in(authority) is None or authority.partition(b":")[0] == b""):
        return 400, True, False
    options = [option.strip(b" \t").lower() for value in named(b"connection") for option in value.split(b",")]
    stays = minor == 1 and b"close" not in options
    name = name_in(host if authority is None else authority)
    if name not in (b"", b"localhost", *(known.lower() for known in names)):
        return 421, True, stays
    if method not in (b"GET", b"HEAD"):
        return (405 if method in KNOWN else 501), True, stays
    routes = {b"/metrics": "metrics", b"/report.json": "report", b"/": "page", b"/healthz": "health"}
    route = routes.get(path_of(target), 404)
    if route == "metrics" and prefers_open_metrics(named(b"accept")):
        route = "open_metrics"
    return route, method == b"GET", stays


def response(status, media, body, stays, with_body):
    lines = [f"HTTP/1.1 {status} {REASONS[status]}", f"Content-Type: {media}", f"Content-Length: {len(body)}"]
    lines += ["Connection: " + ("keep-alive" if stays else "close"), "Cache-Control: no-store", "X-Content-Type-Options: nosniff"]
    lines += [f"Content-Security-Policy: {POLICY}"] if media == HTML else []
    lines += ["Allow: GET, HEAD"] if status == 405 else []
    return "\r\n".join(lines + ["", ""]).encode() + (body if with_body else b"")


def long_status(octets):
    """Why octets within which no head ends are refused: which part of the request is too long."""
    return 431 if b"\n" in octets else 414 if b" " in octets else 501


def said(octets, bodies, names=()):
    """What is sent to the octets, and whether the connection is closed then."""
    sent = b""
    while True:
        octets = octets.lstrip(b"\r\n")
        head = head_of(octets[:MAX_OCTETS])
        if head is None:
            if len(octets) < MAX_OCTETS:
                return sent, False
            return sent + response(long_status(octets[:MAX_OCTETS]), PLAIN, b"", False, True), True
        verdict, is_get, stays = judge(head, names)
        status, media, body = bodies[verdict] if verdict in bodies else (verdict, PLAIN, b"")
        sent += response(status, media, body, stays, is_get)
        if not stays:
            return sent, True
        octets = octets[len(head) :]


METHODS = [b"GET"] * 12 + [b"HEAD", b"HEAD", b"POST", b"get", b"OPTIONS", b"FETCH", b"G(T", b""]
TARGETS = [b"/metrics", b"/report.json", b"/", b"/healthz"] * 3 + [ b"/metrics?a=b", b"/metricsx", b"http://h/metrics", b"http://h", b"http://h?x"]
TARGETS += [b"HTTP://localhost/metrics", b"http:///metrics", b"http://:80/", b"http://u@localhost/", b"http://[::1]:9/metrics"]
TARGETS += [b"*", b"/\xc3\xa9", b"/\xff", b"//", b"http://", b"?", b"/ "]
VERSIONS = [b"HTTP/1.1"] * 20 + [b"HTTP/1.0", b"HTTP/2.0", b"HTTP/1.2", b"HTTP/0.9", b"HTTP/11", b"http/1.1", b"HTTP/1.1 "]
HOSTS = [b"localhost"] * 20 + [b"LOCALHOST:80", b"127.0.0.1", b"127.0.0.1:9161", b"[::1]", b"[::1]:9161", b"", b"h", b"h:80"]
HOSTS += [b"a b", b"a/b", b"user@h", b"h:port", b"h:99999", b"[::1", b"h,h2", b"localhost:", b":80", b"a%41", b"a%4", b"[::1]x", b"evil.example"]
FIELDS = [b"Host: a", b"host:b", b"Connection: close", b"Connection: a, CLOSE", b"Content-Length: 0", b"Content-Length: 4", b"Content-Length: x"]
FIELDS += [b"Transfer-Encoding: chunked", b"Transfer-Encoding:", b"X: \xff\t", b"X : y", b" folded", b"\rX: y", b"X: a\rb", b"Accept: */*"]
FIELDS += [b"Accept: application/openmetrics-text", b"ACCEPT: application/openmetrics-text;q=0.5", b"accept: text/plain;q=0.7"]


def request(random):
    """A request of these parts, mostly a good one."""
    end = random.choice([b"\r\n", b"\r\n", b"\r\n", b"\n"])
    lines = [b" ".join([random.choice(METHODS), random.choice(TARGETS), random.choice(VERSIONS)])]
    lines += [b"Host: " + random.choice(HOSTS)] if random.random() < 0.9 else []
    lines += random.choices(FIELDS, k=random.choice([0, 0, 0, 0, 1, 2]))
    lines += [b"N: v"] * random.choice([0] * 20 + [29, 30, 31, 32, 33])
    lines += [b"L: " + b"x" * random.choice([8000, 8150, 8192])] if random.random() < 0.03 else []
    lines[0] = lines[0].replace(b" /", b" /" + b"x" * 8192, 1) if random.random() < 0.02 else lines[0]
    return end * random.choice([0, 0, 0, 1, 3]) + end.join(lines + [b"", b""])


def mutated(octets, random):
    """The octets with some of them changed, left out or doubled."""
    octets = bytearray(octets)
    for _ in range(random.choice([0, 0, 0, 1, 2])):
        at = random.randrange(len(octets))
        octets[at : at + random.choice([0, 1])] = bytes(random.choices([0, 9, 10, 13, 32, 58, 65, 127, 200], k=random.choice([0, 1])))
    return bytes(octets)


def streams(random, many):
    """Streams of one to three requests, each with a cut into pieces."""
    for _ in range(many):
        octets = b"".join(mutated(request(random), random) for _ in range(random.choice([1, 1, 2, 3])))
        cuts = sorted(random.choices(range(len(octets) + 1), k=random.choice([0, 1, 3, 9])))
        yield [octets[a:b] for a, b in zip([0, *cuts], [*cuts, len(octets)]) if a < b]
