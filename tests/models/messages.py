"""SNMPv2c messages by the published grammar alone (RFC 1901, RFC 3416 section 3, RFC 3417 section 8), read and written
apart from the proved code.

Where BER leaves a choice, docs/DECISIONS.md tells the choice made: a length is one octet below 80, or 81 to 84 with this many
octets of length after it, leading zeros allowed; a number has 1 to 9 octets; octets after the message are ignored.
"""

SEQUENCE, INTEGER, OCTETS, NULL, NAME = 0x30, 0x02, 0x04, 0x05, 0x06
GET, GET_NEXT, RESPONSE, SET, GET_BULK, INFORM, TRAP, REPORT = 0xA0, 0xA1, 0xA2, 0xA3, 0xA5, 0xA6, 0xA7, 0xA8
PDUS = (GET, GET_NEXT, RESPONSE, SET, GET_BULK, INFORM, TRAP, REPORT)
NUMBERS = {
    0x02: (-(2**31), 2**31 - 1),
    0x41: (0, 2**32 - 1),
    0x42: (0, 2**32 - 1),
    0x43: (0, 2**32 - 1),
    0x46: (0, 2**64 - 1),
}


class NoMessage(Exception):
    """The octets begin with no message."""


class OtherVersion(Exception):
    """The message is of another version than SNMPv2c."""


def need(holds):
    if not holds:
        raise NoMessage


def head(octets, at, end):
    """The tag at a place, and where its contents begin and end."""
    need(at + 2 <= end)
    tag, length = octets[at], octets[at + 1]
    at += 2
    if length >= 0x80:
        count = length - 0x80
        need(1 <= count <= 4 and at + count <= end)
        length = int.from_bytes(octets[at : at + count], "big")
        at += count
    need(at + length <= end)
    return tag, at, at + length


def element(octets, at, end, wanted):
    """Where the contents of an element of this tag begin and end."""
    tag, begin, until = head(octets, at, end)
    need(tag == wanted)
    return begin, until


def number(contents, least, most):
    need(1 <= len(contents) <= 9)
    value = int.from_bytes(contents, "big", signed=True)
    need(least <= value <= most)
    return value


def integer(octets, at, end):
    begin, until = element(octets, at, end, INTEGER)
    return number(octets[begin:until], *NUMBERS[INTEGER]), until


def identifier(contents):
    """The sub-identifiers that contents spell."""
    need(contents and contents[-1] < 0x80)
    encoded, value, begins = [], 0, True
    for octet in contents:
        need(not (begins and octet == 0x80))
        value = value << 7 | octet & 0x7F
        begins = octet < 0x80
        if begins:
            encoded.append(value)
            value = 0
    first = min(encoded[0] // 40, 2)
    parts = [first, encoded[0] - 40 * first, *encoded[1:]]
    need(len(parts) <= 128 and max(parts) < 2**32)
    return parts


def value_of(tag, contents):
    """What contents spell under a tag of a value: a number, sub-identifiers, or octets."""
    if tag in NUMBERS:
        return number(contents, *NUMBERS[tag])
    if tag == NAME:
        return identifier(contents)
    if tag == 0x40:
        need(len(contents) == 4)
    elif tag in (NULL, 0x80, 0x81, 0x82):
        need(not contents)
    else:
        need(tag in (OCTETS, 0x44))
    return contents


def read(octets):
    """The message that the octets begin with: its community, its tag, three numbers, and the name, kind and value of each binding."""
    at, end = element(octets, 0, len(octets), SEQUENCE)
    version, at = integer(octets, at, end)
    if version != 1:
        raise OtherVersion
    begin, at = element(octets, at, end, OCTETS)
    community = octets[begin:at]
    tag, at, until = head(octets, at, end)
    need(tag in PDUS and until == end)
    numbers = []
    for _ in range(3):
        value, at = integer(octets, at, end)
        numbers.append(value)
    at, until = element(octets, at, end, SEQUENCE)
    need(until == end)
    bindings = []
    while at < end:
        at, last = element(octets, at, end, SEQUENCE)
        begin, until = element(octets, at, last, NAME)
        name = identifier(octets[begin:until])
        kind, begin, until = head(octets, until, last)
        need(until == last)
        bindings.append((name, kind, value_of(kind, octets[begin:until])))
        at = last
    return community, tag, numbers, bindings


def spelled(tag, contents, spare=0):
    """An element; with `spare`, its length in one of the longer forms, this many octets of it."""
    size = len(contents)
    if spare:
        return bytes([tag, 0x80 + spare]) + size.to_bytes(spare, "big") + contents
    if size < 0x80:
        return bytes([tag, size]) + contents
    length = size.to_bytes((size.bit_length() + 7) // 8, "big")
    return bytes([tag, 0x80 + len(length)]) + length + contents


def spelled_number(value, tag=INTEGER):
    magnitude = value if value >= 0 else ~value
    return spelled(tag, value.to_bytes(magnitude.bit_length() // 8 + 1, "big", signed=True))


def name_contents(name):
    """The contents for a dotted name."""
    first, second, *others = [int(part) for part in name.split(".")]
    contents = b""
    for value in [40 * first + second, *others]:
        digits = [value & 0x7F]
        while value := value >> 7:
            digits.append(0x80 | value & 0x7F)
        contents += bytes(reversed(digits))
    return contents


def spelled_name(name):
    return spelled(NAME, name_contents(name))


def message(tag, community, numbers, bindings):
    """A message; its bindings are pairs of a dotted name and a value in BER."""
    pairs = b"".join(spelled(SEQUENCE, spelled_name(name) + value) for name, value in bindings)
    pdu = b"".join(map(spelled_number, numbers)) + spelled(SEQUENCE, pairs)
    return spelled(SEQUENCE, spelled_number(1) + spelled(OCTETS, community) + spelled(tag, pdu))


def get(request_id, names, tag=GET):
    return message(tag, b"public", [request_id, 0, 0], [(name, b"\x05\x00") for name in names])
