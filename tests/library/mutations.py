"""Datagrams made from good requests by changing their octets or their elements."""
from models.messages import (
    GET, GET_BULK, GET_NEXT, NAME, NUMBERS, OCTETS, SET, NoMessage, OtherVersion, get, message, name_contents, read, spelled, spelled_name,
    spelled_number,
)

# A poll of the engine group and ifInOctets.1, and a Get of sysDescr.0, as they go over the wire.
POLL = bytes.fromhex(
    "3058 020101 04067075626C6963 A04B 020101 020100 020100 3040 300E060A2B060106030A020101000500"
    "300E060A2B060106030A020102000500 300E060A2B060106030A020103000500 300E060A2B060102010202010A010500"
)
ASK = bytes.fromhex("3026 020101 04067075626C6963 A019 020107 020100 020100 300E 300C06082B060102010101000500")
NULL = b"\x05\x00"
# Null with its length in two octets: an agent that answers in place what it can reads a request with this value as a message.
LONG_NULL = b"\x05\x81\x00"

# Communities so long that no response fits the limit of 484 octets: with the first tooBig does, with the second nothing.
LONG, LONGEST = b"l" * 440, b"m" * 480
COMMUNITIES = (b"public", b"private", LONG, LONGEST)
TABLES = "".join(
    f'\n[[community]]\ncommunity = "{community.decode()}"\nsecurity = "ro"\n' for community in (LONG, LONGEST)
)

# Numbers and names at and just beyond their limits, as contents.
EDGE_NUMBERS = [
    number.to_bytes(size, "big", signed=True)
    for number in (-1, 0, -(2**31) - 1, -(2**31), 2**31 - 1, 2**31, 2**32 - 1, 2**32, 2**63, 2**64 - 1, 2**64)
    for size in range(number.bit_length() // 8 + 1, 11)
]
EDGE_NAMES = [
    name_contents(name)
    for name in (
        "0.0", "1.39", "2.0", f"2.{2**32 - 1}", f"2.{2**32}", f"1.3.{2**32 - 1}", f"1.3.{2**32}", f"1.3.{2**40}.1",
        "1.3" + ".1" * 125, "1.3" + ".1" * 126, "1.3" + ".1" * 127, "1.3.6.1.2.1.1" + ".200" * 121, "1.3.6.1.2.1.1" + ".200" * 122,
    )
]
# A binding with a value of each kind.
KINDS = [
    spelled_number(-5), spelled(OCTETS, b"text"), NULL, spelled_name("1.3.6.1"), spelled(0x40, b"\x7f\0\0\1"),
    spelled_number(2**32 - 1, 0x41), spelled_number(7, 0x42), spelled_number(2**31, 0x43), spelled(0x44, b"\x9f\x78"),
    spelled_number(2**64 - 1, 0x46), b"\x80\x00", b"\x81\x00", b"\x82\x00",
]

ORIGINALS = [
    POLL,
    ASK,
    get(3, ["1.3.6.1.2.1.1.5", "1.3.6.1.2.1.2.2.1.2.1"], GET_NEXT),
    message(GET_BULK, b"public", [4, 1, 10], [("1.3.6.1.2.1.1.4", NULL), ("1.3.6.1.2.1.2.2.1.2", NULL)]),
    message(SET, b"private", [5, 0, 0], [("1.3.6.1.2.1.1.5.0", spelled(OCTETS, b"r2"))]),
    message(SET, b"private", [6, 0, 0], [("1.3.6.1.2.1.2.2.1.7.1", spelled_number(2)), ("1.3.6.1.2.1.1.6.0", spelled(OCTETS, b""))]),
    message(GET, b"public", [7, 0, 0], [("1.3.6.1.2.1.1.1.0", value) for value in KINDS]),
    message(GET, LONG, [8, 0, 0], [("1.3.6.1.2.1.1.1.0", NULL)]),
    message(GET, LONGEST, [9, 0, 0], [("1.3.6.1.2.1.1.1.0", NULL)]),
]
TAGS = [0x02, 0x04, 0x05, 0x06, 0x30, 0x40, 0x41, 0x42, 0x43, 0x44, 0x46, 0x80, 0x81, 0x82, *range(0xA0, 0xA9)]
EDGES = [0, 1, 0x7F, 0x80, 0x81, 0x82, 0x83, 0x84, 0x85, 0xFE, 0xFF]


def tree(octets):
    """The elements that well-formed octets spell: pairs of a tag and contents, which are a list within a constructed one."""
    elements, at = [], 0
    while at < len(octets):
        tag, size, at = octets[at], octets[at + 1], at + 2
        if size >= 0x80:
            count = size - 0x80
            size, at = int.from_bytes(octets[at : at + count], "big"), at + count
        contents = octets[at : at + size]
        elements.append([tag, tree(contents) if tag & 0x20 else contents])
        at += size
    return elements


def written(elements, random, spare):
    """The octets of elements; where `spare` says so, some lengths are longer than they have to be."""
    octets = b""
    for tag, contents in elements:
        if isinstance(contents, list):
            contents = written(contents, random, spare)
        least = (len(contents).bit_length() + 7) // 8
        octets += spelled(tag, contents, random.randint(max(1, least), 4) if spare and random.random() < 0.3 else 0)
    return octets


def places(elements):
    """Every list of elements with each of its indices."""
    for index, (_, contents) in enumerate(elements):
        yield elements, index
        if isinstance(contents, list):
            yield from places(contents)


def other_contents(tag, contents, random):
    """Contents in place of an element's own: at an edge of its kind, padded, of edge octets, or cut."""
    choice = random.randrange(5)
    if choice < 2 and (tag in NUMBERS or tag == NAME):
        return random.choice(EDGE_NAMES if tag == NAME else EDGE_NUMBERS)
    if choice == 2:
        return bytes([random.choice((0, 0x80, 0xFF))]) * random.randint(1, 9) + contents
    if choice == 3:
        return bytes(random.choice(EDGES) for _ in range(random.randrange(11)))
    return contents[: random.randint(0, len(contents))] + bytes(random.randrange(2))


def changed_element(datagram, random):
    """An element changed, doubled or removed; the lengths around it follow."""
    elements = tree(datagram)
    siblings, index = random.choice(list(places(elements)))
    tag, contents = siblings[index]
    choice = random.randrange(7)
    if choice == 0:
        siblings[index] = [random.choice(TAGS), contents]
    elif choice == 1:
        siblings.insert(index, siblings[index])
    elif choice == 2:
        del siblings[index]
    elif choice >= 3 and isinstance(contents, bytes):
        siblings[index] = [tag, other_contents(tag, contents, random)]
    return written(elements, random, spare=True)


def changed_octets(datagram, random):
    octets = bytearray(datagram)
    for _ in range(random.randint(1, 3)):
        at = random.randrange(len(octets))
        octets[at] = random.choice((random.randrange(256), random.choice(EDGES), octets[at] ^ 1 << random.randrange(8)))
    return bytes(octets)


def inserted(datagram, random):
    at = random.randint(0, len(datagram))
    return datagram[:at] + random.randbytes(random.choice((1, 1, 1, 2, 5))) + datagram[at:]


def removed(datagram, random):
    at = random.randrange(len(datagram))
    return datagram[:at] + datagram[at + random.choice((1, 1, 1, 2, 5)) :]


def other_length(datagram, random):
    """One length octet changed, its place found by the tags before it."""
    octets = bytearray(datagram)
    after_tags = [at + 1 for at, tag in enumerate(datagram[:-1]) if tag in TAGS]
    at = random.choice(after_tags or [0])
    octets[at] = random.choice([(octets[at] + step) % 256 for step in (-2, -1, 1, 2)] + EDGES)
    return bytes(octets)


def truncated(datagram, random):
    return datagram[: random.randrange(len(datagram))]


def doubled(datagram, random):
    """The whole datagram twice, or a part of it."""
    if random.random() < 0.3:
        return datagram + datagram
    begin = random.randrange(len(datagram))
    end = random.randint(begin, min(len(datagram), begin + 40))
    return datagram[:end] + datagram[begin:]


STEPS = [changed_octets, inserted, removed, other_length, truncated, doubled]


def mutated(random):
    """A datagram made from one of the originals, some of which stay as they are."""
    datagram = random.choice(ORIGINALS)
    if random.random() < 0.5:
        datagram = changed_element(datagram, random)
    for _ in range(random.choice((0, 1, 1, 1, 2))):
        if datagram:
            datagram = random.choice(STEPS)(datagram, random)
    return datagram


def both_ways(datagram):
    """The request for values that a datagram is, as it is answered in place, and as it is read as a message; nothing if it is none."""
    try:
        community, tag, numbers, bindings = read(datagram)
    except (NoMessage, OtherVersion):
        return []
    if tag not in (GET, GET_NEXT, GET_BULK) or not bindings:
        return []
    names = [".".join(map(str, name)) for name, _, _ in bindings]
    return [message(tag, community, numbers, zip(names, [first] + [NULL] * (len(names) - 1))) for first in (NULL, LONG_NULL)]
