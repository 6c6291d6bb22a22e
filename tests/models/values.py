"""Values and messages for the rows of tests/cases/calls/codec, read from left to right with the first fault that is met, apart from the
proved code, and written as shortly as may be (X.690; RFC 3416 section 3; RFC 3417 section 8; messages.py says what choices were made).
"""
from models.messages import NAME, NULL, NUMBERS, OCTETS, PDUS, SEQUENCE, identifier, message, name_contents, spelled, spelled_number

FAULTS = ("Truncated", "BadTag", "BadLength", "OutOfRange", "BadOid", "BadVersion", "UnknownPdu")
TYPES = {0x02: "Integer", 0x41: "Counter32", 0x42: "Gauge32", 0x43: "TimeTicks", 0x46: "Counter64"}
EMPTY = {NULL: "Null", 0x80: "NoSuchObject", 0x81: "NoSuchInstance", 0x82: "EndOfMibView"}
VALUES = (*TYPES, *EMPTY, OCTETS, NAME, 0x40, 0x44)


class Refused(Exception):
    """The octets are refused for this reason."""


def check(holds, fault):
    if not holds:
        raise Refused(fault)


class Reader:
    """What is left of octets."""

    def __init__(self, octets):
        self.octets = octets

    def take(self, count):
        check(len(self.octets) >= count, "Truncated")
        taken, self.octets = self.octets[:count], self.octets[count:]
        return taken

    def element(self, tags, fault="BadTag"):
        """The tag, which has to be one of these, and the contents."""
        tag = self.take(1)[0]
        check(tag in tags, fault)
        length = self.take(1)[0]
        if length >= 0x80:
            check(0x81 <= length <= 0x84, "BadLength")
            length = int.from_bytes(self.take(length - 0x80), "big")
        return tag, self.take(length)

    def inside(self, tag):
        return Reader(self.element([tag])[1])

    def integer(self):
        return number(0x02, self.element([0x02])[1])

    def end(self):
        check(not self.octets, "BadLength")


def number(tag, contents):
    check(1 <= len(contents) <= 9, "BadLength")
    value = int.from_bytes(contents, "big", signed=True)
    least, most = NUMBERS[tag]
    check(least <= value <= most, "OutOfRange")
    return value


def sub_identifiers(contents):
    try:
        return identifier(contents)
    except Exception:
        raise Refused("BadOid") from None


def shown(octets):
    return f"Octets {{ octets: {list(octets)} }}"


def value(reader):
    """The text of a value and its octets as they are written."""
    tag, contents = reader.element(VALUES)
    if tag in TYPES:
        found = number(tag, contents)
        return f"{TYPES[tag]}({found})", spelled_number(found, tag)
    if tag == NAME:
        parts = sub_identifiers(contents)
        return f"Name(Oid {{ parts: {parts} }})", spelled(NAME, name_contents(".".join(map(str, parts))))
    check(tag not in EMPTY or not contents, "BadLength")
    check(tag != 0x40 or len(contents) == 4, "BadLength")
    text = {OCTETS: f"Octets({shown(contents)})", 0x44: f"Opaque({shown(contents)})", 0x40: f"IpAddress({list(contents)})"}
    return text.get(tag) or EMPTY[tag], spelled(tag, contents)


def bindings(reader):
    """Of each variable binding the dotted name, and the value's text and octets."""
    found = []
    while reader.octets:
        binding = reader.inside(SEQUENCE)
        name = ".".join(map(str, sub_identifiers(binding.element([NAME])[1])))
        found.append((name, *value(binding)))
        binding.end()
    return found


def fields(octets):
    """Community, tag, three numbers and variable bindings of a message."""
    whole = Reader(octets).inside(SEQUENCE)
    check(whole.integer() == 1, "BadVersion")
    community = whole.element([OCTETS])[1]
    tag, contents = whole.element(PDUS, "UnknownPdu")
    pdu = Reader(contents)
    numbers = [pdu.integer() for _ in range(3)]
    found = bindings(pdu.inside(SEQUENCE))
    pdu.end()
    whole.end()
    return community, tag, numbers, found


def value_row(octets):
    reader = Reader(octets)
    try:
        text, written = value(reader)
    except Refused as refused:
        return fault_row(refused)
    return f"{text} {len(octets) - len(reader.octets)} {len(written)} {written.hex()}"


def message_row(octets):
    try:
        community, tag, numbers, found = fields(octets)
    except Refused as refused:
        return fault_row(refused)
    texts = "".join(f" {name}={text}" for name, text, _ in found)
    written = message(tag, community, numbers, [(name, spelling) for name, _, spelling in found])
    return f"{community.hex()} {tag} {' '.join(map(str, numbers))}{texts} {len(written)} {written.hex()}"


def fault_row(refused):
    (fault,) = refused.args
    return f"{2 + FAULTS.index(fault)} {fault}"


def cut(octets):
    return [octets[:end] for end in range(len(octets))]


def turned(octets):
    return [octets[:at] + bytes([put]) + octets[at + 1 :] for at in range(len(octets)) for put in (0x00, 0x80, 0xFF)]


# Each kind of value, at the limits of its numbers and beyond.
WHOLE = """020100 02017f 02020080 020180 0202ff7f 020480000000 04027231 0500 060100 060101 0603813403 0605908080804f 06062b0601020101 4004c0000201
410107 420500ffffffff 430164 44039f7804 460900ffffffffffffffff 8000 8100 8200 0209000000000000000005 02840000000105 020105ffff"""
REFUSED = """0700 0780 02 028005 0285000000000105 0282 0202ff 0200 020a00000000000000000005 0205008000000000 4101ff 4104ffffffff 4609010000000000000000 050100
4003c00002 800100 0600 06028001 06022b80 06062b9080808000 06059080808050"""
# A Get of sysName.0 and its Response; a Get and a Response of the engine's identifier, boots and time and of ifInOctets.1; a GetBulk.
GET = "302602010104067075626c6963a019020107020100020100300e300c06082b060102010105000500"
RESPONSE = "302802010104067075626c6963a21b0201070201000201003010300e06082b0601020101050004027231"
POLL = """305802010104067075626c6963a04b0201010201000201003040300e060a2b060106030a020101000500300e060a2b060106030a020102000500
300e060a2b060106030a020103000500300e060a2b060102010202010a010500"""
POLLED = """306002010104067075626c6963a25302010102010002010030483013060a2b060106030a0201010004058000000001300f060a2b060106030a02010200020103
300f060a2b060106030a02010300020164300f060a2b060102010202010a01410107"""
BULK = "303702010104067075626c6963a52a02010102010102047fffffff301c300b06072b0601020101040500300d06092b060102010202010a0500"
# The Get with a longer length, with an octet after it, and with a request-id of two octets.
LONGER = """3082002602010104067075626c6963a019020107020100020100300e300c06082b060102010105000500
302602010104067075626c6963a019020107020100020100300e300c06082b060102010105000500ff
302702010104067075626c6963a01a02020007020100020100300e300c06082b060102010105000500"""
# Other versions, PDUs that are none, and octets left after each of a message's parts.
OTHERS = """30 3080 0500 3003020100 300402028000 30060201010400a4 30050201010400 3006020101040005 300702010104000500 30130201010400a00b0201070201000201003000
30130201010400a00b020107020100020100300000 30130201010400a00c020107020100020100300000 30210201010400a01a020107020100020100300f300d06082b06010201010500050000
30120201010400a00b020107020100020100300000"""


def values():
    for text in (WHOLE + " " + REFUSED).split():
        yield bytes.fromhex(text)
    yield from (b"", bytes([OCTETS, 0x82, 0x01, 0x2C]) + bytes([7] * 300))
    # 128 sub-identifiers, and 129.
    yield from (spelled(NAME, bytes([1] * count)) for count in (127, 128))
    for text in WHOLE.split():
        yield from cut(bytes.fromhex(text))
        yield from turned(bytes.fromhex(text))


def messages():
    own = [bytes.fromhex(text) for text in (GET, RESPONSE, POLL, POLLED, BULK)]
    yield from own
    yield from (bytes.fromhex(text) for text in (LONGER + " " + OTHERS).split())
    yield b""
    for tag in range(0x9F, 0xAA):
        yield own[0][:13] + bytes([tag]) + own[0][14:]
    for octets in (own[0], own[1], own[4]):
        yield from cut(octets)
        yield from turned(octets)
