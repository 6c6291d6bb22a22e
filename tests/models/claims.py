"""Claims by their written layout alone, apart from the proved code: which octets are one, the first fault from the left, and
what becomes of claims at a station. Windows are sorted lists, and what peers have said is a set.

A claim, all numbers with the greatest octet first: MX, version 1, kind 1 (Offer) or 2 (Confirm), station, incarnation and
serial of 4 octets, the length of the engine id and its octets, the count of the name's sub-identifiers and these of 4 octets,
the count of the samples and these of 21 octets: boots 4, time 4, mark 4, tag 1, value 8.
"""
from models.formats import Sample

NOT_A_CLAIM, BAD_VERSION, BAD_SAMPLE = "2 NotAClaim", "3 BadVersion", "4 BadSample"
NOT_RISING, BAD_NAME, UNKNOWN_PEER, UNKNOWN_INSTANCE = "5 NotRising", "6 BadName", "7 UnknownPeer", "8 UnknownInstance"
KINDS = {0x02: "Integer", 0x41: "Counter32", 0x42: "Gauge32", 0x43: "TimeTicks", 0x46: "Counter64"}
OFFER, CONFIRM = 1, 2


class Refused(Exception):
    """A fault of a claim."""


def written(claim):
    """The octets of a claim: a tuple of kind, station, incarnation, serial, engine, name and records."""
    kind, station, incarnation, serial, engine, name, records = claim
    numbers = b"".join(number.to_bytes(4, "big") for number in (station, incarnation, serial))
    names = b"".join(number.to_bytes(4, "big") for number in name)
    head = b"MX\x01" + bytes([kind]) + numbers
    return head + bytes([len(engine)]) + engine + bytes([len(name)]) + names + bytes([len(records)]) + b"".join(records)


def record(boots, time, mark=0, tag=0x41, value=7):
    """The 21 octets of a sample."""
    numbers = b"".join(number.to_bytes(4, "big") for number in (boots, time, mark))
    return numbers + bytes([tag]) + (value % 2**64).to_bytes(8, "big")


def is_record(octets):
    """Whether 21 octets are a sample's."""
    boots, time, tag = int.from_bytes(octets[:4], "big"), int.from_bytes(octets[4:8], "big"), octets[12]
    value = int.from_bytes(octets[13:], "big")
    if tag not in KINDS or boots >= 2**31 or time >= 2**31:
        return False
    if tag == 0x02:
        return value < 2**31 or value >= 2**64 - 2**31
    return tag == 0x46 or value < 2**32


def sample_of(octets):
    """The sample that a record spells."""
    boots, time, mark = (int.from_bytes(octets[at:at + 4], "big") for at in (0, 4, 8))
    return Sample(boots, time, mark, KINDS[octets[12]], int.from_bytes(octets[13:], "big", signed=octets[12] == 0x02))


class Octets:
    """Octets that are taken from the left."""

    def __init__(self, octets):
        self.left = octets

    def take(self, count):
        if len(self.left) < count:
            raise Refused(NOT_A_CLAIM)
        taken, self.left = self.left[:count], self.left[count:]
        return taken

    def number(self):
        return int.from_bytes(self.take(4), "big")

    def one_of(self, allowed, fault):
        """An octet that is allowed."""
        octet = self.take(1)[0]
        if octet not in allowed:
            raise Refused(fault)
        return octet

    def positive(self):
        number = self.number()
        if number == 0:
            raise Refused(NOT_A_CLAIM)
        return number


def read(octets):
    """The claim that the octets spell, all of them."""
    rest = Octets(octets)
    for octet in b"MX":
        rest.one_of([octet], NOT_A_CLAIM)
    rest.one_of([1], BAD_VERSION)
    kind = rest.one_of([OFFER, CONFIRM], NOT_A_CLAIM)
    station, incarnation, serial = rest.positive(), rest.positive(), rest.number()
    engine = rest.take(rest.one_of(range(5, 33), BAD_NAME))
    name = [rest.number() for _ in range(rest.one_of(range(2, 129), BAD_NAME))]
    if name[0] > 2 or (name[0] < 2 and name[1] > 39):
        raise Refused(BAD_NAME)
    records = []
    for _ in range(rest.one_of(range(41), NOT_A_CLAIM)):
        octets = rest.take(21)
        if not is_record(octets):
            raise Refused(BAD_SAMPLE)
        if records and octets <= records[-1]:
            raise Refused(NOT_RISING)
        records.append(octets)
    if rest.left:
        raise Refused(NOT_A_CLAIM)
    return kind, station, incarnation, serial, engine, name, records


def shown(octets):
    """A sample in words."""
    boots, time, mark = (int.from_bytes(octets[at:at + 4], "big") for at in (0, 4, 8))
    return f"{boots}:{time}:{mark}:{KINDS[octets[12]]}:{int.from_bytes(octets[13:], 'big')}"


def claim_row(octets):
    """What is told of octets as a claim."""
    try:
        claim = read(octets)
    except Refused as fault:
        return str(fault)
    kind, station, incarnation, serial, engine, name, records = claim
    words = [kind, station, incarnation, serial, engine.hex(), ".".join(map(str, name)), *map(shown, records)]
    return " ".join(map(str, [*words, len(octets), octets.hex()]))


class Station:
    """The station of number 1 with these peers and instances: by number engine, name, window and epoch."""

    def __init__(self, peers, instances):
        self.peers, self.instances = peers, instances
        self.windows = [[] for _ in instances]
        # What each peer has said in the incarnation that is known of it, and has not left the windows since.
        self.known, self.said = {}, {peer: set() for peer in peers}

    def take(self, number, sample):
        """Keeps of a window and one sample more what the sizes leave: of each boots number the newest, and the newest of all."""
        _, _, size, share = self.instances[number]
        all_of_it = sorted({*self.windows[number], sample}, reverse=True)
        kept = []
        for one in all_of_it:
            if sum(other[:4] == one[:4] for other in kept) < share:
                kept.append(one)
        self.windows[number] = sorted(kept[:size])

    def note(self, octets):
        try:
            _, station, incarnation, _, engine, name, records = read(octets)
            if station not in self.peers:
                raise Refused(UNKNOWN_PEER)
            places = [at for at, one in enumerate(self.instances) if one[:2] == (engine, tuple(name))]
            if not places:
                raise Refused(UNKNOWN_INSTANCE)
        except Refused as fault:
            return str(fault)
        for sample in records:
            self.take(places[0], sample)
        known = self.known.get(station)
        answer = "NewIncarnation" if known is None or known < incarnation else "Counted" if known == incarnation else "OlderIncarnation"
        if answer == "NewIncarnation":
            self.said[station], self.known[station] = set(), incarnation
        if answer != "OlderIncarnation":
            self.said[station] |= {(places[0], sample) for sample in records}
        return f"{answer} {self.known[station]}"

    def known_row(self, station):
        return str(self.known.get(station, "none"))

    def offer(self, peer):
        """What the peer is owed, at most 40 samples at once."""
        offers = []
        for number, window in enumerate(self.windows):
            owed = [sample for sample in window if (number, sample) not in self.said[peer]]
            offers += [(number, owed[at:at + 40]) for at in range(0, len(owed), 40)]
        row = f"1 to slot {self.peers.index(peer)}"
        for number, owed in offers or [(0, [])]:
            row += f" {number}:" + "".join(f" {int.from_bytes(one[:4], 'big')}.{int.from_bytes(one[4:8], 'big')}" for one in owed)
        return row
