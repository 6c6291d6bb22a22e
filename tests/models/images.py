"""Saved images by the published layout alone, apart from the proved code: what the octets of one say, and what is written of it.

An image: the letters MI, the version, the incarnation in four octets; in version 1 the window; the count of instances in two octets; of each
instance, in version 2 its window and its epoch, then the length of its engine id and its octets, the count of its name's sub-identifiers and
these in four octets each, the number of its samples and these, rising. A sample has 21 octets: boots 4, time 4, mark 4, tag 1, value 8.
All numbers stand with the greatest octet first.
"""
from collections import Counter
from dataclasses import dataclass

TRUNCATED, BAD_VERSION, OTHER_WATCH, BAD_IMAGE = (2, "Truncated"), (3, "BadVersion"), (4, "OtherWatch"), (5, "BadImage")
# The greatest value of each tag but INTEGER's; an INTEGER has 32 bits with a sign, spread over 64.
GREATEST = {0x41: 2**32 - 1, 0x42: 2**32 - 1, 0x43: 2**32 - 1, 0x46: 2**64 - 1}
RECORD = 21


class Refused(Exception):
    """The fault of an image, its number and its name."""


@dataclass
class Watched:
    """An instance of a watch: the engine id, the name as numbers, the window and the epoch."""

    engine: bytes
    name: tuple
    window: int
    epoch: int

    def octets(self):
        name = b"".join(part.to_bytes(4, "big") for part in self.name)
        return bytes([len(self.engine)]) + self.engine + bytes([len(self.name)]) + name

    def __str__(self):
        return f"{self.engine.hex()}/{'.'.join(map(str, self.name))}/{self.window}/{self.epoch}"


def is_sample(record):
    """Whether 21 octets are a sample's record."""
    boots, time = int.from_bytes(record[:4], "big"), int.from_bytes(record[4:8], "big")
    tag, value = record[12], int.from_bytes(record[13:], "big")
    in_range = value < 2**31 or value >= 2**64 - 2**31 if tag == 0x02 else value <= GREATEST.get(tag, -1)
    return max(boots, time) < 2**31 and in_range


def boots_of(record):
    return record[:4]


def kept(records, window, epoch):
    """Of records those that fewer than `epoch` of the same boots exceed, and of these the `window` greatest, rising."""
    share = [it for it in records if sum(boots_of(one) == boots_of(it) and one > it for one in records) < epoch]
    return sorted(sorted(share, reverse=True)[:window])


class Reader:
    """Octets that are taken from the left."""

    def __init__(self, octets):
        self.octets, self.at = octets, 0

    def take(self, size):
        if len(self.octets) - self.at < size:
            raise Refused(*TRUNCATED)
        self.at += size
        return self.octets[self.at - size : self.at]

    def number(self, size):
        return int.from_bytes(self.take(size), "big")

    def number_within(self, least, most, fault):
        number = self.number(1)
        if not least <= number <= most:
            raise Refused(*fault)
        return number

    def expect(self, octets, fault):
        if self.take(len(octets)) != octets:
            raise Refused(*fault)

    def samples(self, window, epoch):
        many = self.number_within(0, window, BAD_IMAGE)
        records = []
        for _ in range(many):
            record = self.take(RECORD)
            if not is_sample(record) or records and records[-1] >= record:
                raise Refused(*BAD_IMAGE)
            records.append(record)
        if max(Counter(map(boots_of, records)).values(), default=0) > epoch:
            raise Refused(*BAD_IMAGE)
        return records


def begin(reader):
    """The incarnation, and the one window of version 1, that an image begins with."""
    for letter in b"MI":
        reader.expect(bytes([letter]), BAD_IMAGE)
    version = reader.number_within(1, 2, BAD_VERSION)
    incarnation = reader.number(4)
    if incarnation == 0:
        raise Refused(*BAD_IMAGE)
    return incarnation, reader.number_within(1, 64, BAD_IMAGE) if version == 1 else None


def sizes(reader, one_window):
    """The window and the epoch of an instance."""
    window = one_window or reader.number_within(1, 64, BAD_IMAGE)
    return window, one_window or reader.number_within(1, window, BAD_IMAGE)


def read(watch, octets):
    """The incarnation, and of each instance its window, its epoch and its samples, that an image says."""
    reader = Reader(octets)
    incarnation, one_window = begin(reader)
    reader.expect(len(watch).to_bytes(2, "big"), OTHER_WATCH)
    entries = []
    for watched in watch:
        window, epoch = sizes(reader, one_window)
        for field in fields(watched):
            reader.expect(field, OTHER_WATCH)
        entries.append((window, epoch, reader.samples(window, epoch)))
    if reader.at < len(octets):
        raise Refused(*BAD_IMAGE)
    return incarnation, entries


def name(reader):
    """The name of an instance: an object identifier."""
    numbers = tuple(reader.number(4) for _ in range(reader.number_within(2, 128, BAD_IMAGE)))
    if numbers[0] > 2 or numbers[0] < 2 and numbers[1] > 39:
        raise Refused(*BAD_IMAGE)
    return numbers


def named(octets):
    """The watch that an image names itself, and the samples of each of its instances."""
    reader = Reader(octets)
    _, one_window = begin(reader)
    many = reader.number(2)
    if not 1 <= many <= 256:
        raise Refused(*BAD_IMAGE)
    watch, windows = [], []
    for _ in range(many):
        window, epoch = sizes(reader, one_window)
        engine = reader.take(reader.number_within(5, 32, BAD_IMAGE))
        watch.append(Watched(engine, name(reader), window, epoch))
        windows.append(reader.samples(window, epoch))
    keys = [(it.engine, it.name) for it in watch]
    if reader.at < len(octets) or keys != sorted(set(keys)):
        raise Refused(*BAD_IMAGE)
    return watch, windows


def fields(watched):
    """The fields of an instance, each of which is found cut short or another."""
    return [
        bytes([len(watched.engine)]),
        watched.engine,
        bytes([len(watched.name)]),
        *(part.to_bytes(4, "big") for part in watched.name),
    ]


def written(version, watch, incarnation, entries, window=None):
    """The octets of an image; in version 1 of the one window."""
    octets = b"MI" + bytes([version]) + incarnation.to_bytes(4, "big")
    octets += bytes([window]) if version == 1 else b""
    octets += len(watch).to_bytes(2, "big")
    for watched, (size, epoch, records) in zip(watch, entries):
        octets += bytes([size, epoch]) if version == 2 else b""
        octets += watched.octets() + bytes([len(records)]) + b"".join(records)
    return octets


def row(watch, octets):
    """What is told of an image under a watch: the fault, or what it says and the image that is then written."""
    try:
        incarnation, entries = read(watch, octets)
    except Refused as refused:
        number, name = refused.args
        return f"refused {number} {name}"
    sizes = "".join(f" {window}/{epoch}/{len(records)}" for window, epoch, records in entries)
    board = [(it.window, it.epoch, kept(records, it.window, it.epoch)) for it, (_, _, records) in zip(watch, entries)]
    return f"incarnation {incarnation} saved{sizes} written {written(2, watch, incarnation, board).hex()}"


def line(watch, octets):
    return f"{','.join(map(str, watch))} {octets.hex()}"


def some_sample(chance):
    """A record, most often of few boots and times, so that epochs fill and samples tie."""
    boots, time = chance.choice([0, 1, 2, 3, 2**31 - 1]), chance.randrange(40)
    tag = chance.choice([0x02, 0x41, 0x42, 0x43, 0x46])
    value = chance.choice([0, 1, 2**31 - 1, chance.randrange(2**31)])
    return boots.to_bytes(4, "big") + time.to_bytes(4, "big") + chance.choice([0, 0, 5]).to_bytes(4, "big") + bytes([tag]) + value.to_bytes(8, "big")


def some_sizes(chance):
    """A window and an epoch."""
    window = chance.choice([1, 2, 3, 8, 63, 64, chance.randrange(1, 65)])
    return window, chance.choice([1, window, chance.randrange(1, window + 1)])
