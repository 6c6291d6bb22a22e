"""Files of a station that were changed, and what `snmpmon report` and `snmpmon station` say of each and make of it, by the layouts of files (slots.py)
and of images (images.py) and the formats of reports (formats.py).

The station watches four instances at two agents, with windows and epochs of their own, and has two alarms. Nobody answers it.
"""
from models import images
from models import slots
from models.claims import record, sample_of
from models.formats import Alarm, Instance, raised, text
from models.images import Watched, kept, some_sample, some_sizes, written
from models.lines import raised_line
from models.slots import HEAD, LONGEST, OPEN, SIZE, SLOT

SETTINGS = """station = 1
listen = "127.0.0.1:0"
file = "{file}"
window = 8
epoch = 3
wait_ms = {wait}
[[target]]
address = "{second}"
community = "public"
engine = "8000000002"
tries = {tries}
objects = [ {{ name = "1.3.6.1.4.1.2021.10.1.5.1", window = 64 }} ]
[[target]]
address = "{first}"
community = "public"
engine = "8000000001"
tries = {tries}
objects = [
    {{ name = "mib-2.31.1.1.1.6.1", mark = "mib-2.31.1.1.1.19.1", window = 16, epoch = 16 }},
    {{ name = "mib-2.2.2.1.10.2", window = 2, epoch = 1 }},
    {{ name = "mib-2.2.2.1.10.1" }},
]
[[alarm]]
engine = "8000000002"
name = "1.3.6.1.4.1.2021.10.1.5.1"
rising = 1000
falling = -1000
[[alarm]]
engine = "8000000001"
name = "mib-2.2.2.1.10.1"
rising = 50000000000
falling = 500
"""
FIRST, SECOND = bytes.fromhex("8000000001"), bytes.fromhex("8000000002")
WATCH = [
    Watched(FIRST, (1, 3, 6, 1, 2, 1, 2, 2, 1, 10, 1), 8, 3),
    Watched(FIRST, (1, 3, 6, 1, 2, 1, 2, 2, 1, 10, 2), 2, 1),
    Watched(FIRST, (1, 3, 6, 1, 2, 1, 31, 1, 1, 1, 6, 1), 16, 16),
    Watched(SECOND, (1, 3, 6, 1, 4, 1, 2021, 10, 1, 5, 1), 64, 3),
]
ALARMS = {0: (50000000000, 500), 3: (1000, -1000)}
LAST_INCARNATION = 2**32 - 1
# What the second line says of each fault, after the file's path.
WORDS = {
    "Damaged": "the file is damaged",
    "NoMoreGenerations": "the newest save has the greatest generation",
    "Truncated": "the octets end too early",
    "BadVersion": "an image of another version than 1 or 2",
    "OtherWatch": "the file holds other instances than these settings name",
    "BadImage": "the octets are no image",
    "NoMoreIncarnations": "the greatest incarnation was found",
}


class Fault(Exception):
    """A fault: its crate, its number and its name."""


def opened(octets):
    """The incarnation and the records of each window that are found in a file."""
    try:
        body = slots.body(octets)
        incarnation, entries = images.read(WATCH, body) if body is not None else (0, [(1, 1, [])] * len(WATCH))
    except slots.Refused as fault:
        raise Fault("mon_disk", *fault.args) from None
    except images.Refused as fault:
        raise Fault("mon_saved", *fault.args) from None
    return incarnation, [kept(records, it.window, it.epoch) for it, (_, _, records) in zip(WATCH, entries)]


def own(octets):
    """The instances that a file names itself, with their samples; none if no save was finished."""
    try:
        body = slots.body(octets)
        watch, windows = images.named(body) if body is not None else ([], [])
    except slots.Refused as fault:
        raise Fault("mon_disk", *fault.args) from None
    except images.Refused as fault:
        raise Fault("mon_saved", *fault.args) from None
    return [Instance(it.engine.hex(), ".".join(map(str, it.name)), list(map(sample_of, records))) for it, records in zip(watch, windows)]


def own_report(octets, path, formatted=text):
    """What `report --file` does about a file, in a format: its status and both its streams, without how old the file is."""
    try:
        return 0, formatted(own(octets)), ""
    except Fault as fault:
        return 1, "", failed(fault, path)


def report_of(windows):
    """The report of these windows."""
    listed = []
    for place, (it, records) in enumerate(zip(WATCH, windows)):
        samples = list(map(sample_of, records))
        alarms = [Alarm(*ALARMS[place], raised(*ALARMS[place], samples))] if place in ALARMS else []
        listed.append(Instance(it.engine.hex(), ".".join(map(str, it.name)), samples, alarms))
    return text(listed)


def raised_lines(windows, targets):
    """What a station says at its start of the alarms that these windows raise; its targets are at these addresses."""
    said = ""
    for place, thresholds in ALARMS.items():
        samples = list(map(sample_of, windows[place]))
        stamp = raised(*thresholds, samples)
        if stamp:
            it = WATCH[place]
            said += f"snmpmon: {raised_line(targets[it.engine == FIRST], it.name, samples, thresholds[0], stamp)}\n"
    return said


def failed(fault, path):
    crate, number, name = fault.args
    return f"snmpmon: {crate} {number} {name}\n{path}: {WORDS[name]}\n"


def report(octets, path):
    """What `report` does about a file: its status, both its streams, and the file afterwards, as it was."""
    try:
        _, windows = opened(octets)
    except Fault as fault:
        return 1, "", failed(fault, path), octets
    return 0, report_of(windows), "", octets


def image_of(incarnation, windows):
    return written(2, WATCH, incarnation, [(it.window, it.epoch, records) for it, records in zip(WATCH, windows)])


def begun(octets):
    """The incarnation and the windows that a life begins with, and the file with both of them saved."""
    incarnation, windows = opened(octets)
    if incarnation == LAST_INCARNATION:
        raise Fault("mon_station", 7, "NoMoreIncarnations")
    try:
        return incarnation + 1, windows, slots.saved(slots.laid_out(octets), image_of(incarnation + 1, windows))
    except slots.Refused as fault:
        raise Fault("mon_disk", *fault.args) from None


def short(octets, path):
    """What a station says of a file that is too short and not empty, before it lays it out."""
    if 0 < len(octets) < slots.SIZE:
        return f"snmpmon: {path} has {len(octets)} octets, so it is no station's file yet: it is laid out as one\n"
    return ""


def station(octets, path, targets):
    """The same of a station's round in which none of its targets answers. Each fault of a file's octets lasts, so the status is 3."""
    try:
        incarnation, windows, file = begun(octets)
    except Fault as fault:
        return 3, "", failed(fault, path), slots.laid_out(octets)
    said = short(octets, path)
    said += f"snmpmon: station 1 at HERE, incarnation {incarnation}, file {path}, targets: {len(targets)}, peers: 0\n"
    said += raised_lines(windows, targets)
    silent = "".join(f"snmpmon: round 1: target {number} at {address} gave up\n" for number, address in enumerate(targets, 1))
    try:
        return 0, report_of(windows), said + silent, slots.saved(file, image_of(incarnation, windows))
    except slots.Refused as fault:
        # Its last save failed, so the command does, after its report.
        unsaved = f"snmpmon: round 1: not saved, mon_disk {fault.args[0]}\n"
        return 3, report_of(windows), said + unsaved + silent + failed(Fault("mon_disk", *fault.args), path), file


def counted(chance):
    """The records of a counter that was asked each ten seconds, by an agent that began anew perhaps."""
    tag, start, step = chance.choice([0x41, 0x46]), chance.randrange(2**32), chance.randrange(2**31)
    last = chance.choice([3, 3, 4])
    return {record(chance.choice([3, last]), 10 * place, 0, tag, (start + step * place) % 2**32) for place in range(chance.choice([2, 5, 20]))}


def some_image(chance):
    """An image of the watch in either version, and of some a field that is none, or another watch."""
    version, one = chance.choice([1, 2, 2]), some_sizes(chance)[0]
    entries = []
    for _ in WATCH:
        window, epoch = (one, one) if version == 1 else some_sizes(chance)
        records = counted(chance) if chance.random() < 0.5 else {some_sample(chance) for _ in range(chance.choice([0, 1, 5, 20]))}
        entries.append((window, epoch, kept(records, window, epoch) if chance.random() < 0.98 else sorted(records)))
    watch = WATCH
    if chance.random() < 0.05:
        other = chance.choice([Watched(b"other", WATCH[0].name, 8, 8), Watched(FIRST, (1, 3), 8, 8), Watched(FIRST, (*WATCH[0].name, 1), 8, 8)])
        watch = chance.choice([[other, *WATCH[1:]], WATCH[:3], [*WATCH, other]])
    incarnation = chance.choice([0] + [1, 7, LAST_INCARNATION - 1, chance.randrange(1, 2**32)] * 5 + [LAST_INCARNATION])
    return written(version, watch, incarnation, [*entries, entries[0]], one)


def any_image(chance):
    """An image of some instances in either version, and of some a field that is none, or an order that is none."""
    version, one = chance.choice([1, 2, 2]), some_sizes(chance)[0]
    names = {(bytes([0x80]) + chance.randbytes(chance.choice([4, 7, 31])), (1, 3, 6, *(chance.choice([0, 1, 2**32 - 1]) for _ in range(chance.choice([0, 8, 125]))))) for _ in range(chance.choice([1, 2, 3, 9]))}
    watch = [Watched(*it, 1, 1) for it in sorted(names)]
    fault = chance.random()
    if fault < 0.05:
        watch = chance.choice([[], watch[::-1], [*watch, watch[-1]], [Watched(b"four", (1, 3), 1, 1)], [Watched(bytes(33), (1, 3), 1, 1)]])
    elif fault < 0.1:
        watch = [Watched(FIRST, chance.choice([(1,), (3, 1), (1, 40), (0, 2**32 - 1), (1, *[1] * 128), ()]), 1, 1)]
    entries = []
    for _ in watch:
        window, epoch = (one, one) if version == 1 else some_sizes(chance)
        records = counted(chance) if chance.random() < 0.5 else {some_sample(chance) for _ in range(chance.choice([0, 1, 5, 80]))}
        entries.append((window, epoch, kept(records, window, epoch) if chance.random() < 0.99 else sorted(records)[:255]))
    return written(version, watch, chance.choice([1, 1, 1, 1, 1, 2**32 - 1, 2**32 - 1, 0]), entries, one)


def any_file(chance):
    """A file with a save or none, of an image that was changed perhaps, which is short, too long or damaged perhaps."""
    octets = bytes(SIZE)
    for _ in range(chance.choice([0, 1, 1, 1, 2, 3])):
        octets = slots.saved(octets, any_image(chance))
    if chance.random() < 0.2 and octets[0] == OPEN:
        image = changed_image(any_image(chance), chance)
        octets = slots.saved(octets, image[:LONGEST])
    if chance.random() < 0.2:
        octets = chance.choice([octets[: chance.randrange(SIZE)], octets + b"x", octets[:1] + bytes(8) + octets[9:], bytes([OPEN]) + octets[1:]])
    return octets


def turned(octets, chance):
    """One to three octets turned, most often near the beginning, where a head, a gate or a size stands."""
    whole = bytearray(octets)
    for _ in range(chance.choice([1, 1, 2, 3])):
        at = chance.randrange(min(len(whole), chance.choice([HEAD, 60, len(whole)])))
        whole[at] = chance.choice([0, 1, 2, 0x80, 0xFF, OPEN, whole[at] ^ 1 << chance.randrange(8), chance.randrange(256)])
    return bytes(whole)


def changed_image(octets, chance):
    """Octets turned, cut out, put in, doubled, or random ones; or the end lost or moved."""
    at, size = chance.randrange(len(octets)), chance.choice([1, 4, images.RECORD])
    return chance.choice([
        turned(octets, chance), octets[:at] + octets[at + size :], octets[:at] + chance.randbytes(size) + octets[at:],
        octets[:at] + octets[at : at + size] + octets[at:], octets[:at] + chance.randbytes(size) + octets[at + size :], octets[:at],
        octets + chance.randbytes(1), octets + octets,
    ])


def newest(octets):
    """Where the head of the newest body stands, or any place of a slot where there is none."""
    slot = max(slots.open_slots(octets), default=(0, 0, 0))
    return slot[1], slot[2]


def with_body(octets, chance):
    """Another body, or a changed one, in place of the newest; its length is written beside it."""
    at, length = newest(octets)
    old = octets[at + HEAD : at + HEAD + min(length, LONGEST)]
    new = changed_image(old, chance) if old and chance.random() < 0.8 else some_image(chance)
    new = new[:LONGEST]
    return octets[: at + 9] + len(new).to_bytes(8, "big") + new + octets[at + HEAD + len(new) :]


def with_head(octets, chance):
    """A gate, a generation or a length of a slot changed."""
    at, here = chance.choice([0, SLOT]), bytearray(octets)
    field = chance.randrange(3)
    number = int.from_bytes(here[at + 9 : at + HEAD], "big")
    if field == 0:
        here[at] = chance.choice([0, 0xA4, 0xFF, OPEN])
    elif field == 1:
        here[at + 1 : at + 9] = chance.choice([0, 1, 2, 255, 256, 2**63, 2**64 - 2, 2**64 - 1]).to_bytes(8, "big")
    else:
        lengths = [0, 1, max(number - 1, 0), number + 1, number + images.RECORD, LONGEST, LONGEST + 1, SLOT, 2**32, 2**64 - 1]
        here[at + 9 : at + HEAD] = (chance.choice(lengths) % 2**64).to_bytes(8, "big")
    return bytes(here)


def with_octets(octets, chance):
    """Octets turned anywhere in the newest body or its head, or many random ones over a part of it."""
    at, length = newest(octets)
    end = at + HEAD + min(max(length, 1), LONGEST)
    if chance.random() < 0.7:
        return octets[:at] + turned(octets[at:end], chance) + octets[end:]
    begin = chance.randrange(at, end)
    size = min(chance.choice([1, 8, 100, SLOT]), end - begin)
    return octets[:begin] + chance.randbytes(size) + octets[begin + size :]


def moved(octets, chance):
    """The slots swapped, or one copied over the other, with its generation or with one of its own."""
    first, second = octets[:SLOT], octets[SLOT:SIZE]
    again = first[:1] + (int.from_bytes(second[1:9], "big") + 1 & 2**64 - 1).to_bytes(8, "big") + first[9:]
    return chance.choice([second + first, first + first, second + second, again + second, first + again]) + octets[SIZE:]


def resized(octets, chance):
    """Cut, or made longer."""
    size = chance.choice([0, 1, HEAD, SLOT - 1, SLOT, SLOT + HEAD, SIZE - 1, chance.randrange(SIZE), SIZE + 1, SIZE + HEAD, SIZE + SLOT])
    return octets[:size] + bytes(max(0, size - len(octets)))


CHANGES = [with_body] * 5 + [with_head] * 4 + [with_octets] * 5 + [moved] * 2 + [resized]


def changed(octets, chance):
    """A file with up to three changes, each of which takes a whole file."""
    for _ in range(chance.choice([0, 1, 1, 1, 1, 2, 2, 3])):
        octets = chance.choice(CHANGES)(octets, chance) if len(octets) >= SIZE else octets
    return octets


def some_file(chance, real):
    """A file that was changed: one that the program made, or one of up to three saves after any generation."""
    if chance.random() < 0.25:
        return changed(real, chance)
    octets = slots.laid_out(b"")
    before = chance.choice([0, 0, 0, 1, 255, 2**32 - 1, 2**64 - 4])
    if before:
        octets = slots.head(before, 0) + octets[HEAD:]
    for _ in range(chance.choice([0, 1, 2, 2, 3])):
        octets = slots.saved(octets, some_image(chance))
    return changed(octets, chance)
