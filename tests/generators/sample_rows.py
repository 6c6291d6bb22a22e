"""Rows of tests/cases/calls/codec of identifiers, samples, windows, tracks, alarms, watches and boards: what is asked, and what is answered by the
published rules alone (RFC 2578 sections 3.5, 7.1.6 and 7.1.10; what a window keeps; what raises an alarm), apart from the proved code.
"""
import random
import re

from models import formats
from models.images import RECORD, Watched, is_sample, kept
from models.messages import name_contents, spelled, spelled_number

ENGINE, NAME = bytes.fromhex("8000000001"), (1, 3, 6, 1, 2, 1, 2, 2, 1, 10, 1)
KINDS = {0x02: "Integer", 0x41: "Counter32", 0x42: "Gauge32", 0x43: "TimeTicks", 0x46: "Counter64"}
TOO_OLD, KNOWN = "too old", "known"
SHORT, LONG, FIRST, TEXT = "2 TooShort", "3 TooLong", "4 BadFirst", "5 BadText"


def record(boots, time, value=None, mark=0, tag=0x41):
    """The record of a sample: of a Counter32 whose value is its time, if nothing else is said."""
    value = time if value is None else value % 2**64
    return boots.to_bytes(4, "big") + time.to_bytes(4, "big") + mark.to_bytes(4, "big") + bytes([tag]) + value.to_bytes(8, "big")


def stamp(octets):
    return f"{int.from_bytes(octets[:4], 'big')}:{int.from_bytes(octets[4:8], 'big')}"


def sample(octets):
    """The fields of a record; an INTEGER has its sign."""
    boots, time, mark = (int.from_bytes(octets[at : at + 4], "big") for at in (0, 4, 8))
    tag, value = octets[12], int.from_bytes(octets[13:], "big")
    return formats.Sample(boots, time, mark, KINDS[tag], value - 2**64 if tag == 0x02 and value >= 2**63 else value)


# ---- identifiers
def fault_of(parts):
    """Why these numbers are no identifier, or none (RFC 2578 section 3.5: at most 128 of 32 bits; the second below 40 under 0 and 1)."""
    if len(parts) < 2:
        return SHORT
    if len(parts) > 128:
        return LONG
    return FIRST if parts[0] > 2 or (parts[0] < 2 and parts[1] >= 40) else None


def name_row(text):
    words = text.split(".")
    if not all(word.isascii() and word.isdigit() and (word == "0" or word[0] != "0") and int(word) < 2**32 for word in words):
        return TEXT
    parts = [int(word) for word in words]
    return fault_of(parts) or f"{len(parts)} {text} true"


def names():
    texts = ["1..3", "01.3", "", "1.+3", "1.4294967296", "4294967295", "1.40", "2.100.3", "0.0", "2.4294967295", "1.3.6.1.2.1.2.2.1.10.1", "3.1", "1", "1.3.", ".1.3", "1.3a"]
    texts += [".".join(["1", "3", *["7"] * count]) for count in (126, 127)]
    yield from ((f"name {text}", name_row(text)) for text in texts)
    for parts in ([1], [1] * 129, [1] * 128, [3, 1], [1, 40], [1, 39], [2, 40], [0, 0]):
        yield f"numbers {' '.join(map(str, parts))}", fault_of(parts) or ".".join(map(str, parts))
    listed = [(1, 3), (1, 3, 6), (1, 4), (1, 3, 6, 1), (2, 4294967295)]
    for own in listed:
        for other in listed:
            order = "Less" if own < other else "Greater" if own > other else "Equal"
            prefix = other[: len(own)] == own
            dotted = [".".join(map(str, it)) for it in (own, other)]
            yield f"names {dotted[0]} {dotted[1]}", f"{order} {order} {str(own == other).lower()} {str(prefix).lower()}"


# ---- samples
def record_row(octets):
    boots, time, tag = int.from_bytes(octets[:4], "big"), int.from_bytes(octets[4:8], "big"), octets[12]
    if tag not in KINDS:
        return "2 BadTag"
    if max(boots, time) >= 2**31:
        return "3 BadStamp"
    if not is_sample(octets):
        return "4 BadValue"
    it = sample(octets)
    return f"{it.boots}:{it.time} {it.mark} {it.kind}={it.value} {octets.hex()}"


def samples():
    one = record(3, 100, 7)
    listed = [one] + [one[:at] + bytes([octet]) + one[at + 1 :] for at, octet in ((16, 1), (4, 0x80), (0, 0x80), (12, 0x44), (12, 0x02), (12, 0x46), (8, 0xFF))]
    listed += [record(3, 100, value, 0, tag) for tag in KINDS for value in (0, 5, 2**31 - 1, 2**31, 2**32 - 1, 2**32, 2**63, -1, -(2**31), -(2**31) - 1)]
    yield from ((f"sample {octets.hex()}", record_row(octets)) for octets in listed)
    right = [it for it in listed if is_sample(it)][:6] + [record(3, 101, 6), record(4, 1), record(3, 100, 8)]
    for own in right:
        for other in right:
            yield f"samples {own.hex()} {other.hex()}", "Less" if own < other else "Greater" if own > other else "Equal"


# ---- windows and tracks
def inserted(items, octets, size, epoch):
    """What becomes of a record, and what is kept then."""
    if octets in items:
        return KNOWN, items
    after = kept([*items, octets], size, epoch)
    if octets not in after:
        return TOO_OLD, items
    gone = [it for it in items if it not in after]
    dropped = f" for {stamp(gone[0])}" if gone else ""
    return f"added at {after.index(octets)}{dropped}", after


def totals(items):
    """What the counter counted between neighbours, in how many seconds, and between how many."""
    listed = [sample(it) for it in items]
    delta, span = formats.Instance("", "", listed).totals()
    pairs = sum(formats.Instance("", "", [a, b]).totals()[1] > 0 for a, b in zip(listed, listed[1:]))
    return f"{delta}/{span}/{pairs}"


def kept_row(items):
    return "kept" + "".join(f" {stamp(it)}" for it in items)


def steps_row(size, epoch, records, with_totals):
    items, told = [], ""
    for octets in records:
        said, items = inserted(items, octets, size, epoch)
        told += f"{said} {totals(items)}, " if with_totals else f"{said}, "
    return told + kept_row(items)


def joined_row(size, epoch, own, others):
    items = kept(sorted(set(kept(set(own), size, epoch)) | set(kept(set(others), size, epoch))), size, epoch)
    return f" {totals(items)}, {kept_row(items)}"


def hexed(records):
    return ",".join(it.hex() for it in records) or "-"


def some(chance):
    kind = chance.choice([0x41] * 4 + [0x46, 0x42, 0x02])
    return record(chance.randint(3, 5), chance.randint(1, 12), chance.randint(0, 99), chance.choice([0] * 5 + [500]), kind)


WORKED = [record(3, 100, 10), record(3, 120, 60), record(3, 110, 30), record(3, 115, 40), record(3, 110, 35), record(3, 105, 20), record(3, 118, 50, 500)]
SHARED = [record(boots, time) for boots, time in ((3, 100), (3, 110), (3, 120), (4, 10), (4, 20), (4, 30))]
LATE = [record(boots, time) for boots, time in ((5, 5), (3, 130), (4, 25), (4, 20), (4, 10), (3, 120), (5, 5))]
WRAPPED = [record(3, 100, 4294967290), record(3, 110, 4)]


def windows(chance):
    lists = [(3, 3, WORKED), (4, 2, SHARED + LATE), (2, 2, WRAPPED), (1, 1, WORKED)]
    lists += [(2, 2, [WRAPPED[0], second]) for second in (record(4, 110, 4), record(3, 110, 4, 500), record(3, 110, 4, 0, 0x46))]
    lists += [(size, chance.randint(1, size), [some(chance) for _ in range(chance.randint(1, 30))]) for size in (1, 2, 3, 4, 8, 64) for _ in range(4)]
    for size, epoch, records in lists:
        yield f"track {size} {epoch} {hexed(records)}", steps_row(size, epoch, records, True)
        yield f"window {size} {epoch} {hexed(records)}", steps_row(size, epoch, records, False)
        half = len(records) // 2
        yield f"join {size} {epoch} {hexed(records[:half])} {hexed(records[half:])}", joined_row(size, epoch, records[:half], records[half:])
        yield f"join {size} {epoch} {hexed(records[half:])} {hexed(records[:half])}", joined_row(size, epoch, records[half:], records[:half])


# ---- alarms
def alarm_row(rising, falling, records):
    if falling >= rising:
        return "2 FallingNotBelowRising"
    raised = formats.raised(rising, falling, [sample(it) for it in records])
    return "raised@{}:{}".format(*raised) if raised else "clear"


def alarms(chance):
    below = [record(3, time, -much, 0, 0x02) for time, much in ((1, 30), (2, 5), (3, 19), (4, 20), (5, 6))]
    between = record(3, 105, 4294967295)
    cases = [(1000, 500, WRAPPED), (1000, 500, [WRAPPED[0], between, WRAPPED[1]]), (1000, 500, WRAPPED[:1]), (5, 5, []), (6, 5, []), (5, 6, [])]
    cases += [(-5000, -20000, below[:count]) for count in (3, 4, 5)]
    for _ in range(40):
        falling = chance.randint(-3000, 60000)
        cases.append((falling + chance.randint(1, 30000), falling, kept({some(chance) for _ in range(chance.randint(0, 12))}, 8, 8)))
    yield from ((f"alarm {rising} {falling} {hexed(records)}", alarm_row(rising, falling, records)) for rising, falling, records in cases)


def changes_row(rising, falling, was, now):
    """What two looks at an alarm's window report: by what the alarm is over each beginning of the samples of both, and of those that the first had."""
    over = lambda records: formats.raised(rising, falling, [sample(it) for it in records])
    both, events = sorted({*was, *now}), []
    for at, it in enumerate(both):
        before, after = over(both[:at]), over(both[: at + 1])
        if bool(before) != bool(after):
            had = [other for other in both[: at + 1] if other in was]
            is_new = it not in was or bool(over(had[:-1])) != bool(before) or bool(over(had)) != bool(after)
            events.append((is_new, bool(after), f"{'raised' if after else 'clear'}@{stamp(it)}"))
    told = [it for it in events if it[0]]
    if told and not events[-1][0]:
        told.append(events[-1])
    state = over(now)
    if (told[-1][1] if told else bool(over(was))) != bool(state):
        told.append((True, bool(state), "raised@{}:{}".format(*state) if state else "clear"))
    return " ".join(["then", *(text for _, _, text in told)])


def slid_rows(rising, falling, records, size):
    """Two looks before and after each sample that follows, at a window of so many: one line for each sample that raises or clears an alarm, which
    is clear too once no sample in the window is at `rising`."""
    is_raised = False
    for at, it in enumerate(records):
        was, now = records[max(0, at - size) : at], records[max(0, at + 1 - size) : at + 1]
        level, told = formats.observed(sample(was[-1]) if was else None, sample(it)), []
        if level is not None and (level <= falling if is_raised else level >= rising):
            is_raised = not is_raised
            told.append(f"{'raised' if is_raised else 'clear'}@{stamp(it)}")
        if is_raised and not formats.raised(rising, falling, [sample(other) for other in now]):
            is_raised = False
            told.append("clear")
        yield f"changes {rising} {falling} {hexed(was)} {hexed(now)}", " ".join(["then", *told])


def looks(chance, records):
    """Two looks at a window: one that got later samples and lost the first ones, or not; others between and before; and any two."""
    count = chance.randint(0, len(records))
    was = [it for it in records if chance.randint(0, 2)]
    yield records[:count], records[chance.choice([0, chance.randint(0, count)]) :]
    yield was, records[chance.choice([0, chance.randint(0, len(records))]) :]
    yield was, [it for it in records if chance.randint(0, 2)]


def counting(chance):
    """Thresholds, and samples one a second: of a counter they count, so that its rates are what the others have as values."""
    rising, tag = chance.randint(3, 8), chance.choice([0x02, 0x41, 0x42])
    numbers = [chance.randint(0, 10) for _ in range(chance.randint(1, 14))]
    counted = [sum(numbers[: at + 1]) for at in range(len(numbers))] if tag == 0x41 else numbers
    # A sample with another mark has no rate, and neither has the next one.
    records = [record(3, 100 + at, value, 0 if chance.randint(0, 9) else 7, tag) for at, value in enumerate(counted)]
    return 1000 * rising, 1000 * (rising - chance.randint(1, 3)), records


def changes():
    chance = random.Random(5)
    between = record(3, 105, 4294967295)
    cases = [(1000, 500, WRAPPED[:1], WRAPPED), (1000, 500, WRAPPED, [WRAPPED[0], between, WRAPPED[1]]), (6, 5, [], []), (1000, 500, WRAPPED, [])]
    for _ in range(30):
        rising, falling, records = counting(chance)
        cases += [(rising, falling, was, now) for was, now in looks(chance, records)]
        falling, size = chance.randint(-3000, 60000), chance.randint(1, 8)
        taken = [some(chance) for _ in range(chance.randint(1, 14))]
        half = chance.randint(0, len(taken))
        cases.append((falling + chance.randint(1, 30000), falling, kept({*taken[:half]}, size, size), kept({*taken}, size, size)))
    yield from ((f"changes {rising} {falling} {hexed(was)} {hexed(now)}", changes_row(rising, falling, was, now)) for rising, falling, was, now in cases)
    for _ in range(15):
        yield from slid_rows(*counting(chance), chance.randint(1, 6))


# ---- watches and boards
def watched(last, window, epoch):
    return Watched(bytes([128, 0, 0, 0, last]), NAME, window, epoch)


def watch_row(instances, rules):
    """Instances rise; each window is 1 to 64, its epoch 1 to the window; rules are on instances and rise."""
    if any(not (1 <= it.epoch <= it.window <= 64) for it in instances):
        return "2 BadWindow"
    if not instances or any(a.octets() >= b.octets() for a, b in zip(instances, instances[1:])):
        return "3 BadInstances"
    rising = all(a < b for a, b in zip(rules, rules[1:]))
    return "a watch" if rising and all(rule[0] < len(instances) for rule in rules) else "4 BadRules"


def told(instances, rules):
    return f"{','.join(map(str, instances)) or '-'} {','.join('/'.join(map(str, rule)) for rule in rules) or '-'}"


def watches():
    both, far = [watched(1, 2, 1), watched(2, 64, 64)], [(7, 2, 1)]
    cases = [(both, [(0, 20, 10), (1, -5, -6), (1, 20, 9), (1, 20, 10)]), (both, []), ([], []), ([watched(1, 2, 1)] * 2, far)]
    cases += [([watched(9, 1, 1), watched(1, *sizes)], rules) for sizes in ((0, 0), (65, 1), (2, 3), (2, 0)) for rules in ([], far)]
    cases += [(both, rules) for rules in ([(2, 20, 10), (2, 20, 11)], [(1, 20, 10), (0, 20, 10)], [(0, 20, 10), (0, 19, 10)], [(0, 20, 10), (0, 20, 10)])]
    yield from ((f"watch {told(*case)}", watch_row(*case)) for case in cases)


def taken_row(instances, pairs):
    boards, said = [[] for _ in instances], ""
    for number, octets in pairs:
        if number < len(instances):
            text, boards[number] = inserted(boards[number], octets, instances[number].window, instances[number].epoch)
        else:
            text = "not watched"
        said += f"{text}, "
    return said + "kept" + "".join(f" {len(items)}" for items in boards)


def boards(chance):
    both = [watched(1, 2, 1), watched(2, 3, 3)]
    lists = [[(0, record(3, 100)), (0, record(3, 110)), (0, record(3, 105)), (1, record(3, 100)), (1, record(3, 110)), (1, record(3, 110)), (2, record(3, 110))]]
    lists += [[(chance.randint(0, 2), some(chance)) for _ in range(20)] for _ in range(3)]
    for pairs in lists:
        yield f"take {told(both, []).split()[0]} {','.join(f'{number}/{octets.hex()}' for number, octets in pairs)}", taken_row(both, pairs)


def reports():
    three, restarted = [WRAPPED[0], WRAPPED[1], record(3, 105, 4294967295)], [WRAPPED[0], record(4, 110, 4)]
    cases = [(8, 8, [], WRAPPED), (8, 8, [], three), (8, 8, [(1000, 500)], WRAPPED), (8, 8, [(1000, 500)], three), (8, 8, [], restarted), (8, 8, [], [])]
    cases += [(8, 8, [(-5, -6), (1000, 500)], []), (4, 2, [], SHARED + LATE[:3])]
    for size, epoch, thresholds, records in cases:
        items = [sample(it) for it in kept(set(records), size, epoch)]
        alarms = [formats.Alarm(rising, falling, formats.raised(rising, falling, items)) for rising, falling in thresholds]
        text = formats.text([formats.Instance(ENGINE.hex(), ".".join(map(str, NAME)), items, alarms)])
        asked = told([watched(1, size, epoch)], [(0, *pair) for pair in thresholds])
        yield f"narrow {asked} {hexed(records)}", text.rstrip("\n")


# ---- marks
def marks():
    """Two boards of one watch: what is owed after marks, a join that pushes the oldest sample out, and an unmarking."""
    instances = [watched(1, 2, 1), watched(2, 3, 3)]
    both = ",".join(map(str, instances))
    first, second, third, fourth = (record(3, time).hex() for time in (100, 110, 120, 130))
    own = [f"take/0/1/{it}" for it in (first, second, third)] + [f"mark/0/1/{it}" for it in (first, third, fourth)]
    own += ["owed/0/1/-", f"owed/0/1/{second}", f"owed/14/1/{second}"]
    other = [f"take/0/1/{fourth}", f"mark/0/1/{fourth}"]
    joined = [f"owed/0/1/{second}", "owed/0/1/-", "unmark/0/0/-", f"owed/0/1/{second}"]
    yield f"marks {both} {' '.join(','.join(steps) for steps in (own, other, joined))}", marks_row(instances, own, other, joined)


class Board:
    """The records that a board keeps of each instance, and the marks of its peers: slot, instance, record. A mark goes with its record, and
    is not taken over by another board, to which the peer acknowledged nothing."""

    def __init__(self, instances):
        self.instances, self.items, self.marks = instances, [[] for _ in instances], set()

    def take(self, number, records):
        of = self.instances[number]
        self.items[number] = kept({*self.items[number], *records}, of.window, of.epoch)
        self.marks = {mark for mark in self.marks if mark[2] in self.items[mark[1]]}

    def join(self, other):
        for number, records in enumerate(other.items):
            self.take(number, records)

    def follow(self, steps):
        """What is owed, step by step."""
        told = ""
        for word, slot, number, digits in (step.split("/") for step in steps):
            slot, number, octets = int(slot), int(number), b"" if digits == "-" else bytes.fromhex(digits)
            if word == "take":
                self.take(number, [octets])
            elif word == "mark" and octets in self.items[number]:
                self.marks.add((slot, number, octets))
            elif word == "unmark":
                self.marks = {mark for mark in self.marks if mark[0] != slot}
            elif word == "owed":
                owed = [it for it in self.items[number] if (slot, number, it) not in self.marks and it > octets]
                told += f" {stamp(owed[0])}" if owed else " none"
        return told


def marks_row(instances, own, other, joined):
    board, another = Board(instances), Board(instances)
    told = board.follow(own) + another.follow(other)
    board.join(another)
    return told + board.follow(joined)


# ---- modules and names
EX_MIB = (
    "EX-MIB DEFINITIONS ::= BEGIN ex OBJECT IDENTIFIER ::= { enterprises 32473 1 } exCount OBJECT-TYPE SYNTAX Counter32 MAX-ACCESS read-only "
    'STATUS current DESCRIPTION "n" ::= { ex 2 } exLoop OBJECT IDENTIFIER ::= { exPool 1 } exPool OBJECT IDENTIFIER ::= { exLoop 1 } END'
)
# The tokens of RFC 2578's subset of ASN.1, the longest first.
TOKENS = [
    ("Hex", r"'[0-9A-Fa-f]*'[Hh]"), ("Binary", r"'[01]*'[Bb]"), ("Quoted", r'"[^"]*"'), ("Word", r"[A-Za-z](?:-?[A-Za-z0-9_])*"), ("Number", r"-?[0-9]+"),
    ("Assign", r"::="), ("Range", r"\.\."), ("LeftBrace", r"\{"), ("RightBrace", r"\}"), ("LeftParen", r"\("), ("RightParen", r"\)"), ("LeftBracket", r"\["),
    ("RightBracket", r"\]"), ("Comma", ","), ("Semicolon", ";"), ("Dot", r"\."), ("Bar", r"\|"),
]
UNCLOSED, UNEXPECTED, DUPLICATE, UNKNOWN, CYCLE, BAD = "2 Unclosed", "3 Unexpected", "4 Duplicate", "5 Unknown", "6 Cycle", "8 BadIdentifier"


def tokens_row(text):
    found, at = "", 0
    while at < len(text):
        if text[at] == " ":
            at += 1
            continue
        it = next(((kind, match.end()) for kind, form in TOKENS if (match := re.compile(form).match(text, at))), None)
        if it is None:
            return UNCLOSED if text[at] == '"' else UNEXPECTED
        found += f" {it[0]} {at}..{it[1]}"
        at = it[1]
    return found


def modules():
    twice = "A DEFINITIONS ::= BEGIN a OBJECT IDENTIFIER ::= { iso 1 } a OBJECT IDENTIFIER ::= { iso 2 } END"
    for text in (EX_MIB, twice, 'A "b', "A ? B", "A", "x(1..2) [3], | ; . '0f'H '01'B -5 5"):
        yield f"tokens {text}", tokens_row(text)
    worked = {
        "module": [
            (EX_MIB, "4 names"), ('A "b', UNCLOSED), ("A DEFINITIONS ::= BEGIN x OBJECT", UNCLOSED), ("EX-MIB DEFINITIONS ::= BEGIN 5 END", UNEXPECTED),
            ("A ? B", UNEXPECTED), (twice, DUPLICATE),
        ],
    }
    yield from ((f"{word} {asked}", told) for word, listed in worked.items() for asked, told in listed)
    for text in ("exCount.0", "mib-2", "iso.3", "1.3.6", "exLoop", "nope", "ex.007", "iso", "7.1"):
        yield f"means {text}", means_row(text)
    for oid in ("1.3.6.1.4.1.32473.1.2.0", "1.3.6.1.2.1.1", "1.3.6.1.4.1", "1.2.840"):
        yield f"called {oid}", called_row(oid)


# The names of EX-MIB, each with its parent and its numbers, and of the built-in names (RFC 2578 section 2) those that the rows need.
NAMES = {
    "iso": (None, [1]), "org": ("iso", [3]), "dod": ("org", [6]), "internet": ("dod", [1]), "mgmt": ("internet", [2]), "mib-2": ("mgmt", [1]),
    "private": ("internet", [4]), "enterprises": ("private", [1]), "ex": ("enterprises", [32473, 1]), "exCount": ("ex", [2]),
    "exLoop": ("exPool", [1]), "exPool": ("exLoop", [1]),
}


def numbers_of(name, passed=()):
    """The identifier of a name, or why it has none."""
    if name in passed:
        return CYCLE
    if name not in NAMES:
        return UNKNOWN
    parent, own = NAMES[name]
    above = [] if parent is None else numbers_of(parent, (*passed, name))
    return above if isinstance(above, str) else [*above, *own]


def means_row(text):
    name, *rest = text.split(".")
    if not all(word == "0" or re.fullmatch("[1-9][0-9]*", word) for word in rest):
        return UNKNOWN
    found = [int(name)] if name.isdigit() else numbers_of(name)
    if isinstance(found, str):
        return found
    parts = [*found, *map(int, rest)]
    return BAD if fault_of(parts) else ".".join(map(str, parts))


def called_row(oid):
    """By the name with the longest identifier that the other begins with; in numbers where only a name of one number does."""
    parts = [int(part) for part in oid.split(".")]
    known = {tuple(numbers): name for name in NAMES if isinstance(numbers := numbers_of(name), list) and len(numbers) > 1}
    longest = max((it for it in known if tuple(parts[: len(it)]) == it), key=len, default=())
    return ".".join([known[longest], *map(str, parts[len(longest) :])]) if longest else oid


# ---- values as words
RANGES = {"integer": (0x02, -(2**31), 2**31 - 1), "counter32": (0x41, 0, 2**32 - 1), "gauge32": (0x42, 0, 2**32 - 1), "timeticks": (0x43, 0, 2**32 - 1), "counter64": (0x46, 0, 2**64 - 1)}
NO_TEXT = "8 BadText"


def text_row(kind, text):
    """The octets of the value that a text means for a kind (RFC 2578 section 7.1)."""
    if kind in RANGES:
        tag, least, greatest = RANGES[kind]
        right = re.fullmatch("-?[0-9]+", text) and least <= int(text) <= greatest
        return spelled_number(int(text), tag).hex() if right else NO_TEXT
    if kind == "string":
        return spelled(0x04, text.encode()).hex()
    if kind == "hex":
        return spelled(0x04, bytes.fromhex(text)).hex() if re.fullmatch("([0-9A-Fa-f]{2})*", text) else NO_TEXT
    if kind == "oid":
        return NO_TEXT if name_row(text)[-4:] != "true" else spelled(0x06, name_contents(text)).hex()
    if kind == "ip":
        words = text.split(".")
        right = len(words) == 4 and all(word.isdigit() and int(word) < 256 for word in words)
        return spelled(0x40, bytes(map(int, words))).hex() if right else NO_TEXT
    return "no kind"


def texts():
    numbers = ["-129", "-2147483648", "-2147483649", "2147483647", "2147483648", "+5", "4294967295", "4294967296", "1", "128", "18446744073709551615", "18446744073709551616", "-1", "", "a"]
    listed = [(kind, text) for kind in RANGES for text in numbers]
    listed += [("string", "a b"), ("string", ""), ("hex", "00fF"), ("hex", "0"), ("hex", ""), ("oid", "2.100.3"), ("oid", "1"), ("oid", "1.3"), ("ip", "192.0.2.1"), ("ip", "192.0.2"), ("ip", "256.0.0.1"), ("Integer", "1")]
    yield from ((f"text {kind} {text}", text_row(kind, text)) for kind, text in listed)


def rows(chance):
    assert all(len(it) == RECORD for it in WORKED)
    for part in (names(), samples(), windows(chance), alarms(chance), changes(), watches(), boards(chance), reports(), marks(), modules(), texts()):
        yield from part
