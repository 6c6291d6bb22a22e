"""An agent by the published rules alone (RFC 3416 section 4.2, RFC 3415, RFC 3418, RFC 2863, RFC 3411), apart from the proved code:
what it answers to a datagram, and what it counts. It keeps every variable in one dictionary and searches that from end to end.

Where the standards leave a choice, docs/DECISIONS.md tells the one made.
"""
import tomllib

from models.messages import (
    GET, GET_BULK, GET_NEXT, INTEGER, NAME, NULL, OCTETS, RESPONSE, SET, NoMessage, OtherVersion, message, name_contents, read,
    spelled, spelled_number,
)

COUNTER32, GAUGE32, TICKS, COUNTER64, NO_OBJECT, NO_INSTANCE, END = 0x41, 0x42, 0x43, 0x46, 0x80, 0x81, 0x82
TOO_BIG, NO_ACCESS, WRONG_TYPE, WRONG_LENGTH, WRONG_VALUE, NO_CREATION, AUTHORIZATION_ERROR, NOT_WRITABLE = 1, 6, 7, 8, 10, 11, 16, 17

SYSTEM, SNMP, ENGINE = (1, 3, 6, 1, 2, 1, 1), (1, 3, 6, 1, 2, 1, 11), (1, 3, 6, 1, 6, 3, 10, 2, 1)
INTERFACES, ENTRY, X_ENTRY = (1, 3, 6, 1, 2, 1, 2, 1), (1, 3, 6, 1, 2, 1, 2, 2, 1), (1, 3, 6, 1, 2, 1, 31, 1, 1, 1)
ADMIN_STATUS, ALIAS = (*ENTRY, 7), (*X_ENTRY, 18)
COUNTS = {"in_packets": 1, "bad_versions": 3, "bad_communities": 4, "bad_messages": 6, "silent_drops": 31}
# What can be set: its tag and the greatest length of a text.
WRITABLE = {(*SYSTEM, 4): (OCTETS, 255), (*SYSTEM, 5): (OCTETS, 255), (*SYSTEM, 6): (OCTETS, 255), ADMIN_STATUS: (INTEGER, None), ALIAS: (OCTETS, 64)}
REQUESTS = (GET, GET_NEXT, GET_BULK, SET)
SILENT = {1: "BadMessage", 2: "BadVersion", 3: "BadCommunity", 4: "NotARequest", 5: "TooBigTwice"}


def dotted(name):
    return ".".join(map(str, name))


def parts(text):
    return tuple(map(int, text.split(".")))


def in_ber(kind, value):
    """The octets of a value; a number, sub-identifiers or octets, by its kind."""
    if isinstance(value, int):
        return spelled_number(value, kind)
    return spelled(kind, name_contents(dotted(value)) if kind == NAME else bytes(value))


def written(community, numbers, bindings):
    return message(RESPONSE, community, numbers, [(dotted(name), in_ber(kind, value)) for name, kind, value in bindings])


class Family:
    def __init__(self, table):
        self.view, self.subtree = table["view"], parts(table["subtree"])
        self.included, self.mask = table["included"], bytes.fromhex(table.get("mask", ""))

    def matches(self, name):
        bits = "".join(f"{octet:08b}" for octet in self.mask).ljust(len(self.subtree), "1")
        return len(name) >= len(self.subtree) and all(a == b or bit == "0" for a, b, bit in zip(name, self.subtree, bits))


class Model:
    """An agent of these settings, at its boot of this number; `at` is the hundredths of a second since its start."""

    def __init__(self, path, more="", boots=None):
        with open(path, encoding="utf-8") as file:
            self.settings = tomllib.loads(file.read() + more)
        if boots is not None:
            self.settings["boots"] = boots
        self.families = [Family(table) for table in self.settings["view"]]
        self.counts = dict.fromkeys(COUNTS, 0)
        self.texts = [self.settings[key].encode() for key in ("contact", "name", "location")]
        self.status = {port["index"]: (1, 0) for port in self.settings["interface"]}
        self.alias = {port["index"]: port["alias"].encode() for port in self.settings["interface"]}

    def view(self, community, key):
        """The view for a community's reading or writing, or None where it has none."""
        found = [it["security"] for it in self.settings["community"] if it["community"].encode() == community]
        groups = [it["group"] for it in self.settings["group"] if found and it["security"] == found[0]]
        entries = [it for model in (2, 0) for it in self.settings["access"] if groups and it["group"] == groups[0] and it["model"] == model]
        return entries[0].get(key) if entries else None

    def sees(self, view, name):
        matching = [it for it in self.families if it.view == view and it.matches(name)]
        return max(matching, key=lambda it: (len(it.subtree), it.subtree)).included if matching else False

    def variables(self, at):
        """Every variable, by its name: its kind and its value."""
        of = self.settings
        contact, own_name, location = self.texts
        found = {
            (*SYSTEM, 1, 0): (OCTETS, of["descr"].encode()), (*SYSTEM, 2, 0): (NAME, parts(of["object_id"])),
            (*SYSTEM, 3, 0): (TICKS, at % 2**32), (*SYSTEM, 4, 0): (OCTETS, contact), (*SYSTEM, 5, 0): (OCTETS, own_name),
            (*SYSTEM, 6, 0): (OCTETS, location), (*SYSTEM, 7, 0): (INTEGER, of["services"]),
            (*INTERFACES, 0): (INTEGER, len(of["interface"])),
            (*ENGINE, 1, 0): (OCTETS, bytes.fromhex(of["engine"])), (*ENGINE, 2, 0): (INTEGER, of.get("boots", 1)),
            (*ENGINE, 3, 0): (INTEGER, at // 100), (*ENGINE, 4, 0): (INTEGER, of["limit"]),
        }
        for count, place in COUNTS.items():
            found[*SNMP, place, 0] = COUNTER32, self.counts[count] % 2**32
        for port in of["interface"]:
            for prefix, columns in ((ENTRY, self.entry(port, at)), (X_ENTRY, self.x_entry(port, at))):
                found |= {(*prefix, column, port["index"]): value for column, value in columns.items()}
        return found

    def entry(self, port, at):
        admin, changed = self.status[port["index"]]
        octets_in, packets_in, octets_out, packets_out = self.grown(port, at)
        return {
            1: (INTEGER, port["index"]), 2: (OCTETS, port["descr"].encode()), 3: (INTEGER, port["type"]), 4: (INTEGER, port["mtu"]),
            5: (GAUGE32, min(port["speed"], 2**32 - 1)), 6: (OCTETS, bytes.fromhex(port["phys"])), 7: (INTEGER, admin), 8: (INTEGER, admin),
            9: (TICKS, changed), 10: (COUNTER32, octets_in % 2**32), 11: (COUNTER32, packets_in % 2**32), 13: (COUNTER32, 0), 14: (COUNTER32, 0),
            15: (COUNTER32, 0), 16: (COUNTER32, octets_out % 2**32), 17: (COUNTER32, packets_out % 2**32), 19: (COUNTER32, 0), 20: (COUNTER32, 0),
        }

    def x_entry(self, port, at):
        octets_in, packets_in, octets_out, packets_out = self.grown(port, at)
        return {
            1: (OCTETS, port["name"].encode()), 6: (COUNTER64, octets_in), 7: (COUNTER64, packets_in), 10: (COUNTER64, octets_out),
            11: (COUNTER64, packets_out), 15: (GAUGE32, min((port["speed"] + 500000) // 1000000, 2**32 - 1)),
            18: (OCTETS, self.alias[port["index"]]), 19: (TICKS, 0),
        }

    def grown(self, port, at):
        keys = ("in_octets", "in_packets", "out_octets", "out_packets")
        return [(port[key]["start"] + port[key]["rate"] * (at // 100)) % 2**64 for key in keys]

    def objects(self):
        """The prefixes that stand for an object."""
        scalars = [(*SYSTEM, place) for place in range(1, 8)] + [INTERFACES] + [(*SNMP, place) for place in COUNTS.values()]
        columns = [(*ENTRY, place) for place in (*range(1, 12), *range(13, 18), 19, 20)] + [(*X_ENTRY, place) for place in (1, 6, 7, 10, 11, 15, 18, 19)]
        return scalars + columns + [(*ENGINE, place) for place in range(1, 5)]

    def got(self, view, variables, name):
        if not self.sees(view, name):
            return name, NO_OBJECT, b""
        if name in variables:
            return name, *variables[name]
        under = any(name[: len(prefix)] == prefix for prefix in self.objects())
        return name, NO_INSTANCE if under else NO_OBJECT, b""

    def following(self, view, variables, name):
        found = min((other for other in variables if other > name and self.sees(view, other)), default=None)
        return (name, END, b"") if found is None else (found, *variables[found])

    def bulk(self, view, variables, asked, numbers, fits):
        """The longest beginning of the full list that fits."""
        once = min(max(numbers[1], 0), len(asked))
        listed = [self.following(view, variables, name) for name, _, _ in asked[:once]]
        row = [name for name, _, _ in asked[once:]]
        rounds = max(numbers[2], 0) if row else 0
        while rounds and fits(listed):
            step = [self.following(view, variables, name) for name in row]
            listed += step
            row = [name for name, _, _ in step]
            rounds = 0 if all(kind == END for _, kind, _ in step) else rounds - 1
        while listed and not fits(listed):
            listed.pop()
        return listed

    def refusal(self, view, name, kind, value):
        """The status by which a variable binding of a Set is refused, or 0."""
        if not self.sees(view, name):
            return NO_ACCESS
        prefix = next((it for it in WRITABLE if name[: len(it)] == it), None)
        if prefix is None:
            return NOT_WRITABLE
        tag, longest = WRITABLE[prefix]
        if kind != tag:
            return WRONG_TYPE
        if longest is not None and len(value) > longest:
            return WRONG_LENGTH
        if longest is None and not 1 <= value <= 3:
            return WRONG_VALUE
        instances = [(0,)] if prefix[: len(SYSTEM)] == SYSTEM else [(index,) for index in self.status]
        return 0 if name[len(prefix) :] in instances else NO_CREATION

    def assign(self, name, value, at):
        if name[:-1] == ADMIN_STATUS:
            if self.status[name[-1]][0] != value:
                self.status[name[-1]] = value, at % 2**32
        elif name[:-1] == ALIAS:
            self.alias[name[-1]] = value
        else:
            self.texts[name[-2] - 4] = value

    def answer(self, datagram, at):
        """The reply's octets, or the number of the cause of silence."""
        self.counts["in_packets"] += 1
        try:
            community, tag, numbers, bindings = read(datagram)
        except NoMessage:
            self.counts["bad_messages"] += 1
            return 1
        except OtherVersion:
            self.counts["bad_versions"] += 1
            return 2
        if all(it["community"].encode() != community for it in self.settings["community"]):
            self.counts["bad_communities"] += 1
            return 3
        if tag not in REQUESTS:
            return 4
        asked = [(tuple(name), kind, tuple(value) if kind == NAME else value) for name, kind, value in bindings]
        return self.reply(community, tag, numbers, asked, at)

    def reply(self, community, tag, numbers, asked, at):
        limit = self.settings["limit"]
        view = self.view(community, "write" if tag == SET else "read")
        status, index, listed = 0, 0, asked
        if view is None:
            status = AUTHORIZATION_ERROR
        elif tag == SET:
            if len(written(community, [numbers[0], 0, len(asked)], asked)) > limit:
                status, listed = TOO_BIG, []
            else:
                refused = [(self.refusal(view, *binding), place) for place, binding in enumerate(asked, 1)]
                status, index = next(((status, place) for status, place in refused if status), (0, 0))
                for name, _, value in asked if not status else []:
                    self.assign(name, value, at)
        else:
            variables = self.variables(at)
            if tag == GET:
                listed = [self.got(view, variables, name) for name, _, _ in asked]
            elif tag == GET_NEXT:
                listed = [self.following(view, variables, name) for name, _, _ in asked]
            else:
                listed = self.bulk(view, variables, asked, numbers, lambda some: len(written(community, [numbers[0], 0, 0], some)) <= limit)
        octets = written(community, [numbers[0], status, index], listed)
        if len(octets) > limit:
            octets = written(community, [numbers[0], TOO_BIG, 0], [])
        if len(octets) > limit:
            self.counts["silent_drops"] += 1
            return 5
        return octets
