"""Polls by the rules alone (RFC 3416, and docs/DECISIONS.md where these leave a choice), apart from the proved code: what becomes of polls, of their
timeouts and of the responses to them; and responses that are right, such with one thing wrong, and mutated ones.
"""
from models.messages import GET, NULL, OCTETS, PDUS, RESPONSE, NoMessage, OtherVersion, message, read, spelled, spelled_number
from library.mutations import KINDS, STEPS, changed_element

STAMP = [f"1.3.6.1.6.3.10.2.1.{place}.0" for place in (1, 2, 3)]
SAMPLED = {0x02: "Integer", 0x41: "Counter32", 0x42: "Gauge32", 0x43: "TimeTicks", 0x46: "Counter64"}
MARKS = (0x41, 0x42, 0x43)
REFUSED = {2: "BadMessage", 3: "Stray", 4: "WrongSource", 5: "WrongCommunity", 6: "AgentError", 7: "WrongNames", 8: "BadStamp", 9: "OtherEngine"}
UNKNOWN_TARGET, TOO_MANY_OPEN, MAX_OPEN = "2 UnknownTarget", "3 TooManyOpen", 64
NULL_VALUE = spelled(NULL, b"")
# The stamps of right responses, if no others are named.
BOOTS, TIMES = (0, 3, 2**31 - 1), range(2**31)


class Refused(Exception):
    """The fault of a call, its number and its name; of an agent's error its status and its index come after that."""


class Target:
    """Whom polls ask: its objects are tuples of an instance's number, a name and, of some, the name of a mark."""

    def __init__(self, port, community, engine, tries, objects):
        self.address, self.community, self.engine, self.tries = f"127.0.0.1:{port}", community, bytes.fromhex(engine), tries
        self.objects = objects
        self.names = [*STAMP, *(name for _, *names in objects for name in names)]

    def poll(self, request_id):
        return message(GET, self.community, [request_id, 0, 0], [(name, NULL_VALUE) for name in self.names])


def parts(name):
    return list(map(int, name.split(".")))


def refused(number, *more):
    return Refused(" ".join(map(str, [number, REFUSED[number], *more])))


class Poller:
    """What the rules say of polls: the open ones by request-id, each with its target and how often it was sent."""

    def __init__(self, targets):
        self.targets, self.open, self.last = targets, {}, 0

    def start(self, number):
        """The request-id of a new poll of the target of this number, and its octets."""
        if number >= len(self.targets):
            raise Refused(UNKNOWN_TARGET)
        if len(self.open) >= MAX_OPEN:
            raise Refused(TOO_MANY_OPEN)
        self.last += 1
        self.open[self.last] = [number, 1]
        return self.last, self.targets[number].poll(self.last)

    def timeout(self, request_id):
        """The target and the octets of a poll that is sent once more; or that its target gave up, by its number, or that none is open."""
        if request_id not in self.open:
            return "not open"
        number, sends = self.open[request_id]
        if sends >= self.targets[number].tries:
            del self.open[request_id]
            return f"given up {number}"
        self.open[request_id][1] += 1
        return number, self.targets[number].poll(request_id)

    def response(self, address, octets):
        """The target that a datagram answers for, and the samples that it gives: tuples of an instance, boots, time, mark, tag and value."""
        try:
            community, tag, (request_id, status, index), bindings = read(octets)
        except (NoMessage, OtherVersion):
            raise refused(2) from None
        if tag != RESPONSE:
            raise refused(2)
        if request_id not in self.open:
            raise refused(3)
        number = self.open[request_id][0]
        target = self.targets[number]
        if address != target.address:
            raise refused(4)
        if community != target.community:
            raise refused(5)
        del self.open[request_id]
        if status != 0:
            raise refused(6, status, index)
        return number, samples(target, bindings)


def samples(target, bindings):
    """What the bindings of a target's response give, or why they are refused."""
    if [name for name, _, _ in bindings] != list(map(parts, target.names)):
        raise refused(7)
    (_, kind, engine), boots, time = bindings[:3]
    if kind != OCTETS or any(it[1] != 0x02 or it[2] < 0 for it in (boots, time)):
        raise refused(8)
    if engine != target.engine:
        raise refused(9)
    values = {tuple(name): (kind, value) for name, kind, value in bindings[3:]}
    given = [sample(values, boots[2], time[2], *of) for of in target.objects]
    return [it for it in given if it]


def sample(values, boots, time, instance, name, mark=None):
    kind, value = values[tuple(parts(name))]
    mark_kind, mark_value = values[tuple(parts(mark))] if mark else (0x41, 0)
    if kind in SAMPLED and mark_kind in MARKS:
        return instance, boots, time, mark_value, kind, value
    return None


def right(target, request_id, chance, boots=BOOTS, times=TIMES):
    """A response: its target's community, three numbers, and the bindings."""
    values = [spelled(OCTETS, target.engine), spelled_number(chance.choice(boots)), spelled_number(chance.choice(times))]
    for _, _, *marks in target.objects:
        values.append(spelled_number(chance.choice([0, 7, 2**32 - 1]), 0x41) if chance.randrange(4) else chance.choice(KINDS))
        if marks:
            values.append(spelled_number(chance.randrange(2**32), 0x43) if chance.randrange(4) else chance.choice(KINDS))
    return [target.community, [request_id, 0, 0], list(zip(target.names, values))]


def wrong(response, chance):
    """The octets of a response with one thing wrong."""
    community, numbers, bindings = response
    tag, at = RESPONSE, chance.randrange(len(bindings))
    choice = chance.randrange(9)
    if choice == 0:
        tag = chance.choice([it for it in PDUS if it != RESPONSE])
    elif choice == 1:
        numbers[0] = chance.choice([0, -1, -numbers[0], numbers[0] + 1, 2**31 - 1, -(2**31)])
    elif choice == 2:
        community = chance.choice([b"", b"publi", b"public ", b"Public"])
    elif choice == 3:
        numbers[1:] = chance.choice([[5, 1], [-1, 0], [2**31 - 1, -(2**31)], [1, 0]])
    elif choice == 4:
        bindings[at] = (bindings[at][0] + chance.choice([".0", ".1"]), bindings[at][1])
    elif choice == 5:
        del bindings[at]
    elif choice == 6:
        bindings.insert(at, bindings[chance.randrange(len(bindings))])
    elif choice == 7:
        bindings[chance.randrange(3)] = (bindings[0][0], bindings[0][1])
    else:
        at = chance.randrange(3)
        bindings[at] = (bindings[at][0], chance.choice([*KINDS, spelled(OCTETS, b"other"), spelled_number(-1), spelled(OCTETS, b"")]))
    return message(tag, community, numbers, bindings)


def aimed(poller, chance):
    """The request-id of a response, most often that of an open poll, and the target that it comes from."""
    request_id = chance.choice([*poller.open]) if poller.open and chance.randrange(8) else chance.choice([0, 1, poller.last + 1])
    target = poller.targets[poller.open[request_id][0]] if request_id in poller.open else chance.choice(poller.targets)
    return request_id, target


def datagram(target, request_id, chance, **stamps):
    """A response to a poll: a right one, one with one thing wrong, or a mutated one."""
    response = right(target, request_id, chance, **stamps)
    kind = chance.randrange(6)
    if kind < 2:
        return message(RESPONSE, *response)
    if kind < 4:
        return wrong(response, chance)
    octets = message(RESPONSE, *response)
    octets = changed_element(octets, chance) if kind == 4 else chance.choice(STEPS)(octets, chance)
    return octets or b"0"
