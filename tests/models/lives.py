"""A station of another make on its disk: what it answers to the lines `station ..` of crates/mon_rows. It has one target and the peers 2 and 3; its claims are
read by claims.py and its polls are kept by polls.py, and what either offers it takes into one window. A life ends with a stop, and the next one begins
with what the disk then holds, with a window of another size perhaps.
"""
from models.claims import CONFIRM, OFFER, Station, read, record, sample_of, written
from models.formats import Instance, text
from models.polls import Poller, Refused, Target

ENGINE, NAME = bytes.fromhex("8000000001"), (1, 3, 6, 1, 2, 1, 2, 2, 1, 10, 1)
DOTTED = ".".join(map(str, NAME))
OWN, PEERS = 1, [2, 3]
TARGET = Target(16100, b"public", ENGINE.hex(), 2, [(0, DOTTED)])
SIZE, PORTION = 8, 40


def taken(records):
    """What is told of samples that were taken."""
    return "".join(f" took 0 {it.boots}:{it.time} {it.value}" for it in map(sample_of, records))


class Life:
    """A station, what its disk holds, and the incarnation that was found on it last."""

    def __init__(self):
        self.saved, self.found = [], 0
        self.station = self.poller = None

    @property
    def window(self):
        return self.station.windows[0]

    def open(self, size=SIZE):
        """Begins a life; what it begins with is saved."""
        self.found += 1
        self.station = Station(PEERS, [(ENGINE, NAME, size, size)])
        self.station.windows[0] = self.saved = self.saved[-size:]
        self.poller, self.serial = Poller([TARGET]), 0
        return f"incarnation {self.found}"

    def poll(self, target):
        try:
            _, octets = self.poller.start(target)
        except Refused as fault:
            return f"refused 2 Poll {fault}"
        return f"ok target {target} {octets.hex()}"

    def timeout(self, request_id):
        told = self.poller.timeout(request_id)
        if isinstance(told, str):
            return told.replace("given up", "ok gave up").replace("not open", "ok")
        return f"ok target {told[0]} {told[1].hex()}"

    def agent(self, octets):
        """What becomes of a datagram from the target's address."""
        try:
            _, samples = self.poller.response(TARGET.address, octets)
        except Refused as fault:
            return f"refused 3 Response {' '.join(str(fault).split()[:2])}"
        records = [record(*sample) for _, *sample in samples]
        for it in records:
            self.station.take(0, it)
        return f"ok{taken(records)}"

    def peer(self, octets):
        """What becomes of a datagram from a peer."""
        noted = self.station.note(octets)
        if noted[0].isdigit():
            return f"refused 4 Exchange {noted}"
        kind, station, _, serial, engine, name, records = read(octets)
        told = f"ok{taken(records)} {noted.split()[0]}"
        if kind == OFFER:
            told += f" peer {station} {self.claim(CONFIRM, serial, engine, name, records)}"
        return told

    def claim(self, kind, serial, engine, name, records):
        return written((kind, OWN, self.found, serial, engine, name, records)).hex()

    def owed_to(self, peer):
        return [one for one in self.window if (0, one) not in self.station.said[peer]]

    def owed(self, peer):
        known = self.station.known.get(peer)
        return f"owes {peer} {len(self.owed_to(peer))}, " + ("none known" if known is None else f"known {known}")

    def share(self, peer):
        """Offers a peer what it is owed, by portions; where that is nothing, an offer of nothing."""
        if peer not in PEERS:
            return "refused 4 Exchange 7 UnknownPeer"
        owed, told = self.owed_to(peer), "ok"
        for at in range(0, max(1, len(owed)), PORTION):
            self.serial += 1
            told += f" peer {peer} {self.claim(OFFER, self.serial, ENGINE, NAME, owed[at : at + PORTION])}"
        return told

    def report(self):
        return text([Instance(ENGINE.hex(), DOTTED, list(map(sample_of, self.window)))]).removesuffix("\n")

    def save(self):
        self.saved = list(self.window)
        return "ok"

    def stop(self, calls, keep):
        """Saves, and stops after so many calls of the disk: from the fifth on what is kept may be the new save."""
        if calls == 6 or (calls, keep) == (5, "keep"):
            self.save()
        self.station = self.poller = None
        return "ok" if calls == 6 else "refused 5 Keeper 2 DiskFault"
