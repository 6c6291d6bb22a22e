"""Relays between hosts, which lose, repeat and reorder datagrams by a seed, and what they know of the lives of stations: what each held when it
began, which polls it sent and when, what it was handed, and so what its file may hold after it.

A station hears what it is handed in order, and no wait of it is quiet while there is something to be heard; so what came before a round began was
heard by the end of that round, and then saved. A claim is always taken. The first response to a poll is taken while the poll is open, and it is open
for a wait (`wait_ms`) after it was sent last, of which the system tells the time; any other response is refused, and so is each one once a later
round has begun. What comes between these two, or while a station opens or is killed, the relays lose, since nobody could say what becomes of it.
So all is exact but what is in doubt: a response that the relays looked at in time, and were held up in handing over, may be taken or not.
"""
import heapq
import itertools
import os
import random
import selectors
import struct
import threading
import time
import traceback
from dataclasses import dataclass

from models import claims
from models import messages

# How long after its poll a response is handed over at the latest, and until when it was surely in time, in nanoseconds.
LATE, SURE = 12_000_000, 18_000_000
# For how long datagrams are held back at most, nine of ten and the others, in seconds.
SHORT, LONG = 0.004, 0.3


@dataclass
class Datagram:
    """Octets, the samples in them, and the request-id where they are a response. A sample is a tuple of engine, name and record."""

    octets: bytes
    samples: frozenset = frozenset()
    poll: int | None = None


@dataclass
class Handed:
    """What a station was handed and takes: samples, by when (in nanoseconds), and the poll that they answer, if any."""

    samples: frozenset
    at: int
    poll: int | None


class Life:
    """A life of a station with this window, which polls so many targets in each round, and held these samples when it began."""

    def __init__(self, window, targets, incarnation, held):
        self.window, self.targets, self.incarnation, self.held, self.born = window, targets, incarnation, held, time.time_ns()
        # When each poll was sent last, and each round began; the newest poll; the polls whose response was handed over.
        self.asked, self.rounds, self.newest, self.answered = {}, [], 0, set()
        # What it may hold at most, and what it told of beyond that.
        self.handed, self.most, self.surplus, self.is_cut = [], set(held), set(), False

    def ask(self, poll, sent):
        if poll not in self.asked and poll % self.targets == 1:
            self.rounds.append(sent)
        self.asked[poll] = sent
        self.newest = max(self.newest, poll)

    def is_over(self, poll):
        """Whether the station has begun a later round than that of a poll."""
        return poll <= (self.newest - 1) // self.targets * self.targets

    def takes(self, datagram, now):
        """Whether what is handed over now is taken; None where nobody could say."""
        if not self.asked or self.is_cut:
            return None
        if datagram.poll is None:
            return True
        if datagram.poll in self.answered or self.is_over(datagram.poll):
            return False
        return True if now - self.asked.get(datagram.poll, 0) < LATE else None

    def take(self, datagram):
        self.handed.append(Handed(datagram.samples, time.time_ns(), datagram.poll))
        self.most |= datagram.samples
        if datagram.poll is not None:
            self.answered.add(datagram.poll)

    def is_sure(self, handed):
        return handed.poll is None or handed.at < self.asked[handed.poll] + SURE

    def is_saved(self, handed):
        """Whether this was surely heard in a round that is over: in that of its poll, or in one that began after it came."""
        if handed.poll is not None and self.is_sure(handed) and self.is_over(handed.poll):
            return True
        return sum(began > handed.at for began in self.rounds) > 1

    def least(self):
        """What it held when it began, and what it surely took."""
        return self.held.union(*(it.samples for it in self.handed if self.is_sure(it)))

    def limits(self, found):
        """The least and the most that its file may hold after it, where this was found: what it held, and what it took of a beginning of what it
        was handed, the shortest one with all that was saved and, if that can be, all that was found."""
        saved = max((count for count, it in enumerate(self.handed, 1) if self.is_saved(it)), default=0)
        least, most = set(self.held), set(self.held)
        for count, it in enumerate(self.handed):
            if count >= saved and found <= most:
                break
            most |= it.samples
            least |= it.samples if self.is_sure(it) else set()
        return least, most


def kept(window, samples):
    """What windows keep of samples: the newest of each instance."""
    records = {}
    for engine, name, record in sorted(samples):
        records.setdefault((engine, name), []).append(record)
    return {(*instance, record) for instance, all_of_it in records.items() for record in all_of_it[-window:]}


def sent_at(ancillary):
    """When a datagram was sent, as the system says, in nanoseconds."""
    ((_, _, octets),) = ancillary
    seconds, more = struct.unpack("@ll", octets)
    return seconds * 10**9 + more


class Net(threading.Thread):
    """The relays between stations of these numbers and other hosts, which are agents. `wrong` tells of a datagram that no station sends."""

    def __init__(self, places, stations, seed, loss):
        super().__init__(daemon=True)
        self.places, self.random, self.loss, self.is_over = places, random.Random(seed), loss, False
        self.lives, self.sockets, self.later, self.wrong = {station: [] for station in stations}, {}, [], []
        self.selector, self.lock, self.count = selectors.DefaultSelector(), threading.Lock(), itertools.count()

    def listen(self, made, act):
        """Hands each datagram that comes to a socket to `act`, with the time when it was sent and its sender."""
        self.selector.register(made, selectors.EVENT_READ, act)

    def link(self, one, other):
        """A way from one host to another, and the way back."""
        for sender, receiver in ((one, other), (other, one)):
            self.sockets[sender, receiver] = self.places.relay(sender, receiver)
            self.listen(self.sockets[sender, receiver], lambda octets, sent, _, way=(sender, receiver): self.carry(*way, octets, sent))

    def address(self, host, other):
        """Where a host reaches another one."""
        return self.sockets[host, other].getsockname()

    def begin(self, station, life):
        self.lives[station].append(life)

    def cut(self, life):
        """From now on this life is handed nothing."""
        with self.lock:
            life.is_cut = True

    def carry(self, one, other, octets, sent):
        """What one host sent to another is noted, and lost, or sent on once or twice."""
        datagram = self.noted(one, other, octets, sent)
        if self.random.random() < self.loss:
            return
        for _ in range(2 if self.random.random() < self.loss / 2 else 1):
            heapq.heappush(self.later, (time.monotonic() + self.delay(), next(self.count), one, other, datagram))

    def delay(self):
        if self.random.random() >= self.loss:
            return 0.0
        return self.random.random() * (SHORT if self.random.random() < 0.9 else LONG)

    def noted(self, one, other, octets, sent):
        """A datagram, of which the life that sent it learns."""
        if one not in self.lives:
            _, _, numbers, bindings = messages.read(octets)
            return Datagram(octets, samples_of(bindings), numbers[0])
        if other not in self.lives:
            _, _, numbers, _ = messages.read(octets)
            life = next(it for it in reversed(self.lives[one]) if it.born <= sent)
            life.ask(numbers[0], sent)
            return Datagram(octets)
        _, station, incarnation, _, engine, name, records = claims.read(octets)
        samples = frozenset((engine, tuple(name), record) for record in records)
        lives = [it for it in self.lives[one] if (one, it.incarnation) == (station, incarnation)]
        lives[-1].surplus |= samples - lives[-1].most
        return Datagram(octets, samples)

    def send_on(self):
        while self.later and self.later[0][0] <= time.monotonic():
            _, _, one, other, datagram = heapq.heappop(self.later)
            if other in self.lives:
                self.hand_over(one, other, datagram)
            else:
                self.put(one, other, datagram)

    def put(self, one, other, datagram):
        self.sockets[other, one].sendto(datagram.octets, self.places.address(other))

    def hand_over(self, one, station, datagram):
        with self.lock:
            life = self.lives[station][-1] if self.lives[station] else None
            is_taken = life and life.takes(datagram, time.time_ns())
            if is_taken is None:
                return
            self.put(one, station, datagram)
            if is_taken:
                life.take(datagram)

    def turn(self):
        """Waits for datagrams and hears them, and sends on those that are due."""
        wait = max(0.0, self.later[0][0] - time.monotonic()) if self.later else 0.02
        for key, _ in self.selector.select(wait):
            octets, ancillary, _, sender = key.fileobj.recvmsg(65535, 64)
            key.data(octets, sent_at(ancillary), sender)
        self.send_on()

    def run(self):
        # On one processor, so that what is sent to a host comes to it in this order.
        processors = sorted(os.sched_getaffinity(0))
        os.sched_setaffinity(0, {processors[os.getpid() % len(processors)]})
        try:
            while not self.is_over:
                self.turn()
        except Exception:
            # Whatever it is, the world has no net any more, and has to say so.
            self.wrong.append(traceback.format_exc())

    def end(self):
        self.is_over = True
        if self.is_alive():
            self.join()

    def close(self):
        self.end()
        for key in list(self.selector.get_map().values()):
            key.fileobj.close()
        self.selector.close()


def samples_of(bindings):
    """The samples of a response, of which the first three bindings are the engine, its boots and its time."""
    (_, _, engine), (_, _, boots), (_, _, now), *counters = bindings
    return frozenset((engine, tuple(name), claims.record(boots, now, 0, kind, value)) for name, kind, value in counters)
