"""Stations that send notifications, the devices that they poll, and what each line of a station says that it must have sent.

A device answers each poll on loopback with its gauges, ifSpeed of interfaces from 1 on, and can be silent; the system tells when each poll came."""
import re
import socket
import struct
import time
from pathlib import Path
from typing import NamedTuple

from library.logged import Logged
from library.namespaces import TIMESTAMP
from library.responder import UdpThread, response_to, stamp
from models import notices
from models.messages import NoMessage, read, spelled_number

GAUGE32 = 0x42
# ifSpeed, without the index.
SPEED = "1.3.6.1.2.1.2.2.1.5"
# Raised at a value of 5, cleared at 2: the keys are in thousandths.
RISING, FALLING = 5000, 2000
HIGH, LOW = 7, 0
# How many interfaces a target has at most.
A_TARGET = 16

STATION = """station = {number}
listen = "127.0.0.1:{listen}"
file = "{name}.mon"
window = 8
wait_ms = {wait}
"""
TARGET = """
[[target]]
address = "{address}"
community = "public"
engine = "{engine}"
tries = 1
{label}objects = [ {objects} ]
"""
ALARM = """
[[alarm]]
engine = "{engine}"
name = "{name}"
rising = {rising}
falling = {falling}
"""
PEER = """
[[peer]]
station = {number}
address = "{address}"
"""
# What a station says of a change that it must notify: of an alarm, or of a device.
SAID = re.compile(r"^snmpmon: round (\d+): (?:(ALARM (?:raised|cleared): .*)|(target \d+ at \S+ (?:gave up|answers|has no valid response: .*)))$", re.M)
# What it says of deliveries.
OF_DELIVERIES = re.compile(r"^snmpmon: notifications: (.*)$", re.M)
FAILS, AGAIN, REFUSED = "deliveries fail", "deliveries go on again", "the receiver refused a text"


class Device(UdpThread):
    """A device with gauges. `polls` has when each poll came, in seconds since 1970, by the system's own stamp."""

    def __init__(self, engine="8000000001", many=1, label=None):
        super().__init__()
        self.engine, self.many, self.label = engine, many, label
        self.boots, self.clock, self.polls, self.is_silent = 3, 0, [], False
        self.levels = dict.fromkeys(range(1, many + 1), LOW)
        self.socket.setsockopt(socket.SOL_SOCKET, TIMESTAMP, 1)
        self.address = "127.0.0.1:{}".format(self.socket.getsockname()[1])

    def set(self, level, indices=None):
        """Sets all gauges, or these."""
        self.levels = self.levels | dict.fromkeys(indices or self.levels, level)

    def value(self, name):
        known = stamp(bytes.fromhex(self.engine), self.boots, 10 * self.clock)
        return known.get(name) or spelled_number(self.levels[int(name.rpartition(".")[2])], GAUGE32)

    def answer(self, octets):
        return response_to(read(octets), self.value)

    def run(self):
        while not self.is_over:
            try:
                octets, ((_, _, at),), _, asker = self.socket.recvmsg(65535, 64)
                seconds, more = struct.unpack("@ll", at)
                self.clock += 1
                reply = self.answer(octets)
                if reply is not None and not self.is_silent:
                    self.socket.sendto(reply, asker)
                self.polls.append(seconds + more / 10**9)
            except (TimeoutError, NoMessage):
                pass

    def targets(self):
        """The indices of the interfaces of each target, of which each has as many as a poll has."""
        return [range(first, min(first + A_TARGET, self.many + 1)) for first in range(1, self.many + 1, A_TARGET)]


class Rules(NamedTuple):
    """What a station's settings have, and what its notices say of it: labels by what a line has of them."""

    number: int
    alarms: dict
    devices: dict


def settings(folder, devices, number=1, name="station", wait=200, listen=0, peers=()):
    """Writes settings of a station, with an alarm on each gauge. It takes a free port if it is given none. Its rules."""
    text = STATION.format(number=number, listen=listen, name=name, wait=wait)
    alarms, targets, rules = {}, {}, ""
    for device in devices:
        label = "" if device.label is None else f'label = "{device.label}"\n'
        for indices in device.targets():
            names = [f"{SPEED}.{index}" for index in indices]
            objects = ", ".join(f'{{ name = "{it}" }}' for it in names)
            text += TARGET.format(address=device.address, engine=device.engine, label=label, objects=objects)
            targets[f"target {len(targets) + 1} at {device.address} "] = notices.device_labels(number, device.address, device.label)
            for it in names:
                rules += ALARM.format(engine=device.engine, name=it, rising=RISING, falling=FALLING)
                shown = device.address if device.label is None else f"{device.address} ({device.label})"
                alarms[f"{shown} {it} "] = notices.alarm_labels(number, device.engine, it, RISING, FALLING, target=device.address, device=device.label)
    text += "".join(PEER.format(number=other, address=address) for other, address in peers)
    (Path(folder) / f"{name}.toml").write_text(text + rules)
    return Rules(number, alarms, targets)


class Change(NamedTuple):
    """What a line says of a change: its round, its text, whether it begins, and its labels."""

    round: int
    text: str
    is_raised: bool
    labels: dict


def changes(said, rules):
    """The changes that a station said, in the order in which it must notify them: of one round devices first, and then alarms."""
    found = []
    for number, alarm, device in SAID.findall(said):
        text, known = alarm or device, rules.alarms if alarm else rules.devices
        labels = [it for words, it in known.items() if words in text + " "]
        if len(labels) != 1:
            raise LookupError(f"{len(labels)} rules are of {text!r}: {sorted(known)[:5]}")
        is_raised = text.startswith("ALARM raised") if alarm else not text.endswith(" answers")
        found.append((int(number), bool(alarm), Change(int(number), text, is_raised, labels[0])))
    return [change for _, _, change in sorted(found, key=lambda it: it[:2])]


def differ(bodies, wanted):
    """How bodies differ from the changes that they must tell of, in their order; what each of them is, member by member and octet by octet."""
    found = []
    for place, body in enumerate(bodies):
        try:
            notice = notices.read(body)
        except notices.NoNotice as error:
            found.append(f"body {place + 1} is no notice: {error}")
            continue
        if place >= len(wanted):
            found.append(f"body {place + 1} is of no change: {notice}")
        elif (notice.labels, notice.summary, notice.is_raised()) != (wanted[place].labels, wanted[place].text, wanted[place].is_raised):
            found.append(f"body {place + 1} is {notice}, not {wanted[place]}")
        elif notice.ends_at is not None and notice.starts_at > notice.ends_at:
            found.append(f"body {place + 1} ends before it begins: {notice}")
    return found + [f"nothing came of {it}" for it in wanted[len(bodies):]]


class Station(Logged):
    """A station whose rounds are a second apart, and what it says on standard error."""

    def __init__(self, program, folder, url, *words, name="station", rounds=1000000, interval=1, **more):
        self.program, notify = program, ["--notify", url] if url else []
        given = [program, "station", f"{name}.toml", "--rounds", rounds, "--interval", interval, *notify, *words]
        super().__init__(folder, name, given, cwd=folder, **more)

    def of_deliveries(self):
        """What it said of deliveries."""
        return OF_DELIVERIES.findall(self.said())

    def count(self, words):
        """How often what it said of deliveries begins so."""
        return sum(it.startswith(words) for it in self.of_deliveries())

    def resident(self):
        """How much memory it has, in KiB; 0 once it has ended."""
        found = re.search(r"^VmRSS:\s+(\d+) kB$", Path(f"/proc/{self.process.pid}/status").read_text(), re.M)
        return int(found[1]) if found else 0


def wait_for(what, seconds=20):
    """Whether this came true in time."""
    end = time.monotonic() + seconds
    while time.monotonic() < end:
        if what():
            return True
        time.sleep(0.02)
    return bool(what())


def after_polls(device, polls=1, seconds=20):
    """Waits until a device was polled so often again, and a moment more, in which the round ends."""
    goal = len(device.polls) + polls * len(device.targets())
    came = wait_for(lambda: len(device.polls) >= goal, seconds)
    time.sleep(0.2)
    return came


def dropped(text):
    """The count of dropped notifications in a report in Prometheus' text format, or None if it has none."""
    found = re.findall(r'^snmpmon_notifications_dropped_total\{station="\d+"\} (\d+)$', text, re.M)
    return int(found[0]) if len(found) == 1 else None
