"""The formats of a report, written apart from the proved code: by the words of docs/FORMATS.md, RFC 8259 through Python's json, and
Prometheus' text exposition format 0.0.4.
"""
import json
from dataclasses import dataclass, field

COUNTERS = {"Counter32": 2**32, "Counter64": 2**64}
# Names as Prometheus' page on the format wants them escaped in a label's value.
ESCAPES = str.maketrans({"\\": r"\\", '"': r"\"", "\n": r"\n"})
# Labels that are given for an instance, in the order in which Prometheus' text has them.
GIVEN = ("target", "device", "ifName", "ifAlias")


@dataclass(frozen=True, order=True)
class Sample:
    boots: int
    time: int
    mark: int
    kind: str
    value: int


@dataclass
class Alarm:
    rising: int
    falling: int
    raised: tuple | None


@dataclass
class Instance:
    engine: str
    name: str
    samples: list = field(default_factory=list)
    alarms: list = field(default_factory=list)

    # What is given for it: its target's address and label, and its interface's texts and speed.
    given: dict = field(default_factory=dict)

    def labels(self, station=None):
        """Its labels: a name by modules is split at its first dot, one in numbers at its last.
        A station's number is the first of them, if it is given.
        """
        if self.name[:1].isdigit():
            object_, _, index = self.name.rpartition(".") if "." in self.name else (self.name, "", "")
        else:
            object_, _, index = self.name.partition(".")
        given = [(name, self.given[name]) for name in GIVEN if name in self.given]
        its = [("engine", self.engine), ("name", self.name), ("object", object_), ("index", index)]
        return [*([] if station is None else [("station", station)]), *its, *given]

    def totals(self):
        """What the counter counted from each sample to the next, and in how many seconds (RFC 2578 sections 7.1.6 and 7.1.10)."""
        delta = span = 0
        for a, b in zip(self.samples, self.samples[1:]):
            if a.kind in COUNTERS and (a.kind, a.boots, a.mark) == (b.kind, b.boots, b.mark) and a.time < b.time:
                delta += (b.value - a.value) % COUNTERS[a.kind]
                span += b.time - a.time
        return delta, span

    def rate(self):
        """What was counted a second, in thousandths, rounded down, or None."""
        delta, span = self.totals()
        return 1000 * delta // span if span else None


def observed(before, sample):
    """What an alarm observes at a sample, in thousandths: its value, or of a counter the rate since the sample before, or None."""
    if sample.kind not in COUNTERS:
        return 1000 * sample.value
    return Instance("", "", [before, sample]).rate() if before else None


def raised(rising, falling, samples):
    """The stamp of the observation that raises an alarm, or None: the earliest of at least `rising` after which all are above `falling`."""
    stamp = None
    for before, it in zip([None, *samples], samples):
        seen = observed(before, it)
        if seen is not None and seen <= falling:
            stamp = None
        elif seen is not None and seen >= rising and stamp is None:
            stamp = it.boots, it.time
    return stamp


def points(thousandths):
    return f"{thousandths // 1000}.{thousandths % 1000:03}"


def text(instances):
    lines = []
    for it in instances:
        line = f"{it.engine} {it.name} n={len(it.samples)}"
        if it.samples:
            old, new = it.samples[0], it.samples[-1]
            delta, span = it.totals()
            rate = it.rate()
            line += f" {old.boots}:{old.time}..{new.boots}:{new.time} {new.kind}={new.value} delta={delta} span={span}"
            line += f" rate={'none' if rate is None else points(rate)}"
        for alarm in it.alarms:
            state = "raised@{}:{}".format(*alarm.raised) if alarm.raised else "clear"
            line += f" alarm {alarm.rising}/{alarm.falling}={state}"
        lines.append(line)
    lines.append(f"end {len(instances)} instances {sum(len(it.samples) for it in instances)} samples")
    return "".join(f"{line}\n" for line in lines)


def exact(number):
    """A whole number; as a text where its size is beyond 2^53."""
    return number if -(2**53) <= number <= 2**53 else str(number)


def stale_in(instances, station):
    """Of each instance whether it is stale: of a running station one without a new sample in as many rounds as its limit says."""
    return [age >= station.stale_after for age in station.ages] if station else [False] * len(instances)


def listed(it, stale):
    """What JSON says of an instance, but for the member `stale`."""
    def stamp(raised):
        return None if raised is None else {"boots": raised[0], "time": raised[1]}

    delta, span = it.totals()
    rate = None if stale else it.rate()
    return {
        "engine": it.engine,
        "name": it.name,
        "samples": [{"boots": s.boots, "time": s.time, "mark": s.mark, "kind": s.kind, "value": exact(s.value)} for s in it.samples],
        "totals": {"delta": exact(delta), "span": exact(span)},
        "rate_thousandths": None if rate is None else exact(rate),
        "alarms": [] if stale else [{"rising": exact(a.rising), "falling": exact(a.falling), "raised": stamp(a.raised)} for a in it.alarms],
    }


def json_text(instances, station=None):
    """The report, and what a running `Station` says of itself and of the age of each instance."""
    stale = stale_in(instances, station)
    said = {
        "instances": [listed(it, old) | ({"stale": old} if station else {}) for it, old in zip(instances, stale)],
        "samples": sum(len(it.samples) for it in instances),
    }
    if station:
        said["station"] = station.said()
    return json.dumps(said, sort_keys=True, separators=(",", ":"), ensure_ascii=False) + "\n"


# Each metric with its type and its help, in the order in which the text has them; first those of
# instances.
METRICS = {
    "snmpmon_counted_total": (
        "counter",
        "Newest value of a counter. "
        "Take rate() of it for other spans than the window of snmpmon_rate.",
    ),
    "snmpmon_number": (
        "gauge",
        "Newest value of what may fall: an integer, a gauge or a time. "
        "Compare it as it is, without rate().",
    ),
    "snmpmon_samples": (
        "gauge",
        "Samples that the window of an instance holds. A rate needs at least two.",
    ),
    "snmpmon_rate": (
        "gauge",
        "What a counter counted a second over its window. "
        "Multiply a rate of octets by 8 for bits a second.",
    ),
    "snmpmon_alarm": (
        "gauge",
        "1 where the alarm of a rule is raised: alert on it. Thresholds are in thousandths.",
    ),
    "snmpmon_interface_speed_bits": (
        "gauge",
        "Speed of an interface in bits a second. "
        "Divide 8 * snmpmon_rate of octets by it for the part in use.",
    ),
    "snmpmon_info": (
        "gauge",
        "The program's version and the station's number. Its value is always 1.",
    ),
    "snmpmon_incarnation": (
        "gauge",
        "How often the station was started over its file. It rises by one at each restart.",
    ),
    "snmpmon_samples_taken_total": (
        "counter",
        "Samples that the station took since it began. "
        "Look at snmpmon_target_up where it no longer rises.",
    ),
    "snmpmon_polls_given_up_total": (
        "counter",
        "Polls that the station gave up since it began. Look at snmpmon_target_up where it rises.",
    ),
    "snmpmon_debt": (
        "gauge",
        "Samples that the station owes a peer. "
        "Look at that peer and the way to it where it goes on rising.",
    ),
    "snmpmon_peer_up": (
        "gauge",
        "1 where a peer was heard within the rounds of --stale-after. "
        "Look at that station where it is 0.",
    ),
    "snmpmon_peer_last_heard_rounds": (
        "gauge",
        "Whole rounds since a datagram came from a peer, or since the station began. "
        "Look at that peer where it rises.",
    ),
    "snmpmon_saves_failed_total": (
        "counter",
        "Saves that failed since the station began. "
        "Look at its disk and the rights of its file where it rises.",
    ),
    "snmpmon_strangers_total": (
        "counter",
        "Datagrams since the station began from an address of no target and no peer. "
        "Find the sender where it rises.",
    ),
    "snmpmon_notifications_dropped_total": (
        "counter",
        "Notifications that the station could not deliver and dropped since it began. "
        "Look at the receiver of --notify where it rises.",
    ),
    "snmpmon_round_duration_seconds": (
        "gauge",
        "How long the last round took. "
        "Rounds begin late where it exceeds snmpmon_round_interval_seconds.",
    ),
    "snmpmon_round_interval_seconds": (
        "gauge",
        "Seconds between the beginnings of two rounds, at least. "
        "0 where rounds follow one another.",
    ),
    "snmpmon_rounds_overrun_total": (
        "counter",
        "Rounds since the station began that took longer than the interval. "
        "Lower tries and wait_ms where it rises.",
    ),
    "snmpmon_last_round_timestamp_seconds": (
        "gauge",
        "When the last round ended, in seconds since 1970. "
        "Look at the station where it is long before time().",
    ),
    "snmpmon_target_up": (
        "gauge",
        "1 where the last poll of a target was answered. "
        "Look at the device or the way to it where it is 0.",
    ),
    "snmpmon_target_answer_age_rounds": (
        "gauge",
        "Rounds since a target answered, or since the station began. "
        "Look at the device where it rises.",
    ),
    "snmpmon_target_answer_age_seconds": (
        "gauge",
        "Seconds since a target answered, or since the station began. "
        "Alert where it exceeds some rounds.",
    ),
    "snmpmon_target_polls_given_up_total": (
        "counter",
        "Polls of a target that the station gave up since it began. "
        "Datagrams get lost where it rises and it is up.",
    ),
    "snmpmon_target_refusal_info": (
        "gauge",
        "Why the last response of a target was refused, until it answers. "
        "Its label reason says what to correct.",
    ),
    "snmpmon_sample_age_rounds": (
        "gauge",
        "Rounds since an instance had a new sample, or since the station began. "
        "It is stale from --stale-after on.",
    ),
}
OF_INSTANCES = 6


@dataclass
class Target:
    """What a running station says of a target."""

    number: int
    address: str
    engine: str
    up: bool = True
    rounds: int = 0
    seconds: int = 0
    given_up: int = 0
    refusal: str | None = None

    def lines(self, station):
        """Its metrics, by their names, with the number of the station."""
        its = [("target", self.address), ("number", self.number), ("engine", self.engine)]
        labels = [("station", station), *its]
        said = {"up": int(self.up), "answer_age_rounds": self.rounds, "answer_age_seconds": self.seconds, "polls_given_up_total": self.given_up}
        found = {f"snmpmon_target_{name}": metric(f"snmpmon_target_{name}", labels, value) for name, value in said.items()}
        if self.refusal is not None:
            found["snmpmon_target_refusal_info"] = metric("snmpmon_target_refusal_info", labels + [("reason", self.refusal)], 1)
        return found


@dataclass
class Station:
    """What a running station says of itself."""

    number: int
    incarnation: int
    taken: int
    given_up: int
    debts: list
    targets: list
    ages: list
    round_ms: int
    round_at: int | None = None
    failed_saves: int = 0
    strangers: int = 0
    stale_after: int = 3
    # The number of each peer, and the whole rounds since it was heard, or since the start.
    peers: list = field(default_factory=list)
    interval: int = 0
    # How many of its rounds took longer than that.
    overruns: int = 0
    # How many notifications it dropped; None where it sends none.
    dropped: int | None = None
    # What `--version` prints behind the program's name.
    version: str = ""

    @property
    def silent(self):
        """The number of each peer that is silent, and its rounds."""
        return [(peer, rounds) for peer, rounds in self.peers if rounds >= self.stale_after]

    @property
    def heard(self):
        return len(self.debts) - len(self.silent)

    def said_once(self):
        """What it says in one line each, by the names of metrics."""
        said = {
            "incarnation": self.incarnation,
            "samples_taken_total": self.taken,
            "polls_given_up_total": self.given_up,
            "saves_failed_total": self.failed_saves,
            "strangers_total": self.strangers,
            "notifications_dropped_total": self.dropped,
            "round_duration_seconds": points(self.round_ms),
            "round_interval_seconds": self.interval,
            "rounds_overrun_total": self.overruns,
            "last_round_timestamp_seconds": self.round_at,
        }
        return {name: value for name, value in said.items() if value is not None}

    def unsaid(self):
        """The metrics that are not there: of a round before the first one, and of notifications where
        none are sent.
        """
        there = {f"snmpmon_{name}" for name in self.said_once()}
        return {"snmpmon_last_round_timestamp_seconds", "snmpmon_notifications_dropped_total"} - there

    def said_of_peers(self):
        """What it says of each peer, by the names of metrics."""
        up = [(peer, int(rounds < self.stale_after)) for peer, rounds in self.peers]
        return {"debt": self.debts, "peer_up": up, "peer_last_heard_rounds": self.peers}

    def lines(self, instances, label=None):
        """Its metrics, by their names; series of instances have `label` as their station."""
        own, found = ("station", self.number), {}

        def add(name, labels, value):
            found.setdefault(f"snmpmon_{name}", []).append(metric(f"snmpmon_{name}", labels, value))

        add("info", [own, ("version", self.version)], 1)
        for name, value in self.said_once().items():
            add(name, [own], value)
        for name, values in self.said_of_peers().items():
            for peer, value in values:
                add(name, [own, ("peer", peer)], value)
        for target in self.targets:
            for name, line in target.lines(self.number).items():
                found.setdefault(name, []).append(line)
        for it, age in zip(instances, self.ages):
            add("sample_age_rounds", it.labels(label), age)
        return found

    def said(self):
        """Its object in JSON."""
        plain = {"failed_saves": self.failed_saves, "given_up": self.given_up, "round_ms": self.round_ms, "strangers": self.strangers, "taken": self.taken}
        return {name: exact(number) for name, number in plain.items()} | {
            "ages": self.ages,
            "debts": [{"peer": peer, "samples": owed} for peer, owed in self.debts],
            "incarnation": self.incarnation,
            "number": self.number,
            "round_at": None if self.round_at is None else exact(self.round_at),
            "targets": [vars(target) for target in self.targets],
        }


def metric(name, labels, value):
    shown = ",".join(f'{label}="{str(said).translate(ESCAPES)}"' for label, said in labels)
    return f"{name}{{{shown}}} {value}\n" if labels else f"{name} {value}\n"


def plain_head(name, kind, words):
    """The first two lines of a metric in Prometheus' text format."""
    return f"# HELP {name} {words}\n# TYPE {name} {kind}\n"


def family_head(name, kind, words):
    """Those in OpenMetrics 1.0, which names the family: its samples have a suffix that its type gives."""
    kind = "info" if name.endswith("_info") else kind
    return plain_head(name.removesuffix({"counter": "_total", "info": "_info"}.get(kind, "")), kind, words)


def open_metrics(instances, station=None, label=None):
    """The report in OpenMetrics 1.0."""
    return prometheus(instances, station, label, family_head) + "# EOF\n"


def prometheus(instances, station=None, label=None, head=plain_head):
    """The report, and what a running `Station` says of itself; with a number as `label` each series
    of an instance has it as its label `station`.
    """
    lines = {name: [] for name in METRICS}
    for it, is_stale in zip(instances, stale_in(instances, station)):
        labels = it.labels(label)
        lines["snmpmon_samples"].append(metric("snmpmon_samples", labels, len(it.samples)))
        if "speed" in it.given:
            speed = "snmpmon_interface_speed_bits"
            lines[speed].append(metric(speed, labels, it.given["speed"]))
        if is_stale:
            continue
        if it.samples:
            newest = it.samples[-1]
            name = "snmpmon_counted_total" if newest.kind in COUNTERS else "snmpmon_number"
            lines[name].append(metric(name, labels, newest.value))
        if it.rate() is not None:
            lines["snmpmon_rate"].append(metric("snmpmon_rate", labels, points(it.rate())))
        for alarm in it.alarms:
            more = [("rising", alarm.rising), ("falling", alarm.falling)]
            lines["snmpmon_alarm"].append(metric("snmpmon_alarm", labels + more, 1 if alarm.raised else 0))
    shown = list(METRICS)[:OF_INSTANCES]
    if station:
        lines.update(station.lines(instances, label))
        shown = [name for name in METRICS if name not in station.unsaid()]
    heads = {name: head(name, kind, words) for name, (kind, words) in METRICS.items()}
    return "".join(heads[name] + "".join(lines.get(name, [])) for name in shown)


def cells(it, stale):
    """The cells of value, rate and alarm, which the table and the page have."""
    value = str(it.samples[-1].value) if it.samples else "-"
    rate = "-" if stale or it.rate() is None else points(it.rate()) + "/s"
    raised = any(alarm.raised for alarm in it.alarms)
    return value, rate, "stale" if stale else "RAISED" if raised else "clear" if it.alarms else "-"


FORMATS = {"text": text, "json": json_text, "prometheus": prometheus, "openmetrics": open_metrics}
