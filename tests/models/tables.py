"""The table of a report for people, written apart from the proved code: by the words of docs/OPERATING.md."""
import re
from decimal import ROUND_HALF_UP, Decimal

from models.formats import FORMATS as OTHERS
from models.formats import stale_in
from models.lines import rate

IN = re.compile(r"(?:1\.3\.6\.1\.2\.1\.2\.2\.1\.10|1\.3\.6\.1\.2\.1\.31\.1\.1\.1\.6|ifInOctets|ifHCInOctets)\.(\d+)")
OUT = re.compile(r"(?:1\.3\.6\.1\.2\.1\.2\.2\.1\.16|1\.3\.6\.1\.2\.1\.31\.1\.1\.1\.10|ifOutOctets|ifHCOutOctets)\.(\d+)")
TITLES = ("VALUE", "RATE", "%", "OUT", "%")


def visible(text):
    """A text without control characters, and with a backslash before quotes and backslashes."""
    plain = "".join("?" if ord(c) < 32 or 127 <= ord(c) < 160 else c for c in text)
    return plain.replace("\\", "\\\\").replace('"', '\\"')


def device(it):
    """The line of an instance's device."""
    named = visible(it.given.get("target", "").removesuffix(":161"))
    if "device" in it.given:
        named = f"{named} ({visible(it.given['device'])})" if named else visible(it.given["device"])
    return f"{named}, engine {it.engine}\n" if named else f"engine {it.engine}\n"


def interface(it):
    """The interface of an instance by its labels, or nothing."""
    name, alias = it.given.get("ifName"), it.given.get("ifAlias")
    return "" if name is None else visible(name) + (f' "{visible(alias)}"' if alias else "")


def shown(it, stale):
    """The rate of an instance, and its part of the speed of its interface."""
    octets = IN.fullmatch(it.name) or OUT.fullmatch(it.name)
    now = None if stale else it.rate()
    if now is None:
        return "-", ""
    part = ""
    if octets and "speed" in it.given:
        part = f"{(Decimal(8 * now) / Decimal(it.given['speed'])).quantize(Decimal(1), ROUND_HALF_UP) / 10:.1f} %"
    return (rate(8 * now, "bit/s") if octets else rate(now, "/s")), part


def state(it, stale):
    raised = any(alarm.raised for alarm in it.alarms)
    return "stale" if stale else "RAISED" if raised else "clear" if it.alarms else "-"


def paired(instances):
    """Of each place of a first In the place of the first Out of its interface, or None; and the places that are in another's row."""
    firsts = {}
    for place, it in enumerate(instances):
        for which, pattern in enumerate((IN, OUT)):
            found = pattern.fullmatch(it.name)
            if found:
                firsts.setdefault((it.engine, found[1]), [None, None])
                both = firsts[it.engine, found[1]]
                both[which] = place if both[which] is None else both[which]
    outs = {into: out for into, out in firsts.values() if into is not None}
    return outs, {out for out in outs.values() if out is not None}


def row(instances, stale, ages, place, out):
    """What a row says: its five cells, alarm, samples, age and name, and what it weighs in each order."""
    its = [place] if out is None else [place, out]
    first = instances[place]
    value = "-" if out is not None or not first.samples else str(first.samples[-1].value)
    figures = [shown(instances[i], stale[i]) for i in its] + [("", "")]
    states = [state(instances[i], stale[i]) for i in its]
    known = [ages[i] for i in its if ages]
    names = [instances[i].name for i in its]
    name = interface(first)
    if out is None:
        name = f"{name} {names[0]}" if name else names[0]
    rates = [0 if stale[i] else instances[i].rate() or 0 for i in its]
    ranks = {"RAISED": 3, "stale": 2, "clear": 1, "-": 0}
    return {
        "cells": (value, *figures[0], *figures[1]),
        "alarm": max(states, key=["-", "clear", "RAISED", "stale"].index),
        "samples": str(sum(len(instances[i].samples) for i in its)),
        "age": str(max(known)) if known else "-",
        "name": name or ", ".join(names),
        "device": device(first),
        "engine": first.engine,
        "weights": {"name": 0, "rate": max(rates), "alarm": max(ranks[it] for it in states), "age": max(known, default=0)},
    }


def columns(instances, station=None, sort="name"):
    """The table; of a running `Station` with ages, and a line for each target that is down."""
    stale, ages = stale_in(instances, station), station.ages if station else []
    outs, second = paired(instances)
    rows = [row(instances, stale, ages, place, outs.get(place)) for place in range(len(instances)) if place not in second]
    engines = list(dict.fromkeys(it["engine"] for it in rows))
    rows.sort(key=lambda it: (engines.index(it["engine"]), -it["weights"][sort]))
    widest = [max((len(it["cells"][i]) for it in rows), default=0) for i in range(5)]
    wide = [width and max(width, len(title)) for width, title in zip(widest, TITLES)]

    def line(cells, alarm, samples, age, name):
        figures = "".join(f"{cell:>{width}}  " for cell, width in zip(cells, wide) if width)
        return f"{figures}{alarm:<6}  {samples:>7}  {f'{age:>5}  ' if station else ''}{name}\n"

    titles = ("VALUE", "IN" if wide[3] else "RATE", "%", "OUT", "%")
    table, before = line(titles, "ALARM", "SAMPLES", "AGE", "NAME"), None
    for it in rows:
        table += it["device"] if it["engine"] != before else ""
        table += line(it["cells"], it["alarm"], it["samples"], it["age"], it["name"])
        before = it["engine"]
    table += f"{len(instances)} instances, {sum(len(it.samples) for it in instances)} samples\n"
    for target in station.targets if station else []:
        silence = f"target {target.number} at {target.address} is down: no answer in {target.rounds} rounds, {target.seconds} s"
        table += "" if target.up else silence + (f": {target.refusal}" if target.refusal is not None else "") + "\n"
    return table


FORMATS = {**OTHERS, "columns": columns}
