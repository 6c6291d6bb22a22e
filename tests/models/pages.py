"""What the page of a report shows, written apart from the proved code: by the words of docs/OPERATING.md ("The page"). A page is compared by
what a reader finds in it (models/report_readers.py): its head, what is wrong, and of each device its rows.
"""
from models.formats import COUNTERS, observed, stale_in
from models.lines import number, rate
from models.tables import IN, OUT, shown, state

FAULTS = {"13": "in discards", "14": "in errors", "19": "out discards", "20": "out errors"}
NAMED = {"ifInDiscards": "13", "ifInErrors": "14", "ifOutDiscards": "19", "ifOutErrors": "20"}
IF_TABLE = "1.3.6.1.2.1.2.2.1."
IF_X_TABLE = "1.3.6.1.2.1.31.1.1.1."
IF_NAMES = ("if", "ifHC")


def interface_of(name):
    """The ifIndex of a column of ifTable or ifXTable, and its number if it is one of faults."""
    for start in (IF_TABLE, IF_X_TABLE):
        parts = name.removeprefix(start).split(".")
        if name.startswith(start) and len(parts) == 2:
            return parts[1], parts[0] if start == IF_TABLE and parts[0] in FAULTS else None
    object_, _, index = name.partition(".")
    if object_.startswith(IF_NAMES) and index.isdigit() and object_ != "ifNumber":
        return index, NAMED.get(object_)
    return None, None


def device_name(instances):
    """The address and the label of a device, or its engine id."""
    it = next((it for it in instances if "target" in it.given or "device" in it.given), None)
    if it is None:
        return instances[0].engine
    target, label = it.given.get("target", "").removesuffix(":161"), it.given.get("device")
    return target if label is None else f"{target} ({label})" if target else label


def interface_name(it, index):
    return it.given.get("ifName", f"if {index}")


def duration(seconds):
    """Seconds in the largest units that fit, two of them from an hour on."""
    if seconds < 60:
        return f"{seconds} s"
    if seconds < 3600:
        return f"{seconds // 60} min"
    if seconds < 86400:
        return f"{seconds // 3600} h {seconds % 3600 // 60} min"
    return f"{seconds // 86400} d {seconds % 86400 // 3600} h"


def measured(it, thousandths):
    """Thousandths of what an instance measures, as words."""
    octets = IN.fullmatch(it.name) or OUT.fullmatch(it.name)
    if it.samples and it.samples[-1].kind in COUNTERS:
        return rate(8 * max(thousandths, 0), "bit/s") if octets else rate(max(thousandths, 0), "/s")
    return number(thousandths)


def now(it, stale):
    """The value of an instance now: of a counter its rate, else its newest value."""
    if it.samples and it.samples[-1].kind in COUNTERS:
        return shown(it, stale)[0]
    return str(it.samples[-1].value) if it.samples else "-"


def octets_cell(it, stale):
    words, part = shown(it, stale)
    return f"{words} {part}" if part else words


def levels_of(it):
    """What is plotted: of a counter the rates, of another kind the values."""
    levels = [observed(before, sample) for before, sample in zip([None, *it.samples], it.samples)]
    return [level for level in levels if level is not None]


def plot_of(it):
    """How many points a plot has, and what is written beside it: the greatest value unless it is 0, and the thresholds that raise alarms."""
    levels = levels_of(it)
    is_counter = bool(it.samples) and it.samples[-1].kind in COUNTERS
    words = f"max {measured(it, max(levels))}" if levels and (max(levels) or not is_counter) else ""
    return len(levels), words + "".join(f" limit {measured(it, alarm.rising)}" for alarm in it.alarms)


def device_section(instances, stale, ages):
    """The rows of a device: of its interfaces, and of its other instances."""
    rows, others, seen = {}, [], set()
    for place, it in enumerate(instances):
        index, fault = interface_of(it.name)
        way = "in" if IN.fullmatch(it.name) else "out" if OUT.fullmatch(it.name) else None
        if index is not None and (fault or way and (index, way) not in seen):
            seen.add((index, way))
            rows.setdefault(index, []).append((place, fault, way))
        else:
            others.append(place)
    order = ("stale", "-", "clear", "RAISED")
    found, plots = [], []
    for index, its in rows.items():
        first = instances[its[0][0]]
        cells = {way: octets_cell(instances[place], stale[place]) for place, _, way in its if way}
        faults = [f"{FAULTS[fault]} {shown(instances[place], stale[place])[0]}" for place, fault, _ in its if fault and not stale[place] and instances[place].rate()]
        plots += [plot_of(instances[place]) for wanted in ("in", "out") for place, _, way in its if way == wanted]
        worst = max((state(instances[place], stale[place]) for place, _, _ in its), key=order.index)
        known = [ages[place] for place, _, _ in its if ages]
        age = str(max(known)) if known else "-"
        found.append([interface_name(first, index), first.given.get("ifAlias", ""), cells.get("in", ""), cells.get("out", ""), "; ".join(faults), worst, age])
    rest = []
    for place in others:
        it = instances[place]
        value = str(it.samples[-1].value) if it.samples else "-"
        plots.append(plot_of(it))
        name = "; ".join([it.name, *(f"{key} {it.given[key]}" for key in ("ifName", "ifAlias") if key in it.given)])
        rest.append([name, value, shown(it, stale[place])[0], "", state(it, stale[place]), str(ages[place]) if ages else "-"])
    return found, rest, plots


def page(instances, station=None):
    """What a page of these instances shows: counts, what is wrong, and the devices, each with its heading, its engine id and its rows."""
    stale, ages = stale_in(instances, station), station.ages if station else []
    engines = list(dict.fromkeys(it.engine for it in instances))
    wrong, devices, up = [], [], 0
    for place, it in enumerate(instances):
        index, _ = interface_of(it.name)
        of = [jt for jt in instances if jt.engine == it.engine]
        subject = [device_name(of), *([interface_name(it, index)] if index else []), it.name]
        for alarm in it.alarms:
            if alarm.raised and not stale[place]:
                since = "{}:{}".format(*alarm.raised)
                wrong.append(f"RAISED {' '.join(subject)}: {now(it, stale[place])}, limit {measured(it, alarm.rising)}, since {since}")
    for engine in engines:
        places = [place for place, it in enumerate(instances) if it.engine == engine]
        of = [instances[place] for place in places]
        rows, others, drawn = device_section(of, [stale[place] for place in places], [ages[place] for place in places] if ages else [])
        is_up = not station or all(target.up for target in station.targets if target.engine == engine)
        up += is_up
        times = max(((it.samples[-1].boots, it.samples[-1].time) for it in of if it.samples), default=None)
        words = [] if station is None else ["up" if is_up else "down"]
        words += [f"agent up {duration(times[1])}"] if times else []
        is_wrong = not is_up or any(stale[place] for place in places) or any(alarm.raised for it in of for alarm in it.alarms)
        devices.append({"heading": device_name(of), "engine": engine, "line": " ".join(words), "open": len(engines) <= 4 or is_wrong, "interfaces": rows, "others": others, "plots": drawn})
    raised = len(wrong)
    if station:
        for target in station.targets:
            if not target.up:
                label = next((f" ({it.given['device']})" for it in instances if it.engine == target.engine and "device" in it.given), "")
                why = f": {target.refusal}" if target.refusal is not None else ""
                wrong.append(f"{target.address.removesuffix(':161')}{label} is down, answered {target.seconds} s ago, {target.rounds} rounds ago{why}")
        wrong += [f"peer {peer} is silent, heard {rounds} rounds ago" for peer, rounds in station.silent]
        wrong += [f"{station.failed_saves} saves failed"] if station.failed_saves else []
        counts = [f"{up} of {len(engines)} devices up", f"{raised} alarms raised", f"{sum(stale)} stale instances", f"{station.heard} of {len(station.debts)} peers heard"]
    else:
        counts = [f"{len(engines)} devices", f"{raised} alarms raised"]
    return {"counts": counts, "wrong": wrong or ["Nothing is wrong."], "devices": devices}
