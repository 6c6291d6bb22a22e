"""The Grafana dashboards: required keys, metrics, and each query over stations that run."""
import contextlib
import json
import math
import re
import tempfile
from pathlib import Path

from library.lab import Lab
from packaging_parts.boards_expected import AFTER, ENGINES, EXPECTED, FILLED, VARIABLES
from packaging_parts.common import PACKAGING, TOP, holds, need, same
from packaging_parts.watched import ALERTS, FOLDER, RULES, Watched, asked

SAMPLE = Path(__file__).parent / "sample.prom"
BOARDS = {
    path.stem: json.loads(path.read_text(encoding="utf-8"))
    for path in sorted((PACKAGING / "grafana").glob("*.json"))
}
SCHEMA = 39
TYPES = {"row", "stat", "table", "timeseries"}
# The unit of what a query asks for.
UNITS = {
    r"snmpmon:(bits:rate|speed_bits)": "bps",
    r"snmpmon:utilization": "percentunit",
    r"snmpmon:rate\{": "pps",
    r"_seconds\b": "s",
}


def panels(board):
    return [panel for panel in board["panels"] if panel["type"] != "row"]


def each_panel():
    """Each panel that asks for something, with the name of its dashboard."""
    return [(name, panel) for name, board in BOARDS.items() for panel in panels(board)]


def try_keys(_):
    """The keys that Grafana's schema (version 39) requires."""
    required = "title uid schemaVersion version editable time templating annotations panels".split()
    same("dashboards", sorted(BOARDS), sorted(EXPECTED))
    for name, board in BOARDS.items():
        same(f"keys that {name} lacks", [key for key in required if key not in board], [])
        same(f"schema of {name}", board["schemaVersion"], SCHEMA)
        same(f"uid of {name}", board["uid"], f"snmpmon-{name}")
        same(f"keys of time of {name}", sorted(board["time"]), ["from", "to"])
        for variable in board["templating"]["list"]:
            holds("a variable lacks a key", {"name", "type", "query"} <= set(variable))
    for name, panel in each_panel():
        title = f"{name}: {panel['title']}"
        for key in ("datasource", "description", "fieldConfig", "options", "targets"):
            holds(f"{title}: no {key}", key in panel)
        same(f"{title}: fieldConfig", sorted(panel["fieldConfig"]), ["defaults", "overrides"])
        lacking = [t for t in panel["targets"] if not {"refId", "expr", "datasource"} <= set(t)]
        holds(f"{title}: no target, or one that lacks a key", panel["targets"] and not lacking)


def try_places(_):
    """Each panel has a name and number of its own, is within 24 columns and over no other."""
    for name, board in BOARDS.items():
        for key in ("id", "title"):
            values = [panel[key] for panel in board["panels"]]
            same(f"panels of {name} by {key}", len(set(values)), len(values))
        taken = set()
        for panel in board["panels"]:
            title, at = f"{name}: {panel['title']}", panel["gridPos"]
            holds(f"{title}: an unknown type", panel["type"] in TYPES)
            columns = range(at["x"], at["x"] + at["w"])
            cells = {(x, y) for x in columns for y in range(at["y"], at["y"] + at["h"])}
            holds(f"{title}: beyond 24 columns", columns.stop <= 24)
            holds(f"{title}: over another panel", not cells & taken)
            taken |= cells


def metrics_of(text):
    return dict(re.findall(r"^# TYPE (\w+) (\w+)$", text, re.M))


def named(pattern, text):
    return set(re.findall(pattern, re.sub(r"^ *#.*", "", text, flags=re.M)))


def try_metrics(_):
    """The sample has each metric that the program prints, and no other; so have the rules."""
    folder = TOP / "crates/mon_formats/src/prometheus"
    printed = {
        name
        for path in folder.glob("*.rt")
        for name in re.findall(r'"(snmpmon_\w+)"', path.read_text(encoding="utf-8"))
    }
    same("metrics of the sample", set(metrics_of(SAMPLE.read_text())), printed)
    rules = "\n".join((FOLDER / name).read_text() for name in (RULES, ALERTS))
    shown = "\n".join(t["expr"] for _, panel in each_panel() for t in panel["targets"])
    used = named(r"\bsnmpmon_\w+", rules) | named(r"\bsnmpmon_\w+", shown)
    same("metrics of rules and panels", used, printed)
    recorded = set(re.findall(r"record: (\S+)", rules))
    asked_for = named(r"\bsnmpmon:[\w:]+", shown) | named(r"\bsnmpmon:[\w:]+", rules)
    same("series that are asked for, and those that rules record", asked_for, recorded)


def override(panel, kind, of, key):
    """What a panel overrides of a column or a query, or None."""
    return next(
        (
            it["value"]
            for one in panel["fieldConfig"]["overrides"]
            if one["matcher"] == {"id": kind, "options": of}
            for it in one["properties"]
            if it["id"] == key
        ),
        None,
    )


def column(panel, target):
    """The name of a table's column of a query; None if it is hidden."""
    organized = next(it["options"] for it in panel["transformations"] if it["id"] == "organize")
    value = f"Value #{target['refId']}" if len(panel["targets"]) > 1 else "Value"
    return None if organized["excludeByName"].get(value) else organized["renameByName"][value]


def unit(panel, target):
    if panel["type"] == "table":
        return override(panel, "byName", column(panel, target), "unit")
    return panel["fieldConfig"]["defaults"].get("unit")


def try_shown(_):
    """Units fit the queries, what is sent is below zero, and no legend shows an engine."""
    for name, panel in each_panel():
        known = {it["name"] for it in BOARDS[name]["templating"]["list"]} | {"__rate_interval"}
        centered = panel["fieldConfig"]["defaults"].get("custom", {}).get("axisCenteredZero")
        for t in panel["targets"]:
            what, query = f"{name}: {panel['title']} {t['refId']}", t["expr"]
            wanted = [it for asks, it in UNITS.items() if re.search(asks, query)]
            if wanted and not (panel["type"] == "table" and column(panel, t) is None):
                same(f"{what}: unit", unit(panel, t), wanted[0])
            same(f"{what}: unknown variables", set(re.findall(r"\$(\w+)", query)) - known, set())
            holds(f"{what}: shows an engine", "{{engine}}" not in t.get("legendFormat", ""))
            below = override(panel, "byFrameRefID", t["refId"], "custom.transform") == "negative-Y"
            mirrored = centered and bool(re.search(r'object=~?"[^"]*Out', query))
            same(f"{what}: below zero", below, bool(mirrored))
    mirrors = {
        panel["title"]
        for panel in panels(BOARDS["interface"])
        if panel["fieldConfig"]["defaults"].get("custom", {}).get("axisCenteredZero")
    }
    missing = {"Bits", "Packets", "Errors", "Discards"} - mirrors
    same("panels of interfaces that are not mirrored about zero", missing, set())


def plain(expression, board):
    """An expression with its variables filled in."""
    for name, value in FILLED[board].items():
        expression = expression.replace(f"${name}", value)
    return expression


def fits(found, expected):
    """Returns `True` if each value is the expected one, or within two limits."""
    if found is None or set(found) != set(expected):
        return False
    return all(
        wanted[0] <= found[key] <= wanted[1]
        if isinstance(wanted, tuple)
        else math.isclose(found[key], wanted, rel_tol=1e-9, abs_tol=1e-12)
        for key, wanted in expected.items()
    )


class Shown:
    """What Prometheus answers to queries of the dashboards, with this lab's addresses by name."""

    def __init__(self, watched):
        self.watched = watched
        a, b = (f"127.0.0.1:{port}" for port in watched.ports[:2])
        self.names = {a: "A", b: "B", watched.device: "AGENT"}
        self.names |= {watched.dead: "DEAD", watched.silent: "SILENT"}

    def key(self, labels):
        """The labels as one text, without the job and the name, which all have."""
        labels = {key: self.names.get(value, value) for key, value in labels.items()}
        return " ".join(
            f"{k}={v}" for k, v in sorted(labels.items()) if k not in ("job", "__name__")
        )

    def values(self, query):
        """The values of a query by their labels; None if two series have equal ones."""
        series = self.watched.series(query)
        found = {self.key(labels): value for labels, value in series}
        return found if len(found) == len(series) else None

    def wait_for(self, what, query, expected):
        latest = []

        def fitting():
            latest[:] = [self.values(query)]
            return fits(latest[0], expected)

        self.watched.wait_for(what, fitting, lambda: f"{query}: {latest}, expected {expected}")

    def label_values(self, definition):
        """The values of a variable."""
        series, label = re.fullmatch(r"label_values\((.*), (\w+)\)", definition).groups()
        try:
            found = asked(self.watched.ports[3], f"label/{label}/values", **{"match[]": series})
        except OSError:
            return None
        return sorted(self.names.get(it, it) for it in found)


def legends_differ(what, target, labels):
    """Fails if two series of a query have one legend."""
    legend = target["legendFormat"]
    texts = [re.sub(r"{{(\w+)}}", lambda m: it.get(m[1], ""), legend) for it in labels]
    same(f"{what}: legends of several series", sorted(texts), sorted(set(texts)))


def look_at(shown, name, panel, expected):
    """Waits until each query of a panel answers what is expected, and shows no engine."""
    same(f"{name}: queries of {panel['title']}", len(panel["targets"]), len(expected))
    for t, wanted in zip(panel["targets"], expected):
        query, what = plain(t["expr"], name), f"{name}: {panel['title']} {t['refId']}"
        shown.wait_for(what, query, wanted)
        if "legendFormat" in t:
            legends_differ(what, t, [labels for labels, _ in shown.watched.series(query)])
        else:
            holds(f"{what}: shows an engine", not any(it in str(wanted) for it in ENGINES))


def look_at_panels(shown):
    for name, panel in each_panel():
        expected = EXPECTED[name].get(panel["title"])
        holds(f"{name}: nothing is expected of {panel['title']}", expected is not None)
        look_at(shown, name, panel, expected)


def look_without_a_station(shown):
    """Kills station 2, which then is gone, and no silent peer."""
    shown.watched.lab.kill(shown.watched.stations["b"])
    for panel in panels(BOARDS["overview"]):
        if panel["title"] in AFTER:
            look_at(shown, "overview", panel, AFTER[panel["title"]])


def look_at_variables(shown):
    for name, board in BOARDS.items():
        for variable in board["templating"]["list"]:
            if variable["type"] != "query":
                continue
            definition = plain(variable["definition"], name)
            wanted = VARIABLES[variable["name"]]
            shown.watched.wait_for(
                f"{name}: values of {variable['name']}",
                lambda: shown.label_values(definition) == wanted,
                lambda: f"{shown.label_values(definition)}, expected {wanted}",
            )


def try_queries(program):
    """Each query of each panel, over two stations, a device that answers, and two that do not."""
    need("prometheus")
    with tempfile.TemporaryDirectory() as folder, contextlib.ExitStack() as stack:
        lab = Lab(program, folder)
        stack.callback(lab.close)
        watched = Watched(lab, stack)
        watched.name_device()
        watched.add_faults()
        watched.start_stations()
        watched.write_settings()
        watched.start_prometheus()
        shown = Shown(watched)
        look_at_panels(shown)
        look_at_variables(shown)
        look_without_a_station(shown)
