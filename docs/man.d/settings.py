"""Reads the keys of settings.

Which there are, their ranges and whether they may be left out are in crates/mon_settings, their
words in keys.toml, and an example of each in examples/.
"""
import json
import re
import tomllib
from functools import cache
from pathlib import Path
from typing import NamedTuple

TOP = Path(__file__).resolve().parent.parent.parent
CRATE = TOP / "crates/mon_settings"
EXAMPLES = ["agent.toml", "agent-large.toml", "station.toml"]
# The definitions that read each table.
READERS = {
    "agent": ["set_texts_of", "system_of", "policy_in", "interfaces_in"],
    "station": ["scalars_of", "modules_at", "station_of", "peers_at", "rules_at"],
    "community": ["community_of"],
    "group": ["group_of"],
    "access": ["access_entry_of"],
    "view": ["family_of"],
    "interface": ["interface_of", "counts_of"],
    "growth": ["growth_of"],
    "target": ["target_of"],
    "objects": ["object_of"],
    "peer": ["peer_of"],
    "alarm": ["alarm_of"],
}
READING = re.compile(
    r"\b(needed_at|default_at|optional_at|rows_between|rows_up_to|list_at|growth_at"
    r"|name_at find|name_or_none find) key\.(\w+)"
)
# What follows a key where it is read within a range: its bounds (no lower one is 0), or fixed ones.
RANGES = [
    (r".*\((?:number|int|text|hex)_in (\d+) (\w+)\)", None),
    (r" (\d+) (\d+) \(", None),
    (r"() (\d+) (?:peer|\(alarm)_of", None),
    (r" long_in", ("0", "9223372036854775807")),
    (r" (?:community|group|access_entry|family|interface)_of t", ("0", "256")),
]
OPTIONAL = {"default_at", "optional_at", "rows_up_to", "name_or_none find"}


class Key(NamedTuple):
    """A key of a table of settings."""

    name: str
    wanted: str  # type and range
    optional: bool
    meaning: str
    default: str | None
    example: str


def source(name):
    return (CRATE / "src" / name).read_text(encoding="utf-8")


def written():
    """How each key is written, by its variant."""
    return dict(re.findall(r'Key::(\w+) => "(\w+)"', source("key.rt")))


def grammar():
    """The variants of each table's keys, by the table's name."""
    text, names = source("grammar.rt"), written()
    consts = {
        m[1]: re.findall(r"\w+", m[2])
        for m in re.finditer(r"const (\w+): \[Key; \d+\] = \[([^\]]*)\];", text)
    }
    tables = {"agent": consts["AGENT"], "station": consts["STATION"]}
    for m in re.finditer(r"^ {8}([\w |]+) => &(?:\[([\w, ]*)\]|(\w+)),", text, re.M):
        for table in re.findall(r"\w+", m[1]):
            if table != "_":
                name = "growth" if m[2] == "Start, Rate" else names[table]
                tables[name] = consts[m[3]] if m[3] else re.findall(r"\w+", m[2])
    return tables


def wanted_arms(body):
    """What each key of a match is said to need."""
    found = {}
    for m in re.finditer(r'((?:Key::\w+(?: \| )?)+)\s*=>\s*\{?\s*"([^"]*)"', body):
        found |= {key: m[2] for key in re.findall(r"Key::(\w+)", m[1])}
    return found


def wanted():
    """A function that says what a key of a table must be."""
    text = source("wanted.rt")
    bodies = {
        name: re.search(rf"fn {name}\(.*?\n\}}", text, re.S)[0]
        for name in ("at_top", "in_table", "value", "number")
    }
    nested = re.search(r"Key::(\w+) => match table \{(.*?)_ =>", bodies["in_table"], re.S)
    bodies["in_table"] = bodies["in_table"].replace(nested[0], "")
    inner = wanted_arms(nested[2])
    by_body = {name: wanted_arms(body) for name, body in bodies.items()}
    tables = {name: variant for variant, name in written().items()}

    def says(table, key):
        chain = [
            by_body["at_top" if table in ("agent", "station") else "in_table"],
            by_body["value"],
            by_body["number"],
        ]
        if key == nested[1] and tables.get(table) in inner:
            chain.insert(0, {key: inner[tables[table]]})
        return next(found[key] for found in chain if key in found)

    return says


@cache
def definitions():
    """The text of each definition of the crate's specs by its name."""
    found = {}
    for path in sorted((CRATE / "specs").glob("*.antt")):
        text = path.read_text(encoding="utf-8")
        for part in re.split(r"^(?=(?:unfoldable|abbrev) pub )", text, flags=re.M)[1:]:
            found.setdefault(re.match(r"\w+ pub (\w+)", part)[1], part)
    return found


def optional_keys():
    """Whether a key may be left out, by table and by the key's variant."""
    found = {}
    for table, readers in READERS.items():
        read = [m for reader in readers for m in READING.findall(definitions()[reader])]
        found[table] = {key: form in OPTIONAL for form, key in read}
    return found


def range_faults(table, variant, said):
    """Says so if a key's words lack the range by which the definitions read it."""
    text = "\n".join(definitions()[reader] for reader in READERS[table])
    for pattern, fixed in RANGES:
        for found in re.findall(rf"key\.{variant}\b{pattern}", text):
            low, high = fixed or (found[0] or "0", found[1])
            words = {f"{low} to {high}".replace("window", "the window")}
            words |= {f"at most {high}"} if low == "0" else set()
            if not any(re.search(rf"\b{word}\b", said) for word in words):
                yield f"wanted.rt: {table} {variant} lacks {' or '.join(sorted(words))}"


def examples():
    """A value of each key by table, from the first file that has one that is not empty."""
    found = {}

    def add(table, values):
        for key, value in values.items():
            inner = (
                "growth" if key in ("in_octets", "in_packets", "out_octets", "out_packets") else key
            )
            for row in value if isinstance(value, list) else [value]:
                if isinstance(row, dict):
                    add(inner, row)
            if not found.get((table, key)):
                found[table, key] = value

    for name in EXAMPLES:
        add(
            "agent" if name.startswith("agent") else "station",
            tomllib.loads((TOP / "examples" / name).read_text(encoding="utf-8")),
        )
    return found


def in_toml(key, value, inner=False):
    """A line of TOML that gives a key this value; of a list of tables its head."""
    if isinstance(value, list) and isinstance(value[0], dict):
        return (
            f"[[{key}]]"
            if key != "objects"
            else "objects = [{ " + in_toml("name", value[0]["name"]) + " }]"
        )
    if isinstance(value, dict):
        return f"{key} = {{ " + ", ".join(in_toml(k, v) for k, v in value.items()) + " }"
    return f"{key} = {json.dumps(value)}"


def tables():
    """The keys of each table in the order of the grammar, and what is wrong in keys.toml."""
    words = tomllib.loads((Path(__file__).parent / "keys.toml").read_text(encoding="utf-8"))
    says, optional, values, names = wanted(), optional_keys(), examples(), written()
    found, faults = {}, []
    for table, variants in grammar().items():
        found[table] = []
        said = words.pop(table, {})
        for variant in variants:
            name = names[variant]
            if name not in said or (table, name) not in values or variant not in optional[table]:
                faults.append(f"keys.toml, examples/ or specs/ lacks {table}.{name}")
                continue
            word, left_out = said.pop(name), optional[table][variant]
            if left_out != ("default" in word):
                faults.append(
                    f"keys.toml: {table}.{name} {'lacks a' if left_out else 'has no'} default"
                )
            wanted_text = says(table, variant).replace(" is wanted", "").rstrip(",")
            faults += range_faults(table, variant, wanted_text)
            example = in_toml(name, values[table, name])
            found[table].append(
                Key(name, wanted_text, left_out, word["meaning"], word.get("default"), example)
            )
        faults += [f"keys.toml: {table}.{name} is no key" for name in said]
    return found, faults + [f"keys.toml: {table} is no table" for table in words]
