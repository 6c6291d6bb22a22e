"""What settings watch, read by Python's own reader of TOML, and what is carried from one watch to another, by the definition alone: of each instance
that both watch what the new sizes keep of its samples, and nothing of each other one."""
import tomllib
from pathlib import Path

from models import images
from models import slots

MIB_2 = "1.3.6.1.2.1"


def name_of(text):
    """A name in numbers, which may begin with mib-2."""
    first, _, rest = text.partition(".")
    return tuple(map(int, (f"{MIB_2}.{rest}" if first == "mib-2" else text).split(".")))


def watch_of(path):
    """The instances of settings, in the order of their engine ids and names."""
    settings = tomllib.loads(Path(path).read_text())
    watched = {}
    for target in settings["target"]:
        engine = bytes.fromhex(target["engine"])
        for it in target["objects"]:
            window = it.get("window", settings["window"])
            name = name_of(it["name"])
            watched[engine, name] = images.Watched(engine, name, window, min(it.get("epoch", settings.get("epoch", window)), window))
    return [watched[key] for key in sorted(watched)]


def saved(path, watch):
    """The incarnation and the records of each window that a station's file holds; 0 and none where nothing was saved."""
    path = Path(path)
    body = slots.body(path.read_bytes()) if path.exists() else None
    if body is None:
        return 0, [[] for _ in watch]
    incarnation, entries = images.read(watch, body)
    return incarnation, [records for _, _, records in entries]


def carried(old, windows, new, dropped=()):
    """The windows of a new watch, of the old one's windows."""
    known = {(it.engine, it.name): records for it, records in zip(old, windows) if it.engine not in dropped}
    return [images.kept(known.get((it.engine, it.name), []), it.window, it.epoch) for it in new]


def counts(old, windows, new, dropped=()):
    """The line that says what was carried."""
    before = {(it.engine, it.name) for it in old if it.engine not in dropped}
    after = {(it.engine, it.name) for it in new}
    samples = sum(map(len, carried(old, windows, new, dropped)))
    common = len(before & after)
    return f"carried {common} of {len(new)} instances, {samples:,} samples; {len(new) - common} new, {len({(it.engine, it.name) for it in old}) - common} gone\n"
