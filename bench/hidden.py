"""Settings under which a view hides much, and datagrams that ask for much under it, for bench/hidden.

Each of the settings has 256 interfaces, one community, and a view of 256 families, the most that the settings take.
"""
import random
import sys
from pathlib import Path

sys.path.insert(0, str(Path(__file__).resolve().parent.parent / "tests"))
from models.messages import GET, GET_BULK, GET_NEXT, SET, message, spelled  # noqa: E402

COUNT = 256
MOST = 65_507
LIMIT = 8192
NULL = b"\x05\x00"
COMMUNITY = b"public"
IF_TABLE, IF_X_TABLE = "1.3.6.1.2.1.2.2.1", "1.3.6.1.2.1.31.1.1.1"
COLUMNS = [(IF_TABLE, c) for c in (*range(1, 12), *range(13, 18), 19, 20)] + [(IF_X_TABLE, c) for c in (1, 6, 7, 10, 11, 15, 18, 19)]
SCALARS = [f"1.3.6.1.2.1.1.{i}" for i in range(1, 8)] + ["1.3.6.1.2.1.2.1"] + [f"1.3.6.1.2.1.11.{i}" for i in (1, 3, 4, 6, 31)]
SCALARS += [f"1.3.6.1.6.3.10.2.1.{i}" for i in range(1, 5)]
VIEW = "v" * 32


def family(subtree, mask="", included=True):
    return f'[[view]]\nview = "{VIEW}"\nsubtree = "{subtree}"\nmask = "{mask}"\nincluded = {str(included).lower()}\n'


def padded(families, filler):
    """These families, and others of the filler's up to 256."""
    return families + [filler(i) for i in range(COUNT - len(families))]


def rows_elsewhere():
    """Each family shows one row, in every column, of an interface that is not there."""
    return [family(f"{IF_TABLE}.1.{100_000 + i}", "ffbf" if i % 2 else "ffa0") for i in range(COUNT)]


def all_but_the_root():
    """Each family matches a name everywhere but at its first number."""
    return [family(f"0.3.9.9.9.9.9.9.9.9.{100_000 + i}", "8000") for i in range(COUNT)]


def all_excluded():
    """Each family matches each row, and none shows it; each is above the one before."""
    return [family(f"0.3.9.9.9.9.9.9.9.9.{100_000 + i}", "0000", False) for i in range(COUNT)]


def all_but_the_end():
    """Each family matches a name everywhere but at its eleventh number."""
    return [family(f"0.3.9.9.9.9.9.9.9.9.{100_000 + i}", "0020") for i in range(COUNT)]


def one_excluded():
    """Each family matches each row and is above the one before; the last hides what all others show."""
    return all_shown()[:-1] + [family(f"0.3.9.9.9.9.9.9.9.9.{100_000 + COUNT}", "0000", False)]


def all_shown():
    return [family(f"0.3.9.9.9.9.9.9.9.9.{100_000 + i}", "0000") for i in range(COUNT)]


def hidden_columns():
    """The whole tree, without each of the objects but the last; the other families hide rows of the first column."""
    hidden = [f"{table}.{column}" for table, column in COLUMNS] + SCALARS[:-1]
    families = [family("1.3.6.1")] + [family(name, "", False) for name in hidden]
    return padded(families, lambda i: family(f"{IF_TABLE}.1.{i + 1}", "", False))


def odd_rows():
    """The whole tree, without the odd rows of each column."""
    odd = [family(f"{IF_TABLE}.1.{i}", "ffa0", False) for i in range(1, COUNT, 2)]
    odd_x = [family(f"{IF_X_TABLE}.1.{i}", "ffd0", False) for i in range(1, COUNT - 4, 2)]
    return padded([family("1.3.6.1"), *odd, *odd_x], lambda i: family(f"1.9.{i}"))


def few():
    """The whole tree in one family."""
    return [family("1.3.6.1")]


SETTINGS = {
    "rows of other interfaces": rows_elsewhere,
    "masks that match but at the root": all_but_the_root,
    "masks that match but at the end": all_but_the_end,
    "masks that match everywhere": all_excluded,
    "the last of such masks hides": one_excluded,
    "such masks, all shown": all_shown,
    "hidden columns": hidden_columns,
    "hidden odd rows": odd_rows,
    "one family": few,
}


def settings(families, limit=LIMIT):
    """The text of settings with these families."""
    head = f'listen = "127.0.0.1:16110"\nlimit = {limit}\nengine = "80007ed903505152535455"\ndescr = "d"\nobject_id = "1.3.6.1.4.1.32473.2"\n'
    head += 'contact = ""\nname = ""\nlocation = ""\nservices = 78\n'
    access = '[[community]]\ncommunity = "public"\nsecurity = "s"\n[[group]]\nsecurity = "s"\ngroup = "g"\n'
    access += f'[[access]]\ngroup = "g"\nmodel = 2\nread = "{VIEW}"\nwrite = "{VIEW}"\n'
    return head + access + "".join(families) + "".join(interface(i + 1) for i in range(COUNT))


def interface(index):
    keys = f'[[interface]]\nindex = {index}\ndescr = ""\ntype = 6\nmtu = 1500\nspeed = 1000\nphys = ""\nname = ""\nalias = ""\n'
    return keys + "".join(f"{c} = {{ start = 0, rate = 0 }}\n" for c in ("in_octets", "in_packets", "out_octets", "out_packets"))


def request(tag, names, numbers=(0, 0)):
    return message(tag, COMMUNITY, [1, *numbers], [(name, NULL) for name in names])


def many(names, tag=GET_NEXT, numbers=(0, 0), most=MOST):
    """A request for as many of these names, over and over, as a datagram takes."""
    each = [len(request(tag, [name, "0.0"])) - len(request(tag, ["0.0"])) for name in names]
    room, asked = most - 40, []
    at = 0
    while room > each[at % len(names)]:
        room -= each[at % len(names)]
        asked.append(names[at % len(names)])
        at += 1
    return request(tag, asked, numbers)


def falling(table_columns, step=1):
    """The names of rows, the last first: each search comes one row before the one before it."""
    return [f"{t}.{c}.{i}" for t, c in reversed(table_columns) for i in range(COUNT, -1, -step)]


def datagrams():
    rng = random.Random(1)
    rows = [f"{t}.{c}.{i}" for t, c in COLUMNS for i in range(COUNT + 1)]
    shuffled = rng.sample(rows, len(rows))
    starts = [f"{t}.{c}" for t, c in COLUMNS]
    return {
        "GetNext, 400 names": request(GET_NEXT, ["1.3.6.1.2.1"] * 400),
        "GetNext, 0.0 as often as may be": many(["0.0"]),
        "GetNext, 0.0 within the limit": request(GET_NEXT, ["0.0"] * 1164),
        "GetNext, columns in turn": many(starts),
        "GetNext, rows shuffled": many(shuffled),
        "GetNext, rows falling": many(falling(COLUMNS)),
        "GetNext, every second row falling, then 0.0": request(GET_NEXT, falling(COLUMNS, 2)[:300] + ["0.0"] * 300),
        "GetNext, a row and 0.0 in turn": many([x for row in shuffled[:600] for x in (row, "0.0")]),
        "GetBulk, 0.0 as often as may be": many(["0.0"], GET_BULK, (0, 100)),
        "GetBulk, columns": request(GET_BULK, starts, (0, 200)),
        "GetBulk, 1000 names once": request(GET_BULK, ["0.0"] * 1000, (1000, 0)),
        "Get, 0.0 as often as may be": many(["0.0"], GET),
        "Get, rows": many(shuffled, GET),
        "Get, ifNumber.0": many(["1.3.6.1.2.1.2.1.0"], GET),
        "Get, names of 128 numbers": many(["1.3" + ".9" * 126], GET),
        "Set, rows": many(shuffled, SET, most=LIMIT),
    }
