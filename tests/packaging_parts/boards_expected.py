"""What the queries of the dashboards must answer, worked out by hand.

Stations 1 and 2, at A and B, are peers of group edge. Both watch the agent of
examples/agent-large.toml, labelled edge1, at AGENT: octets of three interfaces, and of the first
one packets, errors, packets that were dropped, and its state. At DEAD is an agent whose engine is
not the one of the settings, and at SILENT is none: of each, one instance is watched, which has no
sample. Peer 3 of station 1 does not exist.

A list has one entry for each query of a panel: the values by their labels, in alphabetical order. A
pair is two limits of a value that depends on time.
"""

# Engine ids in hex digits, which no panel shows.
ENGINES = ["80007ed903505152535455", "8000000001", "8000000002"]
FILLED = {
    "overview": {"group": ".*"},
    "device": {"group": ".*", "device": "edge1"},
    "interface": {"group": ".*", "device": "edge1", "interface": "gi0/0"},
    "stations": {"group": ".*", "station": ".*", "__rate_interval": "1m"},
}
VARIABLES = {
    "group": ["edge"],
    "device": ["DEAD", "SILENT", "edge1"],
    "interface": ["gi0/0", "gi0/1", "gi0/2"],
    "station": ["1", "2"],
}
MANY = 1e9
REASON = "a response was refused: it is of another engine"
EDGE1 = "device=edge1 group=edge target=AGENT"
DEAD, SILENT = (f"device={it} group=edge target={it}" for it in ("DEAD", "SILENT"))
FIRST, SECOND = "group=edge instance=A station=1", "group=edge instance=B station=2"
ONE, TWO, THREE = (f"ifName=gi0/{k - 1} index={k}" for k in (1, 2, 3))
ALARM = "ifName=gi0/1 name=ifHCInOctets.2 rising=1000000000"
# Octets in, 125,000, 1,250,000,000 and 2,000 a second, and out, 62,500, in bits. The interfaces are
# made for 1 Gbit/s, 10 Gbit/s and 100 Mbit/s.
SPEEDS = {ONE: 1e9, TWO: 1e10, THREE: 1e8}
BITS_IN, BITS_OUT = {ONE: 1e6, TWO: 1e10, THREE: 16e3}, {ONE: 5e5}
PARTS_IN, PARTS_OUT = {ONE: 0.001, TWO: 1.0, THREE: 0.00016}, {ONE: 0.0005}
GI0 = "device=edge1 ifName=gi0/0"


def both(value):
    """The value of each station."""
    return {FIRST: value, SECOND: value}


def by_target(agent, dead, silent):
    """The values of the targets of each station."""
    return {
        f"group=edge number={number} station={station} target={target}": value
        for station in (1, 2)
        for number, (target, value) in enumerate(
            (("AGENT", agent), ("DEAD", dead), ("SILENT", silent)), 1
        )
    }


OVERVIEW = {
    "Stations up": [{"": 2}],
    "Devices up": [{"": 1}],
    "Devices down": [{"": 2}],
    "Alarms raised": [{"": 1}],
    "Stale instances": [{"": 2}],
    "Silent peers": [{"": 1}],
    "Groups": [{"group=edge": value} for value in (2, 0, 1, 2, 1, 2, 1)],
    "Devices": [
        {EDGE1: 1, DEAD: 0, SILENT: 0},
        {EDGE1: (0, 60), DEAD: (1, MANY), SILENT: (1, MANY)},
        {EDGE1: 1},
        {EDGE1: 0, DEAD: 1, SILENT: 1},
    ],
    "Raised alarms": [{f"device=edge1 falling=800000000 group=edge {ALARM}": 1}],
    "Refused responses": [{f"device=DEAD group=edge reason={REASON} target=DEAD": 1}],
    "Peers that are silent": [{"group=edge instance=A peer=3 station=1": 1}],
    "Stations that are gone": [{}],
}
DEVICE = {
    "State": [{"": 1}],
    "Time since an answer": [{"": (0, 60)}],
    "Alarms raised": [{"": 1}],
    "Stale instances": [{"": 0}],
    "Bits in": [{"": 1e6 + 1e10 + 16e3}],
    "Bits out": [{"": 5e5}],
    "Interfaces": [
        {ONE: 1},
        SPEEDS,
        BITS_IN,
        BITS_OUT,
        PARTS_IN,
        PARTS_OUT,
        {ONE: 0},
        {ONE: 0},
        {TWO: 1},
    ],
    "Alarms": [{f"falling=800000000 {ALARM}": 1}],
    "Stale": [{}],
    "Bits by interface": [BITS_IN, BITS_OUT],
    "Gauges, integers and times": [{"ifName=gi0/0 name=ifOperStatus.1": 1}],
}
INTERFACE = {
    "State": [{"": 1}],
    "Speed": [{"": 1e9}],
    "In, of the speed": [{"": 0.001}],
    "Out, of the speed": [{"": 0.0005}],
    "Alarms raised": [{"": 0}],
    "Stale instances": [{"": 0}],
    "Bits": [{GI0: 1e6}, {GI0: 5e5}],
    "Percent of the speed": [{GI0: 0.001}, {GI0: 0.0005}],
    "Packets": [{"object=ifHCInUcastPkts": 150}, {"object=ifHCOutUcastPkts": 80}],
    "Errors": [{GI0: 0}, {GI0: 0}],
    "Discards": [{GI0: 0}, {GI0: 0}],
    # By moments of scrapes.
    "Bits by Prometheus": [{GI0: (5e5, 2e6)}, {GI0: (25e4, 1e6)}],
}
PEERS = [
    f"group=edge instance={at} peer={peer} station={station}"
    for at, station, peer in (("A", 1, 2), ("A", 1, 3), ("B", 2, 1))
]
STATIONS = {
    "Stations": [
        both(1),
        {f"{it} version=0.1.0": 1 for it in (FIRST, SECOND)},
        both(1),
        both((0.001, 3600)),
        both(1),
        both(14),
        both(0),
    ],
    "Rounds": [both((0.001, 3600)), both(1)],
    "Time since the last round": [both((-1, 60))],
    "Samples taken": [both((0.1, MANY))],
    "Rounds since a peer was heard": [dict(zip(PEERS, ((0, 2), (3, MANY), (0, 2))))],
    "Samples owed": [dict(zip(PEERS, ((0, MANY), (1, MANY), (0, MANY))))],
    "Starts": [both(1)],
    "Polls given up": [both((0.1, MANY))],
    # A response of another engine ends its poll, so that one is not given up if it comes in time.
    "Polls given up by device": [by_target((0, MANY), (0, MANY), (0.1, MANY))],
    "Rounds since an answer": [by_target((0, 2), (3, MANY), (3, MANY))],
    "Failed saves": [both(0)],
    "Rounds overrun": [both((0, MANY))],
    "Strangers": [both(0)],
    # Neither station sends any.
    "Notifications dropped": [{}],
}
EXPECTED = {"overview": OVERVIEW, "device": DEVICE, "interface": INTERFACE, "stations": STATIONS}
# After station 2 was killed: it is gone, and not also a silent peer.
AFTER = {
    "Stations up": [{"": 1}],
    "Devices up": [{"": 1}],
    "Devices down": [{"": 2}],
    "Silent peers": [{"": 1}],
    "Groups": [{"group=edge": value} for value in (1, 1, 1, 2, 1, 2, 1)],
    "Peers that are silent": [{"group=edge instance=A peer=3 station=1": 1}],
    "Stations that are gone": [{SECOND: 0}],
}
