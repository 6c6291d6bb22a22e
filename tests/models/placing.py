"""Where the stations of a network run, by docs/OPERATING.md alone: their machines, addresses, peers and files, and the lists of them."""
import itertools

LISTEN, SERVE = 16100, 9700


def dealt(machines, stations, last):
    """The machines of the stations of groups 1 to the last: dealt out one after another, from the first again after the last one."""
    deck = itertools.cycle(machines)
    return {(group, station): next(deck) for group in range(1, last + 1) for station in range(1, stations + 1)}


class Network:
    """The groups of an agent, of so many stations each, on machines of a name and an address each; the first group has a number."""

    def __init__(self, machines, stations, first, groups):
        self.stations, self.first = stations, first
        self.groups = range(first, first + groups)
        self.at = dealt(machines, stations, self.groups[-1])

    def seats(self):
        """The group and the number of each station, group by group."""
        return [(group, station) for group in self.groups for station in range(1, self.stations + 1)]

    def listens(self, group, station):
        return f"{self.at[group, station][1]}:{LISTEN + group}"

    def serves(self, group, station):
        return f"{self.at[group, station][1]}:{SERVE + group}"

    def name(self, group, station):
        return f"group-{group}-station-{station}"

    def own(self, group, station, file="station.mon"):
        """What the settings of a station say of it and of its peers."""
        others = [number for number in range(1, self.stations + 1) if number != station]
        return {
            "station": station,
            "listen": self.listens(group, station),
            "file": f"{file}-{group}-{station}",
            "peer": [{"station": number, "address": self.listens(group, number)} for number in others],
        }

    def targets(self):
        """What Prometheus must read."""
        return [
            {"targets": [self.serves(group, number) for number in range(1, self.stations + 1)], "labels": {"group": f"group-{group}"}}
            for group in self.groups
        ]

    def units(self):
        """The lines of all stations."""
        return "".join(f"{self.at[seat][0]} {self.name(*seat)} {self.serves(*seat)}\n" for seat in self.seats())

    def lists(self):
        """The names of the two lists: those of later groups than the first have the number of their first one."""
        number = "" if self.first == 1 else f"-{self.first}"
        return f"targets{number}.json", f"units{number}.txt"
