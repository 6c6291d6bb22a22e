"""The crates of the repository, as crates.txt lists them."""
from pathlib import Path

TOP = Path(__file__).resolve().parents[2]


def below(crate):
    """The crate and those of the repository that it stands on, each with what it uses."""
    lines = [line.split("#")[0].split(":") for line in (TOP / "crates.txt").read_text().splitlines()]
    needs = {line[0].split()[0]: line[1].split() for line in lines if len(line) == 2}
    found, left = {}, [crate]
    while left:
        name = left.pop()
        if name in needs and name not in found:
            found[name] = needs[name]
            left += needs[name]
    return found
