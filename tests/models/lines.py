"""Lines of a station on standard error that say which alarm was raised or cleared, written apart from the proved code: by the words of
docs/OPERATING.md.
"""
from decimal import Decimal

from models.formats import COUNTERS, observed

PREFIXES = ["", "k", "M", "G", "T", "P", "E", "Z", "Y", "R"]
# ifInOctets, ifOutOctets, ifHCInOctets and ifHCOutOctets (RFC 2863), without their indices.
OCTETS = [(1, 3, 6, 1, 2, 1, 2, 2, 1, 10), (1, 3, 6, 1, 2, 1, 2, 2, 1, 16), (1, 3, 6, 1, 2, 1, 31, 1, 1, 1, 6), (1, 3, 6, 1, 2, 1, 31, 1, 1, 1, 10)]


def rate(thousandths, unit):
    """A rate in three digits, half up, with a prefix of SI; `unit` is `bit/s` or `/s`."""
    if thousandths == 0:
        return f"0 {unit}"
    power = 0
    while (2 * thousandths + 10**power) // (2 * 10**power) > 999:
        power += 1
    thousands = max(power - 1, 0) // 3
    digits = (2 * thousandths + 10**power) // (2 * 10**power)
    places = 3 if power == 0 else 2 - (power - 1) % 3
    return f"{Decimal(digits * 10**power) / 1000 / 1000**thousands:.{places}f} {PREFIXES[thousands]}{unit}"


def number(thousandths):
    """Thousandths as a decimal number without zeros at its end."""
    sign = "-" if thousandths < 0 else ""
    whole, part = divmod(abs(thousandths), 1000)
    return f"{sign}{whole}" + (f".{part:03}".rstrip("0") if part else "")


def measured(name, samples, thousandths):
    """A value of an instance: of a counter as a rate, and of octets in bits; the newest sample says whether it is a counter."""
    is_octets = tuple(name[:-1]) in OCTETS
    if thousandths >= 0 and (samples[-1].kind in COUNTERS if samples else is_octets):
        return rate(8 * thousandths, "bit/s") if is_octets else rate(thousandths, "/s")
    return number(thousandths)


def raised_line(device, name, samples, rising, stamp):
    """The line of an alarm that the sample of this stamp raised, without what is before it and without labels of interfaces."""
    seen = [observed(before, it) for before, it in zip([None, *samples], samples) if (it.boots, it.time) == stamp]
    values = [measured(name, samples, it) for it in seen if it is not None and it >= rising][:1]
    subject = f"{device.removesuffix(':161')} {'.'.join(map(str, name))}"
    return f"ALARM raised: {' '.join([subject, *values])} (limit {measured(name, samples, rising)}), sample {stamp[0]}:{stamp[1]}"
