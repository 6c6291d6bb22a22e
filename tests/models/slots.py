"""A station's file by the published layout alone, apart from the proved code: what an opening finds in one, and what it and a save make of it.

A file has 2,097,152 octets: two slots, each of a gate (A5 is open, another octet closed), the generation and the length of the body in eight octets
each, with the greatest first, and the body. A shorter file was never saved, and is laid out.
"""
SLOT = 1048576
SIZE = 2 * SLOT
HEAD = 17
LONGEST = SLOT - HEAD
OPEN, CLOSED = 0xA5, 0x00
LAST_GENERATION = 2**64 - 1


class Refused(Exception):
    """The fault of a file, its number and its name."""


DAMAGED, NO_MORE_GENERATIONS = (5, "Damaged"), (3, "NoMoreGenerations")


def head(generation, length, gate=OPEN):
    """What a slot begins with."""
    return bytes([gate]) + generation.to_bytes(8, "big") + length.to_bytes(8, "big")


def open_slots(octets):
    """Of each open slot its generation, where it stands, and the length of its body."""
    for at in (0, SLOT):
        if octets[at] == OPEN:
            yield int.from_bytes(octets[at + 1 : at + 9], "big"), at, int.from_bytes(octets[at + 9 : at + 17], "big")


def found(octets):
    """The generation, the place and the length of the newest body, or None where there is none."""
    if len(octets) < SIZE:
        return None
    slots = list(open_slots(octets))
    generations = [generation for generation, _, _ in slots]
    is_twice = len(set(generations)) < len(slots)
    if len(octets) > SIZE or 0 in generations or is_twice or any(length > LONGEST for _, _, length in slots):
        raise Refused(*DAMAGED)
    return max(slots, default=None)


def body(octets):
    """The newest body, or None."""
    newest = found(octets)
    return newest and bytes(octets[newest[1] + HEAD : newest[1] + HEAD + newest[2]])


def laid_out(octets):
    """What an opening makes of a file: of a short one zeros, whose space is taken."""
    return bytes(octets) if len(octets) >= SIZE else bytes(SIZE)


def saved(octets, new):
    """What a save of a body makes of a file that was opened."""
    generation, at, _ = found(octets) or (0, SLOT, 0)
    if generation == LAST_GENERATION:
        raise Refused(*NO_MORE_GENERATIONS)
    whole = bytearray(octets)
    other = SLOT - at
    whole[other : other + HEAD + len(new)] = head(generation + 1, len(new)) + new
    return bytes(whole)
