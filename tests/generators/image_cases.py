"""Watches and images for the rows of tests/cases/calls/codec: two images of one sample, in versions 1 and 2, whole, cut after each octet,
with each octet turned to 00, 80 and FF, and under other watches.
"""
from models.images import Watched, written

ENGINE, NAME = bytes.fromhex("8000000001"), (1, 3, 6, 1, 2, 1, 2, 2, 1, 10, 1)


def counter(boots, time, value, tag=0x41):
    """The record of a sample, a Counter32 if no other tag is named, with mark 0."""
    return boots.to_bytes(4, "big") + time.to_bytes(4, "big") + bytes(4) + bytes([tag]) + value.to_bytes(8, "big")


def watch(window, epoch, engine=ENGINE, name=NAME):
    return [Watched(engine, name, window, epoch)]


SAMPLE = counter(3, 100, 7)
VERSION_1 = written(1, watch(8, 8), 1, [(8, 8, [SAMPLE])], 8)
VERSION_2 = written(2, watch(8, 8), 1, [(8, 8, [SAMPLE])])
# Two samples of a counter that wraps between them.
WRAPPED = [counter(3, 100, 4294967290), counter(3, 110, 4)]
# A window that was full of three epochs' samples.
EPOCHS = [counter(boots, time, time) for boots, time in ((3, 110), (3, 120), (4, 20), (4, 30), (5, 5))]


def cut(octets):
    return [octets[:end] for end in range(len(octets))]


def turned(octets):
    return [octets[:at] + bytes([value]) + octets[at + 1 :] for at in range(len(octets)) for value in (0x00, 0x80, 0xFF)]


def of(window, epoch, records, version=2):
    return written(version, watch(window, epoch), 1, [(window, epoch, records)], window)


def cases():
    """Pairs of a watch and an image."""
    own = watch(8, 8)
    yield own, VERSION_1
    yield own, VERSION_2
    for image in (VERSION_1, VERSION_2):
        yield from ((own, octets) for octets in cut(image) + turned(image))
        yield own, image + b"\0"
        yield own, image[:2] + b"\3" + image[3:]
        yield own, image[:3] + bytes(4) + image[7:]
        yield own, image[:3] + b"\xff" * 4 + image[7:]
        # Another engine, another name, a longer name, two instances.
        yield watch(8, 8, engine=bytes.fromhex("8000000002")), image
        yield watch(8, 8, engine=bytes.fromhex("800000000100")), image
        yield watch(8, 8, name=(*NAME[:-1], 2)), image
        yield watch(8, 8, name=(*NAME, 1)), image
        yield own + watch(8, 8, name=(*NAME, 1)), image
        # Other sizes of the watch change nothing of one sample.
        yield from ((watch(*sizes), image) for sizes in ((1, 1), (9, 9), (64, 1), (64, 64)))
    yield own, of(9, 9, [SAMPLE], 1)
    # Saved with a window of 8, opened with others.
    for sizes in ((8, 8), (1, 1), (64, 64), (2, 1)):
        yield watch(*sizes), of(8, 8, WRAPPED)
        yield watch(*sizes), of(8, 8, WRAPPED, 1)
    # More samples than the window, than the epoch; epochs and windows out of range; samples that do not rise, or tie.
    yield own, of(1, 1, WRAPPED)
    yield own, of(1, 1, WRAPPED, 1)
    yield own, of(2, 1, WRAPPED)
    for sizes in ((0, 0), (0, 1), (1, 0), (8, 9), (65, 1), (65, 65), (64, 64), (255, 255)):
        yield own, of(*sizes, [SAMPLE])
    for window in (0, 64, 65, 255):
        yield own, of(window, window, [SAMPLE], 1)
    yield own, of(8, 8, WRAPPED[::-1])
    yield own, of(8, 8, [SAMPLE, SAMPLE])
    # Values that no sample has, and the least and the greatest that some have.
    for tag, value in ((0x02, 2**31), (0x02, 2**64 - 2**31), (0x02, 2**64 - 2**31 - 1), (0x41, 2**32), (0x42, 2**32 - 1), (0x43, 2**32), (0x46, 2**64 - 1), (0x44, 0)):
        yield own, of(8, 8, [counter(3, 100, value, tag)])
    yield own, of(8, 8, [counter(2**31, 0, 0)])
    yield own, of(8, 8, [counter(2**31 - 1, 2**31 - 1, 0)])
    # Epochs of 2 in a window of 5, opened with other sizes.
    for sizes in ((5, 2), (4, 2), (5, 1), (3, 1), (2, 2), (1, 1), (64, 64)):
        yield watch(*sizes), of(5, 2, EPOCHS)
    yield watch(5, 5), of(5, 1, EPOCHS)


def reports():
    """The image of two samples of a counter that wraps, saved with window 8, and its reports under other windows, as the specification has them."""
    saved = written(2, watch(8, 8), 1, [(8, 8, WRAPPED)])
    instance = f"{ENGINE.hex()} {'.'.join(map(str, NAME))}"
    yield watch(1, 1), saved, f"{instance} n=1 3:110..3:110 Counter32=4 delta=0 span=0 rate=none\nend 1 instances 1 samples"
    for sizes in ((8, 8), (64, 64)):
        yield watch(*sizes), saved, f"{instance} n=2 3:100..3:110 Counter32=4 delta=10 span=10 rate=1.000\nend 1 instances 2 samples"
