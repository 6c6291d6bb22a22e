#!/usr/bin/env -S python3 -B
"""A target that counts steadily, as a program: the answer to poll k has k in each Counter32, as `Responder` has it; with a rate each counter is so many a
second since the start, and snmpEngineTime is in seconds. When each poll came is written to a file, a line each, in seconds of the monotonic clock.

usage: tests/library/steady.py FILE [RATE]     prints the address
"""
import sys
import time
from pathlib import Path

sys.path.insert(0, str(Path(__file__).resolve().parents[1]))
from models.messages import spelled_number  # noqa: E402
from library.responder import COUNTER32, Responder, stamp  # noqa: E402


class Steady(Responder):
    """A responder that notes when polls come, and counts by the clock if it has a rate."""

    def __init__(self, file, rate):
        super().__init__()
        self.file, self.rate, self.start_time = file, rate, time.time()

    def value(self, name):
        if not self.rate:
            return super().value(name)
        passed = time.time() - self.start_time
        return stamp(self.engine, self.boots, int(passed)).get(name) or spelled_number(int(passed * self.rate), COUNTER32)

    def answer(self, octets):
        self.file.write(f"{time.monotonic():.6f}\n")
        return super().answer(octets)


def main():
    rate = float(sys.argv[2]) if sys.argv[2:] else 0
    with Path(sys.argv[1]).open("w", buffering=1) as file, Steady(file, rate) as target:
        print("{}:{}".format(*target.address), flush=True)
        target.join()


if __name__ == "__main__":
    main()
