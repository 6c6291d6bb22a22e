#!/usr/bin/env -S python3 -B
"""Writes the hex digits of a response to the second target of crates/mon_rows into a file, and prints where its request-id stands,
in four octets.

usage: poller_input.py KIND FILE       KIND is `samples`, 16 objects and marks, or `error`, a response with an error-status and nothing else
"""
import sys
from pathlib import Path

sys.path.insert(0, str(Path(__file__).resolve().parent.parent / "tests"))
from models.messages import OCTETS, RESPONSE, message, spelled, spelled_number  # noqa: E402

COUNTER64, TICKS = 0x46, 0x43
IDENTIFIER = 0x01020304
STAMP = [("1", spelled(OCTETS, bytes.fromhex("800000000207"))), ("2", spelled_number(3)), ("3", spelled_number(86400))]
COLUMNS = (("6", spelled_number(123456789012345, COUNTER64)), ("19", spelled_number(4711, TICKS)))


def main():
    kind, path = sys.argv[1:]
    bindings = [(f"1.3.6.1.6.3.10.2.1.{place}.0", value) for place, value in STAMP]
    bindings += [(f"1.3.6.1.2.1.31.1.1.1.{column}.{interface}", value) for interface in range(1, 17) for column, value in COLUMNS]
    octets = message(RESPONSE, b"private", [IDENTIFIER, 5 if kind == "error" else 0, 0], [] if kind == "error" else bindings)
    Path(path).write_text(octets.hex() + "\n")
    print(octets.index(IDENTIFIER.to_bytes(4, "big")))


main()
