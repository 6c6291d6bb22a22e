#!/usr/bin/env python3
"""Writes recorded responses for `snmpmon replay`: LINES lines over INSTANCES instances, the same at each run.

usage: replay_input.py LINES INSTANCES > FILE
"""
import sys

ENGINE_ID = "1.3.6.1.6.3.10.2.1.1.0"
ENGINE_BOOTS = "1.3.6.1.6.3.10.2.1.2.0"
ENGINE_TIME = "1.3.6.1.6.3.10.2.1.3.0"
IF_IN_OCTETS = "1.3.6.1.2.1.2.2.1.10"


def element(tag, contents):
    if len(contents) < 128:
        return bytes([tag, len(contents)]) + contents
    length = len(contents).to_bytes((len(contents).bit_length() + 7) // 8, "big")
    return bytes([tag, 128 + len(length)]) + length + contents


def integer(number, tag=0x02):
    return element(tag, number.to_bytes(number.bit_length() // 8 + 1, "big"))


def base128(number):
    digits = [number & 127]
    while number := number >> 7:
        digits.append(128 | number & 127)
    return bytes(reversed(digits))


def identifier(text):
    first, second, *others = map(int, text.split("."))
    return element(0x06, b"".join(map(base128, [40 * first + second, *others])))


def binding(name, value):
    return element(0x30, identifier(name) + value)


def response(request, engine, boots, time, name, value):
    bindings = b"".join([
        binding(ENGINE_ID, element(0x04, engine)),
        binding(ENGINE_BOOTS, integer(boots)),
        binding(ENGINE_TIME, integer(time)),
        binding(name, integer(value, 0x41)),
    ])
    pdu = element(0xA2, integer(request) + integer(0) + integer(0) + element(0x30, bindings))
    return element(0x30, integer(1) + element(0x04, b"public") + pdu)


def main():
    lines, instances = int(sys.argv[1]), int(sys.argv[2])
    state = 1
    out = []
    for k in range(lines):
        state = (state * 1103515245 + 12345) % 2**31
        which = state // 65536 % instances
        engine = bytes([0x80, 0, 0, 0, 1 + which // 16])
        time = 1000 + k // instances - state // 7 % 20
        value = state % 2**32
        out.append(response(k % 2**31, engine, 3, time, f"{IF_IN_OCTETS}.{1 + which % 16}", value).hex().upper())
    print("\n".join(out))


main()
