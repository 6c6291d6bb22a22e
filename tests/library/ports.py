#!/usr/bin/env -S python3 -B
"""Ports of loopback that nobody else gets.

usage: tests/library/ports.py     prints a port, and keeps it until its input ends
"""
import random
import socket
import sys
from pathlib import Path

# The first port: below are those of services, and of examples/.
FIRST = 20000
TRIES = 10000
# A socket for each port of this process. Its name says the port, and no other process can bind it.
RESERVED = []


def never_assigned():
    """Returns the ports that the system never assigns by itself, or all ports if there are none."""
    try:
        text = Path("/proc/sys/net/ipv4/ip_local_port_range").read_text()
    except OSError:
        text = "32768 60999"
    first, last = map(int, text.split())
    ports = range(FIRST, 65536)
    return [port for port in ports if not first <= port <= last] or ports


PORTS = never_assigned()


def reserve(port):
    """Reserves a port until this process ends. Returns False if a socket or another test has it."""
    name = socket.socket(socket.AF_UNIX)
    try:
        # (a name that begins with a zero octet is no file, and is of one network namespace, as a port is)
        name.bind(f"\0snmpmon's tests: port {port}")
        for kind in socket.SOCK_DGRAM, socket.SOCK_STREAM:
            with socket.socket(socket.AF_INET, kind) as tried:
                tried.bind(("", port))
    except OSError:
        name.close()
        return False
    RESERVED.append(name)
    return True


def free_port():
    """Returns a port for UDP and TCP, which no other test gets until this process ends."""
    for _ in range(TRIES):
        port = random.choice(PORTS)
        if reserve(port):
            return port
    raise OSError("no port is free")


if __name__ == "__main__":
    print(free_port(), flush=True)
    sys.stdin.read()
