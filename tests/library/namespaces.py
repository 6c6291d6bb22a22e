"""Where the hosts of a world are, and the relays between them: in network namespaces, or on loopback where those cannot be had.

Of namespaces there is one of the relays and one of each host, which has a link to that of the relays and to no other. In the net between the
relays and host 3 each host n has the address 10.3.0.n; all but that of host 3 itself are addresses of the relays, so a host reaches another one by
the relays alone. The namespaces have no names: they and their links are gone once the process and those that it started are, however it ends.
On loopback each host has a port, and so has each relay.
"""
import ctypes
import os
import shutil
import socket
import subprocess
from contextlib import contextmanager, nullcontext

from library.ports import free_port

LIBC = ctypes.CDLL(None, use_errno=True)
NEW_NETWORK = 0x40000000
# SO_TIMESTAMPNS: the system tells of each datagram when it came.
TIMESTAMP = 35
SECONDS = 20


def call(name, *words):
    """Calls a function of the C library, which answers 0 where it did what it was to do."""
    if getattr(LIBC, name)(*words) != 0:
        error = ctypes.get_errno()
        raise OSError(error, f"{name}: {os.strerror(error)}")


def bound(address):
    """A socket at an address, which tells when each datagram came."""
    made = socket.socket(socket.AF_INET, socket.SOCK_DGRAM)
    made.setsockopt(socket.SOL_SOCKET, socket.SO_RCVBUF, 1 << 20)
    made.setsockopt(socket.SOL_SOCKET, TIMESTAMP, 1)
    made.bind(address)
    made.setblocking(False)
    return made


def own():
    """The namespace of this thread, opened."""
    return os.open("/proc/thread-self/ns/net", os.O_RDONLY)


class Namespaces:
    """A namespace of the relays and one of each host; the hosts have the numbers from 1. OSError or SubprocessError where they cannot be made."""

    name = "in network namespaces"

    def __init__(self, count):
        self.port, self.home = 161, own()
        self.relays, *self.hosts = [self.made() for _ in range(count + 1)]
        links = ""
        for host, namespace in enumerate(self.hosts, 1):
            links += f"link add host{host} type veth peer name relays netns /proc/{os.getpid()}/fd/{namespace}\nlink set host{host} up\n"
            links += "".join(f"address add 10.{host}.0.{other}/24 dev host{host}\n" for other in range(1, count + 1) if other != host)
        self.configure(self.relays, links)
        for host, namespace in enumerate(self.hosts, 1):
            self.configure(namespace, f"address add 10.{host}.0.{host}/24 dev relays\nlink set relays up\n")
        self.try_links()

    def made(self):
        call("unshare", NEW_NETWORK)
        try:
            return own()
        finally:
            call("setns", self.home, NEW_NETWORK)

    @contextmanager
    def entered(self, namespace):
        """This thread, and what it starts, is in a namespace."""
        call("setns", namespace, NEW_NETWORK)
        try:
            yield
        finally:
            call("setns", self.home, NEW_NETWORK)

    def configure(self, namespace, lines):
        """Has `ip` do what these lines say."""
        ip = shutil.which("ip", path=os.environ.get("PATH", "") + ":/usr/sbin:/sbin")
        if ip is None:
            raise OSError("there is no ip")
        with self.entered(namespace):
            subprocess.run([ip, "-batch", "-"], input=lines.encode(), capture_output=True, check=True, timeout=SECONDS)

    def try_links(self):
        """Whether a datagram of host 1 comes to a relay, and none could come to host 2."""
        with self.listening(1) as host, self.relay(1, 2) as relay:
            host.sendto(b"there", relay.getsockname())
            relay.settimeout(SECONDS)
            if relay.recv(9) != b"there" or host.connect_ex(self.address(2)) == 0:
                raise OSError("hosts reach each other")

    def of_world(self, seed):
        """From now on each host is at the port of this world, which the world before had not."""
        self.port = 1024 + seed % 60000

    def address(self, host):
        """Where a host is."""
        return f"10.{host}.0.{host}", self.port

    def listening(self, host):
        """A socket where a host is."""
        with self.entered(self.hosts[host - 1]):
            return bound(self.address(host))

    def relay(self, host, other):
        """The relays' socket by which a host reaches another one."""
        with self.entered(self.relays):
            return bound((f"10.{host}.0.{other}", self.port))

    def inside(self, host):
        """Where the processes of a host are started."""
        return self.entered(self.hosts[host - 1])


class Loopback:
    """The same on loopback."""

    def __init__(self, count, reason):
        self.name = f"on loopback: no network namespaces here ({reason})"
        self.ports, self.before = ([free_port() for _ in range(count)] for _ in range(2))

    def of_world(self, _seed):
        """From now on the hosts are at other ports than in the world before."""
        self.ports, self.before = self.before, self.ports

    def address(self, host):
        return "127.0.0.1", self.ports[host - 1]

    def listening(self, host):
        return bound(self.address(host))

    def relay(self, _host, _other):
        return bound(("127.0.0.1", 0))

    def inside(self, _host):
        return nullcontext()


def places(count):
    """Namespaces for so many hosts, or loopback."""
    try:
        return Namespaces(count)
    except subprocess.CalledProcessError as error:
        return Loopback(count, f"ip: {error.stderr.decode().strip()}")
    except (OSError, subprocess.SubprocessError) as error:
        return Loopback(count, error.strerror if isinstance(error, OSError) and error.strerror else error)
