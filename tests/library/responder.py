"""A target for stations: it answers each Get on loopback with the next stamp and the next values."""
import socket
import threading

from models.messages import RESPONSE, NoMessage, message, read, spelled, spelled_number

ENGINE_ID, BOOTS, TIME = (f"1.3.6.1.6.3.10.2.1.{n}.0" for n in (1, 2, 3))
OCTETS, COUNTER32 = 0x04, 0x41


def stamp(engine, boots, seconds):
    """The values of the snmpEngine group, by their names."""
    return {ENGINE_ID: spelled(OCTETS, engine), BOOTS: spelled_number(boots), TIME: spelled_number(seconds)}


def response_to(request, value, more=()):
    """The response to a request as it was read: each name with its value, and then more."""
    community, _, numbers, bindings = request
    names = [".".join(map(str, name)) for name, _, _ in bindings]
    return message(RESPONSE, community, [numbers[0], 0, 0], [*((name, value(name)) for name in names), *more])


class UdpThread(threading.Thread):
    """A thread with a socket of UDP on loopback. Both end with its `with`, which `is_over` says to `run`."""

    def __init__(self, timeout=0.05):
        super().__init__(daemon=True)
        self.is_over = False
        self.socket = socket.socket(socket.AF_INET, socket.SOCK_DGRAM)
        self.socket.bind(("127.0.0.1", 0))
        self.socket.settimeout(timeout)

    def __enter__(self):
        self.start()
        return self

    def __exit__(self, *_):
        self.is_over = True
        self.join()
        self.socket.close()


class Responder(UdpThread):
    """The answer to poll k has snmpEngineTime 10 k and k in each Counter32. `answered` counts the polls."""

    def __init__(self, engine=bytes.fromhex("8000000001"), boots=3):
        super().__init__()
        self.engine, self.boots, self.answered = engine, boots, 0
        self.address = self.socket.getsockname()

    def seconds(self):
        """Its snmpEngineTime."""
        return 10 * self.answered

    def value(self, name):
        return stamp(self.engine, self.boots, self.seconds()).get(name) or spelled_number(self.answered, COUNTER32)

    def answer(self, octets, more=()):
        request = read(octets)
        self.answered += 1
        return response_to(request, self.value, more)

    def run(self):
        while not self.is_over:
            try:
                octets, asker = self.socket.recvfrom(65535)
                self.socket.sendto(self.answer(octets), asker)
            except (TimeoutError, NoMessage):
                pass
