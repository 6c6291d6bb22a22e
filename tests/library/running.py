"""The agent of examples/agent.toml, running on a free port of loopback."""
import os
import subprocess
import tempfile
import time
from pathlib import Path

from library.cases import PROGRAM, TOP  # noqa: F401



def settings(folder, more=""):
    """The settings with port 0, which takes a free port, and with more tables."""
    lines = (TOP / "examples/agent.toml").read_text().splitlines()
    lines = ['listen = "127.0.0.1:0"' if line.startswith("listen") else line for line in lines]
    path = Path(folder) / "agent.toml"
    path.write_text("\n".join(lines) + "\n" + more)
    return path


class Agent:
    """An agent that serves this many datagrams, at its third boot. `address` is where it listens, or None where it ended before that."""

    def __init__(self, program, more="", count=4294967295, environment=None, pass_fds=()):
        self.folder = tempfile.TemporaryDirectory()
        words = [program, "agent", settings(self.folder.name, more), "--boots", "3", "--count", str(count)]
        self.process = subprocess.Popen(
            words, stderr=subprocess.PIPE, stdin=subprocess.DEVNULL, stdout=subprocess.DEVNULL, pass_fds=pass_fds,
            # (no buffer, in which a second line would stay that came with the first)
            bufsize=0, env={**os.environ, **(environment or {})},
        )
        self.said = self.process.stderr.readline().decode()
        self.address = None
        if self.said.startswith("snmpmon: agent at "):
            host, port = self.said.split()[-1].split(":")
            self.address = host, int(port)
            self.said = ""
        os.set_blocking(self.process.stderr.fileno(), False)

    def waits(self):
        """Whether it waits for a datagram, once it does or has ended."""
        for _ in range(5000):
            if self.process.poll() is not None:
                return False
            if Path(f"/proc/{self.process.pid}/stat").read_text().rpartition(")")[2].split()[0] == "S":
                return True
            time.sleep(0.001)
        return True

    def hear(self):
        """How many lines it has said on standard error, beside where it listens."""
        try:
            self.said += os.read(self.process.stderr.fileno(), 65536).decode()
        except BlockingIOError:
            pass
        return self.said.count("\n")

    def ended(self, seconds):
        """Waits so long for its end. Its status (None where it goes on), and what it said on standard error beside where it listens."""
        try:
            self.process.wait(seconds)
        except subprocess.TimeoutExpired:
            return None, "it had not ended"
        self.hear()
        return self.process.returncode, self.said

    def __enter__(self):
        return self

    def __exit__(self, *_):
        if self.process.poll() is None:
            self.process.kill()
        self.process.wait()
        self.process.stderr.close()
        self.folder.cleanup()
