"""A process whose streams go to files, since nobody reads them while it runs."""
import subprocess
from pathlib import Path


class Logged:
    """The files are NAME.stdout and NAME.stderr in a folder. Its `with` kills the process if it goes on."""

    def __init__(self, folder, name, words, **more):
        self.folder = Path(folder)
        self.streams = [(self.folder / f"{name}.{which}").open("w+b") for which in ("stdout", "stderr")]
        self.process = subprocess.Popen(
            list(map(str, words)), stdin=subprocess.DEVNULL, stdout=self.streams[0], stderr=self.streams[1], **more
        )

    def printed(self):
        return Path(self.streams[0].name).read_text()

    def said(self):
        return Path(self.streams[1].name).read_text()

    def is_alive(self):
        return self.process.poll() is None

    def ended(self, seconds=60):
        """Its status, or None if it goes on for so long."""
        try:
            return self.process.wait(seconds)
        except subprocess.TimeoutExpired:
            return None

    def close(self):
        if self.is_alive():
            self.process.kill()
        self.process.wait()
        for stream in self.streams:
            stream.close()

    def __enter__(self):
        return self

    def __exit__(self, *_):
        self.close()
