"""The reasons that the system can be made to give when it refuses a call of the program's surroundings: a stream, a
file, a folder, or an argument. Each has a command, what it needs to be refused, and the second line that must come."""
import os
import subprocess
import tempfile
from pathlib import Path

from library.crates import TOP

SECONDS = 60
STREAM = "snmpmon: mon_app 3 FileFault\n"
# Whoever owns nothing.
NOBODY = 65534


class Place:
    """A folder with what refuses calls: no file, a folder, a loop of links, a file where a folder must be."""

    def __init__(self, folder):
        self.folder = Path(folder)
        os.chmod(folder, 0o755)
        (self.folder / "folder").mkdir()
        (self.folder / "loop").symlink_to("loop")
        (self.folder / "file").write_text("a line\n")
        (self.folder / "full").mkdir(mode=0o777)
        (self.folder / "full" / "station-1.toml").symlink_to("/dev/full")
        (self.folder / "full" / "labels.new").symlink_to("/dev/full")
        (self.folder / "barred").mkdir()
        (self.folder / "barred" / "file").write_text("a line\n")
        (self.folder / "secret").write_text("a line\n")
        # Also for the owner, where the tests do not run as root.
        for name, mode in (("secret", 0), ("barred", 0), ("folder", 0o555)):
            os.chmod(self.folder / name, mode)

    def __truediv__(self, name):
        return str(self.folder / name)


def ran(program, words, nobody=False, **streams):
    """What a command says on standard error, and its status."""
    given = {"stdin": subprocess.DEVNULL, "stdout": subprocess.DEVNULL, **streams}
    user = {"user": NOBODY} if nobody and os.geteuid() == 0 else {}
    done = subprocess.run([program, *words], stderr=subprocess.PIPE, timeout=SECONDS, cwd=TOP, **given, **user)
    return done.stderr.decode(), done.returncode


def is_said(what, given, line):
    """Whether a command ended with the fault of a stream or file and this second line."""
    if given == (f"{STREAM}{line}\n", 1):
        return True
    print(f"failed: {what}: {given!r:.400}, and {line!r} was wanted")
    return False


# What reads a file at a path: all of it, and a part of it.
READERS = {
    "a file": lambda place, path: ["mib", path],
    "a file of settings": lambda place, path: ["report", path],
}
UNREAD = {
    "is not there": ("nothing", "No such file or directory (os error 2)"),
    "is a folder": ("folder", "is a directory"),
    "is under a file": ("file/x", "Not a directory (os error 20)"),
    "is a loop of links": ("loop", "Too many levels of symbolic links (os error 40)"),
    "has too long a name": ("x" * 256, "File name too long (os error 36)"),
    "may not be read": ("secret", "Permission denied (os error 13)"),
    "is in a barred folder": ("barred/file", "Permission denied (os error 13)"),
}


def reads(reader, reason):
    def trial(program, places):
        name, words = UNREAD[reason]
        with tempfile.TemporaryDirectory() as folder:
            place = Place(folder)
            given = ran(program, READERS[reader](place, place / name), nobody="Permission" in words)
            return is_said(f"{reader} that {reason}", given, f"{place / name}: {words}")

    return trial


def reads_memory(program, places):
    """A file that gives no octets though it can be opened."""
    return is_said("a file that cannot be read", ran(program, ["mib", "/proc/self/mem"]), "/proc/self/mem: Input/output error (os error 5)")


def reads_part(program, places):
    """A station's file that is a folder: settings are read, and a part of the file is not."""
    with tempfile.TemporaryDirectory() as folder:
        place = Place(folder)
        text = (TOP / "examples/station.toml").read_text()
        settings = place.folder / "station.toml"
        lines = [f'file = "{place / "folder"}"' if line.startswith("file") else line for line in text.splitlines()]
        settings.write_text("\n".join(lines) + "\n")
        return is_said("a station's file that is a folder", ran(program, ["report", str(settings)]), f"{place / 'folder'}: is a directory")


def over(stream, words):
    """Whether a command of the shell, over a stream that the system refuses, says so."""
    def trial(program, places):
        command, what = stream
        done = subprocess.run(["sh", "-c", command, program], stdin=subprocess.DEVNULL, stderr=subprocess.PIPE, timeout=SECONDS)
        return is_said(command, (done.stderr.decode(), done.returncode), f"{what}: {words}")

    return trial


# Standard streams that the system refuses.
STREAMS = {
    "input that is a folder": ('"$0" replay 8 < /', "standard input", "is a directory"),
    "input that is written only": ('"$0" replay 8 0> /dev/null', "standard input", "Bad file descriptor (os error 9)"),
    "input that is closed": ('"$0" replay 8 <&-', "standard input", "Bad file descriptor (os error 9)"),
    "output that is closed": ('"$0" selftest >&-', "standard output", "Bad file descriptor (os error 9)"),
    "output that is full": ('"$0" selftest > /dev/full', "standard output", "No space left on device (os error 28)"),
}

# What settings write: their files, and the file of labels, by a new file and a rename.
UNWRITTEN = {
    "a folder that is not there": (["--split", "nothing"], "nothing/station-1.toml", "No such file or directory (os error 2)"),
    "a folder that is a file": (["--split", "file"], "file/station-1.toml", "Not a directory (os error 20)"),
    "a folder that may not be written": (["--split", "folder"], "folder/station-1.toml", "Permission denied (os error 13)"),
    "a file that is there": (["--split", "full"], "full/station-1.toml", "a file is there, and is not replaced"),
    "labels into a folder that is not there": (["--labels", "nothing/x"], "nothing/x.new", "No such file or directory (os error 2)"),
    "labels on a full disk": (["--labels", "full/labels"], "full/labels.new", "No space left on device (os error 28)"),
    "labels that may not be written": (["--labels", "folder/x"], "folder/x.new", "Permission denied (os error 13)"),
    "labels that are a folder": (["--labels", "folder"], "folder", "is a directory"),
}


def writes(what):
    def trial(program, places):
        option, path, words = UNWRITTEN[what]
        with tempfile.TemporaryDirectory() as folder:
            place = Place(folder)
            asked = ["settings", places["HERE"], "public", option[0], place / option[1]]
            return is_said(what, ran(program, asked, nobody="Permission" in words), f"{place / path}: {words}")

    return trial


def reads_no_words(program, places):
    """Arguments that are no text."""
    done = subprocess.run([program, b"get", b"\xff"], capture_output=True, stdin=subprocess.DEVNULL, timeout=SECONDS)
    wanted = b"snmpmon: the command line is not UTF-8; see snmpmon --help\n"
    if (done.returncode, done.stdout, done.stderr) == (2, b"", wanted):
        return True
    print(f"failed: arguments that are no text: status {done.returncode}, {done.stderr!r:.200}")
    return False


REASONS = {
    **{f"reason: {reader} that {reason}": reads(reader, reason) for reader in READERS for reason in UNREAD},
    "reason: a file that cannot be read": reads_memory,
    "reason: a part of a file": reads_part,
    **{f"reason: {what}": over(STREAMS[what][:2], STREAMS[what][2]) for what in STREAMS},
    **{f"reason: {what}": writes(what) for what in UNWRITTEN},
    "reason: arguments that are no text": reads_no_words,
}
