"""Reads the faults that lines of standard error name: crate, number, name, and what was wrong."""
import re
from pathlib import Path

CRATES = Path(__file__).resolve().parent.parent.parent / "crates"
# The crate by which a line names the fault, the file of the fault's type, and the type.
TYPES = [
    ("mon_app", "mon_app/src/fault.rt", "AppFault"),
    ("mon_app", "mon_rehearsal/src/fault.rt", "ScriptFault"),
    ("mon_smi", "mon_smi/src/text_fault.rt", "TextFault"),
    ("mon_smi", "mon_smi/src/fault.rt", "NamesFault"),
    ("mon_settings", "mon_settings/src/fault.rt", "SettingsFault"),
    ("mon_labels", "mon_labels/src/fault.rt", "LabelsFault"),
    ("mon_survey", "mon_survey/src/fault.rt", "SurveyFault"),
    ("mon_mib", "mon_mib/src/fault.rt", "DeviceFault"),
    ("mon_disk", "mon_disk/src/fault.rt", "KeeperFault"),
    ("mon_saved", "mon_saved/src/fault.rt", "ImageFault"),
    ("mon_poller", "mon_poller/src/fault.rt", "PollFault"),
    ("mon_poller", "mon_poller/src/fault.rt", "ResponseFault"),
    ("mon_exchange", "mon_exchange/src/fault.rt", "ExchangeFault"),
    ("mon_station", "mon_station/src/fault.rt", "StationFault"),
    ("mon_world", "mon_world/src/fault.rt", "WorldFault"),
    ("mon_rounds", "mon_rehearsal/src/trial.rt", "TrialFault"),
]
# Faults that have their numbers where commands name them: that file, their type, and the type's file.
NUMBERED = [
    ("mon_faults/src/fault.rt", "Fault", "mon_faults/src/fault.rt"),
    ("mon_carry_commands/src/load.rt", "CarryFault", "mon_carry/src/fault.rt"),
]
OWN = re.compile(
    r'Fault::(\w+) => (?:Fault::Other\()?Innermost::new\("(\w+)", (\d+), "(\w+)"\)'
)


def without_comments(text):
    return re.sub(r"^\s*//.*\n", "", text, flags=re.M)


def numbers_of(text, fault):
    """The number of each variant of a fault's type, by its arm or its discriminant."""
    by_arm = re.findall(rf"((?:{fault}::\w+(?:\([^)]*\)| \{{ \.\. \}})?[\s|]*)+)=> (\d+)", text)
    found = {
        variant: int(number) for arm, number in by_arm for variant in re.findall(r"::(\w+)", arm)
    }
    body = re.search(rf"pub enum {fault} \{{(.*?)\n\}}", text, re.S)[1]
    return found | {
        variant: int(number) for variant, number in re.findall(r"^\s*(\w+) = (\d+),", body, re.M)
    }


def meanings_of(text, fault):
    """What each variant of a fault's type says was wrong: its text as an error, or its comment."""
    body = re.search(rf"pub enum {fault} \{{(.*?)\n\}}", text, re.S)[1]
    found = {}
    comment, error = [], None
    for line in body.splitlines():
        if m := re.match(r"    /// (.*)", line):
            comment.append(m[1])
        elif m := re.match(r'    #\[error\("(.*)"\)\]', line):
            error = m[1]
        elif m := re.match(r"    (\w+)\b", line):
            plain = error if error and "{" not in error else " ".join(comment).split(". ")[0]
            found[m[1]] = plain[:1].lower() + plain[1:].rstrip(".")
            comment, error = [], None
    return found


def faults():
    """The faults by crate in the order of their numbers: number, name, what was wrong."""
    found = {}
    for crate, path, fault in TYPES:
        text = (CRATES / path).read_text(encoding="utf-8")
        numbers, meanings = numbers_of(text, fault), meanings_of(text, fault)
        for variant, number in sorted(numbers.items(), key=lambda item: item[1]):
            # A part's fault is printed with the part's name and number.
            inner = re.search(
                rf"^    {variant}\((Poll|Response|Exchange|Keeper|Image|Station|Form)Fault\)",
                text,
                re.M,
            )
            if number != 1 and not inner:
                found.setdefault(crate, {}).setdefault((number, variant), meanings[variant])
    for path, fault, where in NUMBERED:
        meanings = meanings_of((CRATES / where).read_text(encoding="utf-8"), fault)
        text = (CRATES / path).read_text(encoding="utf-8")
        for variant, crate, number, name in OWN.findall(text):
            found.setdefault(crate, {})[int(number), name] = meanings[variant]
    return {crate: dict(sorted(named.items())) for crate, named in found.items()}


def crates_that_are_named():
    """The crates that the sources name faults by."""
    texts = [path.read_text(encoding="utf-8") for path in CRATES.glob("*/src/**/*.rt")]
    return {name for text in texts for name in re.findall(r'Innermost::new\(\s*"(\w+)"', text)}
