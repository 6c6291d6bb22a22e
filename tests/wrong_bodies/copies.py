"""Copies of a crate and of those that it stands on."""
import shutil
import subprocess

from library.crates import TOP, below


def copy_of(crate, place):
    """A copy of the crate and of those below, with what earlier checks kept."""
    needs = below(crate)
    for name in needs:
        shutil.copytree(TOP / "crates" / name, place / "crates" / name)
    (place / "crates.txt").write_text("".join(f"{name}: {' '.join(on)}\n" for name, on in needs.items()))
    shutil.copy(TOP / "HANDLES", place)
    subprocess.run(["git", "init", "-q"], cwd=place, check=True)
    return place / "crates" / crate
