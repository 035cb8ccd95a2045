"""Proves and builds a small program over some crates, in a repository of its own."""

import shutil
import subprocess
import sys
from pathlib import Path

from measuring import TOP


def needed(names: list) -> dict:
    """The lines of crates.txt of these crates and of those of the repository below them, by their names."""
    lines = (TOP / "crates.txt").read_text().splitlines()
    words = {line.split(":")[0]: line.split(":")[1].split() for line in lines if ":" in line and line[0] != "#"}
    found = {}
    wanted = list(names)
    while wanted:
        crate = wanted.pop()
        if crate in words and crate not in found:
            found[crate] = words[crate]
            wanted += words[crate]
    return found


def built(folder: Path, name: str, libraries: list) -> Path:
    """The program of NAME.rt.txt beside this file, proved and built in a folder."""
    crates = needed(libraries)
    left_out = shutil.ignore_patterns("out", "must-fail")
    for crate in crates:
        shutil.copytree(TOP / "crates" / crate, folder / "crates" / crate, ignore=left_out)
    source = folder / "crates" / name / "src"
    source.mkdir(parents=True)
    shutil.copy(TOP / "bench" / f"{name}.rt.txt", source / "main.rt")
    crates[name] = libraries
    (folder / "crates.txt").write_text("".join(f"{crate}: {' '.join(words)}\n" for crate, words in crates.items()))
    shutil.copy(TOP / "HANDLES", folder)
    done = subprocess.run(["rt", "run"], cwd=source.parent, capture_output=True, text=True)
    program = source.parent / "out" / name
    if done.returncode or not program.exists():
        sys.exit(f"bench: the program isn't built: {(done.stdout + done.stderr)[-2000:]}")
    return program
