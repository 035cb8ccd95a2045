"""The crates of the tree, their files of definitions, and which crates cite each file."""

import re
from pathlib import Path

TOP = Path(__file__).resolve().parent.parent
IMPORT = re.compile(r"^\s*(?:ghost )?use Rattle\.(\w+)\.specs\.(\w+)", re.M)


def edges() -> dict:
    """Each crate of this repository, lowest first, with the crates that it may name."""
    lines = (line for line in (TOP / "crates.txt").read_text().splitlines() if line and line[0] != "#")
    return {name: needs.split() for name, _, needs in (line.partition(":") for line in lines)}


def program_crates() -> list:
    """The crates that aren't of tests alone."""
    return [name for name in edges() if name != "surface" and not name.startswith("trials_")]


def definitions() -> list:
    """Their files of definitions, as crate and name."""
    return sorted((name, page.stem) for name in program_crates()
                  for page in (TOP / "crates" / name / "specs").glob("*.antt") if page.stem != "Lib")


def is_of_laws(crate: str, stem: str) -> bool:
    return crate == "facts" or stem.endswith("Laws")


def citations() -> dict:
    """The crates that cite each file: their contracts or definitions, and of a file of laws their proofs too."""
    citing = {}
    for name in edges():
        for folder in ("src", "specs", "proofs") if name in program_crates() else ():
            for page in (page for page in (TOP / "crates" / name / folder).glob("**/*") if page.is_file()):
                for used in IMPORT.findall(page.read_text()):
                    if folder != "proofs" or is_of_laws(*used):
                        citing.setdefault(used, set()).add(name)
    return citing
