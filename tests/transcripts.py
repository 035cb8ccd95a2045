#!/usr/bin/env python3
"""The transcripts of the pages: tests/transcripts.py [PAGE..] runs their commands and writes what these print into the pages.

A transcript is a block between ```console and ```. Its commands follow a `$ `; the other lines are printed by them, on
both outputs, and folded if they are long. They are run by bash in a copy of examples/ with its media, those of a page
one after another. The program is crates/adlcons/out/adlcons, or the path in the environment variable ADLCONS.
"""

import os
import re
import shutil
import subprocess
import sys
import tempfile
import textwrap
from pathlib import Path

TOP = Path(__file__).resolve().parent.parent
EXAMPLES = TOP / "examples"
TIMEOUT = 60
BLOCK = re.compile(r"^(```console\n)(.*?)(^```$)", re.M | re.S)
PROMPT = "$ "
WIDTH = 112


def pages() -> list:
    """Each page of the repository."""
    return sorted({*TOP.glob("*.md"), *TOP.glob("*/*.md"), *EXAMPLES.glob("*/README.txt")})


def steps_of(block: str) -> list:
    """Each command of a block, as its lines, with the lines that follow it."""
    steps = []
    for line in block.splitlines():
        if line.startswith(PROMPT):
            steps.append(([line[len(PROMPT):]], []))
        elif steps and not steps[-1][1] and steps[-1][0][-1].endswith("\\"):
            steps[-1][0].append(line)
        else:
            steps[-1][1].append(line)
    return steps


def folded(line: str) -> list:
    """A line as pages show it."""
    if len(line) <= WIDTH:
        return [line]
    return textwrap.wrap(line, WIDTH, subsequent_indent="    ", break_long_words=False, break_on_hyphens=False)


def transcript_of(page: Path) -> list:
    """Each command of a page with the lines that follow it."""
    return [("\n".join(command), lines) for block in BLOCK.findall(page.read_text()) for command, lines in steps_of(block[1])]


class Stage:
    """A copy of the examples with their media in a folder, in which commands are run."""

    def __init__(self, program: Path, folder: Path):
        self.examples = folder / "examples"
        shutil.copytree(EXAMPLES, self.examples, ignore=shutil.ignore_patterns("media"))
        subprocess.run([sys.executable, self.examples / "make_media"], check=True, timeout=TIMEOUT)
        (folder / "path").mkdir()
        (folder / "path/adlcons").symlink_to(program)
        self.environment = {**os.environ, "PATH": f"{folder / 'path'}:{os.environ['PATH']}", "LC_ALL": "C.UTF-8"}

    def printed_by(self, command: str) -> list:
        """The lines that a command prints, on both outputs, as pages show them."""
        done = subprocess.run(
            ["bash", "-c", command], cwd=self.examples, env=self.environment, stdin=subprocess.DEVNULL,
            stdout=subprocess.PIPE, stderr=subprocess.STDOUT, check=False, timeout=TIMEOUT)
        return [part for line in done.stdout.decode().splitlines() for part in folded(line)]


def rewritten(page: Path, stage: Stage) -> str:
    """The page with the lines that its commands print now."""
    def block(match: re.Match) -> str:
        lines = []
        for command, _ in steps_of(match[2]):
            lines += [PROMPT + command[0], *command[1:], *stage.printed_by("\n".join(command))]
        return "".join((match[1], *(f"{line}\n" for line in lines), match[3]))
    return BLOCK.sub(block, page.read_text())


def main(names: list) -> None:
    program = Path(os.environ.get("ADLCONS", TOP / "crates/adlcons/out/adlcons")).resolve()
    for page in [Path(name) for name in names] or [page for page in pages() if transcript_of(page)]:
        with tempfile.TemporaryDirectory(prefix="adlcons-") as folder:
            page.write_text(rewritten(page, Stage(program, Path(folder))))


if __name__ == "__main__":
    sys.dont_write_bytecode = True
    main(sys.argv[1:])
