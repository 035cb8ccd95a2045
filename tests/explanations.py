"""What numbers mean: `explain`, and the table of docs/REFUSALS.md, which agrees with it."""

import re
from pathlib import Path

from harness import Cases, Mismatch, Scene, same

case = Cases()
run = case.run

REFUSALS = Path(__file__).resolve().parent.parent / "docs" / "REFUSALS.md"

# All numbers of the product, answered today or later.
NUMBERS = [*range(1, 32), *range(41, 48), *range(51, 59), *range(60, 64), *range(66, 70)]

HEAD = re.compile(r"(\d\d)((?: at .*?)?): (.*)\.")
PLACES = {
    "": "", " at line N": "line", " at file NAME": "file", " at index N file NAME": "index, file",
    " at index N": "index", " at entry N": "entry", " at job N": "job",
}


def meanings(text: str) -> list:
    """Number, place, meaning and whether it is answered, of each block of `explain`."""
    found = []
    for line in text.splitlines():
        head = HEAD.fullmatch(line)
        if head:
            found.append([int(head[1]), PLACES[head[2]], head[3], True])
        elif line == "    This version doesn't answer it.":
            found[-1][3] = False
        elif not re.fullmatch(r"    (Cause|Remedy): \S.*\.", line):
            raise Mismatch(f"explain prints the line {line!r}")
    return [tuple(each) for each in found]


@case("all numbers are explained")
def all_numbers(scene: Scene) -> None:
    told = meanings(scene.run("explain").output.decode())
    same("the numbers", sorted({number for number, *_ in told}), NUMBERS)
    same("their order", [number for number, *_ in told], sorted(number for number, *_ in told))


@case("one number is explained")
def one_number(scene: Scene) -> None:
    """Each number alone is what stands among all."""
    whole = scene.run("explain").output
    parts = [scene.run("explain", str(number)) for number in NUMBERS]
    same("the parts", b"".join(part.output for part in parts), whole)
    same("with two digits", scene.run("explain", "07"), scene.run("explain", "7"))
    for word in ("0", "59", "70", "256", "-1", "x", "", "1.5"):
        got = scene.run("explain", "--", word)
        same(f"status and output of {word!r}", (got.status, got.output), (2, b""))
        if got.error.count(b"\n") != 1:
            raise Mismatch(f"{word!r} is answered with {got.error!r}")


@case("the table of REFUSALS.md")
def table_agrees(scene: Scene) -> None:
    """The table has just the numbers that are answered today, in the program's words."""
    rows = []
    for line in REFUSALS.read_text().splitlines():
        row = re.fullmatch(r"\| (\d+) \| (.*?) ?\| (.+) \|", line)
        if row:
            rows.append((int(row[1]), row[2].strip(), row[3]))
    told = meanings(scene.run("explain").output.decode())
    same("the table of REFUSALS.md", rows, [each[:3] for each in told if each[3]])


@case("notices are explained")
def notices(scene: Scene) -> None:
    """The notices are numbered from 1 to 7, and each alone is what stands among all."""
    whole = scene.run("explain", "notice").output
    parts = [scene.run("explain", "notice", str(number)).output for number in range(1, 8)]
    same("the parts", b"".join(parts), whole)
    heads = re.findall(r"^notice (\d): \S.*\.$", whole.decode(), re.M)
    same("the numbers", heads, [str(number) for number in range(1, 8)])
    for word in ("0", "8", "x", ""):
        got = scene.run("explain", "notice", word)
        same(f"status and output of {word!r}", (got.status, got.output), (2, b""))


@case("explain alone")
def without_folders(scene: Scene) -> None:
    """It looks at no file, and help names it."""
    same("the status", scene.run("explain", "46").status, 0)
    same("nothing is written", scene.files(), {})
    if b"adlcons explain" not in scene.run("--help").output:
        raise Mismatch("help doesn't name explain")
    same("the end of a mistake", scene.run("explain", "1", "2").status, 2)
