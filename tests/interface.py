#!/usr/bin/env python3
"""Writes the public interface of the program to docs/interface/VERSION.txt: tests/interface.py [PROGRAM]

The program is crates/adlcons/out/adlcons, or the path in the environment variable ADLCONS. The interface is what others
may rely on: commands, options and the values that they take, the lines on standard output, exit statuses, the numbers
of refusals and notices, the files that are written, with the form of lists, checksums and marks, and the members of
reports. Texts for people are no part of it: help, explanations, standard error. All of it comes from the program as it
answers here, but for the members of reports, which docs/report.schema.json has.
"""

import hashlib
import json
import os
import re
import sys
from pathlib import Path

sys.dont_write_bytecode = True

from harness import LIST, MEDIA, OUT, Scene, Suite
from tables import FIRST_LIST, changed, wave, with_line_after, without

TOP = Path(__file__).resolve().parent.parent
FOLDER = TOP / "docs/interface"
SCHEMA = TOP / "docs/report.schema.json"
# Values that are tried for each option, and the command that they are tried with.
VALUES = {
    "handle": ("consolidate", ("-1", "0", "4147200000", "4147200001")),
    "depth": ("render", ("8", "16", "20", "24", "32", "64")),
    "order": ("render", ("time", "source", "name", "TIME")),
    "channels": ("render", ("0", "1", "64", "65")),
    "from": ("render", ("01.00.00.00/0000", "01:00|00,00=0000", "01.00.00.25/0000", "1", "0")),
    "to": ("render", ("01.00.00.00/0001", "24.00.00.00/0000", "24.00.00.00/0001", "1", "0")),
}


def version_of(scene: Scene) -> str:
    return scene.run("--version").output.decode().split()[1]


def commands(scene: Scene) -> list:
    """The program and each command with its arguments, and the options with the values that they have by default."""
    lines = []
    for command in ([], *re.findall(r"^  ([a-z]+)  ", scene.run("--help").output.decode(), re.M)):
        text = scene.run(*[command] * bool(command), "--help").output.decode()
        usage = re.search(r"^Usage: (.*)$", text, re.M)
        lines.append(usage[1] if usage else f"adlcons {command}")
        for short, long, value, rest in re.findall(r"^ +(-\w)?,? *(--[a-z]+)(?: (<\w+>))?(.*)$", text, re.M):
            default = re.search(r" \[default: (\S+)\]$", rest)
            words = [word for word in (short, long, value, default and f"default {default[1]}") if word]
            lines.append(f"    {' '.join(words)}")
    return lines


def accepted_values(scene: Scene) -> list:
    """Of each option some values that are accepted, and some that aren't."""
    lines = []
    for option, (command, values) in VALUES.items():
        statuses = {}
        for value in values:
            statuses[value] = scene.run(command, LIST, MEDIA, OUT, f"--{option}={value}").status
            scene.empty_out()
        taken = [value for value in values if statuses[value] != 2]
        refused = [value for value in values if statuses[value] == 2]
        lines.append(f"--{option} takes {' '.join(taken)}; not {' '.join(refused)}")
    return lines


def with_letters(line: str) -> str:
    """A line with T for each time, NAME for each file, and N for each number but that of a refusal, a notice or a list."""
    line = re.sub(r"\d\d\.\d\d\.\d\d\.\d\d/\d{4}", "T", line)
    line = re.sub(r" file \S+", " file NAME", line)
    return re.sub(r"(?<!^refused )(?<!^notice )(?<!in list )(?<!\w)-?\b\d+\b", "N", line)


def answers(scene: Scene) -> list:
    """The exit status and the lines on standard output of one run of each kind."""
    (scene.folder / "M2").mkdir()
    (scene.folder / "M2/A.wav").write_bytes(wave([1000, -1000, 32766, -32768]))
    both = ("compare", LIST, MEDIA, LIST)
    runs = (
        ("check", FIRST_LIST, ("check", LIST, MEDIA)),
        ("consolidate", FIRST_LIST, ("consolidate", LIST, MEDIA, OUT)),
        ("consolidate --verify", FIRST_LIST, ("consolidate", LIST, MEDIA, OUT, "--verify")),
        ("render", FIRST_LIST, ("render", LIST, MEDIA, OUT)),
        ("resume", FIRST_LIST, ("resume", LIST, MEDIA, OUT)),
        ("compare, the same", FIRST_LIST, (*both, MEDIA)),
        ("compare, different", FIRST_LIST, (*both, "M2")),
        ("compare, the second list refused", FIRST_LIST, (*both, "none")),
        ("a section that isn't known", with_line_after(11, b"<MARKERS>\n</MARKERS>"), ("check", LIST, MEDIA)),
        ("an index that isn't used",
         with_line_after(7, b'(Index) 0002 (F) "URL:file://localhost/B.wav" _ 00.00.00.00/0000 _'), ("check", LIST, MEDIA)),
        ("no list", FIRST_LIST, ("check", "none", MEDIA)),
        ("a line that is wrong", changed(4, b"(SEQ_FRAME_RATE) 29.97"), ("check", LIST, MEDIA)),
        ("a line of an entry", with_line_after(10, b"(Gain) _ -6.0"), ("check", LIST, MEDIA)),
        ("a line of an index", changed(7, b'(Index) 0001 (F) "A.wav" _ 00.00.00.00/0000 _'), ("check", LIST, MEDIA)),
        ("no source", FIRST_LIST, ("check", LIST, "M3")),
        ("an entry past its file", changed(10, FIRST_LIST.splitlines()[9].replace(b"/0004", b"/0005")),
         ("check", LIST, MEDIA)),
        ("a wrong time", FIRST_LIST, ("render", LIST, MEDIA, OUT, "--from=1")),
        ("a wrong argument", FIRST_LIST, ("check", LIST)),
        ("no argument", FIRST_LIST, ()),
    )
    (scene.folder / "M3").mkdir()
    lines = []
    for name, text, words in runs:
        (scene.folder / LIST).write_bytes(text)
        if words[:1] != ("resume",):
            scene.empty_out()
        got = scene.run(*words)
        lines.append(f"{name}: status {got.status}")
        lines += [f"    {with_letters(line)}" for line in got.output.decode().splitlines()]
    (scene.folder / LIST).write_bytes(FIRST_LIST)
    scene.empty_out()
    return lines


def numbers(scene: Scene) -> list:
    """The numbers of refusals with their places, and whether this version returns them; and those of notices."""
    lines = []
    for line in scene.run("explain").output.decode().splitlines():
        head = re.match(r"(\d\d(?: at [^:]*)?): ", line)
        if head:
            lines.append(f"refused {head[1]}")
        elif not re.match(r"    (Cause|Remedy): ", line):
            lines[-1] += " (reserved)"
    return lines + re.findall(r"^notice \d+", scene.run("explain", "notice").output.decode(), re.M)


def written(scene: Scene) -> list:
    """The files that commands write for the first list, and what is in those of a fixed form."""
    lines = []
    for words in (("consolidate",), ("consolidate", "--report"), ("render",), ("render", "--report")):
        scene.empty_out()
        scene.run(words[0], LIST, MEDIA, OUT, *words[1:])
        files = scene.files()
        lines.append(f"{' '.join(words)}: {' '.join(sorted(files))}")
        if words == ("consolidate",):
            lines += [f"    {line}" for line in files["consolidated.adl"].decode().splitlines()]
        if words == ("consolidate", "--report"):
            lines += [f"    {re.sub('[0-9a-f]{64}', 'SHA-256', line)}"
                      for line in files["SHA256SUMS"].decode().splitlines()]
        if words == ("render",):
            marks, sound = files["render.marks"], files["render.wav"]
            lines.append(f"    render.marks {marks.hex()}")
            lines.append(f"    render.wav {len(sound)} bytes, SHA-256 {hashlib.sha256(sound).hexdigest()}")
    scene.empty_out()
    return lines


def reports() -> list:
    """The members of reports, each with what its value may be, by the schema."""
    schema = json.loads(SCHEMA.read_text())
    lines = ["a report is one of " + " ".join(sorted(ref_name(each) for each in schema["oneOf"]))]
    for name, part in sorted(schema["$defs"].items()):
        members = part.get("properties")
        if members is None:
            lines.append(f"{name}: {brief(part)}")
        for member, value in sorted((members or {}).items()):
            lines.append(f"{name}.{member}{'' if member in part.get('required', ()) else '?'}: {brief(value)}")
    return lines


def ref_name(part: dict) -> str:
    return part["$ref"].rpartition("/")[2]


def brief(part: dict) -> str:
    """A part of the schema in a line, without its remarks, and with names for what it refers to."""
    if "$ref" in part:
        return ref_name(part)
    told = {key: value for key, value in part.items() if key not in ("description", "title", "$comment")}
    return re.sub(r'\{"\$ref": "#/\$defs/(\w+)"\}', r"\1", json.dumps(told, sort_keys=True))


def interface_of(scene: Scene) -> str:
    """The public interface, as text."""
    scene.put(FIRST_LIST, {"A.wav": wave()})
    parts = {
        "Commands and options": commands(scene),
        "Values of options": accepted_values(scene),
        "Exit status and standard output (N is a number, T a time)": answers(scene),
        "Refusals and notices": numbers(scene),
        "Files that are written, for one list": written(scene),
        "Members of reports (? for those that may be left out)": reports(),
    }
    head = f"The public interface of adlcons {version_of(scene)}, as tests/interface.py writes it.\n"
    return head + "".join(f"\n## {name}\n\n" + "".join(f"{line}\n" for line in lines) for name, lines in parts.items())


def main(words: list) -> None:
    named = words[0] if words else os.environ.get("ADLCONS", TOP / "crates/adlcons/out/adlcons")
    with Suite.folder() as folder:
        scene = Scene(Path(named).resolve(), folder)
        text = interface_of(scene)
        path = FOLDER / f"{version_of(scene)}.txt"
    FOLDER.mkdir(exist_ok=True)
    path.write_text(text)
    print(f"{path.relative_to(TOP)} {hashlib.sha256(text.encode()).hexdigest()}")


if __name__ == "__main__":
    main(sys.argv[1:])
