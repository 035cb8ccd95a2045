#!/usr/bin/env python3
"""Writes the pages of docs/ that are made from the tree: tests/pages.py

They are API.md, CRATES.md, DEFINITIONS.md and READING.md. Run it after any change of code, definitions or heads of
crates; `tests/run documents` fails while one of them is out of date.
"""

import re
from functools import lru_cache
from pathlib import Path

import api
import citing
import reading

TOP = Path(__file__).resolve().parent.parent
DOCS = TOP / "docs"
MADE = "*Made by [tests/pages.py](../tests/pages.py) from the tree. Edit the sources, not this page.*"

# The crates that a user of the library meets, by what they are for.
LIBRARY = {
    "The calls": ("consolidate", "comparing", "comparison", "opening"),
    "What is chosen and reported": ("rendering", "consolidation", "clipping", "list_terms", "job_terms", "sound_terms"),
    "Stores": ("devices", "shelf"),
    "Passes": ("passes", "groups"),
    "Lists": ("sampletime", "adlmodel", "adlread", "adlwrite", "sourceindex", "projectcheck"),
    "Sound files": ("riff", "pcm", "wavread", "wavwrite", "markfile"),
    "The program over any stores": ("answers", "console"),
}

# What the promises rest on: what each row is about, and the definitions or the functions to start from.
PROMISES = (
    ("The exact sum of entries, rounding and clipping", ("sound_terms/Mix/mix_at", "sound_terms/Mix/quantized"), ()),
    ("What a list says, by its grammar", ("adlread/Spells/Spells",), ()),
    ("What a list says, or its first fault", ("list_terms/Text/text_value",), ()),
    ("Which list is accepted over which files, and what it sounds like",
     ("list_terms/Heard/IsAccepted", "list_terms/Heard/project_fault", "list_terms/Heard/project_mix"), ()),
    ("The new project sounds the same", ("consolidation/Work/SoundsTheSame",), ()),
    ("The rendered file", ("rendering/Rendering/IsRendered",), ()),
    ("What a crash may leave of a rendering", ("rendering/Marked/IsResumable",), ()),
    ("All of `check_project`", ("consolidate/Commands/IsChecking",), ()),
    ("All of `render`", ("consolidate/Commands/IsRendering",), ()),
    ("All of `resume`", ("consolidate/Resuming/IsResuming",), ()),
    ("All of `consolidate`", ("consolidate/Commands/IsConsolidation",), ()),
    ("All of `run_schedule`",
     ("consolidate/Schedules/IsRenderSchedule", "consolidate/Schedules/IsConsolidationSchedule"), ()),
    ("All of `compare`", ("comparing/Comparing/IsComparing",), ()),
    ("The program over folders: the contract of `answer_words`", (), ("adlcons/folders.rt/answer_words",)),
)


def api_page() -> str:
    """The public items of the library."""
    parts = ["# Library reference\n", MADE, """
The public items that a user of the library meets, by crate. Each has the first sentence of its documentation, its
signature and its premises (`requires`); a comment names its other clauses, which are in the source. What a function
can fail with is the enum in its `Result`. [LIBRARY.md](LIBRARY.md) has examples and says which of two similar calls to
use.
"""]
    for title, crates in LIBRARY.items():
        parts.append(f"- {title}: {', '.join(f'[{crate}](#{crate})' for crate in crates)}")
    for crate in (crate for crates in LIBRARY.values() for crate in crates):
        own, others = api.exports(crate)
        parts.append(f"\n## {crate}\n\n{api.head_of(crate).split(chr(10) + chr(10))[0]}\n")
        if others:
            parts.append("It also exports:\n")
        for name, names in sorted(others.items()):
            listed = ", ".join(f"`{word}`" for word in names)
            known = any(name in crates for crates in LIBRARY.values())
            parts.append(f"- of {f'[{name}](#{name})' if known else f'`{name}`'}: {listed}")
        if others and own:
            parts.append("")
        if own:
            parts.append("```rust\n" + "\n\n".join("\n".join(lines) for lines in own) + "\n```")
    return "\n".join(parts) + "\n"


def crates_page() -> str:
    """What each crate is, by the head of its root file."""
    parts = ["# The crates\n", MADE, """
Each crate with the head of its root file, in the order of `crates.txt`: a crate uses only those above it, and
crates of the toolchain, which are in italics. [MAP.md](MAP.md) draws them.
"""]
    own = citing.edges()
    for crate, uses in own.items():
        shown = [f"[{name}](#{name})" if name in own else f"*{name}*" for name in uses]
        parts.append(f"## {crate}\n\n{api.head_of(crate)}\n\nUses: {', '.join(shown) or 'no other crate'}.\n")
    return "\n".join(parts)


def first_sentence(text: str) -> str:
    """The first sentence of the remark that a file of definitions begins with."""
    remark = " ".join(line[2:].strip() for line in re.match(r"(?:--.*\n)*", text)[0].splitlines())
    return re.match(r"(.*?)\.?(?:(?<=\.) |$)", remark)[1]


def length_of(text: str) -> int:
    """The lines of a file of definitions but blank ones, remarks and imports."""
    return len(re.findall(r"^(?!\s*(?:--|$)|(?:pub )?use )", text.rstrip(), re.M))


def definitions_page() -> str:
    """The files of definitions of each crate."""
    known, order = citing.citations(), list(citing.edges())
    rests = promised()
    parts = ["# The definitions\n", MADE, """
Every file of definitions, with the first sentence of its remark, its lines without blank lines, remarks and imports,
and the other crates whose contracts or definitions cite it (for a file of laws also those whose proofs do). A star marks the
files that a promise rests on; [READING.md](READING.md) says which promise rests on which.
"""]
    for crate in citing.program_crates():
        rows = []
        for stem in (stem for name, stem in citing.definitions() if name == crate):
            path = TOP / "crates" / crate / "specs" / f"{stem}.antt"
            text = path.read_text()
            citers = ", ".join(sorted(known.get((crate, stem), set()) - {crate}, key=order.index)) or "-"
            star = " *" if (crate, stem) in rests else ""
            link = f"[{stem}](../crates/{crate}/specs/{stem}.antt)"
            rows.append(f"| {link}{star} | {first_sentence(text)} | {length_of(text)} | {citers} |")
        if rows:
            parts.append(f"## {crate}\n\n| File | What it defines | Lines | Cited by |\n|---|---|---|---|")
            parts.append("\n".join(rows) + "\n")
    return "\n".join(parts)


@lru_cache(None)
def readings() -> list:
    """Each promise with what has to be read for it."""
    found = []
    for title, definitions, functions in PROMISES:
        one = reading.of_definitions(*definitions)
        if functions:
            one = reading.of_functions(*functions)
        found.append((title, definitions or functions, one))
    return found


def promised() -> set:
    return {file for *_, one in readings() for file in one.files}


def reading_page() -> str:
    """What has to be read to believe each promise."""
    parts = ["# What to read to believe a promise\n", MADE, """
A promise means what its definitions say. Each row has a promise, where its statement begins, and how much there is to
read: that statement, the definitions that it names, those that these name, and so on. Lines are counted without blank
lines and remarks. Words of the toolchain's standard library are not counted, nor are plain structs, enums and traits of
the code that the definitions name; these are listed last. Proofs need not be read: the checker reads them.
"""]
    rows, seen = [], set()
    for title, starts, one in readings():
        further = {key: value for key, value in one.found.items() if key not in seen}
        seen |= set(one.found)
        begins = ", ".join(f"`{start.split('/')[-1]}`" for start in starts)
        rows.append(f"| {title} | {begins} | {len(one.files)} | {len(one.found)} | {one.lines} | "
                    f"{sum(definition.length for definition in further.values())} |")
    parts.append("| Promise | Starts at | Files | Definitions | Lines | Lines not in rows above |")
    parts.append("|---|---|---|---|---|---|")
    parts.append("\n".join(rows) + "\n")
    for title, starts, one in readings():
        begins = ", ".join(f"`{start}`" for start in starts)
        parts.append(f"## {title}\n\nStarts at {begins}. Files, each with the lines to read:\n")
        by_crate = {}
        for (crate, stem), lines in one.files.items():
            by_crate.setdefault(crate, []).append(f"[{stem}](../crates/{crate}/specs/{stem}.antt) {lines}")
        parts += [f"- {crate}: {', '.join(listed)}" for crate, listed in by_crate.items()]
        types = {}
        for crate, name in sorted(one.declared):
            types.setdefault(crate, []).append(f"`{name}`")
        listed = "; ".join(f"{', '.join(names)} of {crate}" for crate, names in types.items())
        parts.append(f"- types and traits of the code: {listed or 'none'}\n")
    return "\n".join(parts)


PAGES = {
    "API.md": api_page,
    "CRATES.md": crates_page,
    "DEFINITIONS.md": definitions_page,
    "READING.md": reading_page,
}


if __name__ == "__main__":
    for name, page in PAGES.items():
        (DOCS / name).write_text(page())
