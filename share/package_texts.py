#!/usr/bin/env python3
"""Writes the texts of the Debian package: share/package_texts.py FOLDER VERSION DATE

FOLDER/copyright has the licence of the program and the notices of the crates of the Rattle toolchain that it is linked
with, read from the installed toolchain. FOLDER/docs/ has the pages, without links to files that aren't in the package;
a page that names such files lists them below its title. FOLDER/changelog has what CHANGELOG.md says of the version."""

import re
import shutil
import subprocess
import sys
import textwrap
from pathlib import Path

TOP = Path(__file__).resolve().parent.parent
PROGRAM = "adlcons"
MAINTAINER = "Fulixoma <maintainers@fulixoma.example>"
PAGES = (
    "ARCHIVE.md", "COMPATIBILITY.md", "FAQ.md", "FILES.md", "GLOSSARY.md", "LIMITS.md", "LIST.md", "PROOF.md", "PROVED.md",
    "REFUSALS.md", "REPORT.md", "TRUST.md")
OTHERS = ("proof.svg", "report.schema.json")
# A file of the repository, by its path or, of a page, by its name.
NAMED = re.compile(r"(?:docs|examples|tests|bench|share|crates)/[\w./-]*\w|\b[A-Z_]+\.md\b|\bLICENSE-[A-Z]+\b")
# How a page says which files it names that aren't in the package.
OUTSIDE = "Not in this package, but in the source of"
# How Debian calls a licence, by words of its text.
LICENCES = {
    "unicode license v3": "Unicode-3.0",
    "apache license": "Apache-2.0",
    "permission is hereby granted, free of charge": "Expat",
}
APACHE = """\
On Debian systems the full text of the Apache License 2.0 is in the file
/usr/share/common-licenses/Apache-2.0.
"""
HOLDER = re.compile(r"^\s*copyright (?:\(c\)|©)\s*(.*\S)", re.I | re.M)


def toolchain() -> Path:
    """The folder of the Rattle toolchain."""
    return Path(subprocess.check_output(["rt", "doc"], text=True).strip()).parent


def linked_crates(tools: Path) -> list:
    """The crates of the toolchain that the program uses, directly or through others, sorted."""
    lines = (line for line in (TOP / "crates.txt").read_text().splitlines() if line and line[0] != "#")
    uses = {name: needs.split() for name, _, needs in (line.partition(":") for line in lines)}
    found, open_names = set(), [PROGRAM]
    while open_names:
        name = open_names.pop()
        if name not in found:
            found.add(name)
            open_names += uses[name] if name in uses else used_by(tools, name)
    return sorted(found - set(uses))


def used_by(tools: Path, name: str) -> list:
    """The crates that a crate of the toolchain uses: those its library was built over, and those its code imports."""
    below = tools / "rlibs" / f"{name}.rlib" / "below"
    built = [path.name for path in below.iterdir()] if below.is_dir() else []
    source = tools / "rattle" / name / "src"
    code = "\n".join(path.read_text() for path in source.glob("**/*.rt"))
    imports = re.findall(r"^\s*(?:pub )?use (\w+)::", code, re.M)
    own = {path.stem for path in source.glob("**/*")}
    return built + [word for word in imports if word not in own and (tools / "rattle" / word).is_dir()]


def licence_name(text: str) -> str:
    words = " ".join(text.lower().split())
    return next((name for known, name in LICENCES.items() if known in words), "other")


def folded(text: str) -> str:
    """A text as the further lines of a field."""
    return "".join(f" {line.rstrip()}\n" if line.strip() else " .\n" for line in text.strip("\n").splitlines())


def stanza_of(tools: Path, name: str) -> str:
    """The notices of a crate of the toolchain; nothing if it has none. Of MIT or Apache-2.0 this is MIT."""
    files = sorted((tools / "rattle" / name).glob("LICENSE*"))
    if any(path.name == "LICENSE-MIT" for path in files):
        files = [path for path in files if path.name != "LICENSE-APACHE"]
    if not files:
        return ""
    texts = [path.read_text() for path in files]
    holders = list(dict.fromkeys(sum(map(HOLDER.findall, texts), []))) or [f"the authors of the crate {name}"]
    licences = " and ".join(dict.fromkeys(map(licence_name, texts)))
    bodies = [APACHE if licence_name(text) == "Apache-2.0" else text for text in texts]
    held = "\n           ".join(holders)
    return f"\nFiles: rattle/{name}/*\nCopyright: {held}\nLicense: {licences}\n{folded(chr(10).join(bodies))}"


def copyright_text(tools: Path) -> str:
    crates = linked_crates(tools)
    stanzas = {name: stanza_of(tools, name) for name in crates}
    silent = textwrap.fill(
        f"It has none of {', '.join(name for name in crates if not stanzas[name])}.", 76, initial_indent=" ",
        subsequent_indent=" ")
    return f"""Format: https://www.debian.org/doc/packaging-manuals/copyright-format/1.0/
Upstream-Name: {PROGRAM}
Comment:
 usr/bin/{PROGRAM} is linked with crates of the Rattle toolchain
 ({(tools / "KIT-ID").read_text().strip()}), here under rattle/, with
 the notices that the toolchain has of them.
{silent}

Files: *
Copyright: 2026 The Fulixoma developers
License: Expat or Apache-2.0

License: Expat
{folded((TOP / "LICENSE-MIT").read_text().partition("developers")[2])}
License: Apache-2.0
{folded(APACHE)}{"".join(stanzas.values())}"""


def is_packed(name: str) -> bool:
    return name.rpartition("/")[2] in (*PAGES, *OTHERS) and name.rpartition("/")[0] in ("", "docs")


def page_text(text: str, version: str) -> str:
    """A page without links to what isn't in the package, and with a list of the files that it names and that aren't."""
    outside = sorted({name for name in NAMED.findall(text) if not is_packed(name)})
    text = re.sub(r"(?<!!)\[([^\]]*)\]\((?!https?:)([^)#]+)(#[^)]*)?\)",
                  lambda link: link[0] if is_packed(link[2]) else link[1], text)
    if not outside:
        return text
    title, _, rest = text.partition("\n")
    note = f"{OUTSIDE} {PROGRAM} {version}: {', '.join(outside)}."
    return f"{title}\n\n{textwrap.fill(note, 120, break_on_hyphens=False)}\n{rest}"


def changelog_text(version: str, date: str) -> str:
    """What CHANGELOG.md says of a version, as an entry of a Debian change log."""
    section = (TOP / "CHANGELOG.md").read_text().partition(f"\n## [{version}] - ")[2].partition("\n## ")[0]
    lines = []
    for part in re.split(r"\n(?=\s*- |#)|\n\n", section.partition("\n")[2].replace("`", "")):
        words = " ".join(part.split())
        if words.startswith("### "):
            lines.append(f"\n  [ {words[4:]} ]")
        elif words and not words.startswith("Interface: "):
            indent, mark = ("  ", "* ") if not part.startswith("  - ") else ("    ", "- ")
            lines.append(textwrap.fill(
                words.removeprefix("- "), 78, initial_indent=indent + mark, subsequent_indent=f"{indent}  "))
    body = "\n".join(lines).strip("\n") or "  * No change is described."
    return f"{PROGRAM} ({version}) unstable; urgency=medium\n\n{body}\n\n -- {MAINTAINER}  {date}\n"


def main(folder: str, version: str, date: str) -> None:
    into = Path(folder)
    (into / "docs").mkdir(parents=True, exist_ok=True)
    for name in PAGES:
        (into / "docs" / name).write_text(page_text((TOP / "docs" / name).read_text(), version))
    for name in OTHERS:
        shutil.copyfile(TOP / "docs" / name, into / "docs" / name)
    (into / "copyright").write_text(copyright_text(toolchain()))
    (into / "changelog").write_text(changelog_text(version, date))


if __name__ == "__main__":
    main(*sys.argv[1:])
