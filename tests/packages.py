"""The Debian package that sh package makes: its bytes, lintian's verdict, its texts, and the program in it."""

import gzip
import os
import re
import shutil
import subprocess
import sys
from pathlib import Path

import citing
from harness import Cases, Scene, Skipped, same, same_bytes
from tables import CHANGELOG

case = Cases()
run = case.run

TOP = Path(__file__).resolve().parent.parent
TIMEOUT = 120


def need(*programs: str) -> None:
    for program in programs:
        if not shutil.which(program):
            raise Skipped(f"{program} isn't installed")


def packed(scene: Scene, folder: str, **environment: str) -> Path:
    """The package that is made in a folder of the scene."""
    need("dpkg-deb", "strip", "rt")
    into = scene.folder / folder
    into.mkdir()
    done = subprocess.run(
        ["sh", TOP / "package", into], env={**os.environ, "ADLCONS": str(scene.program), **environment}, check=True,
        capture_output=True, timeout=TIMEOUT)
    package = Path(done.stdout.decode().strip())
    same("the files that are made", list(into.iterdir()), [package])
    return package


def unpacked(scene: Scene) -> Path:
    tree = scene.folder / "tree"
    subprocess.run(["dpkg-deb", "-x", packed(scene, "made"), tree], check=True, timeout=TIMEOUT)
    return tree


@case("made twice, a package is the same bytes")
def same_twice(scene: Scene) -> None:
    """Made twice, in other folders and with another mask of modes, it is the same bytes."""
    first = packed(scene, "first")
    mask = os.umask(0o077)
    try:
        second = packed(scene, "second", TMPDIR=str(scene.folder), TZ="Asia/Tokyo", LC_ALL="C")
    finally:
        os.umask(mask)
    same("its name", second.name, first.name)
    same_bytes("the package", second.read_bytes(), first.read_bytes())


@case("lintian finds no error and warns of nothing")
def without_errors(scene: Scene) -> None:
    need("lintian")
    done = subprocess.run(
        ["lintian", "--allow-root", "--fail-on", "error,warning", packed(scene, "made")], capture_output=True,
        timeout=TIMEOUT)
    same("what lintian says", (done.returncode, done.stdout.decode()), (0, ""))


@case("the unpacked program shows an example")
def shows_example(scene: Scene) -> None:
    """The program of the unpacked tree, which knows nothing of the kit, renders the dialogue as its page says."""
    program = unpacked(scene) / "usr/bin/adlcons"
    examples = scene.folder / "examples"
    shutil.copytree(TOP / "examples", examples, ignore=shutil.ignore_patterns("media"))
    subprocess.run([sys.executable, examples / "make_media"], check=True, timeout=TIMEOUT)
    (examples / "sound").mkdir()
    done = subprocess.run(
        [program, "render", "dialogue/dialogue.adl", "dialogue/media", "sound"], cwd=examples, env={},
        capture_output=True, timeout=TIMEOUT)
    same("what it prints", (done.returncode, done.stdout), (0, b"rendered 115200 frames 2 channels\n"))
    same("its size", (examples / "sound/render.wav").stat().st_size, 691890)


@case("the unpacked page and completion")
def pages_and_words(scene: Scene) -> None:
    """The manual page and the completion are there, where the system looks for them."""
    need("man", "gzip")
    tree = unpacked(scene)
    done = subprocess.run(
        ["man", "--warnings", "-l", tree / "usr/share/man/man1/adlcons.1.gz"], capture_output=True, timeout=TIMEOUT)
    same("what man warns of", (done.returncode, done.stderr), (0, b""))
    same_bytes("the completion", (tree / "usr/share/bash-completion/completions/adlcons").read_bytes(),
               (TOP / "share/adlcons.bash").read_bytes())


# What a page may name: a file of this repository by its path, or one of docs/ by its name.
NAMED = re.compile(
    r"(?:docs|examples|tests|bench|share|crates)/[\w./-]*\w|\b[A-Z_]+\.md\b|\w+\.schema\.json|\w+\.svg")
# How a page of the package begins the list of files that it names and that aren't there.
OUTSIDE = "\n\nNot in this package, but in the source of adlcons "


def list_of_outside(text: str) -> tuple:
    """The files that a page says aren't in the package, and the page without this paragraph."""
    title, begin, rest = text.partition(OUTSIDE)
    if not begin:
        return [], text
    names, _, rest = rest.partition(".\n\n")
    return names.partition(": ")[2].replace("\n", " ").split(", "), f"{title}\n\n{rest}"


@case("the documents in a package")
def documents_of_outputs(scene: Scene) -> None:
    """The pages that say what an output is are there. Each names only files that are there, or says of a file of this
    repository that it isn't; it links only to files that are there, and is the page of docs/ otherwise."""
    folder = unpacked(scene) / "usr/share/doc/adlcons/docs"
    pages = sorted(path.name for path in folder.iterdir())
    same("some of the pages", {"ARCHIVE.md", "LIST.md", "PROVED.md", "REFUSALS.md", "REPORT.md"} <= set(pages), True)
    for page in (folder / name for name in pages if name.endswith(".md")):
        outside, text = list_of_outside(page.read_text())
        lacks = [name for name in outside if not any((top / name).exists() for top in (TOP, TOP / "docs"))]
        same(f"the files outside that {page.name} lists and that don't exist", lacks, [])
        lacks = [name for name in NAMED.findall(text) if name not in outside
                 and not (folder.parent / name).is_file() and not (folder / name).is_file()]
        same(f"the files that {page.name} names and that aren't there", lacks, [])
        links = re.findall(r"\]\((?!https?:|#)([^)#]+)", text)
        same(f"where {page.name} links to nothing", [name for name in links if not (folder / name).is_file()], [])
        same(f"the words of {page.name}", without_links(text), without_links((TOP / "docs" / page.name).read_text()))
    for name in ("proof.svg", "report.schema.json"):
        same_bytes(name, (folder / name).read_bytes(), (TOP / "docs" / name).read_bytes())


def without_links(text: str) -> str:
    return re.sub(r"\[([^\]]*)\]\([^)]*\)", r"\1", text)


@case("the licence in a package")
def licence(scene: Scene) -> None:
    """The copyright file names both licences, and has the notice of each crate of the toolchain that crates.txt names, if
    it has one."""
    text = (unpacked(scene) / "usr/share/doc/adlcons/copyright").read_text()
    same("its first line", text.partition("\n")[0],
         "Format: https://www.debian.org/doc/packaging-manuals/copyright-format/1.0/")
    ours = "\nFiles: *\nCopyright: 2026 The Fulixoma developers\nLicense: Expat or Apache-2.0\n"
    same("whether it has the licence of the program", ours in text, True)
    words = " ".join(re.sub(r"(?m)^ \.?", "", text).split())
    mit = " ".join((TOP / "LICENSE-MIT").read_text().partition("developers")[2].split())
    same("whether it has the text of the MIT licence", mit in words, True)
    tools = Path(subprocess.check_output(["rt", "doc"], text=True).strip()).parent / "rattle"
    used = {name for needs in citing.edges().values() for name in needs} - set(citing.edges())
    for notice in sorted(path for name in used for path in (tools / name).glob("LICENSE*")):
        if notice.name != "LICENSE-APACHE":
            same(f"whether it has the words of {notice.parent.name}/{notice.name}",
                 " ".join(notice.read_text().split()) in words, True)


@case("the change log in a package")
def change_log(scene: Scene) -> None:
    """It has what CHANGELOG.md says of the program's version, line by line in the form of Debian."""
    text = gzip.decompress((unpacked(scene) / "usr/share/doc/adlcons/changelog.gz").read_bytes()).decode()
    version = scene.run("--version").output.decode().split()[1]
    same("its head", text.partition("\n")[0], f"adlcons ({version}) unstable; urgency=medium")
    section = CHANGELOG.read_text().partition(f"\n## [{version}] - ")[2].partition("\n## ")[0].replace("`", "")
    words = re.sub(r"(?m)^ *[*-] |^  \[ \w+ \]$", "", text)
    for line in re.findall(r"^ *- (.*)$", section, re.M):
        same(f"whether it has {line!r}", " ".join(line.split()) in " ".join(words.split()), True)


@case("a package tells the program's version")
def tells_its_version(scene: Scene) -> None:
    package = packed(scene, "made")
    field = subprocess.run(
        ["dpkg-deb", "-f", package, "Version"], check=True, capture_output=True, timeout=TIMEOUT).stdout.decode()
    same("its version", f"adlcons {field}", scene.run("--version").output.decode())
