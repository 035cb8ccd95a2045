"""What the documents say of the program: transcripts, examples, options, and the files that they name."""

import hashlib
import os
import re
import shlex
import shutil
import subprocess
import sys
from functools import lru_cache
from itertools import zip_longest
from pathlib import Path

import citing
import interface
import pages
import transcripts
import workstations
from harness import LIST, MEDIA, OUT, Cases, Mismatch, Scene, Skipped, same, same_bytes
from tables import CHANGELOG, FIRST_LIST, VERSION, wave

case = Cases()
run = case.run

TOP = Path(__file__).resolve().parent.parent
DOCS = TOP / "docs"
SHARE = TOP / "share"
PAGES = (TOP / "README.md", TOP / "CHANGELOG.md", *sorted(DOCS.glob("*.md")), *sorted((TOP / "examples").glob("*/README.txt")))
TIMEOUT = 60
# Pages of what was measured, some of it of other versions.
MEASURED = ("CHANGELOG.md", "FIGURES.md", "PERFORMANCE.md", "HISTORY.md")
# The version before interfaces were written out.
FIRST_VERSION = "1.0.0"
# How pages write a time of a list. It isn't the name of a file.
TIME_FORM = "hh.mm.ss.ff/rrrr"


def blocks_of(page: Path) -> list:
    """The lines of each block of a page, fenced or indented."""
    blocks = re.finditer(r"^```\w*\n(.*?)^```$|(?:^    .*\n)+", page.read_text(), re.M | re.S)
    return [block[1].splitlines() if block[1] is not None else [line[4:] for line in block[0].splitlines()]
            for block in blocks]


def with_examples(scene: Scene) -> Path:
    """A copy of the examples in the scene's folder, with their media."""
    examples = scene.folder / "examples"
    shutil.copytree(TOP / "examples", examples, ignore=shutil.ignore_patterns("media"))
    subprocess.run([sys.executable, examples / "make_media"], check=True, timeout=TIMEOUT)
    return examples


def runs_transcript(page: Path):
    """The commands of the page's transcripts, run one after the other, print the lines that the page shows."""
    def body(scene: Scene) -> None:
        if not shutil.which("bash"):
            raise Skipped("bash isn't installed (Debian package bash)")
        stage = transcripts.Stage(scene.program, scene.folder)
        for command, lines in transcripts.transcript_of(page):
            same(f"the lines that {command} prints (tests/transcripts.py writes them)", stage.printed_by(command), lines)
    return body


for transcribed in transcripts.pages():
    if transcripts.transcript_of(transcribed):
        case.add(f"the transcripts of {transcribed.relative_to(TOP)}", runs_transcript(transcribed))


@case("no transcript is left out")
def all_transcripts(_: Scene) -> None:
    """Each command that a page shows after a prompt is in a console block, so that it is run."""
    for page in transcripts.pages():
        shown = [line for block in blocks_of(page) for line in block if line.startswith(transcripts.PROMPT)]
        same(f"the commands that {page.relative_to(TOP)} shows", len(shown), len(transcripts.transcript_of(page)))


@case("the folders that transcripts make")
def made_folders(_: Scene) -> None:
    """No two transcripts make the same folder, so a reader can run those of all pages in one copy of examples/."""
    made = [folder for page in transcripts.pages() for command, _ in transcripts.transcript_of(page)
            if command.startswith("mkdir ") for folder in shlex.split(command)[1:]]
    same("the folders that are made more than once", sorted({folder for folder in made if made.count(folder) > 1}), [])


def headings_of(page: Path) -> set:
    """The anchors of a page's headings."""
    text = re.sub(r"^```.*?^```$", "", page.read_text(), flags=re.M | re.S)
    return {re.sub(r"[^\w -]", "", head.lower()).replace(" ", "-") for head in re.findall(r"^#+ (.+)$", text, re.M)}


@case("the links of pages")
def links(_: Scene) -> None:
    """Each Markdown link leads to a file of this repository, and to a heading of it where it names one."""
    for page in transcripts.pages():
        text = re.sub(r"^```.*?^```$|`[^`\n]*`", "", page.read_text(), flags=re.M | re.S)
        for target in re.findall(r"\]\(([^()\s]+)\)", text):
            if re.match(r"[a-z]+:", target):
                continue
            path, _, heading = target.partition("#")
            there = page.parent / path if path else page
            if not there.exists() or (heading and heading not in headings_of(there)):
                raise Mismatch(f"{page.relative_to(TOP)} links to {target}, which doesn't exist")


@case("the commands of MANY_MACHINES.md")
def many_machines(scene: Scene) -> None:
    """The commands of the page make the same file."""
    if not shutil.which("make"):
        raise Skipped("make isn't installed (Debian package make)")
    with_examples(scene)
    make, single = blocks_of(DOCS / "MANY_MACHINES.md")[:2]
    make = " ".join(make[1:]).replace("\\", "").replace("/tmp/work", "work")
    make = make.replace("crates/adlcons/out/adlcons", str(scene.program))
    for words in (shlex.split(make), [scene.program, *shlex.split(" ".join(single).replace("\\", ""))[1:]]):
        subprocess.run(words, cwd=scene.folder, check=True, capture_output=True, timeout=TIMEOUT)
    joined, alone = (scene.folder / name / "render.wav" for name in ("work", "OUT"))
    same_bytes("the joined file", joined.read_bytes(), alone.read_bytes())


def code_in(page: str, language: str) -> list:
    """The blocks of code of a page of docs/ in this language."""
    return re.findall(rf"^```{language}\n(.*?)^```$", (DOCS / page).read_text(), re.M | re.S)


@case("the example of LIBRARY.md")
def library_example(_: Scene) -> None:
    """The second example for the programmer is the program's own file, which is compiled and run."""
    code = code_in("LIBRARY.md", "rust")[1]
    same("the example", code, (TOP / "crates/adlcons/src/stored.rt").read_text().partition("\n")[2])


@case("the reports of REPORT.md")
def reports(scene: Scene) -> None:
    """The reports of REPORT.md are those of the first list, and of one with another sample."""
    scene.put(FIRST_LIST, {"A.wav": wave()})
    checked, compared, consolidated, rendered = ("".join(block) + "\n" for block in blocks_of(DOCS / "REPORT.md"))
    (scene.folder / "M2").mkdir()
    (scene.folder / "M2/A.wav").write_bytes(wave([1000, -1000, 32766, -32768]))
    same("of a comparison", scene.run("compare", LIST, MEDIA, LIST, "M2", "--report").output.decode(), compared)
    same("of a check", scene.run("check", LIST, MEDIA, "--report").output.decode(), checked)
    scene.run("consolidate", LIST, MEDIA, OUT, "--report", "--handle", "0")
    same("of a consolidation", scene.files()["consolidated.json"].decode(), consolidated)
    scene.empty_out()
    scene.run("render", LIST, MEDIA, OUT, "--report")
    same("of a rendering", scene.files()["render.json"].decode(), rendered)


@case("the batch of ARCHIVE.md")
def batch(scene: Scene) -> None:
    """The batch of ARCHIVE.md makes again only the outputs that aren't finished, and notes the lists that are refused."""
    if not shutil.which("bash"):
        raise Skipped("bash isn't installed (Debian package bash)")
    script = next(block for block in blocks_of(DOCS / "ARCHIVE.md") if block[0] == ": > refused")
    for name in ("lists", "media", "out", "path"):
        (scene.folder / name).mkdir()
    (scene.folder / "path/adlcons").symlink_to(scene.program)
    (scene.folder / "media/A.wav").write_bytes(wave())
    for name, text in (("one", FIRST_LIST), ("two", FIRST_LIST), ("cut", FIRST_LIST), ("full", FIRST_LIST),
                       ("whole", FIRST_LIST), ("bad", b"no list")):
        (scene.folder / f"lists/{name}.adl").write_bytes(text)
    environment = {**os.environ, "PATH": f"{scene.folder / 'path'}:{os.environ['PATH']}"}

    def made() -> dict:
        subprocess.run(["bash", "-c", "\n".join(script)], cwd=scene.folder, env=environment, check=False,
                       capture_output=True, timeout=TIMEOUT)
        same("the lists that are refused", (scene.folder / "refused").read_text(), "lists/bad.adl\n")
        same("the lists whose command failed otherwise", (scene.folder / "failed").read_text(), "")
        statuses = {path.stem: path.read_text() for path in (scene.folder / "out").glob("*.status")}
        same("the statuses", statuses, {"one": "0\n", "two": "0\n", "cut": "0\n", "full": "0\n", "whole": "0\n", "bad": "1\n"})
        for name in ("one", "two", "cut", "full", "whole"):
            subprocess.run(["sha256sum", "-c", "--status", "SHA256SUMS"], cwd=scene.folder / "out" / name, check=True)
        return {path: path.stat().st_mtime_ns for path in (scene.folder / "out").glob("*/M00001.wav")}

    before = made()
    # One was stopped before its list, and one in the midst of a medium.
    (scene.folder / "out/one/consolidated.adl").unlink()
    with open(scene.folder / "out/two/M00001.wav", "r+b") as file:
        file.truncate(100)
    (scene.folder / "out/two/consolidated.adl").unlink()
    # Sums that were cut short on a full disk, with the status of that and with another.
    for name in ("cut", "full"):
        sums = scene.folder / "out" / name / "SHA256SUMS"
        sums.write_text(sums.read_text().splitlines(True)[0])
    (scene.folder / "out/full.status").write_text("1\n")
    after = made()
    same("what is left alone", [path.parent.name for path in sorted(before) if before[path] == after[path]], ["whole"])


def helped(scene: Scene) -> dict:
    """The options of each command, as its help tells them."""
    text = scene.run("--help").output.decode()
    commands = re.findall(r"^  ([a-z]+)  ", text, re.M)
    return {
        command: [option for option in re.findall(r"--[a-z]+", scene.run(command, "--help").output.decode())
                  if option != "--help"]
        for command in commands
    }


def distinct(words: list) -> list:
    return list(dict.fromkeys(words))


def synopses(text: str) -> dict:
    """The options of each command in the lines of a page's blocks that begin with it and name a LIST."""
    return {command: re.findall(r"--[a-z]+", line)
            for command, line in re.findall(r"^(?:    |)adlcons ([a-z]+) (LIST.*)$", text, re.M)}


@case("the synopsis of README.md")
def synopsis(scene: Scene) -> None:
    """README.md has a line for each command over a list, with the options that its help names, in their order."""
    options = {command: distinct(named) for command, named in helped(scene).items() if command not in ("explain", "help")}
    same("the options of each command", synopses((TOP / "README.md").read_text()), options)


@case("the man page")
def man_page(scene: Scene) -> None:
    """The page knows each command and each option that help names, and no other."""
    options = helped(scene)
    page = (SHARE / "adlcons.1").read_text().replace("\\-", "-")
    same("the commands of the man page", re.findall(r"^\.B adlcons ([a-z]+)$", page, re.M), list(options))
    synopsis = page[page.index(".SH SYNOPSIS"):page.index(".SH DESCRIPTION")]
    for command, part in zip(options, synopsis.split(".B adlcons ")[1:]):
        told = [option for option in re.findall(r"\[ (--[a-z]+)", part) if option != "--help"]
        same(f"the options of {command}", told, distinct(options[command]))
    section = page[page.index(".SH OPTIONS"):page.index(".SH OUTPUT")]
    told = re.findall(r"^\.BI (--[a-z]+)", section, re.M)
    same("the options that are told", told, distinct(sum(options.values(), [])))


@case("the licence")
def licence(_: Scene) -> None:
    """README.md and the man page name the licences that are there."""
    for page in (TOP / "README.md", SHARE / "adlcons.1"):
        same(f"whether {page.name} names them", "MIT OR Apache-2.0" in page.read_text(), True)
    for name, words in (("LICENSE-MIT", "Copyright (c) 2026 The Fulixoma developers"), ("LICENSE-APACHE", "Version 2.0")):
        same(f"whether {name} is there", words in (TOP / name).read_text(), True)


@case("the version")
def version(scene: Scene) -> None:
    """The program's version is the last one of CHANGELOG.md, and the man page has it with its date."""
    same("the version", scene.run("--version").output.decode(), f"adlcons {VERSION}\n")
    dated = re.search(r"^## \[(\S+)\] - (\S+)$", CHANGELOG.read_text(), re.M)
    same("the first line of the man page", (SHARE / "adlcons.1").read_text().partition("\n")[0],
         f'.TH ADLCONS 1 {dated[2]} "adlcons {dated[1]}"')


@case("the interface of the version")
def interface_of_version(scene: Scene) -> None:
    """What tests/interface.py writes of the program is the file of its version. The file of each version that has a date
    is the one of which CHANGELOG.md has the SHA-256. So a changed interface needs a new version in CHANGELOG.md and in
    the program; tests/interface.py writes its file."""
    pinned = {}
    for head in re.split(r"(?m)^## ", CHANGELOG.read_text())[1:]:
        name, date = re.match(r"\[(\S+)\] - (\S+)\n", head).groups()
        digest = re.search(r"^Interface: `docs/interface/(\S+)\.txt`, SHA-256 `([0-9a-f]{64})`$", head, re.M)
        if re.fullmatch(r"\d{4}-\d\d-\d\d", date) and name != FIRST_VERSION:
            same(f"whether CHANGELOG.md has the SHA-256 of the interface of {name}", digest and digest[1], name)
            pinned[name] = digest[2]
    files = {path.stem: hashlib.sha256(path.read_bytes()).hexdigest() for path in interface.FOLDER.glob("*.txt")}
    same("the interfaces of versions that have a date", {name: files.get(name) for name in pinned}, pinned)
    same("the versions that have an interface", sorted({*files, VERSION}), sorted({*pinned, VERSION}))
    current = (interface.FOLDER / f"{VERSION}.txt").read_text().splitlines()
    for told, wanted in zip_longest(interface.interface_of(scene).splitlines(), current):
        same(f"a line of the interface of {VERSION} (see tests/interface.py)", told, wanted)


@case("man shows the page")
def man_shows_page(_: Scene) -> None:
    if not shutil.which("man"):
        raise Skipped("man isn't installed (Debian package man-db)")
    done = subprocess.run(["man", "--warnings", "-l", SHARE / "adlcons.1"], capture_output=True, timeout=TIMEOUT)
    same("what man warns of", (done.returncode, done.stderr), (0, b""))


def completed(scene: Scene, *words: str) -> list:
    """What bash offers for the last word."""
    path = scene.folder / "path"
    path.mkdir(exist_ok=True)
    if not (path / "adlcons").exists():
        (path / "adlcons").symlink_to(scene.program)
    script = 'PATH="$1:$PATH"; . "$2"; shift 2; COMP_WORDS=("$@"); COMP_CWORD=$(($# - 1)); _adlcons; ' \
             'printf "%s\\n" "${COMPREPLY[@]}"'
    done = subprocess.run(
        ["bash", "-c", script, "bash", path, SHARE / "adlcons.bash", "adlcons", *words], cwd=scene.folder,
        check=True, capture_output=True, timeout=TIMEOUT)
    return done.stdout.decode().split()


@case("the completion")
def completion(scene: Scene) -> None:
    """Commands, options, files, folders and numbers are offered where they may stand."""
    if not shutil.which("bash"):
        raise Skipped("bash isn't installed (Debian package bash)")
    options = helped(scene)
    (scene.folder / "L.adl").touch()
    same("the commands", completed(scene, ""), [*options, "--help", "--version"])
    same("a part of a command", completed(scene, "con"), ["consolidate"])
    for command, told in options.items():
        same(f"the options of {command}", completed(scene, command, "-"), [*distinct(told), "--help"])
    same("the list", completed(scene, "check", "L"), ["L.adl"])
    same("the media", sorted(completed(scene, "render", "L.adl", "")), ["M", "OUT", "path"])
    same("the output", completed(scene, "consolidate", "L.adl", "M", "O"), ["OUT"])
    same("the depths", completed(scene, "render", "L.adl", "M", "OUT", "--depth", ""), ["16", "24", "32"])
    same("the orders", completed(scene, "render", "L.adl", "M", "OUT", "--order", ""), ["time", "source"])
    same("a handle", completed(scene, "consolidate", "L.adl", "M", "OUT", "--handle", ""), [])
    same("the numbers", completed(scene, "explain", "2")[:3], ["20", "21", "22"])
    same("those that are answered", completed(scene, "explain", "4"), ["41", "42", "43", "44", "46", "47"])
    same("notices", completed(scene, "explain", "no"), ["notice"])
    same("their numbers", completed(scene, "explain", "notice", ""), list("1234567"))
    same("what help explains", completed(scene, "help", "c"), ["check", "consolidate", "compare"])
    same("the second list", completed(scene, "compare", "L.adl", "M", "L"), ["L.adl"])
    same("the second media", completed(scene, "compare", "L.adl", "M", "L.adl", "O"), ["OUT"])


@case("the files that pages name")
def named_files(_: Scene) -> None:
    """Each file of this repository that a page names is there."""
    for page in PAGES:
        for name in re.findall(r"(?:docs|examples|tests|bench|crates|\.\.)/[\w./-]*\w", page.read_text()):
            if not any((folder / name).exists() for folder in (TOP, page.parent)) and "/media" not in name \
                    and "/out" not in name and "NAME" not in name:
                raise Mismatch(f"{page.relative_to(TOP)} names {name}, which isn't there")


@lru_cache(None)
def code_of(folder: str, kind: str) -> str:
    """The code of a folder of all crates or of one, without its remarks."""
    pages = sorted((TOP / "crates").glob(f"{folder}/**/*.{kind}"))
    return "\n".join(re.sub(r"(?m)^\s*(//|--).*", "", page.read_text()) for page in pages)


@lru_cache(None)
def words_of_code() -> set:
    """Each word of contracts, code and definitions, and the names of the crates."""
    code = "\n".join((code_of("*/src", "rt"), code_of("*/specs", "antt")))
    return {*re.findall(r"\w+", code), *citing.edges(), *sum(citing.edges().values(), [])}


@lru_cache(None)
def blocks_of_code(head: str) -> list:
    """All blocks of code that begin with one of these words."""
    return re.findall(rf"^(?:pub(?:\(\w+\))? )?(?:{head})\b.*?^\}}", code_of("*/src", "rt"), re.M | re.S)


def blocks_named(head: str, name: str) -> str:
    """Those that have this name before their brace."""
    return "".join(block for block in blocks_of_code(head) if re.search(rf"\b{name}\b", block.partition("{")[0]))


def has_part(owner: str, part: str) -> bool:
    """Whether a crate has such a free function, such a type, or such a function of a type (`Type::function`); or a type
    such a function or variant."""
    if owner in citing.edges():
        return bool(head_in(owner, part) or re.search(
            rf"(?m)^(?:pub(?:\(\w+\))? )?(?:struct|enum|trait) {part}\b|^pub use [^;]*\b{part}\b",
            code_of(f"{owner}/src", "rt")))
    return bool(re.search(rf"\bfn {part}\b", blocks_named("impl|trait", owner))
                or re.search(rf"^    {part}\b", blocks_named("enum", owner), re.M))


def head_in(crate: str, name: str) -> str:
    """The head of a crate's free function, or of a type's function by `Type::function`; nothing where it has none."""
    code = code_of(f"{crate}/src", "rt")
    owner, _, function = name.rpartition("::")
    if owner:
        blocks = re.findall(r"^(?:pub(?:\(\w+\))? )?(?:impl|trait)\b.*?^\}", code, re.M | re.S)
        code = "".join(block for block in blocks if re.search(rf"\b{owner}\b", block.partition("{")[0]))
    head = re.search(rf"^{'    ' * bool(owner)}(?:pub(?:\(\w+\))? )?fn {function}\b.*?(?:\{{|;)$", code, re.M | re.S)
    return head[0] if head else ""


@lru_cache(None)
def is_there(name: str) -> bool:
    """Whether what a page names is in the tree: a file, an edit, a part of a crate or of a type, words of the code."""
    crate, _, rest = name.partition("/")
    if name == TIME_FORM:
        return True
    if rest:
        paths = [TOP / name, TOP / "crates" / name, TOP / "crates" / crate / "must-fail" / rest,
                 TOP / "tests/wrong" / crate / rest, TOP / "crates" / crate / "specs" / f"{rest}.antt"]
        return any(path.exists() for path in paths) or any((TOP / "crates").glob(f"*/{name}"))
    owner, _, part = name.partition("::")
    if part:
        return has_part(owner, part)
    if re.fullmatch(r"[\w-]+\.\w+", name):
        return any(TOP.glob(f"**/{name}")) or name in code_of("*/src", "rt") + code_of("*/specs", "antt")
    if (TOP / name).exists():
        return True
    return set(re.findall(r"\w+", name)) <= words_of_code()


@case("the names of MAP.md and PROVED.md")
def names_in_code(_: Scene) -> None:
    """Each name that MAP.md and PROVED.md quote is in the tree."""
    for page in (DOCS / "MAP.md", DOCS / "PROVED.md"):
        text = re.sub(r"(?m)^    .*", "", page.read_text())
        for name in re.findall(r"`([^`]+)`", text):
            if not is_there(name):
                raise Mismatch(f"{page.name} names {name}, which isn't there")


@case("the names of CRATES.md")
def names_in_crates(_: Scene) -> None:
    """CRATES.md has a part for each crate. Each name that it quotes is in the tree, and each clause in parentheses is in
    that crate."""
    parts = re.split(r"(?m)^## (\w+)\n", (DOCS / "CRATES.md").read_text())[1:]
    same("the crates of CRATES.md", parts[::2], list(citing.edges()))
    for crate, part in zip(parts[::2], parts[1::2]):
        text = " ".join(part.split())
        for name in re.findall(r"`((?:\w+::)?\w+|[\w.-]+/[\w./-]+)`", text):
            if not is_there(name):
                raise Mismatch(f"CRATES.md names {name} of {crate}, which isn't there")
        has = set(re.findall(r"\w+", code_of(f"{crate}/src", "rt") + code_of(f"{crate}/specs", "antt")))
        for clauses in re.findall(r"\((`[a-z_]+`(?:, `[a-z_]+`)*)\)", text):
            lacks = [name for name in re.findall(r"`(\w+)`", clauses) if name not in has]
            same(f"the clauses that CRATES.md names of {crate} and it lacks", lacks, [])


def clauses_of(name: str) -> list:
    """The clauses of a function `crate::name`, or the parts of a record of the definitions."""
    crate, _, function = name.partition("::")
    if not function:
        end = r"(?=^\S|^ *(?:pub|abbrev) (?:record|data|pub)\b|\Z)"
        record = re.search(rf"^ *pub record {name}\b.*?\bwhere\n(.*?){end}", code_of("*/specs", "antt"), re.M | re.S)
        return re.findall(r"^ *pub (\w+) :", record[1], re.M) if record else []
    return re.findall(r"\bensures (\w+) \{", head_in(crate, function))


@case("the promises of PROVED.md")
def promises(_: Scene) -> None:
    """Each clause of a promise is one of each record and call of its row."""
    rows = [row[2:-2].split(" | ") for row in re.findall(r"^\| .* \|$", (DOCS / "PROVED.md").read_text(), re.M)]
    rows = [row for row in rows if row[0] != "Promise" and len(row) == 3]
    for _, owners, clauses in rows:
        for owner in re.findall(r"`([^`]+)`", owners) or [owners]:
            named = re.findall(r"`(\w+)`", clauses) or [clauses]
            lacks = [clause for clause in named if clause not in clauses_of(owner)]
            same(f"the clauses that PROVED.md names and {owner} lacks", lacks, [])
    if len(rows) < 20:
        raise Mismatch(f"PROVED.md has {len(rows)} promises in its tables")


@case("the crates of MAP.md")
def table_of_crates(_: Scene) -> None:
    """MAP.md lists each crate, with types and calls that it has, and no other, and draws no other."""
    text = (DOCS / "MAP.md").read_text()
    table = text.partition("\n## The crates\n")[2].partition("\n## ")[0]
    rows = [row[2:-2].split(" | ") for row in re.findall(r"^\| [a-z].* \|$", table, re.M)]
    listed = [name for row in rows for name in row[0].split(", ")]
    same("the crates of MAP.md", sorted(listed), sorted(citing.program_crates()))
    for crates, *_, names in rows:
        has = "".join(code_of(f"{crate}/src", "rt") for crate in crates.split(", "))
        for name in re.findall(r"\w+", " ".join(re.findall(r"`([^`]+)`", names))):
            if not re.search(rf"\b{name}\b", has):
                raise Mismatch(f"MAP.md names {name} of {crates}, which isn't there")
    drawn = set(re.findall(r"(?<!`)\[(\w+)\]", text))
    same("what MAP.md draws that is no crate", sorted(drawn - set(citing.edges())), [])


@case("the sample lists of COMPATIBILITY.md")
def sample_lists(_: Scene) -> None:
    """COMPATIBILITY.md has each list of tests/workstations.py, with the numbers of its refusals in their order."""
    rows = re.findall(r"^\| (\w+) \| (\d+): [^|]*\| (\d+): [^|]*\| (\d+): ", (DOCS / "COMPATIBILITY.md").read_text(), re.M)
    wanted = [(name, *(int(each.line.split()[1]) for each in rounds if each.line.startswith("refused")))
              for name, (_, rounds) in workstations.EXPORTS.items()]
    same("the lists and their refusals", [(name, *map(int, numbers)) for name, *numbers in rows], wanted)


# Constants of the code, and how docs/LIMITS.md has them.
LIMITS = {
    ("MOST_LINES", 65_535): "65,535 together", ("MOST_READS", 1_048_576): "1,048,576 reads", ("READ_SIZE", 65_536): "64 KiB",
    ("HISTORY_LIMIT", 65_536): "65,536 bytes are carried", ("LONGEST_HEADER", 66_226): "66,226 bytes",
    ("MOST_RUNS", 32_767): "32,767 each", ("MOST_ENTRIES", 32_767): "32,767 each", ("MOST_CHANNELS", 64): "1 to 64",
    ("LONGEST_RIFF", 4_294_967_302): "4,294,967,302 bytes", ("BLOCK_LENGTH", 4096): "4,096 samples", ("FEW", 64): "at most 64",
    ("JOB", 786_432): "768 KiB", ("JOBS", 65_536): "about 65,536", ("TIMES", 32): "1/32 of all", ("SHORTEST", 2_097_152): "2 MiB",
    ("LONGEST", 16_777_216): "16 MiB", ("PIECE", 65_536): "65,536 samples", ("OPEN_FILES", 28): "28 sources and 28 outputs",
    ("AT_ONCE", 262_144): "256 KiB", ("FEW_FAULTS", 20): "refused check | 20", ("MOST", 20): "at a difference | 20",
    ("MOST", 1000): "in a report | 1,000", ("MOST_NAMED", 1000): "of a report | 1,000", ("SHOWN_BYTES", 160): "160 bytes",
    ("STOOD_BYTES", 60): "a word 60", ("MOST_SEARCHES", 100): "looked for | 100", ("MOST_NAMES", 1_048_576): "| 1,048,576 |",
    ("MOST_SAMPLES", 3600 * 48_000): "an hour",
}


@case("the limits of LIMITS.md")
def limits(_: Scene) -> None:
    """The numbers of LIMITS.md are those of the code."""
    page = (DOCS / "LIMITS.md").read_text()
    code = {(name, int(value.replace("_", ""))) for name, value in re.findall(
        r"^ *(?:pub(?:\(\w+\))? )?const (\w+): \w+ = ([\d_]+);", code_of("*/src", "rt"), re.M)}
    same("the limits that the code lacks", sorted(LIMITS.keys() - code), [])
    same("the limits that the page lacks", [words for words in LIMITS.values() if words not in page], [])


@case("the sum of PROOF.md")
def worked_sum(_: Scene) -> None:
    """The crossfade that PROOF.md works out is that of its rules: a sound of 5 at 16 bits, over three samples."""
    rows = re.findall(r"^\| (\d) \|[^=]*= ([\d,]+) \|[^=]*= ([\d,]+) \| ([\d,]+) \| (\d+) \|$",
                      (DOCS / "PROOF.md").read_text(), re.M)
    value = 5 * 2 ** 32
    for sample, *told in rows:
        ends, begins = value * (3 - int(sample)) // 3, value * int(sample) // 3
        wanted = [ends, begins, ends + begins, (ends + begins + 2 ** 31) // 2 ** 32]
        same(f"sample {sample}", [int(number.replace(",", "")) for number in told], wanted)
    same("how many samples are worked out", len(rows), 3)


WORDS = ("no", "one", "two", "three", "four", "five", "six", "seven", "eight", "nine", "ten", "eleven", "twelve")


def number_of(word: str) -> int:
    return WORDS.index(word.lower()) if word.lower() in WORDS else int(word.replace(",", ""))


@case("the numbers of the tree")
def numbers_of_tree(_: Scene) -> None:
    """Where a page says how many crates or wrong bodies there are, it is so; pages of measurements say what was so then.
    Where one lists the Debian packages that the tests need, or the crates that are trusted, it lists those."""
    crates, tests = len(citing.edges()), len(citing.edges()) - len(citing.program_crates())
    in_gate, beside = (len(list(TOP.glob(where))) for where in ("crates/*/must-fail/*", "tests/wrong/*/*"))
    count = rf"\b([\d,]+|{'|'.join(WORDS)})"
    rows = (
        (rf"{count} crates of tests\b", {tests}), (r"\b(\d\d+) crates\b", {crates, crates - tests}),
        (r"\b(\d\d+) (?:such bodies|wrong bodies|mutants)\b", {in_gate, beside, in_gate + beside}),
        (r"\b(\d\d+) (?:such bodies |wrong bodies |mutants |)(?:are tried |)by `sh test`", {in_gate}),
        (r"\b(\d\d+) (?:such bodies |wrong bodies |mutants |)(?:are tried |)by\s`sh test wrong`", {beside}),
    )
    needed = sorted(re.findall(r"\b\w[\w-]*:([\w-]+)", (TOP / "test").read_text().partition("missing_packages() {")[2].partition("done")[0]))
    ported = sorted({name for needs in citing.edges().values() for name in needs} - set(citing.edges()))
    for page in (page for page in PAGES if page.name not in MEASURED):
        text = " ".join(page.read_text().split())
        for pattern, wanted in rows:
            for word in re.findall(pattern, text):
                same(f"whether {page.name} is right in saying {word} for {pattern}", number_of(word) in wanted, True)
        for listed in re.findall(r"Debian packages \(([^)]*)\)", text):
            same(f"the packages that {page.name} lists", sorted(listed.split(", ")), needed)
        for listed in re.findall(r"contracts of the ported crates ([^.]*)\.", text):
            same(f"the crates that {page.name} lists as trusted", sorted(re.findall(r"`(\w+)`", listed)), ported)


@case("the order of crates.txt")
def order_of_crates(_: Scene) -> None:
    """Each crate comes after those that it uses."""
    names = list(citing.edges())
    for at, (name, needs) in enumerate(citing.edges().items()):
        same(f"the crates after {name} that it uses", [need for need in needs if need in names[at:]], [])


@case("the wrong bodies beside the gate")
def wrong_bodies(_: Scene) -> None:
    """Each wrong body beside the gate changes a text that stands once in its crate."""
    for edit in sorted((TOP / "tests/wrong").glob("*/*.edit")):
        text = ""
        for line in edit.read_text().splitlines():
            word, _, rest = line.partition(": ")
            if word == "file":
                text = (TOP / "crates" / edit.parent.name / rest).read_text()
            elif word == "old":
                same(f"how often the text of {edit.parent.name}/{edit.name} stands", text.count(rest), 1)
                old = rest
            elif word == "new":
                text = text.replace(old, rest)


@case("the pages that are made from the tree")
def made_pages(_: Scene) -> None:
    """Each page that tests/pages.py makes is as it makes it now."""
    for name, made in pages.PAGES.items():
        if (DOCS / name).read_text() != made():
            raise Mismatch(f"docs/{name} is out of date: run tests/pages.py")


@case("the definitions that TRUST.md quotes")
def quoted_definitions(_: Scene) -> None:
    """Each line of a definition that TRUST.md quotes is in the file that it links to before."""
    for text, quoted in re.findall(r"(.*?)^```antt\n(.*?)^```$", (DOCS / "TRUST.md").read_text(), re.M | re.S):
        source = (DOCS / re.findall(r"\]\(([^)]*\.antt)\)", text)[-1]).resolve()
        lines = [line.strip() for line in source.read_text().splitlines()]
        lacks = [line for line in quoted.splitlines() if line.strip() and line.strip() not in lines]
        same(f"the lines that aren't in {source.name}", lacks, [])


def lines_of_crates(folder: str, kind: str) -> int:
    """The lines of these files of the crates that aren't of tests."""
    files = (path for crate in citing.program_crates() for path in (TOP / "crates" / crate / folder).rglob(f"*.{kind}"))
    return sum(path.read_text().count("\n") for path in files)


@case("the sizes in TRUST.md")
def sizes(_: Scene) -> None:
    """The numbers of lines that TRUST.md has are those of the tree, within 5 %."""
    text = " ".join((DOCS / "TRUST.md").read_text().split())
    number = r"([\d,]+)"
    told = re.search(rf"The sum is {number} lines\..* is about {number} lines in {number} files;.* is about {number} lines\."
                     rf".* about {number} lines of code .*, {number} of definitions and {number} of proofs", text)
    found = {title: one for title, _, one in pages.readings()}
    same_sound, whole = found["The new project sounds the same"], found["The program over folders: the contract of `answer_words`"]
    wanted = (found["The exact sum of entries, rounding and clipping"].lines, same_sound.lines, len(same_sound.files),
              whole.lines, lines_of_crates("src", "rt"), lines_of_crates("specs", "antt"), lines_of_crates("proofs", "antt"))
    for says, is_so in zip((int(word.replace(",", "")) for word in told.groups()), wanted):
        if abs(says - is_so) > is_so * 0.05:
            raise Mismatch(f"TRUST.md says {says} where it is {is_so}")


# What pages don't say any more, as CONTRIBUTING.md has it under Writing.
PHRASES = re.compile(
    r"\b(?:wrong bod(?:y|ies)|the kit|the house|the gate|want of memory|in (?:its|their) stead|half as long again"
    r"|parts of a hundred|anew|la(?:id|ys) out|go(?:es|ne)? on with|looked at|hand(?:ed|s) (?:out|on)|clause speaks"
    r"|no clause's|likewise|behind|beside|so many|gives back|times? of processors)\b")


def prose_of(text: str) -> str:
    """A page without its code, its quotations, and the table of words in CONTRIBUTING.md."""
    text = re.sub(r"(?ms)^```.*?^```$|^\| Not \| But \|$.*?(?=^$)", "", text)
    return re.sub(r"(?m)^    .*$|`[^`\n]*`|\"[^\"\n]*\"", "", text)


@case("the English of the pages")
def english(_: Scene) -> None:
    """No page that a person wrote has one of these phrases."""
    for page in (*PAGES, SHARE / "adlcons.1", TOP / "bench/HISTORY.md"):
        if page.name not in pages.PAGES:
            found = PHRASES.findall(prose_of(page.read_text()))
            same(f"what {page.relative_to(TOP)} says", found, [])


@case("the version to cite")
def cited_version(_: Scene) -> None:
    """CITATION.cff has the version of the program."""
    version = re.search(r'const VERSION: &str = "([^"]*)"', (TOP / "crates/commandline/src/words.rt").read_text())[1]
    same("the version of CITATION.cff", re.search(r"(?m)^version: (.*)$", (TOP / "CITATION.cff").read_text())[1], version)


# System calls that pages name.
OF_THE_SYSTEM = {"sync_file_range", "copy_file_range"}


@case("the names of TRUST.md, DECISIONS.md and LIBRARY.md")
def names_of_code(_: Scene) -> None:
    """Each name that they quote and that can only be one of the code is in the tree."""
    for page in (DOCS / name for name in ("TRUST.md", "DECISIONS.md", "LIBRARY.md")):
        for name in re.findall(r"`((?:\w+::)*\w+)`", re.sub(r"(?ms)^```.*?^```$", "", page.read_text())):
            if re.search(r"::|_|^[A-Z]\w*[a-z]", name) and name not in OF_THE_SYSTEM and not is_there(name):
                raise Mismatch(f"{page.name} names {name}, which isn't there")
