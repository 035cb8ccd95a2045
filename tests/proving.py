"""What tests/prove has rattle prove, in which turn, what it keeps and what it refuses, with stand-ins for the kit."""

import os
import shutil
import signal
import subprocess
import time
from pathlib import Path

from harness import Cases, Scene, same

case = Cases()
run = case.run

TOP = Path(__file__).resolve().parent.parent
TIMEOUT = 60
CRATES = {
    "word": "", "text": "word thiserror", "list": "text", "adlcons": "list clap", "other": "word", "trials": "list",
}
NEEDED = ["adlcons", "list", "text", "word"]
PROGRAM = "crates/adlcons/out/adlcons"
RT = """#!/bin/sh
echo "$KIT/START-HERE.md"
"""
# Notes its words, makes what it is asked for and says so, unless the crate fails or stays, or a library isn't there yet.
RATTLE = """#!/bin/sh
echo "$*" >> "$NOTES/$3"
for word; do
    case $word in *=*/out/rlib/*.rlib) [ -f "${word#*=}" ] || { echo "no ${word%%=*}"; exit 1; } ;; esac
done
if [ "$3" = "$FAILS" ]; then echo "it isn't so"; exit 1; fi
if [ "$3" = "$STAYS" ]; then sleep 30 & echo $! > "$NOTES/stays"; wait; fi
echo "made of $3" > "$word"
echo "logic=proved functions=1${LEAVES_OUT}sum=0 native=nat,char,string logic-built=trusted libraries-built=trusted statements=trusted"
"""
LINK = """#!/bin/sh
cp crates/adlcons/out/rlib/adlcons.o crates/adlcons/out/adlcons
"""


def put(file: Path, text: str) -> None:
    file.parent.mkdir(parents=True, exist_ok=True)
    file.write_text(text)
    file.chmod(0o755)


def make_tree(scene: Scene) -> None:
    """A small tree, and a kit that proves nothing."""
    tree, kit = scene.folder / "tree", scene.folder / "kit"
    for name in CRATES:
        put(tree / "crates" / name / "src/lib.rt", name)
        put(tree / "crates" / name / "must-fail/wrong.edit", name)
    put(tree / "crates.txt", "# The crates.\n" + "".join(f"{name}: {uses}\n" for name, uses in CRATES.items()))
    (tree / "tests").mkdir()
    shutil.copy2(TOP / "tests" / "prove", tree / "tests" / "prove")
    put(kit / "KIT-ID", "a kit")
    for name, text in (("rt", RT), ("rattle", RATTLE), ("rattle-link", LINK)):
        put(kit / "bin" / name, text)


def begun(scene: Scene, **settings: str) -> subprocess.Popen:
    """tests/prove at work over that tree."""
    kit, notes = scene.folder / "kit", scene.folder / "notes"
    shutil.rmtree(notes, ignore_errors=True)
    notes.mkdir()
    environment = {
        **os.environ, "PATH": f"{kit / 'bin'}:{os.environ['PATH']}", "KIT": str(kit), "NOTES": str(notes), "FAILS": "",
        "STAYS": "", "LEAVES_OUT": " ", **settings}
    return subprocess.Popen(
        ["tests/prove"], cwd=scene.folder / "tree", env=environment, stdin=subprocess.DEVNULL, stdout=subprocess.PIPE,
        stderr=subprocess.STDOUT, text=True)


def ended(scene: Scene, **settings: str) -> tuple:
    """What it tells, line by line, and its status."""
    work = begun(scene, **settings)
    told, _ = work.communicate(timeout=TIMEOUT)
    return told.splitlines(), work.returncode


def one_that_stays(scene: Scene) -> str:
    """Waits until a check stays, and gives the number of its job."""
    note, end = scene.folder / "notes/stays", time.monotonic() + TIMEOUT
    while not note.exists() or not note.read_text().endswith("\n"):
        same("a check stays", time.monotonic() < end, True)
        time.sleep(0.05)
    return note.read_text().strip()


def is_at_work(job: str) -> bool:
    """Whether a process is there, and has not ended."""
    try:
        return Path("/proc", job, "stat").read_text().rpartition(")")[2].split()[0] != "Z"
    except OSError:
        return False


def proved(scene: Scene) -> list:
    """The crates of which rattle was asked, each as often as it was."""
    return sorted(note.name for note in (scene.folder / "notes").iterdir() for _ in note.read_text().splitlines())


@case("the program and what it stands on")
def of_the_program(scene: Scene) -> None:
    """Each crate below the program is proved once, behind its libraries, and the program is linked of what was built."""
    make_tree(scene)
    told, status = ended(scene)
    lines = ["crates: 4", "word: proved", "text: proved", "list: proved", "adlcons: proved"]
    same("what it tells", (told, status), (lines, 0))
    same("the crates", proved(scene), NEEDED)
    same("the program", (scene.folder / "tree" / PROGRAM).read_text(), "made of adlcons\n")
    words = (scene.folder / "notes/text").read_text().split()
    stated = scene.folder / "tree/crates/word/out/rlib"
    for pair in (("--extern", f"word={stated}/word.rlib"), ("--extern", f"thiserror={scene.folder}/kit/rlibs/thiserror.rlib"),
                 ("-L", f"dependency={stated}"), ("--crate-name", "text")):
        same("a word", pair in zip(words, words[1:]), True)
    same("only what it states", "--statements" in words, True)


@case("what was proved before")
def kept(scene: Scene) -> None:
    """It isn't proved again; what has changed is, with all that stands on it."""
    make_tree(scene)
    ended(scene)
    put(scene.folder / "tree" / f"{PROGRAM}.o", "of rt run")
    same("nothing again", (ended(scene)[1], proved(scene)), (0, []))
    same("the program", (scene.folder / "tree" / PROGRAM).read_text(), "made of adlcons\n")
    put(scene.folder / "tree/crates/text/src/lib.rt", "another")
    told, status = ended(scene)
    same("behind a change", (proved(scene), status), (["adlcons", "list", "text"], 0))
    same("what is kept", told[:2], ["crates: 4", "word: was proved"])
    put(scene.folder / "kit/KIT-ID", "another")
    ended(scene)
    same("by another kit", proved(scene), NEEDED)


@case("what isn't proved")
def failing(scene: Scene) -> None:
    """What rattle said is told, nothing that stands on it is tried, and there is no program; what was proved is kept."""
    make_tree(scene)
    told, status = ended(scene, FAILS="text")
    lines = ["crates: 4", "word: proved", "text: isn't proved (1)", "it isn't so"]
    same("what it tells", (told[:4], status), (lines, 1))
    same("the crates", proved(scene), ["text", "word"])
    same("a program", (scene.folder / "tree" / PROGRAM).exists(), False)
    ended(scene)
    same("then", proved(scene), ["adlcons", "list", "text"])


@case("a verdict that leaves something out")
def leaving_out(scene: Scene) -> None:
    """A word that isn't known in the last line is no proof, whatever the status says."""
    make_tree(scene)
    told, status = ended(scene, LEAVES_OUT=" hides=text ")
    same("what it tells", (told[:2], status), (["crates: 4", "word: isn't proved (0)"], 1))
    same("the crates", proved(scene), ["word"])


@case("stopped")
def stopped(scene: Scene) -> None:
    """A stop, as Ctrl-C and sh try beside it give it, ends what is at work, and what was proved is kept."""
    make_tree(scene)
    work = begun(scene, STAYS="text")
    job = one_that_stays(scene)
    work.send_signal(signal.SIGINT)
    work.send_signal(signal.SIGTERM)
    work.wait(timeout=TIMEOUT)
    same("the status", work.returncode, 1)
    same("a program", (scene.folder / "tree" / PROGRAM).exists(), False)
    end = time.monotonic() + TIMEOUT
    while is_at_work(job):
        same("its job ends", time.monotonic() < end, True)
        time.sleep(0.05)
    ended(scene)
    same("then", proved(scene), ["adlcons", "list", "text"])


@case("two at once")
def two_at_once(scene: Scene) -> None:
    """The second one waits for the first, and takes what that proved."""
    make_tree(scene)
    first = begun(scene, STAYS="text")
    one_that_stays(scene)
    second = begun(scene)
    same("the second one", second.stdout.readline(), "another one is at work here, and this one waits\n")
    first.terminate()
    first.wait(timeout=TIMEOUT)
    told, _ = second.communicate(timeout=TIMEOUT)
    same("then", told.splitlines()[:3], ["crates: 4", "word: was proved", "text: proved"])
