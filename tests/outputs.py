"""What a command writes to is what it made or looked at, and nothing else: files that are given too, files that are
exchanged while it runs, and other commands in the same folder. PAIRS in the environment says how many pairs of commands
run at once into one folder, 90 without it."""

import fcntl
import os
import random
import shutil
import subprocess
from contextlib import contextmanager
from pathlib import Path

import model
from harness import (
    LIST, MEDIA, OUT, TIMEOUT, Mismatch, Outcome, Scene, Skipped, Suite, same, same_bytes, same_files, same_outcome,
    words_of,
)
from tables import FIRST_LIST, wave

SEED = 41
PAIRS = int(os.environ.get("PAIRS", "90"))
BUSY = f"refused 20 at file {OUT}"
SOUND, MARKS = "render.wav", "render.marks"
SHORT = model.Options(depth=16, handle=0)
# How long a call waits for the file that it is on to be exchanged, in microseconds, and when that is done.
DELAY, HALFWAY = 600_000, 0.25
VICTIM = "victim"


def prepared(scene: Scene) -> dict:
    """A list and its source; what a rendering of it has."""
    media = {"A.wav": wave()}
    scene.put(FIRST_LIST, media)
    return model.answer("render", FIRST_LIST, media, SHORT).files


def resumed(scene: Scene, *words: str) -> Outcome:
    return scene.run(*(words or ("resume", LIST, MEDIA, OUT)), *SHORT.words("render"))


def state_of(scene: Scene) -> tuple:
    """Everything that a command could change: the bytes and links of the list, the media, the output and beside them."""
    paths = sorted(path for path in scene.folder.rglob("*") if path.name != "trace")
    return tuple(
        (str(path), os.readlink(path) if path.is_symlink() else path.read_bytes() if path.is_file() else None)
        for path in paths)


def expect_kept_out(scene: Scene, got: Outcome, *told: str) -> None:
    """The output is refused, and standard error tells these before the line that explains it."""
    same("status and line", (got.status, got.output), (1, f"{BUSY}\n".encode()))
    first, *rest = got.error.decode().splitlines()
    same("how many lines standard error has", len(rest), 1)
    for word in told:
        if word not in first:
            raise Mismatch(f"standard error doesn't name {word}: {first!r}")
    if not rest[0].endswith("(adlcons explain 20)"):
        raise Mismatch(f"the refusal isn't explained: {rest[0]!r}")


def given_too(name: str, put, *told: str, words: tuple = ()):
    """A file of the output is one of those that are given: it is refused before the first write, and all stays."""
    def body(scene: Scene) -> None:
        prepared(scene)
        put(scene.folder, scene.folder / OUT / name)
        before = state_of(scene)
        for depth in ("16", "24"):
            got = scene.run(*(words or ("resume", LIST, MEDIA, OUT)), "--depth", depth)
            expect_kept_out(scene, got, f"{OUT}/{name}", *told)
            same("list, media and output", state_of(scene), before)
    return body


def link_source(folder: Path, output: Path) -> None:
    output.hardlink_to(folder / MEDIA / "A.wav")


def move_source(folder: Path, output: Path) -> None:
    (folder / MEDIA / "A.wav").rename(output)
    (folder / MEDIA / "A.wav").symlink_to(Path("..") / OUT / output.name)


def link_list(folder: Path, output: Path) -> None:
    output.hardlink_to(folder / LIST)


def move_list(folder: Path, output: Path) -> None:
    (folder / LIST).rename(output)
    (folder / LIST).symlink_to(Path(OUT) / output.name)


def link_other(folder: Path, output: Path) -> None:
    (folder / "other").write_bytes(b"another file")
    output.hardlink_to(folder / "other")


def list_in_output(folder: Path, output: Path) -> None:
    shutil.copy(folder / LIST, output)


def stopped(scene: Scene) -> dict:
    """A rendering of which no block is marked yet."""
    whole = prepared(scene)
    marks = whole[MARKS][:model.FRONT] + bytes(len(whole[MARKS]) - model.FRONT)
    scene.put_out({SOUND: bytes(byte ^ (at > 700) for at, byte in enumerate(whole[SOUND])), MARKS: marks})
    return whole


def begun_anew(scene: Scene) -> dict:
    """A rendering that has no marks yet."""
    whole = prepared(scene)
    scene.put_out({SOUND: bytes(len(whole[SOUND]))})
    return whole


def begun(scene: Scene) -> dict:
    return prepared(scene)


@contextmanager
def delayed(scene: Scene, path: str, number: int, words: list):
    """The program, whose call of this number that opens this path waits before it is made."""
    if not shutil.which("strace"):
        raise Skipped("strace isn't installed (Debian package strace)")
    process = subprocess.Popen(
        ["strace", "-qq", "-o", scene.folder / "trace", "-P", path, "-e", "trace=openat",
         "-e", f"inject=openat:delay_enter={DELAY}:when={number}", scene.program, *words],
        cwd=scene.folder, stdout=subprocess.PIPE, stderr=subprocess.PIPE)
    try:
        process.wait(HALFWAY)
    except subprocess.TimeoutExpired:
        pass
    yield process
    process.communicate(timeout=TIMEOUT)


def exchanged(command: str, name: str, put):
    """While an output is about to be opened, a link to another file of its length comes into its stead. That file isn't
    written to, whichever of the openings it is, and the command is refused."""
    def body(scene: Scene) -> None:
        for number in (1, 2, 3):
            scene.empty_out()
            whole = put(scene)
            victim = bytes(len(whole[name]))
            (scene.folder / VICTIM).write_bytes(victim)
            with delayed(scene, f"{OUT}/{name}", number, [command, LIST, MEDIA, OUT, "--depth", "16"]) as process:
                (scene.folder / OUT / "link").symlink_to(f"../{VICTIM}")
                (scene.folder / OUT / "link").rename(scene.folder / OUT / name)
                output = process.communicate(timeout=TIMEOUT)[0]
            same_bytes(f"the other file, at opening {number}", (scene.folder / VICTIM).read_bytes(), victim)
            openings = (scene.folder / "trace").read_text().count("openat(")
            if openings >= number and (process.returncode != 1 or not output.startswith(b"refused ")):
                raise Mismatch(f"opening {number}: status {process.returncode}, {output!r}")
    return body


def exchanged_source(scene: Scene) -> None:
    """Another file comes into the stead of a source that is about to be opened: it isn't taken for it."""
    prepared(scene)
    (scene.folder / "other").write_bytes(wave([9, 9, 9, 9]))
    with delayed(scene, f"{MEDIA}/A.wav", 1, words_of("check")) as process:
        (scene.folder / "other").rename(scene.folder / MEDIA / "A.wav")
        output = process.communicate(timeout=TIMEOUT)[0]
    same("status and line", (process.returncode, output), (1, b"refused 22 at index 1 file A.wav\n"))


@contextmanager
def locked(path: Path):
    handle = os.open(path, os.O_RDONLY)
    try:
        fcntl.flock(handle, fcntl.LOCK_EX)
        yield
    finally:
        os.close(handle)


def at_work(scene: Scene) -> None:
    """A folder in which another command is at work is refused by each that writes, full or empty, and by no other."""
    whole = prepared(scene)
    for files in ({}, whole):
        scene.put_out(files)
        with locked(scene.folder / OUT):
            for command in ("consolidate", "render", "resume"):
                got = scene.run(command, LIST, MEDIA, OUT)
                same_outcome(got, 1, BUSY)
                if b": another command is at work there; " not in got.error:
                    raise Mismatch(f"standard error doesn't say why: {got.error!r}")
                same_files(scene.files(), files)
            same_outcome(scene.run("check", LIST, MEDIA), 0, "accepted 1 entries 1 indexes")
    scene.empty_out()
    same_outcome(scene.run(*words_of("render", SHORT)), 0, "rendered 4 frames 1 channels")
    same_files(scene.files(), whole)


def without_locks(scene: Scene) -> None:
    """Where the file system has no locks that is told, and the command goes on."""
    if not shutil.which("strace"):
        raise Skipped("strace isn't installed (Debian package strace)")
    whole = prepared(scene)
    done = subprocess.run(
        ["strace", "-qq", "-o", scene.folder / "trace", "-e", "trace=flock", "-e", "inject=flock:error=ENOLCK",
         scene.program, *words_of("render", SHORT)], cwd=scene.folder, capture_output=True, timeout=TIMEOUT)
    same("status and line", (done.returncode, done.stdout), (0, b"rendered 4 frames 1 channels\n"))
    told = done.stderr.decode()
    if not told.startswith(f"the folder {OUT} can't be locked: ") or told.count("\n") != 1:
        raise Mismatch(f"standard error says {told!r}")
    same_files(scene.files(), whole)


def tiny(name: str) -> bytes:
    """A list of four cuts of one file."""
    times = [(model.time_text(at), model.time_text(2 * at), model.time_text(2 * at + 2)) for at in range(4)]
    return model.list_text(
        [model.source_line(1, name, model.time_text(0))],
        [model.entry_line(number, 1, *each) for number, each in enumerate(times, 1)])


def in_pairs(scene: Scene) -> None:
    """Two commands over two lists into one folder at once: what is done is whole. Two renderings aren't both done; one
    that is gone on with may follow a consolidation, beside whose files it begins anew."""
    media = {"A.wav": wave([1000 + at for at in range(8)]), "B.wav": wave([-9 * at for at in range(8)])}
    texts = {"A.adl": tiny("A.wav"), "B.adl": tiny("B.wav")}
    scene.put(b"", media)
    for name, text in texts.items():
        (scene.folder / name).write_bytes(text)
    random_pairs = random.Random(SEED)
    done = 0
    for _ in range(PAIRS):
        runs = []
        for name in texts:
            command = random_pairs.choice(("render", "resume", "resume", "consolidate"))
            options = SHORT.words("consolidate" if command == "consolidate" else "render")
            runs.append((name, command, subprocess.Popen(
                [scene.program, command, name, MEDIA, OUT, *options], cwd=scene.folder,
                stdout=subprocess.PIPE, stderr=subprocess.PIPE)))
        lines = [(name, command, run.communicate(timeout=TIMEOUT)[0], run.returncode) for name, command, run in runs]
        winners = [(name, command) for name, command, _, status in lines if status == 0]
        if len(winners) > 1 and sorted(command for _, command in winners) != ["consolidate", "resume"]:
            raise Mismatch(f"both are done: {lines}")
        wanted = {}
        for name, command in winners:
            what = "consolidate" if command == "consolidate" else "render"
            wanted.update(model.answer(what, texts[name], media, SHORT).files)
        if winners:
            same_files(scene.files(), wanted)
        for name, command, line, status in lines:
            if status and not line.startswith((BUSY.encode(), b"refused 67", b"refused 62 at file ")):
                raise Mismatch(f"{command} of {name} says {line!r}; the two: {lines}")
        done += bool(winners)
        scene.empty_out()
    if done < PAIRS // 2:
        raise Mismatch(f"only {done} of {PAIRS} pairs had one that was done")


def run(suite: Suite) -> None:
    for name in (SOUND, MARKS):
        suite.case(f"{name} is a link of a source", given_too(name, link_source, f"{MEDIA}/A.wav"))
        suite.case(f"a source leads to {name}", given_too(name, move_source, f"{MEDIA}/A.wav"))
        suite.case(f"{name} is a link of the list", given_too(name, link_list, LIST))
        suite.case(f"the list leads to {name}", given_too(name, move_list, LIST))
        suite.case(f"{name} is linked from elsewhere", given_too(name, link_other, "2 names"))
        suite.case(f"the list is {name}", given_too(
            name, list_in_output, f"{OUT}/{name}", words=("resume", f"{OUT}/{name}", MEDIA, OUT)))
        for command, what, put in (
                ("render", "a rendering", begun), ("resume", "one that is gone on with", stopped),
                ("resume", "one that begins anew", begun_anew)):
            suite.case(f"{name} of {what} is exchanged", exchanged(command, name, put))
    suite.case("a source is exchanged", exchanged_source)
    suite.case("a folder with another command at work", at_work)
    suite.case("a file system without locks", without_locks)
    suite.case("two commands in one folder at once", in_pairs)
