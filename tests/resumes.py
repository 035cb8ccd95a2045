"""Renderings that are stopped in the midst of any write and gone on with: the bytes of an unbroken one.

A kill takes the process alone, and not what it wrote: what a disk may lose besides is tested over memory.
"""

import os
import random
import re
import shutil
import signal
import subprocess
from pathlib import Path

import model
from harness import (
    EXPLANATION, LIST, MEDIA, OUT, TIMEOUT, Cases, Mismatch, Outcome, Scene, Skipped, preloaded, same, same_bytes,
    same_files, same_outcome, same_shape,
)
from model import BLOCK, FRONT
from tables import format_chunk, riff_file, wave

case = Cases()
run = case.run

SEED = 27
# How many renderings are killed, and how many of them again once they are gone on with.
KILLS, KILLS_AGAIN = 100, 50
MIDNIGHT = b"00.00.00.00/0000"
SOUND, MARKS = "render.wav", "render.marks"
RENDER, RESUME = (("render", LIST, MEDIA, OUT), ("resume", LIST, MEDIA, OUT))

# How a written file without CodingHistory begins, and a mono one of 16 bits.
HEAD = 690
FRAME = 2

# What is longer is written in pieces that end at multiples of this.
PIECE = 262_144


class Long:
    """A list that plays all of a file of so many blocks, the last of which is short, at 32 bits; its jobs are of several
    blocks where there are more than 64."""

    def __init__(self, channels: int, blocks: int):
        self.channels = channels
        self.frames = BLOCK * blocks - 7
        self.words = ("--depth", "32")

    def put(self, scene: Scene) -> None:
        end = model.time_text(self.frames)
        last = str(self.channels).encode()
        both = last if self.channels == 1 else b"1~" + last
        entry = model.entry_line(1, 1, MIDNIGHT, MIDNIGHT, end, both, both)
        samples = random.Random(SEED).randbytes(2 * self.channels * self.frames)
        data = b"data" + len(samples).to_bytes(4, "little") + samples
        scene.put(
            model.list_text([model.source_line(1, "A.wav", MIDNIGHT)], [entry]),
            {"A.wav": riff_file(format_chunk(channels=self.channels, bits=16), data)})


def marked_in(scene: Scene) -> int:
    """How many blocks are marked in the output, where its marks are started."""
    path = scene.folder / OUT / MARKS
    marks = path.read_bytes() if path.exists() else b""
    return marks[FRONT:].count(1) if len(marks) >= FRONT and marks[0] == 1 else 0


def is_killed(scene: Scene, words: tuple, environment: dict, write: int) -> bool:
    """Whether the program, which is killed in its write of this number, comes so far."""
    got = scene.run(*words, env={**environment, "KILL_WRITE": str(write)})
    return got.status == -signal.SIGKILL


def writes_of(scene: Scene, words: tuple, environment: dict) -> int:
    """How many writes a rendering makes."""
    least, most = 0, 1
    while is_killed(scene, words, environment, most):
        scene.empty_out()
        least, most = most, 2 * most
    while most - least > 1:
        scene.empty_out()
        middle = (least + most) // 2
        least, most = (middle, most) if is_killed(scene, words, environment, middle) else (least, middle)
    return least


def expect_resumed(scene: Scene, long: Long, whole: dict) -> int:
    """The rendering is gone on with from the marks that are there, to the very bytes; how many there were."""
    marked = marked_in(scene)
    got = scene.run(*RESUME, *long.words)
    same_outcome(got, 0, f"resumed {long.frames} frames {marked} blocks were marked")
    same_files(scene.files(), whole)
    return marked


def killed(long: Long):
    """In the midst of a random write each, and some of them again; then they are gone on with to their end."""
    def body(scene: Scene) -> None:
        long.put(scene)
        environment = preloaded(scene)
        writes = writes_of(scene, (*RENDER, *long.words), environment)
        scene.empty_out()
        same_outcome(scene.run(*RENDER, *long.words), 0, f"rendered {long.frames} frames {long.channels} channels")
        whole = scene.files()
        blocks = len(whole[MARKS]) - FRONT
        moments, kills, again, broken = random.Random(SEED), 0, 0, 0
        while kills < KILLS or again < KILLS_AGAIN:
            scene.empty_out()
            kills += is_killed(scene, (*RENDER, *long.words), environment, moments.randint(1, writes))
            if again < KILLS_AGAIN:
                again += is_killed(scene, (*RESUME, *long.words), environment, moments.randint(1, writes))
            marked = expect_resumed(scene, long, whole)
            broken += 0 < marked < blocks
        if broken < KILLS // 4:
            raise Mismatch(f"only {broken} of {kills} and {again} kills came between the first mark and the last")
    return body


case.add("kills of a rendering whose jobs are blocks", killed(Long(1, 24)))
case.add("kills of a rendering whose jobs are several blocks", killed(Long(4, 200)))


def plain(blocks: int) -> tuple:
    """A list that plays a mono file of so many blocks from its first frame on, and the file."""
    frames = BLOCK * blocks
    entry = model.entry_line(1, 1, MIDNIGHT, MIDNIGHT, model.time_text(frames))
    text = model.list_text([model.source_line(1, "A.wav", MIDNIGHT)], [entry])
    return text, {"A.wav": wave([1 + place * 7 % 30_000 for place in range(frames)])}


AT_16_BITS = model.Options(depth=16)
DEPTH = ("--depth", "16")


def put_stopped(scene: Scene, blocks: int, marked: set) -> dict:
    """A rendering that was stopped with these blocks marked. The samples of all the others are wrong in it."""
    text, media = plain(blocks)
    scene.put(text, media)
    files = model.answer("render", text, media, AT_16_BITS).files
    sound, marks = bytearray(files[SOUND]), bytearray(files[MARKS])
    for block in set(range(blocks)) - marked:
        at = HEAD + FRAME * BLOCK * block
        sound[at:at + FRAME * BLOCK] = b"\x55" * (FRAME * BLOCK)
        marks[FRONT + block] = 0
    scene.put_out({SOUND: bytes(sound), MARKS: bytes(marks)})
    return files


def ranges_of(trace: str, call: str, name: str) -> list:
    """The places and ends of these calls on the file of this name."""
    found = re.findall(rf"^{call}\(\d+<[^>]*/{re.escape(name)}>, .*, (\d+), (\d+)\) = \d+$", trace, re.M)
    return [(int(at), int(at) + int(size)) for size, at in found]


def half_done(blocks: int, marked: set):
    """No sample under a marked block is read, and no byte of it is written."""
    def body(scene: Scene) -> None:
        if not shutil.which("strace"):
            raise Skipped("strace isn't installed (Debian package strace)")
        whole = put_stopped(scene, blocks, marked)
        trace = scene.folder / "trace"
        done = subprocess.run(
            ["strace", "-y", "-qq", "-s", "0", "-o", trace, "-e", "trace=pread64,pwrite64,read,write",
             scene.program, *RESUME, *DEPTH], cwd=scene.folder, capture_output=True, timeout=TIMEOUT)
        line = f"resumed {BLOCK * blocks} frames {len(marked)} blocks were marked"
        same_outcome(Outcome(done.returncode, done.stdout, done.stderr), 0, line)
        same_files(scene.files(), whole)
        calls = trace.read_text()
        # the head of the rendered file is read to see that it is one of ours
        for call, name, head, free in (
                ("pread64", "A.wav", 44, 0), ("pwrite64", SOUND, HEAD, 0), ("pread64", SOUND, 0, 1024)):
            for at, end in ranges_of(calls, call, name):
                touched = set(range(max(at - head, 0) // (FRAME * BLOCK), (end - head - 1) // (FRAME * BLOCK) + 1))
                if end > head + free and touched & marked:
                    raise Mismatch(f"{call} of {name} from {at} to {end} lies in marked blocks")
        wanted = {HEAD + FRAME * BLOCK * block for block in set(range(blocks)) - marked}
        begun = {at for at, _ in ranges_of(calls, "pwrite64", SOUND) if at % PIECE}
        same("where blocks are written", begun - wanted, set())
        if not ranges_of(calls, "pread64", "A.wav"):
            raise Mismatch("no read of the source is seen")
    return body


case.add("no marked block is read or written", half_done(12, {0, 1, 2, 5, 11}))
case.add("no marked block of a stretch is read or written", half_done(700, set(range(40, 350)) | {699}))


@case("a rendering that is done")
def done_already(scene: Scene) -> None:
    """All blocks are marked: neither file is touched, and both stay."""
    whole = put_stopped(scene, 5, set(range(5)))
    paths = [scene.folder / OUT / name for name in whole]
    before = [path.stat().st_mtime_ns for path in paths]
    same_outcome(scene.run(*RESUME, *DEPTH), 0, f"resumed {5 * BLOCK} frames 5 blocks were marked")
    same_files(scene.files(), whole)
    same("when they were written", [path.stat().st_mtime_ns for path in paths], before)


@case("a mark is a byte of one")
def a_mark_is_a_one(scene: Scene) -> None:
    """Any other byte marks no block, which is rendered again; one that is marked is taken as it stands."""
    whole = put_stopped(scene, 5, {1, 3})
    files = scene.files()
    begun = bytearray(files[MARKS])
    begun[FRONT], begun[FRONT + 2] = 7, 255
    scene.put_out({**files, MARKS: bytes(begun)})
    same_outcome(scene.run(*RESUME, *DEPTH), 0, f"resumed {5 * BLOCK} frames 2 blocks were marked")
    same_files(scene.files(), whole)
    scene.put_out({**files, MARKS: whole[MARKS]})
    same_outcome(scene.run(*RESUME, *DEPTH), 0, f"resumed {5 * BLOCK} frames 5 blocks were marked")
    same_files(scene.files(), {**files, MARKS: whole[MARKS]})


@case("another order")
def another_order(scene: Scene) -> None:
    """The order isn't of the run: a rendering by source goes on by time."""
    whole = put_stopped(scene, 5, {1, 3})
    same_outcome(scene.run(*RESUME, *DEPTH, "--order", "source"), 0, f"resumed {5 * BLOCK} frames 2 blocks were marked")
    same_files(scene.files(), whole)


@case("the same range")
def the_same_range(scene: Scene) -> None:
    """A range that is told is the same as one that is left out."""
    whole = put_stopped(scene, 5, {1, 3})
    told = ("--from", "00.00.00.00/0000", "--to", "00.00.00.10/1280", "--channels", "1")
    same_outcome(scene.run(*RESUME, *DEPTH, *told), 0, f"resumed {5 * BLOCK} frames 2 blocks were marked")
    same_files(scene.files(), whole)


@case("a list on standard input")
def from_standard_input(scene: Scene) -> None:
    whole = put_stopped(scene, 5, {0})
    got = scene.run("resume", "-", MEDIA, OUT, *DEPTH, given=(scene.folder / LIST).read_bytes())
    same_outcome(got, 0, f"resumed {5 * BLOCK} frames 1 blocks were marked")
    same_files(scene.files(), whole)


def not_started(change):
    """Without marks that were started it begins anew, whatever lies there."""
    def body(scene: Scene) -> None:
        whole = put_stopped(scene, 5, {1, 3})
        files = change(scene.files())
        scene.put_out(files)
        same_outcome(scene.run(*RESUME, *DEPTH), 0, f"resumed {5 * BLOCK} frames 0 blocks were marked")
        same_files(scene.files(), whole)
    return body


UNSTARTED = {
    "an empty folder": lambda files: {},
    "no marks": lambda files: {SOUND: files[SOUND]},
    "empty marks": lambda files: {**files, MARKS: b""},
    "marks of a byte": lambda files: {**files, MARKS: b"\1"},
    "marks without their blocks": lambda files: {**files, MARKS: files[MARKS][:43]},
    "a gate that is shut": lambda files: {**files, MARKS: b"\0" + files[MARKS][1:]},
    "a gate of another byte": lambda files: {**files, MARKS: b"\2" + files[MARKS][1:]},
    "another rendered file, and no marks": lambda files: {SOUND: b"RIFF" * 100},
}


def broken(number: int, line_words: tuple, change, words: tuple = DEPTH, text: bytes = b""):
    """It is refused, says what to do, and changes nothing."""
    def body(scene: Scene) -> None:
        put_stopped(scene, 5, {1, 3})
        files = change(scene.files())
        scene.put_out(files)
        if text:
            (scene.folder / LIST).write_bytes((scene.folder / LIST).read_bytes() + text)
        got = scene.run(*RESUME, *words)
        same_outcome(got, 1, f"refused {number}")
        for word in line_words:
            if word.encode() not in got.error:
                raise Mismatch(f"standard error says {got.error!r} and not {word!r}")
        same_files(scene.files(), files)
    return body


def kept(files: dict) -> dict:
    return files


def with_byte(at: int, value: int):
    """The marks with another byte at a place."""
    def change(files: dict) -> dict:
        marks = bytearray(files[MARKS])
        marks[at] = value
        return {**files, MARKS: bytes(marks)}
    return change


ANOTHER = ("another list, range, number of channels or depth", "which of them differs can't be told", "adlcons resume")
DAMAGED = ("render.marks or render.wav", "empty folder")

OTHERS = {
    "another list": (kept, DEPTH, b"\n"),
    "another range": (kept, (*DEPTH, "--to", "00.00.00.10/1279"), b""),
    "another first sample": (kept, (*DEPTH, "--from", "00.00.00.00/0001"), b""),
    "other channels": (kept, (*DEPTH, "--channels", "2"), b""),
    "another depth": (kept, (), b""),
    "marks of another digest": (with_byte(8, 7), DEPTH, b""),
}

BROKEN = {
    "another magic": with_byte(7, ord("2")),
    "marks of another count": with_byte(40, 4),
    "marks a byte too short": lambda files: {**files, MARKS: files[MARKS][:-1]},
    "marks a byte too long": lambda files: {**files, MARKS: files[MARKS] + b"\0"},
    "no rendered file": lambda files: {MARKS: files[MARKS]},
    "a rendered file a byte too short": lambda files: {**files, SOUND: files[SOUND][:-1]},
    "a rendered file a byte too long": lambda files: {**files, SOUND: files[SOUND] + b"\0"},
}

for name, change in UNSTARTED.items():
    case.add(f"begun anew: {name}", not_started(change))
for name, (change, words, text) in OTHERS.items():
    case.add(f"another rendering: {name}", broken(67, ANOTHER, change, words, text))
for name, change in BROKEN.items():
    case.add(f"damaged: {name}", broken(68, DAMAGED, change))


@case("a head or a pad that was changed")
def changed_by_hand(scene: Scene) -> None:
    """A byte before or after the samples that isn't the rendering's is told with its position, and stays; the answer and
    all else do too. Where marks aren't started, or the file has another length, nothing is told."""
    frames = BLOCK + 3
    samples = random.Random(SEED).randbytes(3 * frames)
    data = b"data" + len(samples).to_bytes(4, "little") + samples + b"\0"
    scene.put(
        model.list_text(
            [model.source_line(1, "A.wav", MIDNIGHT)], [model.entry_line(1, 1, MIDNIGHT, MIDNIGHT, model.time_text(frames))]),
        {"A.wav": riff_file(format_chunk(bits=24), data)})
    same("the status", scene.run(*RENDER).status, 0)
    whole = scene.files()
    same("the length of the file is even by its pad", (len(samples) % 2, len(whole[SOUND]) % 2), (1, 0))
    for position in (0, 4, 56, 394, 689, len(whole[SOUND]) - 1):
        sound = bytearray(whole[SOUND])
        sound[position] ^= 0x21
        files = {SOUND: bytes(sound), MARKS: whole[MARKS]}
        scene.put_out(files)
        got = scene.run(*RESUME)
        same("standard output", got.output.decode(), f"resumed {frames} frames 2 blocks were marked\n")
        same("standard error", got.error.decode(), (
            f"{OUT}/{SOUND} was changed by another hand at byte {position}, where it has no samples; it stays so\n"))
        same_files(scene.files(), files)
    for files in (whole, {SOUND: bytes(sound), MARKS: b"\0" + whole[MARKS][1:]}):
        scene.put_out(files)
        got = scene.run(*RESUME)
        same("the status and standard error", (got.status, got.error), (0, b""))
        same_files(scene.files(), whole)


NEWER = "the source %s was written to after render.marks: what was marked by then is of the file as it was before\n"


@case("sources that were written to after the marks")
def newer_sources(scene: Scene) -> None:
    """A source that was written to after the marks is told where the rendering is gone on with, by its time; the answer and
    the file stay. One that the list doesn't name isn't told, nor any where the rendering is refused or no marks are there."""
    whole = put_stopped(scene, 4, {0, 2})
    stopped = scene.files()
    source, unused, marks = (scene.folder / path for path in (f"{MEDIA}/A.wav", f"{MEDIA}/B.wav", f"{OUT}/{MARKS}"))
    unused.write_bytes(b"")
    for written, marked, told in (
        ((5, 0), (4, 999_999_999), NEWER % "A.wav"), ((5, 2), (5, 1), NEWER % "A.wav"), ((5, 1), (5, 1), ""),
        ((5, 0), (5, 1), "")):
        scene.put_out(stopped)
        for path, (seconds, more) in ((source, written), (unused, (9, 0)), (marks, marked)):
            os.utime(path, ns=(0, 1_000_000_000 * seconds + more))
        got = scene.run(*RESUME, *DEPTH)
        same("the line and the status", (got.output.decode(), got.status), (
            f"resumed {4 * BLOCK} frames 2 blocks were marked\n", 0))
        same("standard error", got.error.decode(), told)
        same_files(scene.files(), whole)
    scene.put_out(stopped)
    got = scene.run(*RESUME)
    same_outcome(got, 1, "refused 67")
    scene.put_out({})
    got = scene.run(*RESUME, *DEPTH)
    same("without marks", (got.status, got.error), (0, b""))


@case("no folder")
def no_folder(scene: Scene) -> None:
    """An output that isn't there is 62 at its first file, and never 20; standard error names the folder first."""
    text, media = plain(2)
    scene.put(text, media)
    for name, why in (("none", "No such file or directory (os error 2)"), (LIST, "Not a directory (os error 20)")):
        got = scene.run("resume", LIST, MEDIA, name)
        told = f"the folder {name} can't be opened: {why}\n".encode()
        same("what is said of the folder", got.error[:len(told)], told)
        same_outcome(got._replace(error=got.error.removeprefix(told)), 1, f"refused 62 at file {SOUND}")


@case("links in the output")
def links(scene: Scene) -> None:
    """Neither file is followed where it is a link, and what is behind one stays as it is."""
    for name in (SOUND, MARKS):
        put_stopped(scene, 5, {1, 3})
        path, other = scene.folder / OUT / name, scene.folder / "other"
        path.replace(other)
        before = other.read_bytes()
        path.symlink_to("../other")
        got = scene.run(*RESUME, *DEPTH)
        same_outcome(got, 1, f"refused 62 at file {name}")
        same_bytes("what is behind the link", other.read_bytes(), before)


@case("other files in the output")
def beside_others(scene: Scene) -> None:
    """Other files in the folder stay."""
    whole = put_stopped(scene, 5, {1, 3})
    (scene.folder / OUT / "notes.txt").write_bytes(b"mine")
    same_outcome(scene.run(*RESUME, *DEPTH), 0, f"resumed {5 * BLOCK} frames 2 blocks were marked")
    same_files(scene.files(), {**whole, "notes.txt": b"mine"})


@case("where an unfinished rendering lies")
def told_where_to_go_on(scene: Scene) -> None:
    """A render into a folder with an unfinished rendering is refused, and told of resume."""
    put_stopped(scene, 5, {1, 3})
    got = scene.run(*RENDER, *DEPTH)
    same_outcome(got, 1, f"refused 20 at file {OUT}")
    if b"adlcons resume" not in got.error:
        raise Mismatch(f"standard error says {got.error!r}")


@case("an output among the media")
def among_media(scene: Scene) -> None:
    """A source that has the name of the rendered file isn't replaced."""
    text, media = plain(2)
    text, media = text.replace(b"A.wav", SOUND.encode()), {SOUND: media["A.wav"]}
    scene.put(text, media)
    (scene.folder / "link").symlink_to(MEDIA)
    for name in (MEDIA, f"{OUT}/../{MEDIA}/", "link"):
        got = scene.run("resume", LIST, MEDIA, name)
        same_outcome(got, 1, f"refused 20 at file {name}")
        if b": it is the folder of the media; name the folder of the rendering" not in got.error:
            raise Mismatch(f"standard error says {got.error!r}")
        same_files(scene.files(MEDIA), media)


@case("a list that is refused")
def refused_list(scene: Scene) -> None:
    """Faults of the list come before those of the marks, and change nothing."""
    put_stopped(scene, 5, {1, 3})
    files = with_byte(7, 0)(scene.files())
    scene.put_out(files)
    (scene.folder / LIST).write_bytes(b"no list")
    same_outcome(scene.run(*RESUME, *DEPTH), 1, "refused 03 at line 1")
    same_files(scene.files(), files)


@case("a time that can't be read")
def bad_time(scene: Scene) -> None:
    put_stopped(scene, 5, {1, 3})
    files = scene.files()
    got = scene.run(*RESUME, "--from", "1")
    same("status and output", (got.status, got.output, got.error.splitlines()[0]), (2, b"", b"bad time: --from"))
    same_files(scene.files(), files)
