"""Devices that fail: what can't be read, what can't be written, a full disk, a limit of size."""

import os
import resource
import subprocess
from functools import partial
from pathlib import Path
from typing import Callable

import model
from harness import (
    LIST, MEDIA, OUT, TIMEOUT, Cases, Mismatch, Outcome, Scene, Skipped, preloaded, same, same_bytes, same_files,
    same_outcome, words_of,
)
from tables import FIRST_LIST, rendered_bytes, size_changed, wave

case = Cases()
run = case.run

NOBODY = 65534
RENDER = words_of("render", model.Options(depth=16))
FRAMES = 20_000
DISK_SIZE = "32k"
MEMORY = 64 * 2 ** 20
LONG = 48 * 2 ** 20
# The tests of the stores, as they are built, of which one appends to a file on a disk that may be full.
TRIALS = Path(__file__).resolve().parent.parent / "crates/trials_stores/out/trials_stores_tests"


def as_other_user(scene: Scene) -> dict:
    """How to run the program as a user whom permissions bind."""
    if os.geteuid() != 0:
        return {}
    how = {"user": NOBODY, "group": NOBODY, "extra_groups": []}
    try:
        subprocess.run([scene.program], cwd=scene.folder, capture_output=True, timeout=TIMEOUT, **how)
    except PermissionError as fault:
        raise Skipped("the program can't be run by another user than root") from fault
    os.chown(scene.folder / OUT, NOBODY, NOBODY)
    return how


def prepared(scene: Scene) -> None:
    scene.put(FIRST_LIST, {"A.wav": wave()})


def unreadable(path: str, line: str):
    """Nobody may read this file or folder."""
    def body(scene: Scene) -> None:
        prepared(scene)
        how = as_other_user(scene)
        (scene.folder / path).chmod(0)
        got = [scene.run(command, LIST, MEDIA, OUT, **how) for command in model.WRITING]
        (scene.folder / path).chmod(0o700)
        for outcome in got:
            same_outcome(outcome, 1, line)
        same_files(scene.files(), {})
    return body


case.add("a source that can't be read", unreadable(f"{MEDIA}/A.wav", "refused 22 at index 1 file A.wav"))
case.add("a list that can't be read", unreadable(LIST, f"refused 21 at file {LIST}"))
case.add("an output that can't be listed", unreadable(OUT, f"refused 20 at file {OUT}"))


@case("an output that can't be written")
def unwritable_output(scene: Scene) -> None:
    prepared(scene)
    how = as_other_user(scene)
    (scene.folder / OUT).chmod(0o500)
    for command, name in (("render", "render.wav"), ("consolidate", "M00001.wav")):
        same_outcome(scene.run(command, LIST, MEDIA, OUT, **how), 1, f"refused 62 at file {name}")
    same_files(scene.files(), {})


@case("a source that is a folder")
def source_is_folder(scene: Scene) -> None:
    """It is there, and no device reads it as a file."""
    scene.put(FIRST_LIST)
    (scene.folder / MEDIA / "A.wav").mkdir()
    for command in model.WRITING:
        same_outcome(scene.run(command, LIST, MEDIA, OUT), 1, "refused 22 at index 1 file A.wav")
        same_files(scene.files(), {})


def long_cuts(count: int) -> bytes:
    """So many cuts one behind the other, each of all frames of its source."""
    entry_lines = [
        model.entry_line(number, 1, b"00.00.00.00/0000", *(
            model.time_text(FRAMES * place) for place in (number - 1, number)))
        for number in range(1, count + 1)
    ]
    return model.list_text([model.source_line(1, "A.wav", b"00.00.00.00/0000")], entry_lines)


def put_long(scene: Scene, count: int) -> dict:
    media = {"A.wav": wave([place % 1000 for place in range(FRAMES)])}
    scene.put(long_cuts(count), media)
    return media


def file_size_limit(size: int) -> dict:
    """How to run the program so that no file grows past this size: a write past it fails."""
    return {
        "preexec_fn": partial(resource.setrlimit, resource.RLIMIT_FSIZE, (size, size)),
        "restore_signals": False,
    }


def limited(command: str, name: str):
    """A file can't be written whole: 62 at its name, and no list beside it."""
    def body(scene: Scene) -> None:
        put_long(scene, 2)
        got = scene.run(command, LIST, MEDIA, OUT, **file_size_limit(10_000))
        same_outcome(got, 1, f"refused 62 at file {name}")
        if "consolidated.adl" in scene.files():
            raise Mismatch("there is a list beside media that aren't whole")
    return body


case.add("a limit of size, rendered", limited("render", "render.wav"))
case.add("a limit of size, consolidated", limited("consolidate", "M00001.wav"))


@case("a limit of size at the list")
def limited_list(scene: Scene) -> None:
    """All media are whole, and the list, which is longer than each of them, isn't."""
    text = model.list_text(
        [model.source_line(1, "A.wav", b"00.00.00.00/0000")],
        [model.entry_line(number, 1, *[b"00.00.00.00/0000"] * 2, b"00.00.00.00/0004") for number in range(1, 41)])
    scene.put(text, {"A.wav": wave()})
    got = scene.run("consolidate", LIST, MEDIA, OUT, **file_size_limit(1000))
    same_outcome(got, 1, "refused 62 at file consolidated.adl")
    wanted = model.answer("consolidate", text, {"A.wav": wave()}).files
    whole = wanted.pop("consolidated.adl")
    written = scene.files()
    part = written.pop("consolidated.adl", b"")
    same_files(written, wanted)
    if part == whole:
        raise Mismatch("the list is whole though it is refused")


def on_small_disk(body: Callable[[Scene], None]):
    """Runs the case with a small file system as its output."""
    def mounted(scene: Scene) -> None:
        out = str(scene.folder / OUT)
        words = ["mount", "-t", "tmpfs", "-o", f"size={DISK_SIZE}", "none", out]
        try:
            subprocess.run(words, check=True, capture_output=True)
        except (OSError, subprocess.CalledProcessError) as fault:
            raise Skipped("a small file system can't be mounted here") from fault
        try:
            body(scene)
        finally:
            subprocess.run(["umount", out], check=True)
    return mounted


def full_disk_rendered(scene: Scene) -> None:
    put_long(scene, 1)
    room = r"render\.wav and render\.marks take \d+ bytes in all\n"
    same_outcome(scene.run("render", LIST, MEDIA, OUT), 1, "refused 66 at job 2", room=room)


def full_disk_consolidated(scene: Scene) -> None:
    put_long(scene, 2)
    room = r"the media take at most \d+ bytes in all\n"
    same_outcome(scene.run("consolidate", LIST, MEDIA, OUT), 1, "refused 66 at job 0", room=room)
    if "consolidated.adl" in scene.files():
        raise Mismatch("there is a list on a full disk")


def memory_limit(size: int) -> dict:
    """How to run the program so that it gets no more memory than this."""
    return {"preexec_fn": partial(resource.setrlimit, resource.RLIMIT_AS, (size, size))}


@case("no memory for the list")
def no_memory_for_list(scene: Scene) -> None:
    prepared(scene)
    got = scene.run("render", "-", MEDIA, OUT, given=b"<ADL>\n" + bytes(MEMORY), **memory_limit(MEMORY))
    same_outcome(got, 1, "refused 18")
    same_files(scene.files(), {})


def put_long_silence(scene: Scene) -> None:
    """A list of two entries without length, with a long silence between them."""
    entry_lines = [
        model.entry_line(number, 1, b"00.00.00.00/0000", begin, begin)
        for number, begin in ((1, b"00.00.00.00/0000"), (2, model.time_text(LONG)))
    ]
    text = model.list_text([model.source_line(1, "A.wav", b"00.00.00.00/0000")], entry_lines)
    scene.put(text, {"A.wav": wave()})


@case("the memory of a long rendering")
def memory_of_long_rendering(scene: Scene) -> None:
    """A rendering is made in blocks: it takes no memory that grows with its range."""
    put_long_silence(scene)
    got = scene.run(*RENDER, **memory_limit(MEMORY))
    same_outcome(got, 0, f"rendered {LONG} frames 1 channels")
    same("the written bytes", (scene.folder / OUT / "render.wav").stat().st_size, 690 + 2 * LONG)


@case("a long file is laid out as a hole")
def laid_out_as_a_hole(scene: Scene) -> None:
    """A file is laid out by few writes, and takes no room before its samples come."""
    put_long_silence(scene)
    path, environment = scene.folder / OUT / "render.wav", preloaded(scene)
    for writes in range(1, 10):
        scene.empty_out()
        scene.run(*RENDER, env={**environment, "WRITE_FAILS": str(writes)})
        found = path.stat()
        if found.st_size == 690 + 2 * LONG:
            same("whether it takes no room", 512 * found.st_blocks < 2 ** 20, True)
            return
    raise Mismatch(f"it has {found.st_size} bytes after {writes} writes")


@case("an append that breaks off")
def broken_append(scene: Scene) -> None:
    """What is appended behind an append that broke off for want of room stands behind what was written of that."""
    if not TRIALS.exists():
        raise Skipped("the tests of trials_stores aren't built (rt test in its folder)")
    words = [TRIALS, "tests::folders::appends_go_on_behind_what_is_there"]
    for room, told in (
        ("6", b"3 of 4 calls: [1, 2, 3, 4, 5, 6, 9]"), ("99", b"4 of 4 calls: [1, 2, 3, 4, 5, 6, 7, 8, 9]"),
    ):
        done = subprocess.run(
            words, cwd=scene.folder, env=preloaded(scene, WRITE_ROOM=room), capture_output=True, timeout=TIMEOUT)
        same(f"what is told of {room} bytes", (done.returncode, told in done.stdout), (0, True))


@case("the memory of a long consolidation")
def memory_of_long_consolidation(scene: Scene) -> None:
    """A source of 100 MB, silent but for its last sample, is searched and copied in blocks."""
    size = 2 * LONG
    scene.put(model.list_text([model.source_line(1, "A.wav", b"00.00.00.00/0000")], [
        model.entry_line(1, 1, *(model.time_text(value) for value in (0, 0, size // 2)))]))
    with (scene.folder / MEDIA / "A.wav").open("wb") as file:
        file.write(size_changed(wave([]), 36 + size)[:40] + size.to_bytes(4, "little"))
        file.truncate(44 + size - 1)
        file.seek(0, os.SEEK_END)
        file.write(b"\1")
    got = scene.run(*words_of("consolidate"), **memory_limit(MEMORY))
    same_outcome(got, 0, "written 1 media 1 entries")
    medium = scene.folder / OUT / "M00001.wav"
    same("the written bytes", medium.stat().st_size, 690 + size)
    with medium.open("rb") as file:
        file.seek(-2, os.SEEK_END)
        same("the last sample", file.read(), b"\0\1")


case.add("a full disk, rendered", on_small_disk(full_disk_rendered))
case.add("a full disk, consolidated", on_small_disk(full_disk_consolidated))


UNPRINTED = b"error: standard output can't be written\n"


@case("standard output is full")
def unprinted(scene: Scene) -> None:
    """A line that can't be printed changes neither the files nor the status, and is told."""
    if not Path("/dev/full").exists():
        raise Skipped("there is no /dev/full here")
    prepared(scene)
    with Path("/dev/full").open("wb") as full:
        got = scene.run(*RENDER, stdout=full)
        same("the status and standard error", got, Outcome(0, b"", UNPRINTED))
        same_bytes("render.wav", scene.files()["render.wav"], rendered_bytes())
        for words in (("--help",), ("--version",), ("explain", "46"), ("explain", "notice")):
            same(f"the answer of {words}", scene.run(*words, stdout=full), Outcome(0, b"", UNPRINTED))
        got = scene.run("check", "none", MEDIA, stdout=full)
        same("a refusal that can't be printed", (got.status, got.error.endswith(UNPRINTED)), (1, True))


@case("standard output is closed")
def closed_outputs(scene: Scene) -> None:
    """Without standard output and standard error the files are the same, and hold nothing that was printed."""
    prepared(scene)
    got = scene.run(*RENDER, preexec_fn=lambda: (os.close(1), os.close(2)))
    same("the status", got.status, 0)
    same_bytes("render.wav", scene.files()["render.wav"], rendered_bytes())
