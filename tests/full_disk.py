"""A disk that is full at each stage of a command: a file system as its output that is a page larger each time."""

import re
import subprocess
from contextlib import contextmanager
from itertools import count

import model
from harness import LIST, MEDIA, OUT, Mismatch, Outcome, Scene, Skipped, Suite, same, same_files, words_of
from tables import wave

PAGE = 4_096
ROOM = 256
FRAMES = 20_000
MIDNIGHT = b"00.00.00.00/0000"
EXACT = model.Options(handle=0, depth=16)
REFUSED = re.compile(rb"refused (?:62 at file (\S+)|66 at job \d+)\n")


def mounted(scene: Scene, options: str) -> None:
    words = ["mount", "-t", "tmpfs", "-o", options, "none", str(scene.folder / OUT)]
    try:
        subprocess.run(words, check=True, capture_output=True)
    except (OSError, subprocess.CalledProcessError) as fault:
        raise Skipped("a small file system can't be mounted here") from fault


@contextmanager
def disk(scene: Scene, pages: int = ROOM, files: int = ROOM):
    """The output on a disk of so many pages, for so many files; its folder is the first."""
    mounted(scene, f"size={pages * PAGE},nr_inodes={files}")
    try:
        yield
    finally:
        subprocess.run(["umount", str(scene.folder / OUT)], check=True)


def make_room(scene: Scene) -> None:
    mounted(scene, f"remount,size={ROOM * PAGE},nr_inodes={ROOM}")


def put_cuts(scene: Scene) -> None:
    """Two cuts of all frames of a source but the last, and then of all but the first."""
    spans = ((0, 0, FRAMES // 2 - 1), (FRAMES // 2 + 1, FRAMES // 2, FRAMES - 1))
    lines = [
        model.entry_line(number, 1, *map(model.time_text, times)) for number, times in enumerate(spans, 1)]
    media = {"A.wav": wave([place % 1000 + 1 for place in range(FRAMES)])}
    scene.put(model.list_text([model.source_line(1, "A.wav", MIDNIGHT)], lines), media)


def refused_file(line: bytes) -> str:
    """The file that a refusal names; nothing where it names a job."""
    told = REFUSED.fullmatch(line)
    if not told:
        raise Mismatch(f"{line!r}")
    return (told[1] or b"").decode()


def check_full(got, written: dict) -> None:
    """It is refused for a file that isn't whole, or for a job, and there is no list beside media that aren't whole.
    Standard error says that the disk is full, and to make room."""
    same("the status", got.status, 1)
    name = refused_file(got.output)
    for said in (b": the disk is full: No space left on device (os error 28); ", b"; make room, and "):
        same(f"whether it says {said}", said in got.error, True)
    if not name:
        told = rb"; unfinished in the output: render\.wav and " if "render.wav" in written else rb"; the file is: M\d{5}\.wav; "
        same("whether the file of the job is named", bool(re.search(told, got.error)), True)
    if name != "consolidated.adl":
        same("whether a list is there", "consolidated.adl" in written, False)


def check_room(command: str, error: bytes, files: dict) -> None:
    """Standard error says how many bytes the whole output takes, these files: of a rendering just so many, and of media at
    most so many, of which silence may leave out some."""
    told = re.search(rb"^(?:render\.wav and render\.marks take|the media take at most) (\d+) bytes in all$", error, re.M)
    if not told:
        raise Mismatch(f"standard error doesn't say how much room is wanted: {error!r}")
    size = int(told[1])
    whole = sum(len(data) for name, data in files.items() if name.endswith((".wav", ".marks")))
    same(f"whether {size} bytes are told of {whole}", size == whole if command == "render" else whole <= size <= 2 * whole, True)


def marked_in(files: dict) -> int:
    """How many blocks are marked, where the marks are started."""
    marks = files.get("render.marks", b"")
    return marks[44:].count(1) if len(marks) >= 44 and marks[0] == 1 else 0


def goes_on(scene: Scene, words: list, whole: Outcome) -> None:
    """A rendering is gone on with from its marks, now that there is room; a consolidation is begun again."""
    if words[0] == "render":
        line = f"resumed {FRAMES - 1} frames {marked_in(scene.files())} blocks were marked\n"
        got = scene.run("resume", LIST, MEDIA, OUT, *EXACT.words("render"))
        same("what is printed once there is room", (got.status, got.output), (0, line.encode()))
    else:
        scene.empty_out()
        same("what is printed once there is room", scene.run(*words), whole)


def each_size(command: str, measure: str, *options: str):
    """The command on each disk that is too small by this measure, and gone on with once there is room."""
    def body(scene: Scene) -> None:
        put_cuts(scene)
        words = [*words_of(command, EXACT), *options]
        whole = scene.run(*words)
        same("the status of the unbroken command", whole.status, 0)
        files = scene.files()
        scene.empty_out()
        for size in count(1):
            with disk(scene, **{measure: size}):
                got = scene.run(*words)
                if got.status != 0:
                    check_full(got, scene.files())
                    check_room(command, got.error, files)
                    make_room(scene)
                    goes_on(scene, words, whole)
                same_files(scene.files(), files)
            if got.status == 0:
                break
        # a page for each file, or a file, and the folder's own
        same("whether there were too small ones", size > len(files), True)
    return body


def run(suite: Suite) -> None:
    for command in model.WRITING:
        suite.case(f"a disk of each size, {command}", each_size(command, "pages"))
        suite.case(f"a disk of each number of files, {command}", each_size(command, "files"))
    for measure, name in (("pages", "size"), ("files", "number of files")):
        suite.case(f"a disk of each {name}, consolidate --report", each_size("consolidate", measure, "--report"))
