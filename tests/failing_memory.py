"""Each allocation of a command fails in turn: it is refused for want of memory, with nothing written, or it is done."""

import re
import subprocess
from itertools import count
from pathlib import Path

import model
from harness import (
    LIST, MEDIA, TIMEOUT, Mismatch, Outcome, Scene, Skipped, Suite, preloaded, same, same_files, words_of,
)
from tables import data_chunk, format_chunk, riff_file, wave

MIDNIGHT = b"00.00.00.00/0000"
OPTIONS = model.Options(handle=0, depth=16)
# The refusals for want of memory.
MEMORY = {18, 31, 45, 47, 51, 54, 56, 57, 60, 63, 69}
# Those that a command meets, in the order of its allocations. First the bytes of the list, the passes of a consolidation,
# the text of the list, a file, and the pieces of the entries. Then a consolidation needs memory for its passes, the runs of
# kept frames, the new list, the ends of the jobs of each run, and the jobs; a rendering for its plan, its marks, the jobs
# and its worker.
MET = {
    "check": [18, 31],
    "consolidate": [18, 51, 18, 31, 47, 51, 54, 56, 54, 60],
    "render": [18, 31, 47, 57, 69, 60, 57],
    "resume": [18, 31, 47, 57, 69, 60, 57],
}
# With a report, whose text is made before the jobs.
REPORTED = [18, 51, 18, 31, 47, 51, 54, 56, 54, 56, 60]
# A device that has no memory for a name fails.
DEVICES = {20: b" at file OUT", 22: b" at index 1 file A.wav", 52: b"", 62: b" at file "}
REFUSED = re.compile(rb"refused (\d\d)([^\n]*)\n")
COMPARED = re.compile(rb"refused (\d\d)[^\n]* in list [12]\n")
# How a written file without CodingHistory begins, and a mono block of 16 bits.
HEAD = 690
BLOCK = 8_192
# The tests of the libraries, as they are built, of which those of memory make something by events.
TRIALS = Path(__file__).resolve().parent.parent / "crates/trials_lists/out/trials_lists_tests"
BY_EVENTS = {
    "a_consolidation_by_events": {18, 31, 47, 51, 54, 56, 60, 62},
    "a_rendering_by_events": {18, 31, 47, 57, 60, 62, 69},
    "a_rendering_that_goes_on": {18, 31, 47, 57, 60, 62, 69},
}


def fading(scene: Scene) -> None:
    """An entry of two channels with both fades, whose middle is silent: two media."""
    sounding = [sample for _ in range(4) for sample in (0, 100)]
    samples = [*sounding, *[0] * 8, *sounding]
    media = {"A.wav": riff_file(format_chunk(channels=2), data_chunk(samples))}
    entry = model.entry_line(1, 1, MIDNIGHT, MIDNIGHT, model.time_text(12), b"1~2", b"1~2")
    lines = [entry, model.fade_line(b"Infade", 4), model.fade_line(b"Outfade", 4)]
    scene.put(model.list_text([model.source_line(1, "A.wav", MIDNIGHT)], lines), media)


def three_blocks(scene: Scene) -> None:
    """An entry of three blocks."""
    entry = model.entry_line(1, 1, MIDNIGHT, MIDNIGHT, model.time_text(12_000))
    scene.put(model.list_text([model.source_line(1, "A.wav", MIDNIGHT)], [entry]), {"A.wav": wave(range(12_000))})


def nothing(_: Scene) -> dict:
    """A command begins with an empty output."""
    return {}


def half_done(scene: Scene) -> dict:
    """The files of a rendering whose first block is marked, and whose others are still zero."""
    scene.run(*words_of("render", OPTIONS))
    files = scene.files()
    sound, marks = bytearray(files["render.wav"]), bytearray(files["render.marks"])
    sound[HEAD + BLOCK:] = bytes(len(sound) - HEAD - BLOCK)
    marks[45:] = bytes(len(marks) - 45)
    return {"render.wav": bytes(sound), "render.marks": bytes(marks)}


def number_of(got: Outcome, written: dict, begun: dict, whole: tuple) -> int:
    """The number of the refusal, or 0 where it is done all the same; 2 where the words find no memory."""
    if got.status == 0:
        same("what is printed", got.output, whole[0])
        same_files(written, whole[1])
        return 0
    told = REFUSED.fullmatch(got.output)
    if got.status == 2:
        same("what is printed", got.output, b"")
    elif got.status != 1 or not told:
        raise Mismatch(f"status {got.status}, {got.output!r} and {got.error!r}")
    number, place = (int(told[1]), told[2]) if told else (2, b"")
    if number in DEVICES:
        same("where it is refused", place.startswith(DEVICES[number]), True)
    elif number not in {2} | MEMORY:
        raise Mismatch(f"refused {number}{place.decode()}")
    if number != 62:
        same_files(written, begun)
    elif place != b" at file consolidated.adl":
        same("whether a list is there", "consolidated.adl" in written, False)
    return number


def in_order(numbers: list) -> list:
    """The refusals for want of memory in the order of the allocations that fail, each once where several follow one
    another."""
    refused = [number for number in numbers if number in MEMORY]
    return [number for place, number in enumerate(refused) if place == 0 or refused[place - 1] != number]


def each_allocation(command: str, put, before=nothing, more: tuple = ()):
    def body(scene: Scene) -> None:
        put(scene)
        begun = before(scene)
        scene.put_out(begun)
        log = scene.folder / "log"
        words = [command, *words_of("render" if command == "resume" else command, OPTIONS)[1:], *more]
        done = scene.run(*words)
        same("the status of the unbroken command", done.status, 0)
        whole = (done.output, scene.files())
        environment = preloaded(scene, ALLOC_LOG=str(log))
        numbers = []
        for fails in count(1):
            scene.put_out(begun)
            log.unlink(missing_ok=True)
            got = scene.run(*words, env={**environment, "ALLOC_FAILS": str(fails)})
            try:
                numbers.append(number_of(got, scene.files(), begun, whole))
            except Mismatch as fault:
                raise Mismatch(f"allocation {fails} of {command} failed: {fault}") from fault
            if not log.exists():
                break
        same("the refusals, in their order", in_order(numbers), REPORTED if more else MET[command])
    return body


def each_failing(scene: Scene, words: list):
    """What a command prints and writes where each of its allocations fails in turn."""
    log = scene.folder / "log"
    environment = preloaded(scene, ALLOC_LOG=str(log))
    for fails in count(1):
        scene.empty_out()
        log.unlink(missing_ok=True)
        got = scene.run(*words, env={**environment, "ALLOC_FAILS": str(fails)})
        if not log.exists():
            return
        yield got, scene.files()


def compared(scene: Scene) -> None:
    """A comparison is refused with its list, or answered as ever; a mistake in the words where these find no memory."""
    fading(scene)
    other = scene.folder / "M2"
    other.mkdir()
    (other / "A.wav").write_bytes(riff_file(format_chunk(channels=2), data_chunk([1] * 24)))
    words = ["compare", LIST, MEDIA, LIST, "M2"]
    done = scene.run(*words)
    same("the unbroken answer", (done.status, done.output), (1, b"differ at 00.00.00.00/0001 channel 1\n"))
    numbers = set()
    for got, _ in each_failing(scene, words):
        refused = COMPARED.fullmatch(got.output)
        if not refused and (got.status, got.output) not in ((1, done.output), (2, b"")):
            raise Mismatch(f"status {got.status}, {got.output!r} and {got.error!r}")
        numbers.add(int(refused[1]) if refused else got.status)
    same("the refusals", numbers - MEMORY - set(DEVICES), {1, 2})


def verified(scene: Scene) -> None:
    """A consolidation that is compared is refused with nothing written; or all is there, and it isn't compared; or it is
    done."""
    fading(scene)
    words = [*words_of("consolidate", OPTIONS), "--verify"]
    done, whole = scene.run(*words), scene.files()
    same("the unbroken status", done.status, 0)
    numbers = set()
    for got, files in each_failing(scene, words):
        refused = COMPARED.fullmatch(got.output)
        if refused or (files == whole and got.output == b"refused 18\n"):
            same("the status", got.status, 1)
            same_files(files, whole)
            numbers.add(int(refused[1]) if refused else 18)
        else:
            number_of(got, files, {}, (done.output, whole))
    same("whether what is refused is there", bool(numbers), True)
    same("the refusals", numbers - MEMORY - set(DEVICES), set())


def each_allocation_of_test(name: str, met: set):
    """A test of the library goes well, and tells the refusal that it saw; or it has no memory for itself."""
    def body(scene: Scene) -> None:
        if not TRIALS.exists():
            raise Skipped("the tests of trials_lists aren't built (rt test in its folder)")
        log = scene.folder / "log"
        environment = preloaded(scene, ALLOC_LOG=str(log))
        numbers = set()
        for fails in count(1):
            log.unlink(missing_ok=True)
            got = subprocess.run(
                [TRIALS, f"tests::memory::{name}"], cwd=scene.folder, env={**environment, "ALLOC_FAILS": str(fails)},
                capture_output=True, timeout=TIMEOUT)
            if got.returncode != 0 and not got.stderr.startswith((b"error: Alloc", b"error: Memory\n")):
                raise Mismatch(f"allocation {fails} failed: {got.stdout!r} and {got.stderr!r}")
            numbers.update(map(int, re.findall(rb"refused (\d+)", got.stdout)))
            if not log.exists():
                break
        same("the refusals that are met", numbers, met)
    return body


def run(suite: Suite) -> None:
    suite.case("each allocation of check fails", each_allocation("check", fading))
    suite.case("each allocation of consolidate fails", each_allocation("consolidate", fading))
    suite.case("each allocation of consolidate with a report fails",
               each_allocation("consolidate", fading, more=("--report",)))
    suite.case("each allocation of a consolidation that is compared fails", verified)
    suite.case("each allocation of compare fails", compared)
    suite.case("each allocation of render fails", each_allocation("render", three_blocks))
    suite.case("each allocation of resume fails", each_allocation("resume", three_blocks, half_done))
    for name, met in BY_EVENTS.items():
        suite.case(f"each allocation of {name.replace('_', ' ')} fails", each_allocation_of_test(name, met))
