"""How far a command has come: shown on a terminal while it works for longer than a second, and nowhere else.

The program is run by a clock of its own, on which nothing but reads and writes takes time: each shown line is known.
"""

import os
import pty
import re
import select
import subprocess

import model
from harness import (
    EXPLANATION, LIST, MEDIA, OUT, SAVED, TIMEOUT, Cases, Mismatch, Outcome, Scene, preloaded, same, same_outcome,
    same_shape, words_of,
)
from tables import wave

case = Cases()
run = case.run

BLOCK = 4096
BLOCKS = 10
MANY_BLOCKS = 40
MARKED = 4
STRETCHES = 20
STRETCH = 100
SILENT = 24
PIECES = 16
PIECE = 65_536
EXACT = model.Options(handle=0)
# Each write or read takes a second, so that each job comes later than the line may be shown again.
SLOW = {"SLOW": "1000000"}
SLOW_READS = {"SLOW_READS": "1000000"}
# A block is written and marked in a twentieth of a second: the line may be shown again after two of them.
QUICK = {"SLOW": "25000"}
LOOKED = rb"\r(\d+) %%: (\d+) of %d frames looked at for silence\x1b\[K"
LINE = rb"\r(\d+) %%: (\d+) of %d frames\x1b\[K"
# That of a rendering stays on the terminal where Ctrl-C ends the program, and says what goes on then.
RENDERING = rb"\r(\d+) %%: (\d+) of %d frames \(if stopped, adlcons resume goes on\)\x1b\[K"
READ = rb"\r(\d+) %%: (\d+) of %d bytes of A\.wav\x1b\[K"
# A source is read by the head of its form, and then by blocks, longer ones where chunks lie close together.
# The head of a file; the heads of chunks that are read one by one; what is read at once behind them, and how often.
FORM, HEADS, AHEAD = 12, [8 * count for count in range(1, 65)], 16_384
FAR = 3
CLEARED = rb"\r\x1b\[K"
CLEAR = b"\r\x1b[K"


def on_terminal(scene: Scene, words: list, **how) -> Outcome:
    """Runs the program with a terminal as its standard error."""
    terminal, its_end = pty.openpty()
    shown = b""
    with subprocess.Popen(
            [scene.program, *words], cwd=scene.folder, stdin=subprocess.DEVNULL, stdout=subprocess.PIPE,
            stderr=its_end, **how) as process:
        os.close(its_end)
        while select.select([terminal], [], [], TIMEOUT)[0]:
            try:
                shown += os.read(terminal, 65536)
            except OSError:
                break
        output = process.communicate(timeout=TIMEOUT)[0]
    os.close(terminal)
    return Outcome(process.returncode, output, shown.replace(b"\r\n", b"\n"))


def counts_in(shown: bytes, line: bytes, whole: int) -> list:
    """How many frames the lines tell, in turn, each with its hundredths."""
    told = [tuple(map(int, each)) for each in re.findall(line % whole, shown)]
    for percent, done in told:
        same(f"the hundredths of {done} frames", percent, done * 100 // whole)
    return [done for _, done in told]


def without_lines(shown: Outcome, whole: int, counts: list, line: bytes = LINE) -> Outcome:
    """What a terminal got besides the lines that tell how far the work has come. These tell just so many frames, and
    are taken off before anything else is told."""
    found = re.fullmatch(rb"((?:%s)+)%s([^\r]*)" % (line % whole, CLEARED), shown.error)
    if not found:
        raise Mismatch(f"no line that is taken off again: {shown.error!r}")
    same("the frames that are told", counts_in(found.group(1), line, whole), counts)
    return shown._replace(error=found.group(4))


def multiples(step: int, last: int, first: int = 1) -> list:
    return [step * count for count in range(first, last + 1)]


def put_sound(scene: Scene, frames: int = BLOCKS * BLOCK) -> int:
    """A list that plays all of a file of so many frames, few enough that each block is a job; these frames."""
    nothing = b"00.00.00.00/0000"
    text = model.list_text(
        [model.source_line(1, "A.wav", nothing)],
        [model.entry_line(1, 1, nothing, nothing, model.time_text(frames))])
    scene.put(text, {"A.wav": wave([1 + place % 1000 for place in range(frames)])})
    return frames


def put_stretches(scene: Scene) -> int:
    """A list that plays some stretches of a file, each of which becomes a medium; their frames."""
    entries = [
        model.entry_line(number + 1, 1, *(
            model.time_text(time) for time in (2 * STRETCH * number, STRETCH * number, STRETCH * (number + 1))))
        for number in range(STRETCHES)
    ]
    media = {"A.wav": wave([1 + place % 1000 for place in range(2 * STRETCH * STRETCHES)])}
    scene.put(model.list_text([model.source_line(1, "A.wav", b"00.00.00.00/0000")], entries), media)
    return STRETCH * STRETCHES


@case("progress of a rendering")
def rendering(scene: Scene) -> None:
    """Each job is told, and nothing where standard error is no terminal."""
    frames = put_sound(scene)
    line = f"rendered {frames} frames 1 channels"
    environment = preloaded(scene, **SLOW)
    shown = on_terminal(scene, words_of("render"), env=environment)
    same_outcome(without_lines(shown, frames, multiples(BLOCK, BLOCKS), RENDERING), 0, line)
    scene.empty_out()
    same_outcome(scene.run(*words_of("render"), env=environment), 0, line)


@case("progress, ten times a second")
def ten_a_second(scene: Scene) -> None:
    """The line is shown once a second has passed, and then as soon as a tenth of a second has."""
    frames = put_sound(scene, MANY_BLOCKS * BLOCK)
    shown = on_terminal(scene, words_of("render"), env=preloaded(scene, **QUICK))
    counts = counts_in(shown.error, RENDERING, frames)
    first = counts[0] // BLOCK
    same("whether the first line comes with a second's blocks", MANY_BLOCKS // 4 < first <= MANY_BLOCKS // 2, True)
    rest = without_lines(shown, frames, list(range(counts[0], frames + 1, 2 * BLOCK)), RENDERING)
    same_outcome(rest, 0, f"rendered {frames} frames 1 channels")


@case("progress of a rendering that goes on")
def resumed(scene: Scene) -> None:
    """What was marked is counted from the first line on."""
    frames = put_sound(scene)
    same("the status", scene.run(*words_of("render")).status, 0)
    path = scene.folder / OUT / "render.marks"
    head = path.read_bytes()[:model.FRONT]
    path.write_bytes(head + b"\1" * MARKED + bytes(BLOCKS - MARKED))
    shown = on_terminal(scene, words_of("resume"), env=preloaded(scene, **SLOW))
    rest = without_lines(shown, frames, multiples(BLOCK, BLOCKS, MARKED + 1), RENDERING)
    same_outcome(rest, 0, f"resumed {frames} frames {MARKED} blocks were marked")


@case("progress of a consolidation")
def consolidation(scene: Scene) -> None:
    frames = put_stretches(scene)
    line = f"written {STRETCHES} media {STRETCHES} entries"
    words, environment = words_of("consolidate", EXACT), preloaded(scene, **SLOW)
    shown = on_terminal(scene, words, env=environment)
    same_outcome(without_lines(shown, frames, multiples(STRETCH, STRETCHES)), 0, line)
    scene.empty_out()
    same_outcome(scene.run(*words, env=environment), 0, line)


@case("progress within a medium")
def long_medium(scene: Scene) -> None:
    """A single medium is seen to come piece by piece."""
    frames = put_sound(scene, PIECES * PIECE)
    shown = on_terminal(scene, words_of("consolidate", EXACT), env=preloaded(scene, **SLOW))
    same_outcome(without_lines(shown, frames, multiples(PIECE, PIECES)), 0, "written 1 media 1 entries")


@case("progress of a search for silence")
def looking_for_silence(scene: Scene) -> None:
    """A single entry that sounds in its last frame alone is seen to be looked at, and then its medium to come."""
    frames = SILENT * BLOCK
    nothing = b"00.00.00.00/0000"
    text = model.list_text(
        [model.source_line(1, "A.wav", nothing)],
        [model.entry_line(1, 1, nothing, nothing, model.time_text(frames))])
    source = wave([0] * (frames - 1) + [1])
    scene.put(text, {"A.wav": source})
    shown = on_terminal(scene, words_of("consolidate", EXACT), env=preloaded(scene, **SLOW_READS))
    same("the blocks that are looked at", counts_in(shown.error, LOOKED, frames), multiples(BLOCK, SILENT))
    rest = re.sub(LOOKED % frames, b"", re.sub(READ % len(source), b"", shown.error))
    rest = without_lines(shown._replace(error=rest), frames, [PIECE, frames])
    same_outcome(rest, 0, "written 1 media 1 entries")


@case("progress of a comparison")
def comparing(scene: Scene) -> None:
    """Each block that is the same is reported; of a difference the answer comes before the samples are counted."""
    frames = put_sound(scene)
    words, environment = ["compare", LIST, MEDIA, LIST, MEDIA], preloaded(scene, **SLOW_READS)
    shown = on_terminal(scene, words, env=environment)
    size = (scene.folder / MEDIA / "A.wav").stat().st_size
    rest = shown._replace(error=re.sub(READ % size, b"", shown.error))
    same_outcome(without_lines(rest, frames, multiples(BLOCK, BLOCKS)), 0, f"same {frames} frames 1 channels")
    other = scene.folder / "M2"
    other.mkdir()
    (other / "A.wav").write_bytes(wave([1 + place % 1000 for place in range(frames - 2)] + [0, 0]))
    shown = on_terminal(scene, [*words[:-1], "M2"], env=environment)
    before, after = shown.error.split(b"list 1 has", 1)
    same("the blocks before the difference", counts_in(before, LINE, frames), multiples(BLOCK, BLOCKS - 1))
    same_shape("what is reported of it", after, r"[^\r]*\r100 %: 2 of 2 frames\x1b\[K\r\x1b\[Ksamples that differ: 2 on channel 1\n")


@case("progress of a search for chunks")
def looking_for_chunks(scene: Scene) -> None:
    """The bytes of a source up to which its chunks were looked for, before the refusal is explained; and nothing where
    standard error is no terminal."""
    put_sound(scene)
    whole = FORM + HEADS[-1] + FAR * AHEAD
    (scene.folder / MEDIA / "A.wav").write_bytes(b"RIFF\0\0\0\0WAVE".ljust(whole, b"\0"))
    environment = preloaded(scene, **SLOW_READS)
    shown = on_terminal(scene, words_of("check"), env=environment)
    same("the bytes", counts_in(shown.error, READ, whole),
         [FORM, *(FORM + head for head in HEADS), *(FORM + HEADS[-1] + far for far in multiples(AHEAD, FAR))])
    rest = re.sub(READ % whole, b"", shown.error)
    same("the line, which is taken off", rest[:len(CLEAR)], CLEAR)
    same_outcome(shown._replace(error=rest[len(CLEAR):]), 1, "refused 24 at index 1 file A.wav")
    same_outcome(scene.run(*words_of("check"), env=environment), 1, "refused 24 at index 1 file A.wav")


@case("progress before a refusal")
def refused(scene: Scene) -> None:
    """Where a job fails later on, the line is taken off before the refusal is explained."""
    frames = put_sound(scene)
    shown = on_terminal(scene, words_of("render"), env=preloaded(scene, WRITE_FAILS=str(BLOCKS), **SLOW))
    done = counts_in(shown.error, RENDERING, frames)
    rest = without_lines(shown, frames, multiples(BLOCK, max(1, len(done))), RENDERING)
    same_shape("the explanation", rest.error, EXPLANATION % 66)
    same("the answer", (rest.output, rest.status), (b"refused 66 at job %d\n" % len(done), 1))


@case("progress of short work")
def short(scene: Scene) -> None:
    """What is done within a second shows nothing, on a terminal either."""
    environment = preloaded(scene, **QUICK)
    put_sound(scene)
    same("the terminal", on_terminal(scene, words_of("render"), env=environment).error, b"")
    scene.empty_out()
    put_stretches(scene)
    environment = preloaded(scene, SLOW="5000")
    same_shape("the terminal", on_terminal(scene, words_of("consolidate", EXACT), env=environment).error, SAVED)
