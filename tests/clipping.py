"""What standard error says of samples that are clipped, and that the count is that of ffmpeg."""

import math
import re
import shutil
import subprocess

import model
from harness import (
    LIST, MEDIA, OUT, TIMEOUT, Cases, Mismatch, Scene, Skipped, expect_answer, preloaded, same, same_outcome,
)
from model import BLOCK
from tables import data_chunk, format_chunk, riff_file

case = Cases()
run = case.run

MIDNIGHT = b"00.00.00.00/0000"
LAYERS = 40
SECOND = 48_000
TOP = 2 ** 23 - 1


def stored(samples: list, channels: int = 1, depth: int = 24) -> bytes:
    return riff_file(format_chunk(channels=channels, bits=depth), data_chunk(samples, depth))


def layered(count: int, frames: int, channels: int = 1, begin: int = 0) -> bytes:
    """A list that plays the file A.wav so many times at once."""
    both = b"1" if channels == 1 else b"1~%d" % channels
    entries = [
        model.entry_line(
            number, 1, MIDNIGHT, model.time_text(begin), model.time_text(begin + frames), both, both)
        for number in range(1, count + 1)]
    return model.list_text([model.source_line(1, "A.wav", MIDNIGHT)], entries)


def tone(frames: int) -> list:
    """A tone of -6 dB on both channels, of 997 Hz."""
    samples = [round(TOP / 2 * math.sin(2 * math.pi * 997 * place / SECOND)) for place in range(frames)]
    return [sample for sample in samples for _ in range(2)]


def expect_line(scene: Scene, text: bytes, samples: list, line: str, options: model.Options, channels: int = 1) -> None:
    """The rendering says this of what is clipped, and so does the model."""
    media = {"A.wav": stored(samples, channels)}
    scene.put(text, media)
    wanted = model.answer("render", text, media, options)
    same("the line of the model", wanted.clipped, line)
    expect_answer(scene, "render", wanted, options)


@case("full scale isn't clipped")
def at_full_scale(scene: Scene) -> None:
    """The ends of a depth themselves aren't clipped, whether bytes go straight through or are summed."""
    samples = [TOP, -TOP - 1, 0, 5]
    expect_line(scene, layered(1, 4), samples, "", model.Options(depth=24))
    scene.empty_out()
    expect_line(scene, layered(1, 4), samples, "", model.Options(depth=32))


@case("one more than full scale is clipped")
def one_more(scene: Scene) -> None:
    """One above full scale is, and one below it; the first is named by its time and channel."""
    samples = [1, 1, 2 ** 22, 5, 2, -2 ** 22 - 1, -2 ** 22, 2 ** 22 - 1]
    line = (
        "clipped: 2 samples on channels 1 and 2, the first at 01.00.00.00/0001 on channel 1; the loudest sum is 0.0 dB above "
        "full scale\n")
    expect_line(scene, layered(2, 4, 2, 3600 * SECOND), samples, line, model.Options(depth=24), 2)


@case("what is rounded above full scale is clipped")
def rounded_up(scene: Scene) -> None:
    """What is below full scale and rounded above it is clipped at the depth that it is rounded to."""
    line = (
        "clipped: 1 sample on channel 1, the first at 00.00.00.00/0002 on channel 1; the loudest sum is 0.0 dB above full "
        "scale\n")
    expect_line(scene, layered(1, 4), [0, 1, TOP, -TOP - 1], line, model.Options(depth=16))


@case("the last sample of the last block is clipped")
def in_the_last_block(scene: Scene) -> None:
    """The last sample of a last block that is short, of a rendering of several jobs of many blocks."""
    frames = 70 * BLOCK + 9
    samples = [0] * (frames - 1) + [2 ** 22]
    at = model.time_text(frames - 1).decode()
    line = f"clipped: 1 sample on channel 1, the first at {at} on channel 1; the loudest sum is 0.0 dB above full scale\n"
    expect_line(scene, layered(2, frames), samples, line, model.Options(depth=24))


def peak_counts(path) -> list:
    """How often ffmpeg finds the peak on each channel."""
    if not shutil.which("ffmpeg"):
        raise Skipped("ffmpeg isn't installed (Debian package ffmpeg)")
    done = subprocess.run(
        ["ffmpeg", "-v", "info", "-nostats", "-i", path, "-af", "astats", "-f", "null", "-"], capture_output=True, text=True,
        timeout=TIMEOUT, check=True)
    return [round(float(count)) for count in re.findall(r"Peak count: ([0-9.]+)", done.stderr)[:2]]


@case("as many samples are clipped as ffmpeg counts")
def as_ffmpeg_counts(scene: Scene) -> None:
    """Forty layers of a tone: the samples at the ends of 24 bits, none of which is there unclipped."""
    frames = 10 * SECOND
    scene.put(layered(LAYERS, frames, 2), {"A.wav": stored(tone(frames), 2)})
    got = scene.run("render", LIST, MEDIA, OUT)
    told = re.fullmatch(
        rb"clipped: (\d+) samples on channels 1 and 2, the first at 00\.00\.00\.00/0001 on channel 1; the loudest sum is "
        rb"26\.0 dB above full scale\n", got.error)
    if not told:
        raise Mismatch(f"standard error has {got.error!r}")
    same("the count", int(told[1]), sum(peak_counts(scene.folder / OUT / "render.wav")))


@case("a resumed rendering speaks of its own blocks")
def resumed(scene: Scene) -> None:
    """A rendering that was stopped speaks of the blocks that it rendered itself: those that weren't marked."""
    blocks = 80
    samples = [2 ** 22] * (blocks * BLOCK)
    scene.put(layered(2, blocks * BLOCK), {"A.wav": stored(samples)})
    environment = preloaded(scene)
    whole = scene.run("render", LIST, MEDIA, OUT)
    same("the whole", whole.error.decode().split(" samples")[0], f"clipped: {blocks * BLOCK}")
    for write in (9, 12, 15):
        scene.empty_out()
        scene.run("render", LIST, MEDIA, OUT, env={**environment, "KILL_WRITE": str(write)})
        got = scene.run("resume", LIST, MEDIA, OUT)
        marked = int(re.search(rb"frames (\d+) blocks", got.output)[1])
        rest = blocks - marked
        line = (
            f"clipped: {rest * BLOCK} samples on channel 1, the first at {model.time_text(marked * BLOCK).decode()} on "
            "channel 1; the loudest sum is 0.0 dB above full scale (of the blocks that were rendered now)\n")
        same_outcome(
            got, 0, f"resumed {blocks * BLOCK} frames {marked} blocks were marked", clipped=line if rest else "")
