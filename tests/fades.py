"""Blocks that lie under one fade, which are faded where they were read."""

import random

import model
from harness import Cases, Scene, expect_answer
from model import BLOCK
from tables import data_chunk, format_chunk, riff_file

case = Cases()
run = case.run

MIDNIGHT = b"00.00.00.00/0000"
# A rise that ends in the third block, and a fall that begins in the fourth.
RISE, MIDDLE, FALL = 2 * BLOCK + 777, BLOCK + 333, 2 * BLOCK + 11


def faded(frames: int, channels: int) -> bytes:
    """One entry over all channels of the file A.wav, with both fades."""
    both = b"1" if channels == 1 else b"1~%d" % channels
    lines = [
        model.entry_line(1, 1, MIDNIGHT, MIDNIGHT, model.time_text(frames), both, both),
        model.fade_line(b"Infade", RISE), model.fade_line(b"Outfade", FALL)]
    return model.list_text([model.source_line(1, "A.wav", MIDNIGHT)], [b"\n".join(lines)])


def any_samples(count: int, depth: int) -> list:
    """Any samples of a depth, and each of its ends and what lies next to zero many times."""
    dice = random.Random(depth)
    top = 2 ** (depth - 1) - 1
    edges = (-top - 1, -top, top, -1, 0, 1)
    return [dice.choice(edges) if dice.random() < 0.3 else dice.randint(-top - 1, top) for _ in range(count)]


def expect_faded(scene: Scene, channels: int, depth: int, into: int) -> None:
    frames = RISE + MIDDLE + FALL
    samples = any_samples(frames * channels, depth)
    media = {"A.wav": riff_file(format_chunk(channels=channels, bits=depth), data_chunk(samples, depth))}
    text = faded(frames, channels)
    options = model.Options(depth=into)
    scene.put(text, media)
    expect_answer(scene, "render", model.answer("render", text, media, options), options)


for each_depth in (16, 24, 32):
    for each_count in (1, 2, 3):
        @case(f"{each_count} channels of {each_depth} bits under long fades")
        def at_its_depth(scene: Scene, channels: int = each_count, depth: int = each_depth) -> None:
            """At the depth of the file each sample is its share, rounded."""
            expect_faded(scene, channels, depth, depth)

    @case(f"{each_depth} bits under long fades at other depths")
    def at_others(scene: Scene, depth: int = each_depth) -> None:
        """At another depth the shares are rounded to that one."""
        for into in {16, 24, 32} - {depth}:
            expect_faded(scene, 2, depth, into)
            scene.empty_out()
