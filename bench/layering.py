"""Layers of one block on all 64 channels: each further one has to cost the same."""

import random
import sys
from pathlib import Path

from measuring import HEAD, Bench, Cost, Cut, Job, block_of, finished, list_text, make_sound, table

CHANNELS = 64
BLOCK = 4096
COUNTS = (2000, 4000, 8000, 16_000)
SPOTS = 10_000
UNIT = 2 ** 32
SAMPLE_BYTES = 3


def expect_sums(path: Path, layers: int, block: bytes) -> None:
    """At random samples the file has so many times the sample of the source, clipped to 24 bits."""
    sound = path.read_bytes()[HEAD:]
    dice = random.Random(1)
    for _ in range(SPOTS):
        number = dice.randrange(BLOCK * CHANNELS)
        sample = int.from_bytes(block[2 * number:2 * number + 2], "little", signed=True)
        expected = finished(layers * sample * UNIT, 24).to_bytes(SAMPLE_BYTES, "little", signed=True)
        if sound[SAMPLE_BYTES * number:SAMPLE_BYTES * (number + 1)] != expected:
            sys.exit(f"bench: {path.name} has another sum of {layers} layers at sample {number}")


def layers_job(bench: Bench, layers: int, block: bytes) -> Job:
    def look(out: Path) -> None:
        expect_sums(out / "render.wav", layers, block)

    text = bench.put(list_text([Cut(0, 0, BLOCK)] * layers, channels=f"1~{CHANNELS}"))
    return Job(bench.words("render", text, "--depth", "24"), look)


def row(layers: int, cost: Cost) -> str:
    each = cost.seconds / layers * 1000
    return f"| {layers:,} | {cost.seconds:.3f} | {cost.kilobytes:,} | {each:.3f} |"


def lines(bench: Bench) -> list:
    block = block_of(BLOCK, CHANNELS, 16)
    make_sound(bench.media() / "A.wav", block, 1, CHANNELS)
    rows = table("Layers in a block of 64 channels, 16 bits", "Seconds", "Peak memory, KB", "Seconds a thousand")
    for layers in COUNTS:
        rows.append(row(layers, bench.costs_of({"render": layers_job(bench, layers, block)})["render"]))
    return rows
