"""A rendering in parts on all processors, joined, beside a single one."""

import hashlib
import os
import sys
from pathlib import Path

from measuring import TOP, Bench, Cut, Job, block_of, expect_mix, line, list_text, make_sound, table, time_text

SECOND = 48_000
SECONDS = 1800
LAYERS = 16
FRAMES = SECOND * (SECONDS - LAYERS)
MAKEFILE = TOP / "examples" / "many_machines" / "Makefile"


def same_files(seen: set, cuts: list, block: bytes):
    """All jobs write the same file, with the exact sums."""
    def look(out: Path) -> None:
        expect_mix(out / "render.wav", cuts, block, 2, 24)
        with (out / "render.wav").open("rb") as file:
            seen.add(hashlib.file_digest(file, "sha256").digest())
        if len(seen) != 1:
            sys.exit("bench: the joined file is another one than that of a single rendering")
    return look


def spread(bench: Bench, text: Path, processors: int) -> list:
    """The words of make: twice as many parts as processors, in the folder of the output."""
    settings = {
        "LIST": text, "MEDIA": bench.media(), "WORK": bench.out(), "ADLCONS": bench.program, "CHANNELS": 2,
        "FROM": time_text(0), "TO": time_text(FRAMES), "PARTS": 2 * processors,
    }
    return ["make", f"-j{processors}", "-f", MAKEFILE, *(f"{name}={value}" for name, value in settings.items())]


def lines(bench: Bench) -> list:
    block = block_of(SECOND, 2, 24)
    make_sound(bench.media() / "A.wav", block, SECONDS, 2, 24)
    cuts = [Cut(SECOND * place, 0, FRAMES) for place in range(LAYERS)]
    text = bench.put(list_text(cuts, channels="1~2"))
    processors = len(os.sched_getaffinity(0))
    look = same_files(set(), cuts, block)
    costs = bench.costs_of({
        "one": Job(bench.words("render", text), look), "spread": Job(spread(bench, text, processors), look)})
    return [
        *table("Sixteen layers, 30 minutes, stereo, 24 bits", "Seconds", "Peak memory, KB", "Time to one rendering"),
        line("one rendering", costs["one"], (None,)),
        line(f"in {2 * processors} parts on {processors} processors, joined", costs["spread"], (costs["one"],)),
    ]
