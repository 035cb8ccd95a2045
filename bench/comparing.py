"""Comparing a project with its consolidation, beside `cmp` of the same files: 30 minutes, stereo, 24 bits."""

import shutil
import subprocess
import sys
from pathlib import Path

from measuring import Bench, Cut, Job, block_of, line, list_text, make_sound, table
from mixing import FRAMES, LAYERS, SECOND, SECONDS, crossfaded, cut_anew, layers

MIXES = {
    "one file": [Cut(0, 0, FRAMES)],
    "a thousand cuts": cut_anew(),
    "ten crossfades": crossfaded(),
    "two layers": layers(2),
    "one fade over all": [Cut(0, 0, FRAMES, FRAMES)],
    "sixteen layers": layers(LAYERS),
}
BLOCK = SECOND, 2, 24


def new_folder(bench: Bench) -> Path:
    return bench.folder / "new"


def consolidated(bench: Bench, text: Path) -> Path:
    """The list of a consolidation, which stays beside its media while jobs write to other folders."""
    folder = new_folder(bench)
    shutil.rmtree(folder, ignore_errors=True)
    folder.mkdir()
    subprocess.run([bench.program, "consolidate", text, bench.media(), folder], check=True, capture_output=True)
    return folder / "consolidated.adl"


def compare_job(bench: Bench, text: Path, other: Path) -> Job:
    return Job([bench.program, "compare", text, bench.media(), other, other.parent])


def cmp_of_copy(bench: Bench) -> Job:
    return Job(["cmp", bench.media() / "A.wav", bench.folder / "B.wav"])


def mix_line(bench: Bench, name: str, cuts: list) -> str:
    """A mix compared with its consolidation; beside it `cmp` of the source with a copy."""
    text = bench.put(list_text(cuts, channels="1~2"))
    jobs = {
        "compare": compare_job(bench, text, consolidated(bench, text)),
        "cmp": cmp_of_copy(bench),
    }
    costs = bench.costs_of(jobs)
    shutil.rmtree(new_folder(bench))
    return line(f"`compare`: {name} and its consolidation", costs["compare"], (costs["cmp"],))


def verify_line(bench: Bench) -> str:
    """A consolidation that is compared with its source before its line is printed, beside one that isn't."""
    words = bench.words("consolidate", bench.put(list_text([Cut(0, 0, FRAMES)], channels="1~2")))
    costs = bench.costs_of({"verified": Job([*words, "--verify"]), "consolidate": Job(words)})
    return line("`consolidate --verify`", costs["verified"], (costs["consolidate"],))


def other_media(bench: Bench) -> Path:
    folder = bench.folder / "other"
    folder.mkdir()
    return folder


def output_of(words: list) -> str:
    return subprocess.run(words, capture_output=True, text=True).stdout


def other_line(bench: Bench, other: Path, name: str, wanted: str, told: str, cmp: Job) -> str:
    """The whole file compared with the one in another folder, which has to be answered so; and beside it `cmp`."""
    text = bench.put(list_text([Cut(0, 0, FRAMES)], channels="1~2"))
    words = [bench.program, "compare", text, bench.media(), text, other]
    found = output_of(words)
    if found != f"{wanted}\n":
        sys.exit(f"bench: {told}, and compare says {found}")
    status = 0 if wanted.startswith("same") else 1
    costs = bench.costs_of({"compare": Job(words, status=status), "cmp": cmp})
    shutil.rmtree(other)
    return line(f"`compare`: {name}", costs["compare"], (costs["cmp"],))


def other_depth(bench: Bench, bits: int) -> str:
    """The same sound in a file of other bits, whose bytes are others; beside it `cmp` of the source with a copy."""
    other = other_media(bench)
    make_sound(other / "A.wav", block_of(SECOND, 2, bits), SECONDS, 2, bits)
    return other_line(
        bench, other, f"one file and the same sound at {bits} bits", f"same {FRAMES} frames 2 channels",
        f"the sound is the same at {bits} bits", cmp_of_copy(bench))


def all_counted(bench: Bench) -> str:
    """Each sample differs, from the first one on, and is counted."""
    other = other_media(bench)
    block = block_of(*BLOCK)
    make_sound(other / "A.wav", block[6:] + block[:6], SECONDS, 2, 24)
    return other_line(
        bench, other, "each sample differs, and is counted", "differ at 00.00.00.00/0000 channel 1",
        "the first sample differs", cmp_of_copy(bench))


def last_sample(bench: Bench) -> str:
    """A difference in the very last sample."""
    other = other_media(bench)
    shutil.copy(bench.media() / "A.wav", other / "A.wav")
    with (other / "A.wav").open("r+b") as file:
        file.seek(-1, 2)
        file.write(b"\x55")
    cmp = Job(["cmp", bench.media() / "A.wav", other / "A.wav"], status=1)
    return other_line(
        bench, other, "the last sample differs", "differ at 00.29.59.24/1919 channel 2", "the last sample differs", cmp)


def lines(bench: Bench) -> list:
    source = bench.media() / "A.wav"
    make_sound(source, block_of(*BLOCK), SECONDS, 2, 24)
    shutil.copy(source, bench.folder / "B.wav")
    rows = [mix_line(bench, name, cuts) for name, cuts in MIXES.items()]
    rows += [other_depth(bench, 16), other_depth(bench, 32), last_sample(bench), all_counted(bench)]
    return [
        *table("Job", "Seconds", "Peak memory, KB", "Time to `cmp`"), *rows, "",
        *table("Job", "Seconds", "Peak memory, KB", "Time to `consolidate`"), verify_line(bench)]
