"""Runs jobs and counts what they cost; lists and sound files for them."""

import os
import random
import resource
import shutil
import struct
import subprocess
import sys
import time
from itertools import count
from pathlib import Path
from typing import Callable, Iterable, NamedTuple, Optional

TOP = Path(__file__).resolve().parent.parent
MOST_RUNS = 5
LONG_ENOUGH = 8
MANY_FILES = 100
SPOTS = 1000
FULL_DEPTH = 48
RATE = 48_000
HEAD = 690


class Cost(NamedTuple):
    """Seconds by the clock and of processors, and the peak of memory."""
    seconds: float
    processor: float
    kilobytes: int


class Job(NamedTuple):
    """The words of a command, how to look at what it wrote, the status it has to end with, and what is put into the
    folder of its output before."""
    words: list
    look: Optional[Callable] = None
    status: int = 0
    prepare: Optional[Callable] = None


class Bench(NamedTuple):
    """The program, a folder to work in, and the words that let a command sync nothing."""
    program: Path
    folder: Path
    unsynced: list

    def media(self) -> Path:
        folder = self.folder / "media"
        folder.mkdir(exist_ok=True)
        return folder

    def out(self) -> Path:
        return self.folder / "out"

    def put(self, text: str) -> Path:
        path = self.folder / "list.adl"
        path.write_text(text)
        return path

    def empty_out(self) -> None:
        """Makes the folder of the output empty. One of many files is put aside and not deleted: ext4 seeks long for the
        inode of a new file where many were deleted in the last minute, so that the next command would pay for it."""
        out = self.out()
        if out.exists() and len(os.listdir(out)) > MANY_FILES:
            out.rename(self.folder / f"out-{time.monotonic_ns()}")
        shutil.rmtree(out, ignore_errors=True)
        out.mkdir()

    def words(self, command: str, text: Path, *options: str) -> list:
        places = [text, self.media()] if command == "check" else [text, self.media(), self.out()]
        return [self.program, command, *places, *options]

    def costs_of(self, jobs: dict, most_runs: int = MOST_RUNS, long_enough: float = LONG_ENOUGH) -> dict:
        """The best cost of each job, by its name: they take turns, so that all meet the same machine. A job that has
        taken long enough isn't run again."""
        costs = {name: [] for name in jobs}
        for _ in range(most_runs):
            for name, job in jobs.items():
                if sum(cost.seconds for cost in costs[name]) < long_enough:
                    costs[name].append(self.cost_of(job))
        return {
            name: Cost(
                min(cost.seconds for cost in each), min(cost.processor for cost in each),
                max(cost.kilobytes for cost in each))
            for name, each in costs.items()
        }

    def cost_of(self, job: Job) -> Cost:
        """Runs a job once into an empty folder, or one that it prepares, with nothing of before still on its way to the
        disk."""
        self.empty_out()
        if job.prepare:
            job.prepare(self.out())
        os.sync()
        peak = self.folder / "peak"
        used = resource.getrusage(resource.RUSAGE_CHILDREN)
        begin = time.perf_counter()
        done = subprocess.run(
            ["time", "-q", "-f", "%M", "-o", peak, *job.words], stdout=subprocess.DEVNULL, stderr=subprocess.PIPE)
        seconds = time.perf_counter() - begin
        after = resource.getrusage(resource.RUSAGE_CHILDREN)
        processor = after.ru_utime - used.ru_utime + after.ru_stime - used.ru_stime
        if done.returncode != job.status:
            told = done.stderr.decode(errors="replace")[-400:]
            sys.exit(f"bench: {' '.join(map(str, job.words[:6]))} .. ends with status {done.returncode}: {told}")
        if job.look:
            job.look(self.out())
        return Cost(seconds, processor, int(peak.read_text()))


def bytes_read(words: list) -> int:
    """How many bytes a command reads, as the kernel counts them until it is waited for."""
    process = subprocess.Popen(words, stdout=subprocess.DEVNULL, stderr=subprocess.DEVNULL)
    os.waitid(os.P_PID, process.pid, os.WEXITED | os.WNOWAIT)
    counts = dict(line.split(": ") for line in Path(f"/proc/{process.pid}/io").read_text().splitlines())
    if process.wait():
        sys.exit(f"bench: {' '.join(map(str, words[:3]))} .. ends with status {process.returncode}")
    return int(counts["rchar"])


def without_syncs(folder: Path) -> list:
    """The words in front of a command that let it sync nothing."""
    library = folder / "preload.so"
    source = TOP / "tests" / "preload.c"
    subprocess.run(["gcc", "-shared", "-fPIC", "-O1", "-o", library, source, "-ldl"], check=True)
    return ["env", f"LD_PRELOAD={library}"]


def job_copier(folder: Path) -> Path:
    """A C program that makes the reads, writes and syncs of a rendering straight through, and does nothing else."""
    program = folder / "jobs"
    subprocess.run(["gcc", "-O2", "-o", program, TOP / "bench" / "jobs.c"], check=True)
    return program


def copy_of(source: Path, target: Path) -> Job:
    """cp, and a sync of the copy."""
    return Job(["sh", "-c", 'cp "$0" "$1" && sync "$1"', source, target])


def copies_of(sources: Iterable, folder: Path) -> Job:
    """cp of several files, each followed by a sync of its copy."""
    return Job(["sh", "-c", 'for one; do cp "$one" "$0" && sync "$0/${one##*/}"; done', folder, *sources])


# Lists


def time_text(value: int) -> str:
    frames, rest = divmod(value, 1920)
    seconds, frames = divmod(frames, 25)
    minutes, seconds = divmod(seconds, 60)
    hours, minutes = divmod(minutes, 60)
    return f"{hours:02d}.{minutes:02d}.{seconds:02d}.{frames:02d}/{rest:04d}"


class Cut(NamedTuple):
    """Frames of a file at a place of the timeline, with fades."""
    first: int
    begin: int
    length: int
    rise: int = 0
    fall: int = 0
    index: int = 1

    def lines(self, number: int, channels: str) -> list:
        times = " ".join(map(time_text, (self.first, self.begin, self.begin + self.length)))
        fades = [
            f"({keyword}) {time_text(length)} LIN _ _ _"
            for keyword, length in (("Infade", self.rise), ("Outfade", self.fall)) if length
        ]
        return [f"(Entry) {number:04d} (Cut) I {self.index:04d} {channels} {channels} {times}", *fades]


def index_lines(names: Iterable, numbers: Iterable) -> list:
    return [
        f'(Index) {number:04d} (F) "URL:file://localhost/{name}" _ 00.00.00.00/0000 _'
        for number, name in zip(numbers, names)
    ]


def list_text(
        cuts: Iterable, names: Iterable = ("A.wav",), channels: str = "1", head: Iterable = (),
        numbers: Optional[Iterable] = None) -> str:
    """A list of cuts over these files of these numbers, which begin at midnight, with further lines behind its own
    first one. They are numbered in turn where no numbers are told."""
    lines = ["<ADL>", *head, "<SEQUENCE>", "(SEQ_SAMPLE_RATE) S48000", "(SEQ_FRAME_RATE) 25", "</SEQUENCE>"]
    lines += ["<SOURCE_INDEX>", *index_lines(names, numbers or count(1)), "</SOURCE_INDEX>", "<EVENT_LIST>"]
    for number, cut in enumerate(cuts, 1):
        lines += cut.lines(number, channels)
    lines += ["</EVENT_LIST>", "</ADL>", ""]
    return "\n".join(lines)


# Sound files


def sound_head(channels: int, bits: int, size: int) -> bytes:
    block = channels * bits // 8
    form = struct.pack("<HHIIHH", 1, channels, RATE, RATE * block, block, bits)
    head = b"RIFF" + struct.pack("<I", 36 + size) + b"WAVEfmt " + struct.pack("<I", 16)
    return head + form + b"data" + struct.pack("<I", size)


def block_of(frames: int, channels: int, bits: int) -> bytes:
    """Frames without silence, others on each channel."""
    unit = 2 ** (bits - 16)
    numbers = ((((place * 7919 + channel * 331) % 20_000 - 9_999) or 1) * unit
               for place in range(frames) for channel in range(channels))
    return b"".join(number.to_bytes(bits // 8, "little", signed=True) for number in numbers)


def make_sound(path: Path, block: bytes, times: int, channels: int = 1, bits: int = 16) -> None:
    """A file of a block so many times."""
    with path.open("wb") as file:
        file.write(sound_head(channels, bits, times * len(block)))
        for _ in range(times):
            file.write(block)


def expect_data(path: Path, block: bytes, times: int) -> None:
    """The samples of a file are this block so many times."""
    with path.open("rb") as file:
        file.seek(HEAD)
        if not all(file.read(len(block)) == block for _ in range(times)) or len(file.read(2)) > 1:
            sys.exit(f"bench: {path.name} has other samples")


def expect_size(path: Path, size: int) -> None:
    if path.stat().st_size != size:
        sys.exit(f"bench: {path.name} has {path.stat().st_size} bytes, not {size}")


def expect_about(path: Path, size: int) -> None:
    """What another program writes is as long, but for its header and an end that is cut off."""
    if not size <= 1.05 * path.stat().st_size:
        sys.exit(f"bench: {path.name} has only {path.stat().st_size} bytes, not {size}")


def share(sample: int, cut: Cut, place: int) -> int:
    """What is left of a sample at this place of a cut, under its fades, rounded down."""
    left = cut.length - place
    if place < cut.rise:
        return sample * place // cut.rise
    return sample * left // cut.fall if left <= cut.fall else sample


def finished(total: int, bits: int) -> int:
    """Rounded with halves up, and clipped."""
    unit, limit = 2 ** (FULL_DEPTH - bits), 2 ** (bits - 1)
    return max(-limit, min(limit - 1, (total + unit // 2) // unit))


def expect_mix(path: Path, cuts: list, block: bytes, channels: int, bits: int) -> None:
    """At random places a rendered file has the exact sums of its cuts over a sound that is this block over and over."""
    size = bits // 8

    def sample(frame: int, channel: int) -> int:
        at = (frame * channels + channel) * size % len(block)
        return int.from_bytes(block[at:at + size], "little", signed=True) * 2 ** (FULL_DEPTH - bits)

    dice = random.Random(1)
    with path.open("rb") as file:
        for _ in range(SPOTS):
            frame = dice.randrange((path.stat().st_size - HEAD) // (channels * size))
            playing = [(cut, frame - cut.begin) for cut in cuts if 0 <= frame - cut.begin < cut.length]
            totals = [
                sum(share(sample(cut.first + place, channel), cut, place) for cut, place in playing)
                for channel in range(channels)]
            file.seek(HEAD + frame * channels * size)
            if file.read(channels * size) != b"".join(
                    finished(total, bits).to_bytes(size, "little", signed=True) for total in totals):
                sys.exit(f"bench: {path.name} has another sum at frame {frame}")


# Tables


def table(*columns: str) -> list:
    return [f"| {' | '.join(columns)} |", "|" + "---|" * len(columns)]


def line(job: str, cost: Cost, peers: Iterable) -> str:
    """A job's row, with the ratio of its time to that of each peer; there may be none."""
    ratios = [f"{cost.seconds / peer.seconds:.2f}" if peer else "" for peer in peers]
    return f"| {' | '.join((job, f'{cost.seconds:.3f}', f'{cost.kilobytes:,}', *ratios))} |"
