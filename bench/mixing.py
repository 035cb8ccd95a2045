"""Rendering beside `cp`, `sox` and `ffmpeg`: 30 minutes, stereo, 24 bits."""

import shutil
import subprocess
import sys
from pathlib import Path
from typing import NamedTuple, Optional

from copying import look_at_media
from measuring import (
    HEAD, Bench, Cut, Job, block_of, copies_of, copy_of, expect_about, expect_data, expect_mix, expect_size, job_copier,
    line, list_text, make_sound, table,
)

SECOND = 48_000
SECONDS = 1800
FRAMES = SECOND * SECONDS
FRAME_SIZE = 6
LAYERS = 16
PARTS = 11
PART = FRAMES // PARTS
JOINED = 10
PIECES = tuple(f"P{place:02d}.wav" for place in range(JOINED))
CUTS = 1000
MANY = 32_767
SHORT = 125
MARKS_HEAD = 44
MEBIBYTE = 1 << 20

class Copy(NamedTuple):
    """A copy by a C program: the bytes of a job, behind which it syncs; how many are read and written at once, 0 where a
    job is read whole; at which byte of its file the copy begins; and by how many bytes it has the kernel put out what was
    written, 0 where it hasn't."""
    job: int
    piece: int
    first: int = 0
    behind: int = 0


COPIES = {
    "a C program: jobs of 256 KiB, marked by 16 MiB": Copy(16 * MEBIBYTE, MEBIBYTE // 4),
    "a C program: jobs of 240 KiB behind a header, marked by 16 MiB": Copy(16 * MEBIBYTE, 245_760, HEAD),
    "a C program: jobs of 768 KiB behind a header, marked by 16 MiB": Copy(16 * MEBIBYTE, 786_432, HEAD),
    "the same, put out by 1 MiB while it goes on": Copy(16 * MEBIBYTE, 786_432, HEAD, MEBIBYTE),
    "a C program: jobs of 16 MiB, made and then written": Copy(16 * MEBIBYTE, 0),
    "a C program: jobs of 1 MiB, made and then written": Copy(MEBIBYTE, 0),
    "a C program: pieces of 384 KiB behind a header, synced once": Copy(1 << 40, 393_216, HEAD),
    "such pieces, put out by 1 MiB while it goes on": Copy(1 << 40, 393_216, HEAD, MEBIBYTE),
}


class Mix(NamedTuple):
    """Cuts of files, and the words by which sox and ffmpeg mix the same; they may have none. In them `I` is the source
    and `O` the file to write, and other files stand under their names."""
    cuts: list
    sox: Optional[list]
    ffmpeg: Optional[list]
    is_plain: bool = False
    names: tuple = ("A.wav",)


def layers(count: int) -> list:
    """The whole source so many times at once, each a second later in it."""
    return [Cut(SECOND * place, 0, FRAMES - SECOND * LAYERS) for place in range(count)]


def joined() -> list:
    """Files of three minutes, one behind the other."""
    length = FRAMES // JOINED
    return [Cut(0, length * place, length, index=place + 1) for place in range(JOINED)]


def cut_anew() -> list:
    """As many parts of the source, none behind the one that it follows there."""
    length = FRAMES // CUTS
    return [Cut(length * (place * 7919 % CUTS), length * place, length) for place in range(CUTS)]


def crossfaded() -> list:
    """Parts that follow one another and overlap by a second, in which they fade into one another."""
    return [
        Cut(PART * place, PART * place, PART + (SECOND if place < PARTS - 1 else 0),
            SECOND if place else 0, SECOND if place < PARTS - 1 else 0)
        for place in range(PARTS)
    ]


def ffmpeg_crossfades() -> list:
    """The same parts by `acrossfade`, one into the next."""
    split = "".join(f"[s{place}]" for place in range(PARTS))
    chains = [f"[0:a]asplit={PARTS}{split}"]
    for place in range(PARTS):
        last = min(FRAMES, PART * (place + 1) + SECOND)
        chains.append(f"[s{place}]atrim=start_sample={PART * place}:end_sample={last},asetpts=PTS-STARTPTS[p{place}]")
    joined = "p0"
    for place in range(1, PARTS):
        chains.append(f"[{joined}][p{place}]acrossfade=ns={SECOND}:c1=tri:c2=tri[j{place}]")
        joined = f"j{place}"
    return ["-i", "I", "-filter_complex", ";".join(chains), "-map", f"[{joined}]"]


def ffmpeg_layers(count: int) -> list:
    return [word for _ in range(count) for word in ("-i", "I")] + [
        "-filter_complex", f"amix=inputs={count}:normalize=0"]


MIXES = {
    "one file straight through": Mix([Cut(0, 0, FRAMES)], ["I", "O"], ["-i", "I"], True),
    "ten files joined": Mix(joined(), [*PIECES, "O"], None, True, PIECES),
    "a thousand cuts": Mix(cut_anew(), None, None),
    "ten crossfades": Mix(crossfaded(), None, ffmpeg_crossfades()),
    "two layers": Mix(layers(2), ["-m", "I", "I", "O"], ffmpeg_layers(2)),
    "one fade over all": Mix(
        [Cut(0, 0, FRAMES, FRAMES)], ["I", "O", "fade", "t", str(SECONDS)],
        ["-i", "I", "-af", f"afade=t=in:ns={FRAMES}:curve=tri"]),
    "sixteen layers": Mix(layers(LAYERS), ["-m", *["I"] * LAYERS, "O"], ffmpeg_layers(LAYERS)),
}


def put_in(words: list, source: Path, target: Path) -> list:
    pieces = {name: source.parent / name for name in PIECES}
    return [{"I": source, "O": target, **pieces}.get(word, word) for word in words]


def jobs_of(bench: Bench, mix: Mix, source: Path, block: bytes) -> dict:
    size = HEAD + FRAME_SIZE * max(cut.begin + cut.length for cut in mix.cuts)

    def look(out: Path) -> None:
        expect_size(out / "render.wav", size)
        expect_mix(out / "render.wav", mix.cuts, block, 2, 24)
        if mix.is_plain:
            expect_data(out / "render.wav", block, SECONDS)

    def look_at_peer(out: Path) -> None:
        expect_about(out / "peer.wav", size)

    text = bench.put(list_text(mix.cuts, mix.names, channels="1~2"))
    target = bench.out() / "peer.wav"
    jobs = {"cp": copy_of(source, target), "render": Job(bench.words("render", text), look)}
    if mix.ffmpeg:
        jobs["ffmpeg"] = Job(
            ["ffmpeg", "-v", "error", *put_in(mix.ffmpeg, source, target), "-c:a", "pcm_s24le", target], look_at_peer)
    if mix.sox:
        jobs["sox"] = Job(["sox", "-D", "-V1", *put_in(mix.sox, source, target)], look_at_peer)
    return jobs


def many_job(bench: Bench) -> Job:
    """As many entries as there may be, one behind the other in 1,000 blocks, from places all over their file."""
    frames = SHORT * MANY
    block = block_of(frames, 1, 16)
    make_sound(bench.media() / "A.wav", block, 1)
    cuts = [Cut(SHORT * (place * 7919 % MANY), SHORT * place, SHORT) for place in range(MANY)]

    def look(out: Path) -> None:
        expect_size(out / "render.wav", HEAD + 2 * frames)
        expect_mix(out / "render.wav", cuts, block, 1, 16)

    return Job(bench.words("render", bench.put(list_text(cuts)), "--depth", "16"), look)


def many_entries(bench: Bench) -> str:
    cost = bench.costs_of({"one": many_job(bench)})["one"]
    return line("32,767 entries in 1,000 blocks: 85 seconds, mono, 16 bits", cost, (None, None, None))


def copied_in_jobs(bench: Bench, source: Path) -> list:
    """What the reads, writes and syncs of a rendering straight through take alone."""
    target = bench.out() / "copy.wav"
    copier = job_copier(bench.folder)

    def copied(copy: Copy) -> Job:
        def look(out: Path) -> None:
            if subprocess.run(["cmp", "-i", f"0:{copy.first}", source, out / "copy.wav"]).returncode:
                sys.exit("bench: a copy has other bytes")

        return Job([copier, source, target, *map(str, copy)], look)

    jobs = {name: copied(copy) for name, copy in COPIES.items()}
    costs = bench.costs_of({"cp": copy_of(source, target), **jobs})
    return [line(name, costs[name], (costs["cp"], None, None)) for name in COPIES]


def consolidated(bench: Bench, source: Path, block: bytes) -> list:
    """Consolidations of ten files, which become ten media, and of a thousand cuts, which keep all of one."""
    parts = {f"M{place + 1:05d}.wav": (block, SECONDS // JOINED) for place in range(JOINED)}
    kinds = {
        "ten files joined": look_at_media(parts),
        "a thousand cuts": look_at_media({"M00001.wav": (block, SECONDS)}),
    }
    rows = []
    for name, look in kinds.items():
        mix = MIXES[name]
        text = bench.put(list_text(mix.cuts, mix.names, channels="1~2"))
        jobs = {
            "cp": copy_of(source, bench.out() / "copy.wav"),
            "consolidate": Job(bench.words("consolidate", text), look),
        }
        if len(mix.names) > 1:
            jobs["copies"] = copies_of((source.parent / piece for piece in mix.names), bench.out())
        costs = bench.costs_of(jobs)
        rows.append(line(f"`consolidate` of {name}", costs["consolidate"], (costs["cp"], None, None)))
        if "copies" in costs:
            rows.append(line("`cp` of these files, each with its sync", costs["copies"], (costs["cp"], None, None)))
    return rows


def resumed(bench: Bench, source: Path, block: bytes) -> str:
    """A rendering of which half of the blocks are marked, beside a whole one."""
    jobs = jobs_of(bench, MIXES["one file straight through"], source, block)
    whole = jobs["render"]
    bench.cost_of(whole)
    kept = bench.out().rename(bench.folder / "half")
    marks = kept / "render.marks"
    marked = bytearray(marks.read_bytes())
    middle = (MARKS_HEAD + len(marked)) // 2
    marked[middle:] = bytes(len(marked) - middle)
    marks.write_bytes(marked)

    def prepare(out: Path) -> None:
        for path in kept.iterdir():
            shutil.copy(path, out)

    half = Job([whole.words[0], "resume", *whole.words[2:]], whole.look, prepare=prepare)
    costs = bench.costs_of({"cp": jobs["cp"], "whole": whole, "half": half})
    shutil.rmtree(kept)
    part = costs["half"].seconds / costs["whole"].seconds
    return line(f"`resume` where half is marked: {part:.2f} of a whole one", costs["half"], (costs["cp"], None, None))


def make_half_hour(bench: Bench) -> tuple:
    """30 minutes, and the second that they repeat; and the same in ten files."""
    block = block_of(SECOND, 2, 24)
    source = bench.media() / "A.wav"
    make_sound(source, block, SECONDS, 2, 24)
    for name in PIECES:
        make_sound(bench.media() / name, block, SECONDS // JOINED, 2, 24)
    return source, block


def lines(bench: Bench) -> list:
    source, block = make_half_hour(bench)
    rows = table(
        "`render`, 30 minutes, stereo, 24 bits", "Seconds", "Peak memory, KB", "Time to `cp`", "Time to `sox`",
        "Time to `ffmpeg`")
    for name, mix in MIXES.items():
        costs = bench.costs_of(jobs_of(bench, mix, source, block))
        rows.append(line(name, costs["render"], (costs["cp"], costs.get("sox"), costs.get("ffmpeg"))))
    rows += copied_in_jobs(bench, source)
    rows += consolidated(bench, source, block)
    return [*rows, resumed(bench, source, block), many_entries(bench)]
