"""Consolidation beside `cp` and `sox`."""

import sys
from pathlib import Path

from measuring import Bench, Cut, Job, block_of, copy_of, expect_data, line, list_text, make_sound, table

CUTS = 1000
CUT_FRAMES = 50_000
SECOND = 48_000
SECONDS = 1800
MANY = 32_767
MOST_SECONDS = 60
SILENT_SECONDS = 600


def medium(number: int) -> str:
    return f"M{number:05d}.wav"


def look_at_media(data: dict):
    """The media are these, by name: a block and how often it stands there."""
    def look(out: Path) -> None:
        if sorted(path.name for path in out.iterdir()) != [*sorted(data), "consolidated.adl"]:
            sys.exit("bench: other media are written")
        for name, (block, times) in data.items():
            expect_data(out / name, block, times)
    return look


def sox_cutting(source: Path, target: Path) -> list:
    """sox writes each cut to a file of its own, in one run."""
    return ["sox", source, target, "trim", "0", f"{CUT_FRAMES}s", ":", "newfile", ":", "restart"]


def thousand_jobs(bench: Bench) -> dict:
    """One source of 100 MB in 1,000 media, each of which leaves out a frame."""
    block = block_of(CUT_FRAMES, 1, 16)
    source = bench.media() / "A.wav"
    make_sound(source, block, CUTS)
    text = bench.put(list_text(
        Cut(CUT_FRAMES * place, CUT_FRAMES * place, CUT_FRAMES - 1) for place in range(CUTS)))
    look = look_at_media({medium(number): (block[:-2], 1) for number in range(1, CUTS + 1)})
    words = bench.words("consolidate", text, "--handle", "0")
    return {
        "cp": copy_of(source, bench.out() / "copy.wav"),
        "sox": Job(sox_cutting(source, bench.out() / "S.wav")),
        "synced": Job(words, look),
        "unsynced": Job([*bench.unsynced, *words], look),
    }


def thousand_cuts(bench: Bench) -> tuple:
    """What these jobs cost; and the seconds that a sync takes."""
    costs = bench.costs_of(thousand_jobs(bench))
    price = costs["synced"].seconds / costs["unsynced"].seconds
    peers = costs["cp"], costs["sox"]
    each = (costs["synced"].seconds - costs["unsynced"].seconds) / (2 * CUTS)
    return each, [
        line("`consolidate`: 100 MB in 1,000 media", costs["synced"], peers),
        line(f"the same without syncs: with them it takes {price:.1f} times as long", costs["unsynced"], peers),
        line("`cp` of the source", costs["cp"], (None, None)),
        line("`sox` writing the cuts", costs["sox"], (None, None)),
    ]


def half_hour_jobs(bench: Bench) -> dict:
    """One medium of 30 minutes, stereo, 24 bits: some 500 MB."""
    block = block_of(SECOND, 2, 24)
    source = bench.media() / "A.wav"
    make_sound(source, block, SECONDS, 2, 24)
    text = bench.put(list_text([Cut(0, 0, SECOND * SECONDS)], channels="1~2"))
    return {
        "cp": copy_of(source, bench.out() / "copy.wav"),
        "consolidate": Job(bench.words("consolidate", text), look_at_media({medium(1): (block, SECONDS)})),
    }


def half_hour(bench: Bench) -> list:
    costs = bench.costs_of(half_hour_jobs(bench))
    return [
        line("`consolidate`: 30 minutes, stereo, 24 bits", costs["consolidate"], (costs["cp"], None)),
        line("`cp` of the source", costs["cp"], (None, None)),
    ]


# As many entries as there may be.
KINDS = {
    "that join to one": [Cut(4 * place, 4 * place, 4) for place in range(MANY)],
    "that never join": [Cut(4 * place, 5 * place, 4) for place in range(MANY)],
    "on one moment": [Cut(4 * place, 0, 4) for place in range(MANY)],
    "with fades": [Cut(4 * place, 5 * place, 4, 1, 1) for place in range(MANY)],
}


def make_short_sound(bench: Bench) -> None:
    """What these entries play."""
    make_sound(bench.media() / "A.wav", block_of(4 * MANY, 1, 16), 1)


def many_entries(bench: Bench, sync_seconds: float) -> list:
    """Entries that join to one, lie apart, lie on one moment, or make as many media; and the memory of each beyond a
    list of one."""
    make_short_sound(bench)
    least = cost_over(bench, [Cut(0, 0, 4)]).kilobytes
    lines = [entries_line(kind, cost_over(bench, cuts), least) for kind, cuts in KINDS.items()]
    return lines + many_media(bench, least, sync_seconds)


def silent_entries(bench: Bench) -> str:
    """As many entries as there may be, each of which plays the same ten minutes of zeros: nothing is left of them."""
    make_sound(bench.media() / "A.wav", bytes(2 * SECOND), SILENT_SECONDS)
    text = bench.put(list_text(Cut(0, 0, SECOND * SILENT_SECONDS) for _ in range(MANY)))
    words = bench.words("consolidate", text, "--handle", "0")
    cost = bench.costs_of({"one": Job(words, look_at_count(0))})["one"]
    return line("`consolidate`: 32,767 entries over ten minutes of zeros", cost, (None, None))


def job_over(bench: Bench, cuts: list) -> Job:
    """A consolidation of these cuts to one medium."""
    return Job(bench.words("consolidate", bench.put(list_text(cuts)), "--handle", "48000"), look_at_count(1))


def cost_over(bench: Bench, cuts: list):
    return bench.costs_of({"one": job_over(bench, cuts)})["one"]


def entries_line(kind: str, cost, least: int) -> str:
    each = (cost.kilobytes - least) * 1024 // MANY
    return line(f"`consolidate`: 32,767 entries {kind}, {each} bytes each", cost, (None, None))


def media_job(bench: Bench) -> Job:
    """Each entry in a medium of its own."""
    text = bench.put(list_text(Cut(4 * place, 5 * place, 3) for place in range(MANY)))
    return Job(bench.words("consolidate", text, "--handle", "0"), look_at_count(MANY))


def many_media(bench: Bench, least: int, sync_seconds: float) -> list:
    """It runs once, with syncs not at all where these take too long."""
    job = media_job(bench)
    log = bench.folder / "syncs"
    unsynced = bench.cost_of(job._replace(words=["env", f"SYNC_LOG={log}", *bench.unsynced, *job.words]))
    syncs = sum(told.startswith("sync ") for told in log.read_text().splitlines())
    lines = [entries_line("in as many media, without syncs", unsynced, least)]
    if syncs * sync_seconds > MOST_SECONDS:
        more = f"some {syncs * sync_seconds:.0f} seconds more at this disk's pace"
        told = f"the same with {syncs:,} syncs, left out: {more}"
        return [*lines, f"| {told} |  |  |  |  |"]
    return [*lines, entries_line(f"in as many media, {syncs:,} syncs", bench.cost_of(job), least)]


def look_at_count(media: int):
    def look(out: Path) -> None:
        if len(list(out.iterdir())) != media + 1:
            sys.exit("bench: another number of media is written")
    return look


def lines(bench: Bench) -> list:
    half = half_hour(bench)
    sync_seconds, thousand = thousand_cuts(bench)
    return [
        *table("Job", "Seconds", "Peak memory, KB", "Time to `cp`", "Time to `sox`"),
        *half, *thousand, *many_entries(bench, sync_seconds), silent_entries(bench),
    ]
