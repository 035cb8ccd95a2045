"""Very long lists and files, and many of them: they are answered, in little time."""

import resource
import shutil
import subprocess
import time
from functools import lru_cache, partial

import model
from harness import LIST, MEDIA, OUT, TIMEOUT, Cases, Mismatch, Scene, Skipped, same, same_outcome, words_of
from tables import FIRST_LIST, data_chunk, format_chunk, riff_chunk, riff_file, wave

case = Cases()
run = case.run

MIDNIGHT = b"00.00.00.00/0000"
MOST = 32_767
MOST_KEPT = 65_535
FILES = 2000
HANDLES = 20
CHUNKS = 100_000
EMPTY_SIZE = 3 * 2 ** 30
STACK = 256 * 1024

# Where the samples of a written file begin that has ds64 and no CodingHistory.
HEAD_SIZE = 690


@lru_cache
def second() -> float:
    """As many seconds of this processor as one of that on which these bounds were set, by a loop that took a fifth."""
    before = time.process_time()
    for _ in range(5_000_000):
        pass
    return 5 * (time.process_time() - before)


def processor_seconds() -> float:
    """What all programs that were run so far took."""
    used = resource.getrusage(resource.RUSAGE_CHILDREN)
    return (used.ru_utime + used.ru_stime) / second()


def expect_within(what: str, before: float, seconds: float) -> None:
    """No longer than that was taken since then."""
    taken = processor_seconds() - before
    if taken > seconds:
        raise Mismatch(f"{what!r} took {taken:.2f} seconds of the processor, more than {seconds}")


def expect_check(scene: Scene, line: str, seconds: float, **how) -> None:
    """`check` prints this line, and takes no longer than that of the processor."""
    before = processor_seconds()
    got = scene.run(*words_of("check"), **how)
    same_outcome(got, 1 if line.startswith("refused") else 0, line)
    expect_within(line, before, seconds)


def entry(number: int, index: int) -> bytes:
    return model.entry_line(number, index, MIDNIGHT, model.time_text(5 * number), model.time_text(5 * number + 4))


@case("a stack of 256 kB")
def small_stack(scene: Scene) -> None:
    """Each command does its work with a stack of 256 kB, over a source with the longest history that is carried."""
    history = b"A=PCM,F=48000,W=16,M=mono,T=original\r\n" * 1724
    sound = riff_file(format_chunk(), riff_chunk(b"bext", bytes(602) + history), data_chunk((1, 2, 3, 4)))
    scene.put(FIRST_LIST, {"A.wav": sound})
    limit = partial(resource.setrlimit, resource.RLIMIT_STACK, (STACK, STACK))
    for command, words, line in (
        ("check", (), "accepted 1 entries 1 indexes"),
        ("check", ("--report",), None),
        ("show", (), None),
        ("consolidate", (), "written 1 media 1 entries"),
        ("consolidate", ("--report",), "written 1 media 1 entries"),
        ("render", (), "rendered 4 frames 1 channels"),
        ("resume", (), "resumed 4 frames 1 blocks were marked"),
    ):
        if command in ("consolidate", "render"):
            scene.empty_out()
        out = (OUT,) if command in ("consolidate", "render", "resume") else ()
        got = scene.run(command, LIST, MEDIA, *out, *words, preexec_fn=limit, env={})
        if line is None:
            same("status", got.status, 0)
        else:
            same_outcome(got, 0, line)


@case("a day is laid out by one call")
def layout_at_once(scene: Scene) -> None:
    """A rendering of a day of 64 channels and 32 bits has its length by one call, before its first block fails."""
    if not shutil.which("strace"):
        raise Skipped("strace isn't installed (Debian package strace)")
    scene.put(FIRST_LIST, {"A.wav": wave()})
    trace = scene.folder / "trace"
    done = subprocess.run(
        ["strace", "-y", "-qq", "-o", trace, "-e", "trace=ftruncate,pwrite64", "-e", "inject=pwrite64:error=EIO:when=3+",
         scene.program, "render", LIST, MEDIA, OUT, "--channels", "64", "--depth", "32", "--from", "00.00.00.00/0000",
         "--to", "24.00.00.00/0000"], cwd=scene.folder, capture_output=True, timeout=TIMEOUT)
    grown = [line for line in trace.read_text().splitlines() if line.startswith("ftruncate") and "render.wav" in line]
    if grown and "EFBIG" in grown[0]:
        raise Skipped("the file system has no files of a terabyte")
    same("status", done.returncode, 1)
    same("calls that set the length", len(grown), 1)
    same("the length", (scene.folder / OUT / "render.wav").stat().st_size, HEAD_SIZE + 256 * model.DAY)


@case("the longest list")
def longest_list(scene: Scene) -> None:
    """As many entries, indexes and kept lines as there may be."""
    sources = [model.source_line(number, "A.wav", MIDNIGHT) for number in range(1, MOST + 1)]
    text = model.list_text(sources, [entry(number, number) for number in range(1, MOST + 1)], b"\n")
    kept = b"<VERSION>\n" + b"(Ver) a kept line\n" * (MOST_KEPT - 2) + b"</VERSION>\n"
    scene.put(text.replace(b"<ADL>\n", b"<ADL>\n" + kept), {"A.wav": wave()})
    expect_check(scene, f"accepted {MOST} entries {MOST} indexes", 2)


@case("2,000 files with few handles")
def many_files(scene: Scene) -> None:
    """Each is opened once, with few handles."""
    names = [f"S{number:04d}.wav" for number in range(1, FILES + 1)]
    sources = [model.source_line(number, name, MIDNIGHT) for number, name in enumerate(names, 1)]
    entries = [entry(number, 1 + 7 * number % FILES) for number in range(1, MOST + 1)]
    scene.put(model.list_text(sources, entries), {name: wave() for name in names})
    limit = partial(resource.setrlimit, resource.RLIMIT_NOFILE, (HANDLES, HANDLES))
    expect_check(scene, f"accepted {MOST} entries {FILES} indexes", 3, preexec_fn=limit)


@case("50 MB of garbage")
def garbage(scene: Scene) -> None:
    """50 MB of what is no list, of one line, and of sections that aren't kept."""
    for text, line in (
        (b"\0" * 50_000_000, "refused 03 at line 1"),
        (b"<ADL>\n<SEQUENCE>\n" + b"x " * 25_000_000, "refused 03 at line 3"),
        (b"<ADL>\n<SEQUENCE>\n" + b"(Rem)\n" * 8_000_000, f"refused 15 at line {MOST_KEPT + 3}"),
    ):
        scene.put(text)
        expect_check(scene, line, 3)


@case("many lines at fault")
def many_faults(scene: Scene) -> None:
    """50 MB with a fault in each line, or with 8,000,000 lines before the first: that takes a few times what as long a
    list without a fault takes."""
    lines = b"(Rem)\n" * 8_000_000
    scene.put(FIRST_LIST.replace(b"</EVENT_LIST>", lines + b"</EVENT_LIST>"), {"A.wav": wave()})
    before = processor_seconds()
    same_outcome(scene.run(*words_of("check")), 0, "accepted 1 entries 1 indexes")
    reading = processor_seconds() - before
    faders = FIRST_LIST.replace(b"</ADL>", b"<FADER_LIST>\n" + b"(Fader) 1\n" * 5_000_000 + b"</FADER_LIST>\n</ADL>")
    gains = FIRST_LIST.replace(b"</EVENT_LIST>", lines + b"(Gain) -1\n" * 30 + b"</EVENT_LIST>")
    for text, first, entry_of in ((faders, 13, ""), (gains, 8_000_011, " entry 1")):
        scene.put(text, {"A.wav": wave()})
        before = processor_seconds()
        got = scene.run(*words_of("check"))
        told = [f"13 at line {first + count}{entry_of}" for count in range(21)]
        same_outcome(got, 1, f"refused {told[0]}", further=(*(f"also {each}" for each in told[1:]), "and more"))
        expect_within(told[0], before, 5 * reading)


@case("100,000 small chunks")
def many_chunks(scene: Scene) -> None:
    """A file of 100,000 small chunks before its sound."""
    others = [riff_chunk(b"JUNK", b"odd")] * CHUNKS
    scene.put(FIRST_LIST, {"A.wav": riff_file(format_chunk(), *others, data_chunk((1, 2, 3, 4)))})
    expect_check(scene, "accepted 1 entries 1 indexes", 1)


@case("3 GB of empty chunks")
def empty_chunks(scene: Scene) -> None:
    """A file of 3 GB of empty chunks, which takes no place on the disk."""
    scene.put(FIRST_LIST)
    with (scene.folder / MEDIA / "A.wav").open("wb") as file:
        file.write(b"RIFF\0\0\0\0WAVE")
        file.truncate(EMPTY_SIZE)
    expect_check(scene, "refused 24 at index 1 file A.wav", 20)


@case("a sample at each end of the day")
def long_day(scene: Scene) -> None:
    """A sample at each end of the day: nothing that is done grows with what lies between."""
    entries = [
        model.entry_line(1, 1, MIDNIGHT, MIDNIGHT, model.time_text(1)),
        model.entry_line(2, 1, MIDNIGHT, model.time_text(model.DAY - 1), model.time_text(model.DAY)),
    ]
    scene.put(model.list_text([model.source_line(1, "A.wav", MIDNIGHT)], entries), {"A.wav": wave()})
    expect_check(scene, "accepted 2 entries 1 indexes", 1)
    before = processor_seconds()
    got = scene.run(*words_of("consolidate", model.Options(handle=model.DAY)))
    same_outcome(got, 0, "written 1 media 2 entries")
    same_outcome(scene.run("render", LIST, MEDIA, MEDIA), 1, f"refused 20 at file {MEDIA}")
    expect_within("a long day", before, 2)
