"""`compare`: whether two projects sound the same, and where they differ first."""

import re

import model
from harness import (
    EXPLANATION, LIST, MEDIA, OUT, SAVED, Mismatch, Outcome, Scene, Suite, preloaded, same, same_files, same_shape,
)
from model.spelling import project_text
from model import comparison
from random_projects import Dice
from reports import allowed
from tables import FIRST_LIST, changed, data_chunk, format_chunk, riff_file, wave
from worked_rows import HOUR, entry, mono, one_source, time

PAIRS = 120
OTHER_LIST = "L2.adl"
OTHER_MEDIA = "M2"
PLACES = (LIST, MEDIA, OTHER_LIST, OTHER_MEDIA)

MET = {"same", "differ", "refused", "in list 1", "in list 2", "notice", "refused 58"}


def put_pair(scene: Scene, first: model.Side, second: model.Side) -> None:
    scene.put(*first)
    (scene.folder / OTHER_LIST).write_bytes(second.text)
    other = scene.folder / OTHER_MEDIA
    other.mkdir(exist_ok=True)
    for path in [*(scene.folder / MEDIA).iterdir(), *other.iterdir()]:
        if path.name not in (first if path.parent.name == MEDIA else second).media:
            path.unlink()
    for name, data in second.media.items():
        (other / name).write_bytes(data)


def compared(scene: Scene, first: model.Side, second: model.Side, options: model.Options = model.STANDARD) -> Outcome:
    """What the program answers of two lists, which it leaves as they are, with their media."""
    put_pair(scene, first, second)
    got = scene.run("compare", *PLACES, *options.words("compare"))
    same("the first list and its media", ((scene.folder / LIST).read_bytes(), scene.files(MEDIA)), tuple(first))
    same("the second list and its media",
         ((scene.folder / OTHER_LIST).read_bytes(), scene.files(OTHER_MEDIA)), tuple(second))
    same_files(scene.files(OUT), {})
    return got


def same_counts(got: Outcome, first: model.Side, second: model.Side, options: model.Options) -> None:
    """Standard error says how many samples of each channel differ, and of a pair that is the same nothing."""
    found = comparison.difference(first, second, options)
    lines = [line for line in got.error.decode().splitlines() if line.startswith("samples that differ")]
    same("the samples that differ", lines, [comparison.counts_line(*found)] if found else [])


def same_report(scene: Scene, first: model.Side, second: model.Side, options: model.Options) -> None:
    """The report of two lists: by its schema, and by the model."""
    put_pair(scene, first, second)
    got = scene.run("compare", *PLACES, "--report", *options.words("compare"))
    wanted = model.compare(first, second, options)
    same("the status", got.status, wanted.status)
    if wanted.line.startswith("refused"):
        same_comparison(got, wanted)
        return
    same("standard error", got.error, b"")
    same("the report", allowed(got.output.decode()), comparison.report(first, second, options))


def same_comparison(got: Outcome, wanted: model.Answer) -> None:
    same("standard output", got.output.decode(), wanted.output())
    same("the status", got.status, wanted.status)
    if wanted.line.startswith("refused"):
        same_shape(f"the explanation of {wanted.line}", got.error, EXPLANATION % int(wanted.line.split()[1]))


def expect_pair(
        scene: Scene, first: model.Side, second: model.Side, line: str, options: model.Options = model.STANDARD) -> None:
    """The program compares two lists with this line, and the model says so too; in turn they are as much the same."""
    wanted = model.compare(first, second, options)
    same("the line of the model", wanted.line, line)
    for one, other in ((first, second), (second, first)):
        got = compared(scene, one, other, options)
        wanted = model.compare(one, other, options)
        same_comparison(got, wanted)
        if not wanted.line.startswith("refused"):
            same_counts(got, one, other, options)
        same_report(scene, one, other, options)


def pair(first: model.Side, second: model.Side, line: str, options: model.Options = model.STANDARD):
    return lambda scene: expect_pair(scene, first, second, line, options)


def side(*entry_lines: bytes, samples=(1000, -1000, 32767, -32768)) -> model.Side:
    return model.Side(one_source(*entry_lines), mono(*samples))


def deep(samples: list, depth: int = 32, channels: int = 1) -> dict:
    return {"A.wav": riff_file(format_chunk(channels=channels, bits=depth), data_chunk(samples, depth))}


def differ(sample: int, channel: int = 1) -> str:
    """The line of a first difference at this sample of the list's hour."""
    return f"differ at {time(HOUR + sample).decode()} channel {channel}"


LONG = [sample % 251 - 125 for sample in range(10_000)]
TEN_THOUSAND = deep(LONG)
WHOLE = one_source(entry(1, 0, 0, 10_000))


def one_bit_changed(scene: Scene) -> None:
    """One sample of 32 bits, larger by 1: at the first one, at both sides of a block's end, and at the last one."""
    for at in (0, 4095, 4096, 8191, 8192, 9999):
        changed_samples = [*LONG[:at], LONG[at] + 1, *LONG[at + 1:]]
        expect_pair(scene, model.Side(WHOLE, TEN_THOUSAND), model.Side(WHOLE, deep(changed_samples)), differ(at))


def one_channel_changed(scene: Scene) -> None:
    """One sample of one of 64 channels."""
    samples = [frame + channel for frame in range(12) for channel in range(64)]
    text = one_source(model.entry_line(1, 1, time(0), time(HOUR), time(HOUR + 12), b"1~64", b"1~64"))
    for frame, channel in ((0, 1), (0, 64), (11, 1), (11, 64), (5, 33)):
        other = list(samples)
        other[frame * 64 + channel - 1] -= 1
        expect_pair(
            scene, model.Side(text, deep(samples, 24, 64)), model.Side(text, deep(other, 24, 64)),
            differ(frame, channel))


def lowest_channel(scene: Scene) -> None:
    """Of several channels at the first time the lowest is told, and a later time isn't."""
    text = one_source(model.entry_line(1, 1, time(0), time(HOUR), time(HOUR + 3), b"1~3", b"2~4"))
    samples, other = [0] * 9, [0, 0, 0, 0, 1, 1, 1, 1, 1]
    expect_pair(scene, model.Side(text, deep(samples, 16, 3)), model.Side(text, deep(other, 16, 3)), differ(1, 3))


def clipped_alike(scene: Scene) -> None:
    """Two sums beyond full scale that differ: rendered files of both are the same, the projects aren't."""
    twice = [entry(1, 0, 0, 1), entry(2, 0, 0, 1)]
    loud = side(*twice, samples=(32767,))
    louder = side(*twice, entry(3, 0, 0, 1), samples=(32767,))
    expect_pair(scene, loud, louder, differ(0))


def fraction_alone(scene: Scene) -> None:
    """A fade of another length, whose sums differ by less than a 24-bit sample."""
    first = model.Side(one_source(entry(1, 0, 0, 4, rise=3)), mono(0, -1, -1, -1))
    second = model.Side(one_source(entry(1, 0, 0, 4, rise=4)), mono(0, -1, -1, -1))
    expect_pair(scene, first, second, differ(1))


def consolidations(scene: Scene) -> None:
    """A project and its consolidation at any handle, and a consolidation of that one."""
    given = model.Side(
        one_source(entry(1, 0, 0, 4000, rise=1000, fall=7), entry(2, 3000, 3993, 8000), entry(3, 9000, 20_000, 21_000)),
        deep(LONG))
    put_pair(scene, given, given)
    for handle in (0, 1, 600, 48_000, model.DAY):
        options = model.Options(handle=handle)
        scene.empty_out()
        same("the status", scene.run("consolidate", LIST, MEDIA, OUT, *options.words("consolidate")).status, 0)
        got = scene.run("compare", LIST, MEDIA, f"{OUT}/consolidated.adl", OUT)
        same("the line", got.output.decode().splitlines()[-1], "same 21000 frames 1 channels")
        same("the status", got.status, 0)
        same_comparison(got, model.compare(given, written(scene)))
    scene.empty_out()


def written(scene: Scene) -> model.Side:
    files = scene.files(OUT)
    return model.Side(files.pop("consolidated.adl"), files)


def verified(scene: Scene) -> None:
    """A consolidation of which one byte was changed afterwards."""
    given = model.Side(WHOLE, TEN_THOUSAND)
    put_pair(scene, given, given)
    same("the status", scene.run("consolidate", LIST, MEDIA, OUT).status, 0)
    path = scene.folder / OUT / "M00001.wav"
    data = bytearray(path.read_bytes())
    data[-4] ^= 1
    path.write_bytes(data)
    got = scene.run("compare", LIST, MEDIA, f"{OUT}/consolidated.adl", OUT)
    same("the line", got.output.decode().splitlines()[-1], differ(9999))
    same("the status", got.status, 1)
    scene.empty_out()


def renewed(text: bytes, **changes) -> bytes:
    """The list with another part of its project."""
    return project_text(model.read_list(text)._replace(**changes))


def moved(entries: list, samples: int) -> list:
    return [each._replace(dest_in=each.dest_in + samples, dest_out=each.dest_out + samples) for each in entries]


def variations(text: bytes) -> dict:
    """Other lists over the same media."""
    project = model.read_list(text)
    entries = project.entries
    lists = {
        "the same list": text,
        "spelt anew": project_text(project),
        "in another order": renewed(text, entries=entries[::-1]),
        "other separators": renewed(text, separators=b":;,|"),
        "further header lines": renewed(text, header={**project.header, "PROJECT": [b"(Title) another"]}),
        "an empty list": renewed(text, entries=[]),
    }
    if entries:
        lists |= {
            "the first entry dropped": renewed(text, entries=entries[1:]),
            "the last entry twice": renewed(
                text, entries=[*entries, entries[-1]._replace(number=number_beside(entries))]),
        }
    if all(each.dest_out < model.DAY for each in entries):
        lists["moved by a sample"] = renewed(text, entries=moved(entries, 1))
    return lists


def number_beside(entries: list) -> int:
    """A number that no entry has."""
    return next(number for number in range(1, 32_768) if number not in {each.number for each in entries})


def chosen_of(one: model.Side, other: model.Side, options: model.Options) -> model.Options:
    """The options, with times where both lists are read, at one rate."""
    try:
        rates = {model.read_list(each.text).rate for each in (one, other)}
    except model.Refused:
        rates = set()
    return options if len(rates) == 1 else options._replace(begin=None, end=None)


def random_pair(seed: int, met: set):
    def body(scene: Scene) -> None:
        dice = Dice(seed)
        text, media, place = dice.project()
        options = dice.options(place)
        first = model.Side(text, media)
        seconds = [model.Side(*Dice(seed + PAIRS).project()[:2])]
        try:
            model.accepted(text, media)
            seconds += [model.Side(other, media) for other in variations(text).values()]
            again = model.answer("consolidate", text, media, options)
            if again.status == 0:
                files = dict(again.files)
                seconds.append(model.Side(files.pop("consolidated.adl"), files))
                wanted = model.compare(first, seconds[-1])
                if not wanted.line.startswith("same") and wanted.line != "refused 58":
                    raise Mismatch(f"the model finds a consolidation that differs: {wanted.line}")
        except model.Refused:
            pass
        for second in seconds:
            for one, other in ((first, second), (second, first)):
                chosen = chosen_of(one, other, options)
                wanted = model.compare(one, other, chosen)
                met.update(part for part in MET if part in wanted.output())
                got = compared(scene, one, other, chosen)
                same_comparison(got, wanted)
                if not wanted.line.startswith("refused"):
                    same_counts(got, one, other, chosen)
                same_report(scene, one, other, chosen)
    return body


def whole_profile(met: set):
    return lambda scene: same("what no random pair meets", sorted(MET - met), [])


SOURCE_SILENT = (0, 0, 1000, -1000, 1000, 0)

SAME_ROWS = {
    "a list with itself": (side(entry(1, 0, 0, 4)), side(entry(1, 0, 0, 4))),
    "two entries that cancel": (
        model.Side(one_source(entry(1, 0, 0, 2), entry(2, 2, 0, 2)), mono(5, -7, -5, 7)),
        side(entry(1, 0, 0, 2), samples=(0, 0))),
    "a silent entry dropped": (
        side(entry(1, 0, 0, 2), entry(2, 2, 2, 6), samples=SOURCE_SILENT),
        side(entry(2, 2, 2, 6), samples=SOURCE_SILENT)),
    "an entry cut in two": (
        side(entry(1, 0, 0, 4)), side(entry(1, 0, 0, 3), entry(2, 3, 3, 4))),
    "a crossfade of a sound with itself": (
        side(entry(1, 0, 0, 3, fall=3), entry(2, 0, 0, 3, rise=3), samples=(5 * 3, 9, 9)),
        side(entry(1, 0, 0, 3), samples=(5 * 3, 9, 9))),
    "sixteen bits in a file of 32": (
        side(entry(1, 0, 0, 4)), model.Side(one_source(entry(1, 0, 0, 4)), deep([1000 << 16, -1000 << 16, 32767 << 16, -32768 << 16]))),
}

DIFFER_ROWS = {
    "an entry moved by one sample": (side(entry(1, 0, 0, 4)), side(entry(1, 0, 1, 5)), differ(0)),
    "an entry doubled": (side(entry(1, 0, 0, 4)), side(entry(1, 0, 0, 4), entry(2, 3, 3, 4)), differ(3)),
    "an entry dropped": (side(entry(1, 0, 0, 2), entry(2, 2, 2, 4)), side(entry(1, 0, 0, 2)), differ(2)),
    "a list without entries": (side(entry(1, 0, 0, 4)), side(), differ(0)),
    "apart by nearly a day": (
        side(entry(1, 0, 0, 4)), side(entry(1, 0, 0, 4), entry(2, 0, 20 * HOUR, 20 * HOUR + 4)), differ(20 * HOUR)),
}


def day(scene: Scene) -> None:
    """A whole day, of which nearly nothing sounds, is compared by the blocks in which something does."""
    first = side(entry(1, 0, 0, 4))
    got = compared(scene, first, first, model.Options(begin="00.00.00.00/0000", end="24.00.00.00/0000", channels=64))
    same("the line", got.output.decode(), f"same {model.DAY} frames 64 channels\n")


def part_of_a_list(scene: Scene) -> None:
    """A range before the difference, one that ends at it, and one that holds it; fewer channels and more."""
    first, second = side(entry(1, 0, 0, 4)), side(entry(1, 0, 0, 3))
    time_of = lambda sample: time(HOUR + sample).decode()
    for begin, end, line in (
            (0, 3, "same 3 frames 1 channels"), (0, 4, differ(3)), (3, 4, differ(3)), (4, 9, "same 5 frames 1 channels"),
            (3, 3, "refused 58"), (4, 3, "refused 58")):
        expect_pair(scene, first, second, line, model.Options(begin=time_of(begin), end=time_of(end)))
    wide = one_source(model.entry_line(1, 1, time(0), time(HOUR), time(HOUR + 4), b"1", b"3"))
    third = model.Side(wide, mono(1000, -1000, 32767, -32768))
    expect_pair(scene, third, side(), "same 4 frames 2 channels", model.Options(channels=2))
    expect_pair(scene, third, side(), differ(0, 3), model.Options(channels=3))
    expect_pair(scene, third, third, "same 4 frames 64 channels", model.Options(channels=64))


def refusals(scene: Scene) -> None:
    """The first list's refusal comes first; each is told with its list."""
    good, bad = side(entry(1, 0, 0, 4)), model.Side(changed(10, b"(Entry) 0001 (Cut) O"), mono(1))
    missing = model.Side(good.text, {})
    for first, second, line in (
            (bad, good, "refused 13 at line 10 entry 1 in list 1"), (good, bad, "refused 13 at line 10 entry 1 in list 2"),
            (bad, missing, "refused 13 at line 10 entry 1 in list 1"),
            (missing, bad, "refused 21 at index 1 file A.wav in list 1"),
            (good, missing, "refused 21 at index 1 file A.wav in list 2"),
            (side(entry(1, 1, 0, 4)), good, "refused 46 at entry 1 in list 1"), (side(), side(), "refused 58")):
        wanted = model.compare(first, second)
        same("the line of the model", wanted.line, line)
        same_comparison(compared(scene, first, second), wanted)


def standard_input(scene: Scene) -> None:
    """Either list may be standard input, and not both."""
    first = side(entry(1, 0, 0, 4))
    put_pair(scene, first, first)
    for places in (("-", MEDIA, OTHER_LIST, OTHER_MEDIA), (LIST, MEDIA, "-", OTHER_MEDIA)):
        got = scene.run("compare", *places, given=first.text)
        same("standard output", got.output.decode(), "same 4 frames 1 channels\n")
        same("the status", got.status, 0)
    got = scene.run("compare", "-", MEDIA, "-", OTHER_MEDIA, given=first.text)
    same("the status", got.status != 0, True)


def wrong_words(scene: Scene) -> None:
    """Words that aren't of the form, and times that can't be read, are status 2 and print nothing."""
    first = side(entry(1, 0, 0, 4))
    put_pair(scene, first, first)
    for words in (PLACES[:3], PLACES[:2], (*PLACES, "x"), (*PLACES, "--channels", "0"), (*PLACES, "--channels", "65"),
                  (*PLACES, "--depth", "16"), (*PLACES, "--from", "1"), (*PLACES, "--to", "00.00.00.25/0000")):
        got = scene.run("compare", *words)
        same(f"the status and the output of {words}", (got.status, got.output), (2, b""))
    got = scene.run("compare", *PLACES, "--from", "1")
    same("standard error", got.error.splitlines()[0], b"bad time: --from")


def values(scene: Scene) -> None:
    """Standard error has the sums of both at the difference, as 24-bit samples with their fraction, and the entries."""
    first = side(entry(7, 0, 0, 4), samples=(1000, -1000, 3, -32768))
    second = model.Side(one_source(entry(3, 0, 0, 2), entry(9, 2, 2, 4, rise=2)), first.media)
    got = compared(scene, first, second)
    same("standard output", got.output.decode(), f"{differ(2)}\n")
    for pattern in (rb"768\b", rb"entry 7\b", rb"entry 9\b"):
        if not re.search(pattern, got.error):
            raise Mismatch(f"standard error lacks {pattern!r}: {got.error!r}")


def counts(scene: Scene) -> None:
    """Standard error names each channel on which samples differ, and how many do, by hand."""
    text = one_source(model.entry_line(1, 1, time(0), time(HOUR), time(HOUR + 4), b"1~3", b"2~4"))
    samples, other = [0] * 12, [0, 0, 0, 5, 0, 1, 5, 0, 1, 5, 0, 0]
    first, second = model.Side(text, deep(samples, 16, 3)), model.Side(text, deep(other, 16, 3))
    got = compared(scene, first, second)
    same("standard output", got.output.decode(), f"{differ(1, 2)}\n")
    same("its last line", got.error.splitlines()[-1], b"samples that differ: 3 on channel 2, 2 on channel 4")
    for begin, end, line in (
            (2, 4, b"samples that differ: 2 on channel 2, 1 on channel 4"),
            (1, 2, b"samples that differ: 1 on channel 2, 1 on channel 4")):
        options = model.Options(begin=time(HOUR + begin).decode(), end=time(HOUR + end).decode())
        same("its last line", compared(scene, first, second, options).error.splitlines()[-1], line)
    got = compared(scene, first, second, model.Options(channels=3))
    same("its last line", got.error.splitlines()[-1], b"samples that differ: 3 on channel 2")


def counted_hour(scene: Scene) -> None:
    """What differs later than an hour from the first difference isn't counted, and that is said."""
    samples = mono(1000, 2000)
    first = model.Side(one_source(entry(1, 0, 0, 2)), samples)
    for later, line in (
            (HOUR - 2, "samples that differ: 4 on channel 1"),
            (HOUR - 1, "samples that differ in the hour from then on: 3 on channel 1"),
            (HOUR, "samples that differ in the hour from then on: 2 on channel 1")):
        second = model.Side(one_source(entry(1, 0, later, later + 2)), samples)
        got = compared(scene, first, second)
        same("the last line", got.error.decode().splitlines()[-1], line)
        same_counts(got, first, second, model.STANDARD)
        same_report(scene, first, second, model.STANDARD)


FIRST_PROJECT = FIRST_LIST, {"A.wav": wave()}
VERIFIED = ("consolidate", LIST, MEDIA, OUT, "--verify", "--handle", "0")


def verified_right(scene: Scene) -> None:
    """What is compared and right has the line, the notices, the files and the status of a plain consolidation."""
    given = model.Side(
        one_source(entry(1, 0, 0, 4000, rise=1000, fall=7), entry(2, 3000, 3993, 8000), entry(3, 9000, 20_000, 21_000)),
        deep(LONG))
    for text, media in ((given.text, given.media), (one_source(), {}), FIRST_PROJECT):
        scene.put(text, media)
        for more in ((), ("--report",)):
            plain = scene.run("consolidate", LIST, MEDIA, OUT, "--handle", "0", *more)
            files = scene.files()
            scene.empty_out()
            for words, how in (((*VERIFIED, *more), {}), ((VERIFIED[0], "-", *VERIFIED[2:], *more), {"given": text})):
                same("the answer", scene.run(*words, **how), plain)
                same_files(scene.files(), files)
                scene.empty_out()


def verified_refused(scene: Scene) -> None:
    """A consolidation that is refused is refused as ever."""
    for text, media in ((b"no list", {}), (one_source(entry(1, 0, 0, 4)), {}), (one_source(entry(1, 1, 0, 4)), mono(1))):
        scene.put(text, media)
        same("the answer", scene.run(*VERIFIED), scene.run("consolidate", LIST, MEDIA, OUT, "--handle", "0"))
        same_files(scene.files(), {})


def spoiled(scene: Scene) -> None:
    """Of each write in turn one byte is written wrongly: what was written is the same only where the model says so."""
    given = model.Side(one_source(entry(1, 0, 0, 9000, rise=100), entry(2, 9500, 9900, 10_000)), deep(LONG))
    scene.put(*given)
    met = set()
    for write in range(1, 40):
        got = scene.run(*VERIFIED, env=preloaded(scene, SPOIL_WRITE=str(write)))
        wanted = model.compare(given, written(scene))
        met.add(wanted.line.split(" ")[0])
        if wanted.line.startswith("same"):
            same("the answer", (got.status, got.output), (0, b"written 2 media 2 entries\n"))
        else:
            saved, rest = got.error.split(b"\n", 1)
            same_shape("what was saved", saved + b"\n", SAVED)
            same_comparison(got._replace(error=rest), wanted)
        scene.empty_out()
    same("what was met", met, {"same", "differ", "refused"})


def run(suite: Suite) -> None:
    for name, (first, second) in SAME_ROWS.items():
        frames = model.range_of(model.read_list(first.text), model.STANDARD).frames()
        suite.case(f"{name} is the same", pair(first, second, f"same {frames} frames 1 channels"))
    for name, row in DIFFER_ROWS.items():
        suite.case(f"{name} differs", pair(*row))
    for name, body in {
        "one sample changed by 1": one_bit_changed, "one of 64 channels changed": one_channel_changed,
        "the lowest channel is told": lowest_channel, "sums that clip alike differ": clipped_alike,
        "a fade of another length": fraction_alone, "consolidations of a project are the same": consolidations,
        "a consolidation that was changed differs": verified, "a whole day": day, "a part of a list": part_of_a_list,
        "refusals of two lists": refusals, "one list from standard input": standard_input,
        "wrong words of compare": wrong_words, "the values of a difference": values,
        "a consolidation that is compared and right": verified_right,
        "a refused consolidation that would be compared": verified_refused, "a consolidation written wrongly": spoiled,
        "the samples that differ, by hand": counts, "the samples that differ within an hour": counted_hour,
    }.items():
        suite.case(name, body)
    met = set()
    for seed in range(PAIRS):
        suite.case(f"random pair {seed}", random_pair(seed, met))
    suite.case("random pairs meet the whole profile", whole_profile(met))
