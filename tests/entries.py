"""Entries that are refused by number, and the empty range."""

import model
from harness import Scene, Suite, expect_done, expect_line, expect_refused, same
from tables import FIRST_LIST, data_chunk, format_chunk, riff_file, wave

MIDNIGHT = b"00.00.00.00/0000"
DAY_END = b"24.00.00.00/0000"
MEDIA = {
    "A.wav": wave(), "B.wav": wave(range(10)),
    "C.wav": riff_file(format_chunk(channels=3), data_chunk([1, 20, 300, -1, -20, -300, 2, 40, 600])),
}


def sample(value: int) -> bytes:
    return model.time_text(value)


def entry(number: int, source_in: int, dest_in: int, dest_out: int, index: int = 1) -> bytes:
    return model.entry_line(number, index, sample(source_in), sample(dest_in), sample(dest_out))


def wide(source: bytes, dest: bytes) -> bytes:
    """An entry of three samples on these channels."""
    return entry(1, 0, 0, 3).replace(b" 1 1 ", b" %s %s " % (source, dest))


def faded(number: int, length: int, rise: int, fall: int) -> bytes:
    """An entry from the first frame on, with both fades."""
    fades = model.fade_line(b"Infade", rise), model.fade_line(b"Outfade", fall)
    return b"\n".join((entry(number, 0, 0, length), *fades))


def over(base: bytes, *entry_lines: bytes, name: str = "A.wav") -> bytes:
    return model.list_text([model.source_line(1, name, base)], list(entry_lines))


def refused(text: bytes, line: str):
    return lambda scene: expect_refused(scene, text, MEDIA, line)


def accepted(text: bytes):
    return lambda scene: expect_done(scene, text, MEDIA)


REFUSED = {
    "no such index": (over(MIDNIGHT, entry(1, 0, 0, 4, index=2)), "refused 41 at entry 1"),
    "no such index, in an entry of no length": (over(MIDNIGHT, entry(5, 0, 0, 0, index=2)), "refused 41 at entry 5"),
    "no indexes": (model.list_text([], [entry(32767, 0, 0, 4)]), "refused 41 at entry 32767"),
    "its end before its start": (over(MIDNIGHT, entry(1, 0, 5, 4)), "refused 42 at entry 1"),
    "its end a day before its start": (
        over(MIDNIGHT, model.entry_line(1, 1, MIDNIGHT, DAY_END, MIDNIGHT)), "refused 42 at entry 1"),
    "one frame too many": (over(MIDNIGHT, entry(1, 0, 0, 5)), "refused 46 at entry 1"),
    "the frame behind the last": (over(MIDNIGHT, entry(1, 4, 0, 1)), "refused 46 at entry 1"),
    "far behind the last": (over(MIDNIGHT, entry(1, 4_147_199_999, 0, 1)), "refused 46 at entry 1"),
    "more than a file can hold": (
        over(MIDNIGHT, model.entry_line(1, 1, MIDNIGHT, MIDNIGHT, DAY_END)), "refused 46 at entry 1"),
    "one sample below the base": (over(b"00.00.00.00/0002", entry(1, 1, 0, 1)), "refused 46 at entry 1"),
    "from below the base into the file": (over(b"00.00.00.00/0002", entry(1, 1, 0, 3)), "refused 46 at entry 1"),
    "a base at the day's end": (
        over(DAY_END, model.entry_line(1, 1, DAY_END, MIDNIGHT, b"00.00.00.00/0001")), "refused 46 at entry 1"),
    "past the day's end": (
        over(b"23.59.59.24/1918", entry(1, 4_147_199_998, 0, 3), name="B.wav"), "refused 46 at entry 1"),
    "the first entry at fault": (
        over(MIDNIGHT, entry(9, 0, 0, 4), entry(3, 0, 5, 4), entry(1, 0, 0, 4, index=2)), "refused 42 at entry 3"),
    "fades longer than the entry": (over(MIDNIGHT, faded(7, 10, 6, 5), name="B.wav"), "refused 43 at entry 7"),
    "a fade of an entry of no length": (over(MIDNIGHT, faded(1, 0, 1, 0)), "refused 43 at entry 1"),
    "a channel that the file hasn't": (over(MIDNIGHT, wide(b"2", b"1")), "refused 44 at entry 1"),
    "a last channel that the file hasn't": (over(MIDNIGHT, wide(b"1~2", b"1~2")), "refused 44 at entry 1"),
    "a channel that the file hasn't, in an entry of no length": (
        over(MIDNIGHT, entry(1, 0, 0, 0).replace(b" 1 1 ", b" 2 1 ")), "refused 44 at entry 1"),
    "the end before the fades": (over(MIDNIGHT, b"\n".join((
        entry(1, 0, 5, 4), model.fade_line(b"Infade", 1)))), "refused 42 at entry 1"),
    "the fades before the channels": (
        over(MIDNIGHT, faded(1, 4, 3, 2).replace(b" 1 1 ", b" 2 1 ")), "refused 43 at entry 1"),
    "the channels before the frames": (
        over(MIDNIGHT, entry(1, 0, 0, 5).replace(b" 1 1 ", b" 2 1 ")), "refused 44 at entry 1"),
    "the first entry at fault by lines, not by numbers": (
        over(MIDNIGHT, entry(2, 0, 0, 4, index=2), entry(1, 0, 5, 4)), "refused 41 at entry 2"),
    "the index before the end": (over(MIDNIGHT, entry(1, 0, 5, 4, index=2)), "refused 41 at entry 1"),
    "the end before the frames": (over(MIDNIGHT, entry(1, 9, 5, 4)), "refused 42 at entry 1"),
}

ACCEPTED = {
    "fades that meet": over(MIDNIGHT, faded(7, 10, 6, 4), name="B.wav"),
    "a rise over all": over(MIDNIGHT, faded(1, 4, 4, 0)),
    "a fall over all": over(MIDNIGHT, faded(1, 4, 0, 4)),
    "fades of one sample": over(MIDNIGHT, faded(1, 4, 1, 1)),
    "channels of a wide file": over(MIDNIGHT, wide(b"2~3", b"5~6"), name="C.wav"),
    "channels over one another": over(
        MIDNIGHT, wide(b"1~3", b"1~3"), wide(b"2~3", b"2~3").replace(b"0001 (Cut)", b"0002 (Cut)"), name="C.wav"),
    "the first frame": over(MIDNIGHT, entry(1, 0, 0, 1)),
    "the last frame": over(MIDNIGHT, entry(1, 3, 0, 1)),
    "a base": over(b"10.00.00.00/0000", model.entry_line(
        1, 1, b"10.00.00.00/0001", b"01.00.00.00/0000", b"01.00.00.00/0003")),
    "the last samples of the day": over(b"23.59.59.24/1918", entry(1, 4_147_199_998, 0, 2), name="B.wav"),
    "no length, far from its file": over(MIDNIGHT, entry(1, 4_147_199_999, 0, 0), entry(2, 0, 0, 4)),
    "no length, below the base": over(b"01.00.00.00/0000", model.entry_line(
        1, 1, b"01.00.00.00/0000", MIDNIGHT, b"00.00.00.00/0004"), entry(2, 0, 2, 2)),
    "no length stretches the range": over(MIDNIGHT, entry(1, 0, 10, 14), entry(2, 0, 3, 3), entry(3, 0, 20, 20)),
    "two of no length with a gap": over(MIDNIGHT, entry(1, 0, 3, 3), entry(2, 0, 8, 8)),
    "a gap between entries": over(MIDNIGHT, entry(1, 0, 0, 4), entry(2, 0, 5000, 5004)),
    "the order of lines where starts are equal": over(
        MIDNIGHT, entry(3, 2, 7, 8), entry(2, 1, 7, 8), entry(1, 0, 7, 8)),
    "one file under three indexes": model.list_text(
        [model.source_line(number, "A.wav", sample(base)) for number, base in ((1, 0), (2, 100), (3, 50))],
        [entry(1, 101, 0, 2, index=2), entry(2, 1, 1, 3, index=1), entry(3, 50, 0, 4, index=3)]),
    "both files": model.list_text(
        [model.source_line(1, "A.wav", MIDNIGHT), model.source_line(2, "B.wav", MIDNIGHT)],
        [entry(1, 0, 0, 4), entry(2, 3, 2, 9, index=2)]),
    "a sum above and below the range of 16 bits": over(
        MIDNIGHT, *(entry(number, 2, 0, 2) for number in range(1, 6)), entry(6, 3, 0, 1)),
}


def empty_range(scene: Scene) -> None:
    """Nothing lies in the range: rendering is refused, and a list without entries is written."""
    for text in (model.list_text([], []), over(MIDNIGHT, entry(1, 0, 7, 7)), over(
            MIDNIGHT, entry(1, 0, 7, 7), entry(2, 3, 7, 7))):
        expect_line(scene, "render", text, MEDIA, "refused 58")
        expect_line(scene, "consolidate", text, MEDIA, "written 0 media 0 entries")


def further_faults(scene: Scene) -> None:
    """A check tells the entries at fault behind the first one, 20 of them and how many more, or the files."""
    entries = [entry(number, 0, 5, 4) if number % 2 else entry(number, 0, 0, 5) for number in range(1, 31)]
    told = [f"also {42 if number % 2 else 46} at entry {number}" for number in range(2, 22)]
    for count, wanted in ((1, ()), (3, told[:2]), (21, told), (22, [*told, "and 1 more"]), (30, [*told, "and 9 more"])):
        text = over(MIDNIGHT, *entries[:count])
        same("what the model tells", model.answer("check", text, MEDIA).further, tuple(wanted))
        expect_refused(scene, text, MEDIA, "refused 42 at entry 1")
    names = ("None.wav", "A.wav", "B.wav", "Bad.wav", "Bad.wav", "Gone.wav")
    sources = [model.source_line(number, name, MIDNIGHT) for number, name in enumerate(names, 1)]
    text = model.list_text(sources, [entry(number, 0, 5, 4, index=number) for number in range(1, 7)])
    media = {**MEDIA, "Bad.wav": b"no sound"}
    wanted = ("also 23 at index 4 file Bad.wav", "also 21 at index 6 file Gone.wav")
    same("what the model tells", model.answer("check", text, media).further, wanted)
    expect_refused(scene, text, media, "refused 21 at index 1 file None.wav")


def list_before_files(scene: Scene) -> None:
    """The list's fault comes first, then the file's, then the entry's, then the range's."""
    text = FIRST_LIST.replace(b"</ADL>", b"</ADX>").replace(b"I 0001", b"I 0002")
    expect_refused(scene, text, {}, "refused 03 at line 12")
    expect_refused(scene, over(MIDNIGHT, entry(1, 0, 5, 4)), {"A.wav": b""}, "refused 23 at index 1 file A.wav")
    expect_line(scene, "render", over(MIDNIGHT, entry(1, 0, 5, 5, index=2)), MEDIA, "refused 41 at entry 1")


def run(suite: Suite) -> None:
    for name, (text, line) in REFUSED.items():
        suite.case(f"entry refused: {name}", refused(text, line))
    for name, text in ACCEPTED.items():
        suite.case(f"entry accepted: {name}", accepted(text))
    suite.case("an empty range", empty_range)
    suite.case("the order of refusals", list_before_files)
    suite.case("further faults", further_faults)
