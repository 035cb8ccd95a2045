"""Sound files that are accepted, and those that are refused by number, index and name."""

import struct

import model
from harness import Scene, Suite, expect_done, expect_line, expect_refused, same
from tables import (
    FIRST_LIST, bext_chunk, data_chunk, extensible_chunk, format_chunk, rf64_file, riff_chunk, riff_file, size_changed,
    sizes_chunk, wave, with_line_after,
)

SAMPLES = (1000, -1000, 32767, -32768)
FORMAT = format_chunk()
DATA = data_chunk(SAMPLES)
OTHER_DATA = data_chunk((7, 7, 7, 7))
UNTOLD = 0xFFFFFFFF
LARGE_DATA = size_changed(DATA, UNTOLD)
UNTOLD_LIST = size_changed(riff_chunk(b"LIST", b""), UNTOLD)
NO_FILE = 2 ** 64 - 1


def sizes_of(size: int, count: int, told_size: int = None) -> bytes:
    """A `ds64` of so many bytes, that tells so many entries, of 8 bytes of data."""
    body = struct.pack("<QQQI", 0, 8, 4, count).ljust(size, b"\0")[:size]
    return size_changed(riff_chunk(b"ds64", body), size if told_size is None else told_size)


def deep(depth: int, channels: int = 1) -> bytes:
    """Four frames at a depth, each channel with numbers of its own."""
    unit = 2 ** (depth - 16)
    samples = [sample * unit + channel for sample in (1000, -1000, 0, -32768) for channel in range(channels)]
    return riff_file(format_chunk(channels=channels, bits=depth), data_chunk(samples, depth))


REFUSED = {
    "an empty file": (23, b""),
    "eleven bytes": (23, wave()[:11]),
    "another first word": (23, riff_file(FORMAT, DATA, name=b"RIFX")),
    "another form": (23, riff_file(FORMAT, DATA, form=b"AVI ")),
    "text": (23, b"this is no sound file at all"),
    "BW64": (23, b"BW64" + rf64_file(sizes_chunk(8), FORMAT, LARGE_DATA)[4:]),
    "a head alone": (24, riff_file()),
    "chunks of nothing alone": (24, riff_file(*[riff_chunk(b"JUNK", b"")] * 1000)),
    "no format": (24, riff_file(DATA)),
    "a format in capitals": (24, riff_file(riff_chunk(b"FMT ", FORMAT[8:]), DATA)),
    "no data": (25, riff_file(FORMAT)),
    "data behind a chunk that passes the end": (
        25, riff_file(FORMAT, size_changed(riff_chunk(b"LIST", b""), 99), DATA)),
    "data past the end": (26, wave()[:-1]),
    "data of a size that was never filled in": (26, riff_file(FORMAT, LARGE_DATA)),
    "data past the end, and no format": (26, riff_file(size_changed(DATA, 9))),
    "a format past the end": (26, riff_file(DATA, size_changed(FORMAT, 17))),
    "bext past the end": (26, riff_file(FORMAT, DATA, size_changed(bext_chunk(), 603))),
    "another tag": (27, riff_file(format_chunk(tag=3), DATA)),
    "no channels": (27, riff_file(format_chunk(channels=0), DATA)),
    "65 channels": (27, riff_file(format_chunk(channels=65), DATA)),
    "8 bits": (27, riff_file(format_chunk(bits=8), DATA)),
    "20 bits": (27, riff_file(format_chunk(bits=20, block=3), DATA)),
    "another block": (27, riff_file(format_chunk(block=4), DATA)),
    "a format of 15 bytes": (27, riff_file(riff_chunk(b"fmt ", FORMAT[8:23]), DATA)),
    "an empty format": (27, riff_file(riff_chunk(b"fmt ", b""), DATA)),
    "EXTENSIBLE of 39 bytes": (27, riff_file(riff_chunk(b"fmt ", extensible_chunk()[8:47]), DATA)),
    "EXTENSIBLE of another count": (27, riff_file(extensible_chunk(size=21), DATA)),
    "EXTENSIBLE with float samples": (
        27, riff_file(extensible_chunk(bits=32, sub_format="0300000000001000800000aa00389b71"), DATA)),
    "no depth at another rate": (27, riff_file(format_chunk(bits=8, rate=44100), DATA)),
    "44100": (29, riff_file(format_chunk(rate=44100), DATA)),
    "47999": (29, riff_file(format_chunk(rate=47999), DATA)),
    "96000": (29, riff_file(format_chunk(rate=96000), DATA)),
    "RF64 without ds64": (28, rf64_file(FORMAT, DATA)),
    "RF64 with ds64 behind": (28, rf64_file(FORMAT, sizes_chunk(8), DATA)),
    "RF64, its head alone": (28, rf64_file()),
    "ds64 of 27 bytes": (28, rf64_file(sizes_of(27, 0), FORMAT, LARGE_DATA)),
    "ds64 of 39 bytes with an entry": (28, rf64_file(sizes_of(39, 1), FORMAT, LARGE_DATA)),
    "ds64 of 40 bytes with many entries": (28, rf64_file(sizes_of(40, UNTOLD), FORMAT, LARGE_DATA)),
    "ds64 past the end": (28, rf64_file(sizes_of(28, 0, 999), FORMAT, LARGE_DATA)),
    "a chunk whose size ds64 doesn't tell": (
        28, rf64_file(sizes_chunk(8), FORMAT, DATA, UNTOLD_LIST)),
    "ds64 with the largest size of data": (26, rf64_file(sizes_chunk(NO_FILE), FORMAT, LARGE_DATA)),
    "a chunk of the largest size before data": (
        25, rf64_file(sizes_chunk(8, ((b"LIST", NO_FILE),)), FORMAT, UNTOLD_LIST, DATA)),
}

ACCEPTED = {
    "a plain file": wave(),
    "24 bits": deep(24),
    "32 bits": deep(32),
    "two channels": deep(16, 2),
    "six channels of 24 bits": deep(24, 6),
    "64 channels of 32 bits": deep(32, 64),
    "EXTENSIBLE": riff_file(extensible_chunk(), DATA),
    "chunks before and behind": riff_file(
        riff_chunk(b"JUNK", bytes(28)), FORMAT, riff_chunk(b"iXML", b"<a/>"), DATA, riff_chunk(b"LIST", b"INFO")),
    "data before the format": riff_file(DATA, FORMAT),
    "an odd chunk and its pad byte": riff_file(FORMAT, riff_chunk(b"note", b"odd"), DATA),
    "an empty chunk": riff_file(FORMAT, riff_chunk(b"note", b""), DATA),
    "data of nine bytes": riff_file(FORMAT, riff_chunk(b"data", DATA[8:] + b"\1")),
    "a last pad byte that is missing": riff_file(FORMAT, DATA, bext_chunk(history=b"A"))[:-1],
    "bext": riff_file(bext_chunk(172_800_000, b"Take one", b"A=PCM"), FORMAT, DATA),
    "a short bext": riff_file(bext_chunk(size=345), FORMAT, DATA),
    "bext without history": riff_file(bext_chunk(7, size=346), FORMAT, DATA),
    "the longest history": riff_file(bext_chunk(7, history=b"A" * 65_536), FORMAT, DATA),
    "a history that is cut": riff_file(bext_chunk(7, history=b"A" * 65_537), FORMAT, DATA),
    "a short bext and a whole one": riff_file(bext_chunk(size=345), bext_chunk(7), FORMAT, DATA),
    "a second format": riff_file(FORMAT, format_chunk(channels=2), DATA),
    "second data": riff_file(FORMAT, DATA, OTHER_DATA),
    "a second format past the end": riff_file(FORMAT, DATA, size_changed(FORMAT, 99)),
    "a chunk past the end": riff_file(FORMAT, DATA, size_changed(riff_chunk(b"LIST", b"INFO"), UNTOLD)),
    "more frames than the entry plays": wave(SAMPLES + (5, 6, 7)),
    "seven bytes behind": riff_file(FORMAT, DATA) + b"data\0\0\0",
    "a longer format": riff_file(format_chunk(more=bytes(2)), DATA),
    "another count of bytes a second": riff_file(FORMAT[:16] + bytes(4) + FORMAT[20:], DATA),
    "a size of zero in the head": b"RIFF" + bytes(4) + wave()[8:],
    "the largest size in the head": b"RIFF" + b"\xff" * 4 + wave()[8:],
    "ds64 in RIFF": riff_file(sizes_chunk(4), FORMAT, DATA),
    "RF64": rf64_file(sizes_chunk(8), FORMAT, LARGE_DATA),
    "RF64 with an entry": rf64_file(sizes_of(40, 1), FORMAT, LARGE_DATA),
    "RF64 with data of its own size": rf64_file(sizes_chunk(99), FORMAT, DATA),
    "RF64 with two sizes of one chunk": rf64_file(
        sizes_chunk(8, ((b"LIST", 4), (b"LIST", 99))), UNTOLD_LIST + b"INFO", FORMAT, LARGE_DATA),
    "RF64 with other samples told": rf64_file(sizes_chunk(8, samples=99), FORMAT, LARGE_DATA),
}

NOTICES = {
    "a chunk that isn't carried": ("6", riff_file(FORMAT, DATA, riff_chunk(b"LIST", b""))),
    "a place for sizes alone": ("", riff_file(riff_chunk(b"JUNK", bytes(28)), FORMAT, DATA)),
    "a place for sizes that passes the end": (
        "", riff_file(FORMAT, DATA, size_changed(riff_chunk(b"JUNK", b""), UNTOLD))),
    "an empty bext": ("5", riff_file(FORMAT, DATA, riff_chunk(b"bext", b""))),
    "ds64 of RF64": ("", rf64_file(sizes_chunk(8), FORMAT, LARGE_DATA)),
    "ds64 of RIFF": ("6", riff_file(sizes_chunk(8), FORMAT, DATA)),
    "a second bext": ("6", riff_file(bext_chunk(), bext_chunk(), FORMAT, DATA)),
    "a short bext": ("5", riff_file(bext_chunk(size=345), FORMAT, DATA)),
    "another time than the list's": ("4", riff_file(bext_chunk(1), FORMAT, DATA)),
    "a history that is cut": ("7", riff_file(bext_chunk(history=b"A" * 65_537), FORMAT, DATA)),
    "all but a short bext": (
        "467", riff_file(bext_chunk(1, history=b"A" * 65_537), FORMAT, DATA, riff_chunk(b"iXML", b""))),
}


def refused(number: int, data: bytes):
    line = f"refused {number} at index 1 file A.wav"
    return lambda scene: expect_refused(scene, FIRST_LIST, {"A.wav": data}, line)


def accepted(data: bytes):
    return lambda scene: expect_done(scene, FIRST_LIST, {"A.wav": data})


def told(kinds: str, data: bytes):
    """These notices stand at the index, before the line."""
    notices = tuple(f"notice {kind} at index 1" for kind in kinds)

    def body(scene: Scene) -> None:
        same("the notices of the model", model.answer("check", FIRST_LIST, {"A.wav": data}).notices, notices)
        expect_done(scene, FIRST_LIST, {"A.wav": data})
    return body


def base_of_file(scene: Scene) -> None:
    """Without a time in the list the file's own counts, where it has one."""
    entry = model.entry_line(1, 1, b"01.00.00.00/0002", b"00.00.00.00/0000", b"00.00.00.00/0001")
    text = model.list_text([model.source_line(1, "A.wav", b"_")], [entry])
    media = {"A.wav": riff_file(bext_chunk(172_800_000), FORMAT, DATA)}
    wanted = model.answer("render", text, media, model.Options(depth=16))
    same("the one sample", wanted.files["render.wav"][690:], struct.pack("<h", SAMPLES[2]))
    expect_done(scene, text, media, model.Options(depth=16))
    expect_refused(scene, text, {"A.wav": wave()}, "refused 46 at entry 1")
    late = {"A.wav": riff_file(bext_chunk(model.DAY), FORMAT, DATA)}
    expect_refused(scene, text, late, "refused 46 at entry 1")


def one_file_of_two_folders(scene: Scene) -> None:
    """One name at two paths is refused where both are used, by whatever hosts."""
    text = two_sources("A.wav", "A.wav")
    media = {"A.wav": wave()}
    expect_done(scene, text.replace(b"localhost/A.wav", b"studio/%41.wav", 1), media)
    other = text.replace(b"localhost/A.wav", b"localhost/x/A.wav", 1)
    expect_refused(scene, other, media, "refused 30 at index 2")
    unused = other.replace(b"(Entry) 0002 (Cut) I 0002", b"(Entry) 0002 (Cut) I 0001")
    same("the notices", model.answer("check", unused, media).notices, ("notice 3 at index 2",))
    expect_done(scene, unused, media)


def two_sources(first: str, second: str, source_numbers=(1, 2)) -> bytes:
    midnight = b"00.00.00.00/0000"
    source_lines = [
        model.source_line(number, name, midnight) for number, name in zip(source_numbers, (first, second))
    ]
    entry_lines = [model.entry_line(number, number, midnight, midnight, b"00.00.00.00/0001") for number in (1, 2)]
    return model.list_text(source_lines, entry_lines)


def first_index_decides(scene: Scene) -> None:
    """Files are opened in the order of the index lines, whatever their numbers and the order of the entries."""
    media = {"A.wav": riff_file(DATA), "B.wav": b"no file"}
    expect_refused(scene, two_sources("A.wav", "B.wav"), media, "refused 24 at index 1 file A.wav")
    expect_refused(scene, two_sources("B.wav", "A.wav"), media, "refused 23 at index 1 file B.wav")
    expect_refused(scene, two_sources("B.wav", "A.wav", (2, 1)), media, "refused 23 at index 2 file B.wav")
    expect_refused(scene, two_sources("A.wav", "C.wav"), {"A.wav": wave()}, "refused 21 at index 2 file C.wav")
    expect_refused(scene, two_sources("B.wav", "B.wav"), media, "refused 23 at index 1 file B.wav")


def files_before_entries(scene: Scene) -> None:
    media = {"A.wav": wave()}
    missing = two_sources("A.wav", "B.wav").replace(b"(Entry) 0001 (Cut) I 0001", b"(Entry) 0001 (Cut) I 0003")
    expect_refused(scene, missing, media, "refused 21 at index 2 file B.wav")


def unused_file(scene: Scene) -> None:
    """The file of an index that no entry names isn't opened; that of an entry without length is."""
    media = {"A.wav": wave(), "B.wav": b"no file"}
    unused = with_line_after(7, model.source_line(2, "B.wav", b"00.00.00.00/0000"))
    expect_done(scene, unused, media)
    silent = model.entry_line(2, 2, *[b"00.00.00.00/0000"] * 3)
    used = unused.replace(b"</EVENT_LIST>", silent + b"\n</EVENT_LIST>")
    expect_refused(scene, used, media, "refused 23 at index 2 file B.wav")


def answer_to_prefix(length: int) -> str:
    """What `check` says of that much of a file with `ds64`, EXTENSIBLE, data and `bext`, by where each of them ends."""
    for end, number in ((12, 23), (48, 28), (56, 24), (96, 26), (104, 25), (152, 26)):
        if length < end:
            return f"refused {number} at index 1 file A.wav"
    # less than a head of a chunk is no chunk, and `bext` has 603 bytes
    if 160 <= length < 763:
        return "refused 26 at index 1 file A.wav"
    return "accepted 1 entries 1 indexes"


def each_prefix(scene: Scene) -> None:
    """Wherever the file ends."""
    data = size_changed(data_chunk([7] * 16, 24), UNTOLD)
    form = extensible_chunk(channels=4, bits=24)
    whole = rf64_file(sizes_chunk(48, samples=4), form, data, bext_chunk(history=b"A"))[:-1]
    same("the length of the whole", len(whole), 763)
    for length in range(len(whole) + 1):
        expect_line(scene, "check", FIRST_LIST, {"A.wav": whole[:length]}, answer_to_prefix(length))


def names_with_case(scene: Scene) -> None:
    """Names of files are exact."""
    text = FIRST_LIST.replace(b"A.wav", b"Take.2.b.WAV")
    expect_done(scene, text, {"Take.2.b.WAV": wave()})
    (scene.folder / "M" / "Take.2.b.WAV").unlink()
    expect_refused(scene, text, {"take.2.b.wav": wave()}, "refused 21 at index 1 file Take.2.b.WAV")


def long_file(scene: Scene) -> None:
    """A file of more than one block of 4096 frames, from any frame to any other."""
    samples = [(place * 7919) % 65536 - 32768 for place in range(12_300)]
    media = {"A.wav": wave(samples)}
    midnight = b"00.00.00.00/0000"
    spans = ((0, 4096), (0, 4097), (1, 4097), (4095, 8193), (4096, 12_288), (12_299, 12_300), (0, 12_300))
    entry_lines = [
        model.entry_line(number, 1, *(model.time_text(value) for value in (first, 3 * first, 3 * first + last - first)))
        for number, (first, last) in enumerate(spans, 1)
    ]
    expect_done(scene, model.list_text([model.source_line(1, "A.wav", midnight)], entry_lines), media)


def run(suite: Suite) -> None:
    for name, (number, data) in REFUSED.items():
        suite.case(f"file refused: {name}", refused(number, data))
    for name, data in ACCEPTED.items():
        suite.case(f"file accepted: {name}", accepted(data))
    for name, (kinds, data) in NOTICES.items():
        suite.case(f"notices: {name}", told(kinds, data))
    suite.case("the time of a file", base_of_file)
    suite.case("one name in two folders", one_file_of_two_folders)
    suite.case("the first index at fault decides", first_index_decides)
    suite.case("files come before entries", files_before_entries)
    suite.case("the file of an unused index", unused_file)
    suite.case("a file of each length", each_prefix)
    suite.case("names are exact", names_with_case)
    suite.case("a file of several blocks", long_file)
