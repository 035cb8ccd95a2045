"""Worked examples, whose bytes are known from tables."""

import struct
from typing import Callable, NamedTuple

import model
from harness import (
    LIST, MEDIA, Mismatch, Scene, Suite, expect_answer, expect_done, expect_line, expect_refused, preloaded,
    same, same_answer, same_bytes, same_files, words_of,
)
from tables import (
    CONSOLIDATED_LIST, EMPTY_LIST, FIRST_LIST, FIRST_SAMPLES, bext_chunk, changed, consolidated_bytes, data_chunk,
    extensible_chunk, format_chunk, rendered_bytes, rf64_file, riff_file, size_changed, sizes_chunk, wave,
    with_line_after, without,
)

MIDNIGHT = b"00.00.00.00/0000"
HOUR = 172_800_000
EXACT = model.Options(handle=0, depth=16)
FIRST_MEDIA = {"A.wav": wave()}

# The right channel of a stereo file; its left one is silent.
RIGHT = [100] * 4 + [0] * 4 + [100] * 4
FADED_RIGHT = (0, 25, 50, 75, 0, 0, 0, 0, 100, 75, 50, 25)


def time(value: int) -> bytes:
    return model.time_text(value)


def entry(number: int, first: int, begin: int, end: int, index: int = 1, rise: int = 0, fall: int = 0) -> bytes:
    """An entry from a frame of its file on, over samples of the first hour, with its fades."""
    lines = [model.entry_line(number, index, time(first), time(HOUR + begin), time(HOUR + end))]
    for keyword, length in ((b"Infade", rise), (b"Outfade", fall)):
        if length:
            lines.append(model.fade_line(keyword, length))
    return b"\n".join(lines)


def one_source(*entry_lines: bytes) -> bytes:
    return model.list_text([model.source_line(1, "A.wav", MIDNIGHT)], list(entry_lines), b"\n")


def mono(*samples: int) -> dict:
    return {"A.wav": wave(samples)}


def packed(samples, depth: int) -> bytes:
    return data_chunk(samples, depth)[8:8 + len(samples) * depth // 8]


def file_of(data: bytes, channels: int, depth: int, begin: int) -> bytes:
    """A written file by the table of the first one, with other facts in its header."""
    parts = bytearray(rendered_bytes()[:690])
    struct.pack_into("<I", parts, 4, 682 + len(data) + len(data) % 2)
    struct.pack_into("<Q", parts, 394, begin)
    block = channels * depth // 8
    struct.pack_into("<HIIHH", parts, 668, channels, 48_000, 48_000 * block, block, depth)
    struct.pack_into("<I", parts, 686, len(data))
    return bytes(parts) + data + bytes(len(data) % 2)


class Rendering(NamedTuple):
    """The samples of a rendered file, frame after frame, and where it begins."""
    samples: tuple
    channels: int = 1
    begin: int = HOUR

    def answer(self, depth: int) -> model.Answer:
        data = file_of(packed(self.samples, depth), self.channels, depth, self.begin)
        line = f"rendered {len(self.samples) // self.channels} frames {self.channels} channels"
        return model.Answer(0, line, {"render.wav": data})


def expect_rendering(scene: Scene, text: bytes, media: dict, wanted: Rendering, options: model.Options = EXACT) -> None:
    """The program gives just these bytes, and so does the model."""
    answer = wanted.answer(options.depth)
    told = model.answer("render", text, media, options)
    same("the line of the model", told.line, answer.line)
    same_bytes("the file of the model", told.files["render.wav"], answer.files["render.wav"])
    scene.put(text, media)
    files = {**told.files, **answer.files}
    answer = answer._replace(notices=told.notices, files=files, clipped=told.clipped)
    expect_answer(scene, "render", answer, options)
    scene.empty_out()


def expect_written(scene: Scene, text: bytes, media: dict, line: str, files: dict, handle: int = 0) -> None:
    """The program writes just these files, and the model says so too."""
    options = model.Options(handle=handle)
    expect_line(scene, "consolidate", text, media, line, options)
    scene.put(text, media)
    told = model.answer("consolidate", text, media, options)
    expect_answer(scene, "consolidate", model.Answer(0, line, files, told.notices, told.saved), options)
    scene.empty_out()


RENDERED = {
    "two equal entries are added": (
        one_source(entry(1, 0, 0, 4), entry(2, 0, 0, 4)), FIRST_MEDIA, Rendering((2000, -2000, 32767, -32768))),
    "a sum is clipped once, at its end": (
        one_source(entry(1, 0, 0, 1), entry(2, 1, 0, 1), entry(3, 2, 0, 1)), mono(32767, 32767, -32768),
        Rendering((32766,))),
    "a rise": (one_source(entry(1, 0, 0, 4, rise=4)), mono(*[1000] * 4), Rendering((0, 250, 500, 750))),
    "a fall": (one_source(entry(1, 0, 0, 4, fall=4)), mono(*[1000] * 4), Rendering((1000, 750, 500, 250))),
    "thirds of -1 are rounded": (one_source(entry(1, 0, 0, 3, rise=3)), mono(-1, -1, -1), Rendering((0, 0, -1))),
    "half of 1 is rounded up": (one_source(entry(1, 0, 0, 2, rise=2)), mono(1, 1), Rendering((0, 1))),
    "half of -1 is rounded up": (one_source(entry(1, 0, 0, 2, rise=2)), mono(-1, -1), Rendering((0, 0))),
    "a crossfade of one sound is that sound": (
        one_source(entry(1, 0, 0, 3, fall=3), entry(2, 0, 0, 3, rise=3)), mono(5, 5, 5), Rendering((5, 5, 5))),
    "the whole of a file": (one_source(entry(1, 0, 0, 4)), FIRST_MEDIA, Rendering(FIRST_SAMPLES)),
    "entries go by destination": (
        one_source(entry(7, 4, 4, 8), entry(8, 0, 0, 4)), mono(*range(1, 10)), Rendering(tuple(range(1, 9)))),
}

# What the words of a rendering of the first list choose, and what comes of it.
CHOSEN = {
    "a range": (
        EXACT._replace(begin="01.00.00.00/0001", end="01.00.00.00/0006"),
        Rendering((-1000, 32767, -32768, 0, 0), begin=HOUR + 1), 700),
    "two channels": (
        EXACT._replace(channels=2), Rendering((1000, 0, -1000, 0, 32767, 0, -32768, 0), 2), 706),
    "24 bits": (
        EXACT._replace(depth=24), Rendering((256_000, -256_000, 32767 * 256, -32768 * 256)), 702),
    "32 bits": (
        EXACT._replace(depth=32), Rendering(tuple(sample * 65_536 for sample in FIRST_SAMPLES)), 706),
    "one sample of 24 bits": (
        EXACT._replace(depth=24, end="01.00.00.00/0001"), Rendering((256_000,)), 694),
}


def chosen(options: model.Options, wanted: Rendering, size: int):
    def body(scene: Scene) -> None:
        same("the length of the file", len(wanted.answer(options.depth).files["render.wav"]), size)
        expect_rendering(scene, FIRST_LIST, FIRST_MEDIA, wanted, options)
    return body


def first_list_rendered(rate: int):
    """The same bytes at each rate of frames, since none of its times has a frame."""
    def body(scene: Scene) -> None:
        text = changed(4, b"(SEQ_FRAME_RATE) %d" % rate)
        scene.put(text, FIRST_MEDIA)
        same("the length of its file", len(rendered_bytes()), 698)
        files = {**model.answer("render", text, FIRST_MEDIA, EXACT).files, "render.wav": rendered_bytes()}
        expect_answer(scene, "render", model.Answer(0, "rendered 4 frames 1 channels", files), EXACT)
    return body


def first_list_consolidated(scene: Scene) -> None:
    files = {"M00001.wav": consolidated_bytes(), "consolidated.adl": CONSOLIDATED_LIST}
    expect_written(scene, FIRST_LIST, FIRST_MEDIA, "written 1 media 1 entries", files)


def no_entries(scene: Scene) -> None:
    text = without(10)
    same("the notices", model.answer("check", text, FIRST_MEDIA).notices, ("notice 3 at index 1",))
    expect_line(scene, "check", text, FIRST_MEDIA, "accepted 0 entries 0 indexes")
    expect_written(scene, text, FIRST_MEDIA, "written 0 media 0 entries", {"consolidated.adl": EMPTY_LIST})
    expect_line(scene, "render", text, FIRST_MEDIA, "refused 58")
    four = EXACT._replace(begin="00.00.00.00/0000", end="00.00.00.00/0004")
    expect_rendering(scene, text, FIRST_MEDIA, Rendering((0, 0, 0, 0), begin=0), four)


def empty_ranges(scene: Scene) -> None:
    """A range that ends where it begins, or begins at the end of what sounds."""
    two = "01.00.00.00/0002"
    for begin, end in ((two, two), ("01.00.00.00/0004", None), (None, "00.59.59.24/1919")):
        options = model.Options(begin=begin, end=end)
        expect_line(scene, "render", FIRST_LIST, FIRST_MEDIA, "refused 58", options)


def fades_of_entry_seven(scene: Scene) -> None:
    media = mono(*range(10))
    expect_refused(scene, one_source(entry(7, 0, 0, 10, rise=6, fall=5)), media, "refused 43 at entry 7")
    expect_done(scene, one_source(entry(7, 0, 0, 10, rise=6, fall=4)), media)


def last_frame(scene: Scene) -> None:
    expect_done(scene, one_source(entry(1, 0, 0, 4)), FIRST_MEDIA)
    expect_refused(scene, one_source(entry(1, 0, 0, 5)), FIRST_MEDIA, "refused 46 at entry 1")


def one_file_under_two_indexes(scene: Scene) -> None:
    """What two indexes of one file play is kept once, at the time of the one that begins first."""
    text = model.list_text(
        [model.source_line(1, "A.wav", MIDNIGHT), model.source_line(2, "A.wav", time(HOUR))],
        [model.entry_line(1, 1, time(100), time(HOUR), time(HOUR + 200)),
         model.entry_line(2, 2, time(HOUR + 200), time(2 * HOUR), time(2 * HOUR + 200))])
    new_text = model.list_text(
        [model.source_line(1, "M00001.wav", time(100), b"00.00.00.00/0300")],
        [model.entry_line(1, 1, time(100), time(HOUR), time(HOUR + 200)),
         model.entry_line(2, 1, time(200), time(2 * HOUR), time(2 * HOUR + 200))])
    files = {"M00001.wav": file_of(packed([1] * 300, 16), 1, 16, 100), "consolidated.adl": new_text}
    expect_written(scene, text, mono(*[1] * 1000), "written 1 media 2 entries", files)


def handles(rate: int, in_text: bytes):
    """One sample of ten seconds, with what is kept on both its sides, in a list at this rate of frames."""
    def at_rate(text: bytes) -> bytes:
        return text.replace(b"(SEQ_FRAME_RATE) 25", b"(SEQ_FRAME_RATE) %d" % rate)

    def time_at(value: int) -> bytes:
        return model.time_text(value, rate=rate)

    def body(scene: Scene) -> None:
        media = mono(*[1] * 480_000)
        for frame, handle, first, length in ((240_000, 10, 239_990, 21), (0, 10, 0, 11), (240_000, 0, 240_000, 1)):
            times = time_at(frame), time_at(HOUR), time_at(HOUR + 1)
            text = at_rate(one_source(model.entry_line(1, 1, *times)))
            line = model.source_line(1, "M00001.wav", time_at(first), time_at(length))
            new_text = at_rate(model.list_text([line], [model.entry_line(1, 1, *times)]))
            files = {"M00001.wav": file_of(packed([1] * length, 16), 1, 16, first), "consolidated.adl": new_text}
            expect_written(scene, text, media, "written 1 media 1 entries", files, handle)
        same("the file of 21 frames", len(file_of(packed([1] * 21, 16), 1, 16, 0)), 732)
        same("its time", time_at(239_990), in_text)
    return body


def stereo(samples: list) -> bytes:
    """A stereo file with silence on the left."""
    both = [number for sample in samples for number in (0, sample)]
    return riff_file(format_chunk(channels=2), data_chunk(both))


def stereo_entry(number: int, first: int, begin: int, end: int, **fades) -> bytes:
    return entry(number, first, begin, end, **fades).replace(b" 1 1 ", b" 1~2 1~2 ")


def silence_is_dropped(scene: Scene) -> None:
    """Both fades are kept and the silence between isn't, but for what the handles take of it; the sound is the same."""
    text, media = one_source(stereo_entry(1, 0, 0, 12, rise=4, fall=4)), {"A.wav": stereo(RIGHT)}
    sound = Rendering(tuple(number for sample in FADED_RIGHT for number in (0, sample)), 2)
    expect_rendering(scene, text, media, sound)
    for handle, runs in ((0, ((0, 4), (8, 12))), (2, ((0, 12),))):
        files = {
            f"M{number:05d}.wav": file_of(
                packed([each for sample in RIGHT[first:last] for each in (0, sample)], 16), 2, 16, first)
            for number, (first, last) in enumerate(runs, 1)
        }
        source_lines = [
            model.source_line(number, f"M{number:05d}.wav", time(first), time(last - first))
            for number, (first, last) in enumerate(runs, 1)
        ]
        entry_lines = [
            stereo_entry(1, 0, 0, 4, rise=4).replace(b"\n", b"\r\n"),
            stereo_entry(2, 8, 8, 12, index=len(runs), fall=4).replace(b"\n", b"\r\n")]
        files["consolidated.adl"] = model.list_text(source_lines, entry_lines)
        expect_written(scene, text, media, f"written {len(runs)} media 2 entries", files, handle)
        new_text = files.pop("consolidated.adl")
        expect_rendering(scene, new_text, files, sound)


def whole_large_file(scene: Scene) -> None:
    """RF64, EXTENSIBLE, 24 bits, four channels, and behind the data a `bext` of odd length without its pad."""
    form = extensible_chunk(channels=4, bits=24)
    samples = [sample for sample in FIRST_SAMPLES for _ in range(4)]
    data = size_changed(data_chunk(samples, 24), 2 ** 32 - 1)
    whole = rf64_file(sizes_chunk(48), form, data, bext_chunk(history=b"A"))[:-1]
    expect_done(scene, FIRST_LIST, {"A.wav": whole})
    past = rf64_file(sizes_chunk(48 + 612), form, data, bext_chunk(history=b"A"))[:-1]
    expect_refused(scene, FIRST_LIST, {"A.wav": past}, "refused 26 at index 1 file A.wav")


def further_lines(scene: Scene) -> None:
    """Lines behind the entry that say nothing, and those that aren't supported."""
    expect_done(scene, with_line_after(10, b"(Gain) 0.00"), FIRST_MEDIA)
    expect_refused(scene, with_line_after(10, b"(Gain) -3.00"), FIRST_MEDIA, "refused 13 at line 11 entry 1")
    expect_done(scene, with_line_after(10, b"(Infade) 00.00.00.00/0000 COS"), FIRST_MEDIA)
    curve = with_line_after(10, b"(Infade) 00.00.00.00/0002 COS")
    expect_refused(scene, curve, FIRST_MEDIA, "refused 13 at line 11 entry 1")


def spelt_otherwise(scene: Scene) -> None:
    """A byte order mark, CR LF, other separators, a name with an escape; what is written has the entry's separators."""
    text = FIRST_LIST.replace(b"A.wav", b"A%20b.wav").replace(b"\n", b"\r\n")
    entry_line = model.entry_line(1, 1, b"00:00:00:00/0000", b"01:00:00:00/0000", b"01:00:00:00/0004")
    text = b"\xef\xbb\xbf" + text.replace(FIRST_LIST.splitlines()[9], entry_line)
    new_text = CONSOLIDATED_LIST
    for old in (b"00.00.00.00/0000", b"00.00.00.00/0004", b"01.00.00.00/0000", b"01.00.00.00/0004"):
        new_text = new_text.replace(old, old.replace(b".", b":"))
    files = {"M00001.wav": consolidated_bytes(), "consolidated.adl": new_text}
    expect_written(scene, text, {"A b.wav": wave()}, "written 1 media 1 entries", files)


def no_length(scene: Scene) -> None:
    """An entry that sounds nowhere may play from anywhere, and isn't written."""
    far = model.entry_line(1, 1, time(23 * HOUR), time(HOUR), time(HOUR))
    text = one_source(far)
    expect_written(scene, text, FIRST_MEDIA, "written 0 media 0 entries", {"consolidated.adl": EMPTY_LIST})
    expect_line(scene, "check", text, FIRST_MEDIA, "accepted 1 entries 1 indexes")
    both = one_source(far, entry(2, 0, 0, 4))
    expect_line(scene, "consolidate", both, FIRST_MEDIA, "written 1 media 1 entries")


def two_files_of_one_name(scene: Scene) -> None:
    lines = [
        b'(Index) %04d (F) "file:///%s/A.wav" _ %s _' % (number, folder, MIDNIGHT)
        for number, folder in ((1, b"x"), (2, b"y"))
    ]
    both = model.list_text(lines, [entry(1, 0, 0, 4), entry(2, 0, 0, 4, index=2)])
    expect_refused(scene, both, FIRST_MEDIA, "refused 30 at index 2")
    one = model.list_text(lines, [entry(1, 0, 0, 4)])
    same("the notices", model.answer("check", one, FIRST_MEDIA).notices, ("notice 3 at index 2",))
    expect_done(scene, one, FIRST_MEDIA)


def cuts_are_joined(scene: Scene) -> None:
    """Two cuts that go on from one another are one, whatever their order; with a frame between them they aren't."""
    media = mono(*range(1, 10))
    new_text = model.list_text([model.source_line(1, "M00001.wav", time(0), time(8))], [entry(1, 0, 0, 8)])
    files = {"M00001.wav": file_of(packed(range(1, 9), 16), 1, 16, 0), "consolidated.adl": new_text}
    text = one_source(entry(1, 4, 4, 8), entry(2, 0, 0, 4))
    expect_written(scene, text, media, "written 1 media 1 entries", files)
    apart = one_source(entry(1, 5, 4, 8), entry(2, 0, 0, 4))
    expect_line(scene, "consolidate", apart, media, "written 2 media 2 entries", EXACT)


def thousand_cuts(scene: Scene) -> None:
    """A thousand cuts of ten frames, one behind the other: in the file, too, or with a frame between them there; all
    flat, or an in-fade, a flat one and an out-fade in turn, which are one entry again."""
    media = mono(*[7] * 11_000)
    fades = ({"rise": 10}, {}, {"fall": 10})
    for apart, is_flat, line in (
        (10, True, "written 1 media 1 entries"), (11, True, "written 1000 media 1000 entries"),
        (10, False, "written 1 media 334 entries"), (11, False, "written 1000 media 1000 entries"),
    ):
        lines = [
            entry(place + 1, apart * place, 10 * place, 10 * place + 10, **({} if is_flat else fades[place % 3]))
            for place in range(1000)
        ]
        expect_line(scene, "consolidate", one_source(*lines), media, line, EXACT)


def both_orders(scene: Scene) -> None:
    """A rendering whose jobs go by source is the same as one whose jobs go by time."""
    text = one_source(entry(1, 4096, 0, 4096), entry(2, 0, 4096, 8192))
    scene.put(text, mono(*[place % 1000 for place in range(8192)]))
    wanted = model.answer("render", text, scene.files(MEDIA), EXACT)
    for order in ("time", "source"):
        same_answer(scene.run(*words_of("render", EXACT), "--order", order), wanted)
        same_files(scene.files(), wanted.files)
        scene.empty_out()


def missing_file(scene: Scene) -> None:
    expect_refused(scene, FIRST_LIST, {}, "refused 21 at index 1 file A.wav")
    unused = with_line_after(7, model.source_line(2, "B.wav", MIDNIGHT))
    expect_done(scene, unused, FIRST_MEDIA)


def time_of_file(scene: Scene) -> None:
    """Without a time in the list the file's own counts; where both differ it is told."""
    media = {"A.wav": riff_file(bext_chunk(HOUR), format_chunk(), data_chunk(FIRST_SAMPLES))}
    text = model.list_text(
        [model.source_line(1, "A.wav", b"_")], [model.entry_line(1, 1, time(HOUR + 2), time(0), time(1))])
    expect_rendering(scene, text, media, Rendering((FIRST_SAMPLES[2],), begin=0))
    same("the notices", model.answer("check", FIRST_LIST, media).notices, ("notice 4 at index 1",))
    expect_done(scene, FIRST_LIST, media)


def handle_at_the_days_end(scene: Scene) -> None:
    """Frames behind the day's end have no time, so no handle keeps them."""
    begin = model.DAY - 2
    text = model.list_text(
        [model.source_line(1, "A.wav", time(begin))], [model.entry_line(1, 1, time(begin), time(0), time(1))])
    new_text = text.replace(b"A.wav", b"M00001.wav").replace(time(begin) + b" _", time(begin) + b" " + time(2))
    files = {"M00001.wav": file_of(packed([1, 2], 16), 1, 16, begin), "consolidated.adl": new_text}
    expect_written(scene, text, mono(*range(1, 11)), "written 1 media 1 entries", files, 100)


def depths(scene: Scene) -> None:
    """16 bits at 24, and 24 bits at 16, where halves go up."""
    at_24 = EXACT._replace(depth=24)
    expect_rendering(scene, one_source(entry(1, 0, 0, 1)), mono(1000), Rendering((256_000,)), at_24)
    fine = riff_file(format_chunk(bits=24), data_chunk((128, 127, -128), 24))
    expect_rendering(scene, one_source(entry(1, 0, 0, 3)), {"A.wav": fine}, Rendering((1, 0, 0)))


def refusals(scene: Scene) -> None:
    expect_refused(scene, b"", FIRST_MEDIA, "refused 03 at line 1")
    expect_refused(scene, b"<ADL>\n</ADL>\n", FIRST_MEDIA, "refused 04 at line 2")
    expect_refused(scene, changed(10, entry(1, 0, 0, 4, index=2)), FIRST_MEDIA, "refused 41 at entry 1")
    second = FIRST_LIST.replace(b" 1 1 ", b" 2 1 ")
    expect_refused(scene, second, FIRST_MEDIA, "refused 44 at entry 1")
    expect_refused(scene, one_source(entry(1, 0, 4, 0)), FIRST_MEDIA, "refused 42 at entry 1")


def long_history(scene: Scene) -> None:
    """A CodingHistory of one byte moves the data by two."""
    media = {"A.wav": riff_file(format_chunk(), bext_chunk(text=b"Take one", history=b"A"), data_chunk(FIRST_SAMPLES))}
    expect_line(scene, "consolidate", FIRST_LIST, media, "written 1 media 1 entries", EXACT)
    scene.put(FIRST_LIST, media)
    scene.run(*words_of("consolidate", EXACT))
    data = scene.files()["M00001.wav"]
    same("its head", (len(data), data[52:56], data[56:64]), (692 + 8, bytes.fromhex("5b020000"), b"Take one"))
    same("the history and the format's name", data[658:664], b"A\0fmt ")
    same("the samples", data[692:], packed(FIRST_SAMPLES, 16))


def long_fade(scene: Scene) -> None:
    """A rise over two blocks of 4,096 frames."""
    text = one_source(entry(1, 0, 0, 8192, rise=8192))
    scene.put(text, mono(*[1000] * 8192))
    wanted = model.answer("render", text, mono(*[1000] * 8192), EXACT)
    expect_answer(scene, "render", wanted, EXACT)
    samples = struct.unpack("<8192h", scene.files()["render.wav"][690:])
    same("some samples", [samples[at] for at in (2048, 4095, 4096, 4097)], [250, 500, 500, 500])


def block_edges(scene: Scene) -> None:
    """One block of 4,096 frames, one sample more, and a cut over the edge."""
    media = mono(*[place % 30_000 for place in range(9000)])
    for length in (4095, 4096, 4097, 8192, 8193):
        expect_done(scene, one_source(entry(1, 7, 0, length), entry(2, 0, 4090, 4100, rise=4, fall=6)), media, EXACT)


class Many(NamedTuple):
    """So many entries of twelve frames, from so many frames on each, over a file of as many patterns."""
    entries: int
    step: int
    patterns: int

    def put(self, scene: Scene) -> None:
        lines = [entry(number + 1, self.step * number, 13 * number, 13 * number + 12, rise=4, fall=4)
                 for number in range(self.entries)]
        scene.put(one_source(*lines), mono(*(RIGHT + [0]) * self.patterns))


def many(project: Many, line: str, change: Callable = None):
    """The answer to very many entries that each leave two pieces; a refusal writes nothing. Nothing is synced, which
    would take a minute."""
    def body(scene: Scene) -> None:
        project.put(scene)
        if change:
            (scene.folder / LIST).write_bytes(change((scene.folder / LIST).read_bytes()))
        status = 1 if line.startswith("refused") else 0
        same_answer(scene.run(*words_of("consolidate", EXACT), env=preloaded(scene)), model.Answer(status, line, {}))
        written = len(scene.files()) if status == 1 else len(list((scene.folder / "OUT").glob("M*.wav")))
        same("the written media", written, 0 if status == 1 else int(line.split()[1]))
    return body


def last_one_shorter(text: bytes) -> bytes:
    """The last entry is its rise alone."""
    head, _, tail = text.rpartition(b"(Entry)")
    begin = HOUR + 13 * 16_383
    if time(begin + 12) not in tail:
        raise Mismatch("the last entry isn't as it is thought to be")
    tail = tail.replace(time(begin + 12), time(begin + 4)).replace(b"(Outfade) 00.00.00.00/0004 LIN", b"(Rem)")
    return head + b"(Entry)" + tail


CASES = {
    "one cut is rendered": first_list_rendered(25),
    "one cut is rendered at 24 frames": first_list_rendered(24),
    "one cut is rendered at 30 frames": first_list_rendered(30),
    "one cut is consolidated": first_list_consolidated,
    "a list without entries": no_entries,
    "an empty range": empty_ranges,
    "fades longer than their entry": fades_of_entry_seven,
    "the last frame of a file": last_frame,
    "one file under two indexes": one_file_under_two_indexes,
    "handles": handles(25, b"00.00.04.24/1910"),
    "handles at 24 frames": handles(24, b"00.00.04.23/1990"),
    "handles at 30 frames": handles(30, b"00.00.04.29/1590"),
    "silence is dropped": silence_is_dropped,
    "a large file of all kinds": whole_large_file,
    "further lines of an entry": further_lines,
    "a list in another spelling": spelt_otherwise,
    "an entry of no length is gone": no_length,
    "two files of one name": two_files_of_one_name,
    "cuts are joined": cuts_are_joined,
    "a thousand cuts": thousand_cuts,
    "both orders of jobs": both_orders,
    "a file that isn't there, used and unused": missing_file,
    "the time of a file": time_of_file,
    "a handle at the day's end": handle_at_the_days_end,
    "depths": depths,
    "refusals": refusals,
    "a CodingHistory": long_history,
    "a fade over two blocks": long_fade,
    "the edges of blocks": block_edges,
}

MANY = {
    "too many entries": (Many(16_384, 0, 1), "refused 55", None),
    "as many entries as there may be": (Many(16_383, 0, 1), "written 2 media 32766 entries", None),
    "too many media": (Many(16_384, 13, 16_384), "refused 53", None),
    "as many media as there may be": (Many(16_384, 13, 16_384), "written 32767 media 32767 entries", last_one_shorter),
}


def run(suite: Suite) -> None:
    for name, body in CASES.items():
        suite.case(name, body)
    for name, (text, media, wanted) in RENDERED.items():
        suite.case(name, lambda scene, each=(text, media, wanted): expect_rendering(scene, *each))
    for name, (options, wanted, size) in CHOSEN.items():
        suite.case(f"chosen: {name}", chosen(options, wanted, size))
    for name, (project, line, change) in MANY.items():
        suite.case(name, many(project, line, change))
