"""Random sound files and lists, by a seed."""

import random
from typing import NamedTuple

import model
from tables import (
    bext_chunk, data_chunk, extensible_chunk, format_chunk, rf64_file, riff_chunk, riff_file, size_changed, sizes_chunk,
)

NAMES = ("A.wav", "Take2.wav", "b W.av", "Z\u00e49", "100%.wav")
BASES = (0, 0, 0, 1, 1919, 1920, 36_000 * 48_000, model.DAY - 12, model.DAY - 1, model.DAY)
PLACES = (0, 172_800_000, 90_000 * 1920, model.DAY - 150)
HANDLES = (0, 0, 1, 2, 5, 48_000, model.DAY)
HEADERS = (b"VERSION", b"PROJECT", b"SYSTEM", b"TRACKLIST")
KEPT_LINES = (b"(Ver_ID) X", b"", b"  any \xff\x00bytes ) \" ", b"(Rem) one", b"<b>")
SOURCE_LINES = (b"", b"(Comment) one", b'index "of the day"', b"\t")
EARLY_LINES = (b"", b"(Rem) one", b"(rem)")
CUT_LINES = (
    b"(Rem) one", b"", b'words "quoted \xe4 text" (KEY)', b"(SYS_GAIN) _", b"(SYS_GAIN) -0.00 x", b"(SYS_SRC_OFFSET) _",
)


class Index(NamedTuple):
    """An index of a random list: where its file's first frame stands, and how many frames it has."""
    number: int
    name: str
    told: int
    base: int
    frames: int
    channels: int


class Cut(NamedTuple):
    """An entry of a random list: its channels, first frame, time and length."""
    index: Index
    channels: tuple
    first: int
    begin: int
    length: int


class Dice(random.Random):
    """Chance, by a seed."""

    def sometimes(self, part: float) -> bool:
        return self.random() < part

    def seldom(self, value, usual, part: float = 0.02):
        """This value, or the usual one."""
        return value if self.sometimes(part) else usual

    # The rate of frames of the list that is made.
    rate = model.USUAL_RATE

    def time(self, value: int) -> bytes:
        """A time at the list's rate, with any separators."""
        return model.time_text(value, self.separators(), self.rate)

    def numbers(self, count: int) -> list:
        """Distinct numbers of indexes or of entries."""
        greatest = self.choice((9, 9999, 32_767))
        return self.sample(range(1, greatest + 1), min(count, greatest))

    def separators(self) -> bytes:
        return bytes(self.choice(b":;.,|=/") for _ in range(4))

    # Sound files

    def sample_value(self, depth: int) -> int:
        highest = 2 ** (depth - 1) - 1
        return self.choice((0, 1, -1, highest, -highest - 1, self.randint(-highest - 1, highest)))

    def samples(self, frames: int, channels: int, depth: int) -> list:
        """Sound with stretches of silence, some of it in all channels."""
        samples = [self.sample_value(depth) for _ in range(frames * channels)]
        for _ in range(self.randint(0, 3)):
            first = self.randint(0, frames)
            last = self.randint(first, min(frames, first + 12))
            silent = self.choice((range(channels), [self.randrange(channels)]))
            for frame in range(first, last):
                for channel in silent:
                    samples[frame * channels + channel] = 0
        return samples

    def bext(self) -> list:
        """No chunk, or one: whole, with a history, or short."""
        if self.sometimes(0.4):
            return []
        history = self.seldom(b"A" * 65_537, self.choice((b"", b"A", b"A=PCM,F=48000\r\n")))
        text, size = self.choice((b"", b"Take one")), self.choice((None, None, 346, 345))
        return [bext_chunk(self.choice(BASES), text, history, size)]

    def file(self) -> bytes:
        """A sound file of any kind, with other chunks round its own."""
        channels, depth = self.seldom(64, self.choice((1, 1, 1, 2, 2, 3, 6))), self.choice((16, 24, 32))
        frames = self.choice((0, 1, 3, 12, 40, 40, 40, 90))
        data = data_chunk(self.samples(frames, channels, depth), depth)
        if self.sometimes(0.1):
            data = riff_chunk(b"data", data[8:8 + frames * channels * depth // 8] + b"\1")
        rate = self.seldom(44_100, 48_000, 0.005)
        form = self.choice((format_chunk, extensible_chunk))(channels=channels, bits=depth, rate=rate)
        chunks = [form, data, *self.bext()]
        self.shuffle(chunks)
        for _ in range(self.choice((0, 0, 0, 1, 2))):
            other = riff_chunk(self.choice((b"JUNK", b"JUNK", b"LIST", b"iXML", b"data")), bytes(self.randint(0, 5)))
            chunks.insert(self.randint(0, len(chunks)), other)
        if self.sometimes(0.6):
            return riff_file(*chunks)
        return self.large_file(chunks)

    def large_file(self, chunks: list) -> bytes:
        """The same chunks as RF64, whose data tells its size itself, or in `ds64`."""
        first = next(chunk for chunk in chunks if chunk[:4] == b"data")
        size = int.from_bytes(first[4:8], "little")
        if self.sometimes(0.7):
            chunks = [size_changed(chunk, 2 ** 32 - 1) if chunk is first else chunk for chunk in chunks]
        return rf64_file(sizes_chunk(size, self.choice(((), ((b"LIST", 1),)))), *chunks)

    # Lists

    def any_case(self, name: bytes) -> bytes:
        return self.choice((name, name, name.lower(), name.upper()))

    def keyword(self, name: bytes) -> bytes:
        return b"(%s)" % self.any_case(name)

    def field(self, content: bytes) -> bytes:
        """A field is read by its content, however its token is written."""
        return self.choice((*[content] * 8, b'"%s"' % content, b"(%s)" % content))

    def number(self, value: int) -> bytes:
        return self.field(self.choice((b"%04d", b"%d", b"%06d")) % value)

    def section(self, name: bytes, lines: list) -> list:
        return [b"<%s>" % self.any_case(name), *lines, b"</%s>" % self.any_case(name)]

    def some_of(self, lines: tuple) -> list:
        return [self.choice(lines) for _ in range(self.randint(0, 3))]

    def rates(self) -> list:
        """Both lines of SEQUENCE, among others."""
        lines = [
            self.choice((b"(SEQ_SAMPLE_RATE) S48000", b"(seq_sample_rate) 48000 more")), b"(Rem)",
            self.choice((b"(SEQ_FRAME_RATE) %d", b"(SEQ_FRAME_RATE)%d.00", b'(SEQ_FRAME_RATE) "%d."')) % self.rate]
        self.shuffle(lines)
        return lines

    def sections(self, source_lines: list, entry_lines: list) -> list:
        """All sections in any order, with those that aren't kept."""
        sections = [
            self.section(name, self.some_of(CUT_LINES if name == b"SYSTEM" else KEPT_LINES))
            for name in HEADERS if self.sometimes(0.2)
        ]
        if self.sometimes(0.1):
            sections.append(self.section(b"MARKERS", [b"any \xff bytes"]))
        sections.append(self.section(b"SEQUENCE", self.rates()))
        rest = [
            self.section(b"SOURCE_INDEX", source_lines + self.seldom(self.some_of(SOURCE_LINES), [], 0.1)),
            self.section(b"EVENT_LIST", self.seldom(self.some_of(EARLY_LINES), [], 0.1) + entry_lines)]
        if self.sometimes(0.3):
            sections, rest = sections + rest, []
            self.shuffle(sections)
        else:
            self.shuffle(sections)
        blank = self.seldom([b" \t"], [], 0.1)
        return [line for section in sections + rest for line in section + blank]

    def text(self, source_lines: list, entry_lines: list) -> bytes:
        """A list of these lines, spelt in one of many ways."""
        ends = self.choice(((b"\n",), (b"\r\n",), (b"\n", b"\r\n")))
        root = self.any_case(b"ADL")
        lines = [b"<%s>" % root, *self.sections(source_lines, entry_lines), b"</%s>" % self.any_case(b"ADL")]
        mark = self.choice((b"", b"", b"\xef\xbb\xbf"))
        text = mark + b"".join(line + self.choice(ends) for line in lines)
        return text + b"behind the list" if self.sometimes(0.5) else self.seldom(text.rstrip(b"\r\n"), text)

    def url(self, name: str) -> bytes:
        path = name.encode()
        if self.sometimes(0.5):
            path = b"".join(b"%%%02X" % byte if byte > 126 or byte in b" %" else bytes([byte]) for byte in path)
        host = self.choice((b"localhost", b"localhost", b"", b"studio.local")) + self.seldom(b"/day 1", b"", 0.005)
        return self.choice((b"URL:", b"", b"url:")) + self.choice((b"file", b"FILE")) + b"://" + host + b"/" + path

    def spaced(self, *words: bytes) -> bytes:
        """Words in a line, parted by spaces and tabs."""
        gap = self.choice((b" ", b" ", b" ", b"\t", b"  "))
        return self.choice((b"", b"", b" ")) + gap.join(words) + self.choice((b"", b"", b" ", b" more"))

    def index_line(self, index: Index) -> bytes:
        told = b"_" if index.told is None else self.time(index.told)
        length = self.choice((b"_", self.time(self.randint(0, model.DAY))))
        return self.spaced(
            self.keyword(b"Index"), self.number(index.number), self.keyword(b"F"), b'"%s"' % self.url(index.name),
            self.choice((b"_", b"uid", b'"a uid"', b"(x)")), self.field(told), length)

    def fades(self, length: int) -> tuple:
        """The lengths of both fades of an entry, and their lines."""
        if length <= 0 or self.sometimes(0.5):
            return 0, 0
        rise = self.choice((0, 1, length, self.randint(0, length)))
        fall = self.choice((0, length - rise, self.randint(0, length - rise)))
        return rise, fall + self.sometimes(0.01)

    def further_lines(self, length: int) -> list:
        rise, fall = self.fades(length)
        lines = []
        for keyword, fade in ((b"Infade", rise), (b"Outfade", fall)):
            if fade or self.sometimes(0.1):
                time = self.time(fade) if fade else self.choice((b"_", b"00.00.00.00/0000"))
                curve = self.field(self.any_case(b"LIN"))
                lines.append(self.spaced(self.keyword(keyword), self.field(time), curve, b"_"))
        if self.sometimes(0.1):
            lines.append(self.choice((b"(Gain) 0.00", b"(Rem) a remark", b"(Gain) _ -0", b"")))
        self.shuffle(lines)
        return lines

    def channels(self, index: Index) -> tuple:
        """The first and last source channel, and the first destination channel."""
        first = self.randint(1, index.channels)
        last = self.randint(first, index.channels) + self.sometimes(0.01)
        return first, last, min(self.seldom(64, self.choice((1, 1, 2, self.randint(1, 8)))), 64 - (last - first))

    def channel_fields(self, cut: Cut) -> list:
        first, last, dest = cut.channels
        return [
            self.field(b"%d" % low if low == high and self.sometimes(0.9) else b"%d~%d" % (low, high))
            for low, high in ((first, last), (dest, dest + last - first))]

    def cut(self, indexes: list, place: int) -> Cut:
        """Most times within its file, a little behind this place of the day."""
        index = self.choice(indexes) if indexes else Index(1, "None.wav", 0, 0, 0, 1)
        frames = max(0, min(index.frames, model.DAY - index.base))
        first = self.randint(0, frames)
        length = 0 if self.sometimes(0.1) else self.randint(0, frames - first) + self.sometimes(0.01)
        begin = place + self.choice((self.randint(1, 60), 20 + first % 40))
        return Cut(index, self.channels(index), first, begin, self.seldom(-1, length, 0.005))

    def halves(self, cut: Cut) -> list:
        """The cut, or two of which the second goes on from the first."""
        if cut.length < 2 or self.sometimes(0.8):
            return [cut]
        part = self.randint(1, cut.length - 1)
        rest = cut._replace(first=cut.first + part, begin=cut.begin + part, length=cut.length - part)
        return [cut._replace(length=part), rest]

    def entry_lines(self, number: int, cut: Cut) -> list:
        """An entry and its further lines."""
        named = self.seldom(self.randint(1, 32_767), cut.index.number, 0.005)
        values = cut.index.base + cut.first, cut.begin, cut.begin + cut.length
        times = [self.field(self.time(min(model.DAY, value))) for value in values]
        line = self.spaced(
            self.keyword(b"Entry"), self.number(number), self.keyword(b"Cut"), self.field(b"I"), self.number(named),
            *self.channel_fields(cut), *times)
        return [line, *self.further_lines(cut.length)]

    def index(self, number: int, media: dict) -> Index:
        """An index over one of these files; a few name a file that isn't there."""
        if self.sometimes(0.005):
            return Index(number, "None.wav", 0, 0, 0, 1)
        name = self.choice(sorted(media))
        try:
            sound = model.read_sound(media[name])
        except model.BadFile:
            return Index(number, name, 0, 0, 0, 1)
        told = None if self.sometimes(0.4) else self.choice((sound.time_reference, *BASES))
        base = told if told is not None else sound.time_reference or 0
        return Index(number, name, told, base, sound.frames(), sound.channels)

    def project(self) -> tuple:
        """A list, at any rate of frames, and the files of its media."""
        self.rate = self.choice((24, 25, 25, 30))
        media = {name: self.file() for name in self.sample(NAMES, self.randint(1, len(NAMES)))}
        count = self.randint(0 if self.sometimes(0.05) else 1, 5)
        indexes = [self.index(number, media) for number in self.numbers(count)]
        place = self.choice(PLACES)
        count = self.seldom(0, self.choice((2, 4, 6, 8, 8)), 0.05)
        cuts = [half for _ in range(count) for half in self.halves(self.cut(indexes, place))]
        entry_lines = [
            line for number, cut in zip(self.numbers(len(cuts)), cuts) for line in self.entry_lines(number, cut)]
        return self.text([self.index_line(index) for index in indexes], entry_lines), media, place

    def options(self, place: int) -> model.Options:
        """What the words choose: by default, or a part near this place of the day."""
        begin = end = None
        if self.sometimes(0.4):
            first, last = max(0, place + self.randint(-20, 60)), min(model.DAY, place + self.randint(20, 150))
            begin, end = (self.time(value).decode() for value in (first, last))
            if place == 0:
                begin, end = self.choice(((begin, end), (begin, None), (None, end)))
        channels = self.choice((None, None, None, 1, 2, 7, 64))
        return model.Options(self.choice(HANDLES), begin, end, channels, self.choice((16, 24, 24, 32)))
