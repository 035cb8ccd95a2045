"""Reads lists: the project that a text spells, or the first fault of the text."""

import re
from functools import lru_cache
from typing import Iterator, Optional

from .project import KEPT, STANDARD_SEPARATORS, Channels, Entry, Project, Source, place_of
from .refusal import Notice, Refused
from .times import USUAL_RATE, separators_of, time_value
from .tokens import BLANK, BadToken, Kind, Token, tokens_of

MOST_NUMBER = 32_767
MOST_KEPT = 65_535
NEEDED = ("SEQUENCE", "SOURCE_INDEX", "EVENT_LIST")
SECTIONS = (*KEPT, "SOURCE_INDEX", "EVENT_LIST")
CUT = ("SYSTEM", "SEQUENCE", "SOURCE_INDEX", "EVENT_LIST")
FORBIDDEN = (b"GAIN", b"AUTOMATION", b"PAN", b"MUTE", b"FADE")
SECTION = re.compile(rb"<(\w+)>", re.ASCII)
NUMBER = re.compile(rb"\d{1,6}")
CHANNELS = re.compile(rb"(\d{1,6})(?:~(\d{1,6}))?")
ZERO = re.compile(rb"_|[+-]?0+(?:\.0*)?")
FRAME_RATE = re.compile(rb"(24|25|30)(?:\.0*)?")
RATES = (b"s48000", b"48000")


class Fault(Exception):
    """A fault on the line that is read."""

    def __init__(self, number: int):
        super().__init__(number)
        self.number = number


class Fields:
    """The tokens of a line, taken from the left."""

    def __init__(self, line: bytes, rate: int = USUAL_RATE):
        self.tokens = tokens_of(line)
        self.rate = rate

    def next(self) -> Optional[Token]:
        return next(self.tokens, None)

    def need(self) -> Token:
        token = self.next()
        if token is None:
            raise Fault(10)
        return token

    def need_keyword(self, name: bytes) -> None:
        if not self.need().is_keyword(name):
            raise Fault(13)

    def number(self) -> int:
        content = self.need().content
        value = int(content) if NUMBER.fullmatch(content) else 0
        if not 1 <= value <= MOST_NUMBER:
            raise Fault(7)
        return value

    def time(self) -> int:
        return self.time_and_separators()[0]

    def time_and_separators(self) -> tuple:
        content = self.need().content
        value = time_value(content, self.rate)
        if value is None:
            raise Fault(6)
        return value, separators_of(content)

    def optional_time(self) -> Optional[int]:
        content = self.need().content
        if content == b"_":
            return None
        value = time_value(content, self.rate)
        if value is None:
            raise Fault(6)
        return value

    def channels(self, width: Optional[int] = None) -> Channels:
        found = CHANNELS.fullmatch(self.need().content)
        if not found:
            raise Fault(8)
        first, last = int(found[1]), int(found[2] or found[1])
        if not 1 <= first <= last <= 64 or (width is not None and last - first + 1 != width):
            raise Fault(8)
        return Channels(first, last)

    def finish(self) -> None:
        """What still stands there isn't read, but has to be tokens."""
        for _ in self.tokens:
            pass


def lines_of(text: bytes) -> list:
    if text.startswith(b"\xef\xbb\xbf"):
        text = text[3:]
    lines = text.split(b"\n")
    if not lines[-1]:
        lines.pop()
    return [line[:-1] if line.endswith(b"\r") else line for line in lines]


def is_cut(section: str, line: bytes) -> bool:
    """Whether a line of a section, which isn't its end, is cut into fields; a fault where it may not stand there."""
    trimmed = line.strip(BLANK)
    if section not in SECTIONS and trimmed and any(word.decode() in section for word in FORBIDDEN):
        raise Fault(13)
    if section in CUT and trimmed.startswith(b"<"):
        raise Fault(3)
    return section in CUT


class Reader:
    """What was read so far of a list at this rate of frames."""

    def __init__(self, rate: int):
        self.rate = rate
        self.header = {}
        self.seen = set()
        self.rates = set()
        self.sources = {}
        self.entries = {}
        self.faded = set()
        self.separators = STANDARD_SEPARATORS
        self.notices = []
        self.kept = 0
        self.entry = None
        self.at = ""

    def project(self) -> Project:
        return Project(
            self.header, list(self.sources.values()), list(self.entries.values()), self.separators, tuple(self.notices),
            self.rate)

    def open(self, name: bytes, number: int) -> str:
        """A section begins at this line."""
        section = name.upper().decode()
        if section in self.seen:
            raise Fault(5)
        if section in SECTIONS:
            self.seen.add(section)
            if section in KEPT:
                self.header[section] = []
        else:
            self.notices.append(Notice(1, number))
        return section

    def take(self, section: str, number: int, line: bytes) -> None:
        """A line of a section, which isn't its end."""
        if section in KEPT:
            self.keep(section, line)
        if not is_cut(section, line):
            return
        if section == "EVENT_LIST" and self.entry is not None:
            self.at = f" entry {self.entry}"
        fields = Fields(line, self.rate)
        head = fields.next()
        if head is not None:
            {"SYSTEM": self.system, "SEQUENCE": self.sequence, "SOURCE_INDEX": self.source_index,
             "EVENT_LIST": self.event_list}[section](head, fields, number)
        fields.finish()

    def keep(self, section: str, line: bytes) -> None:
        if self.kept == MOST_KEPT:
            raise Fault(15)
        self.kept += 1
        self.header[section].append(line)

    def system(self, head: Token, fields: Fields, _: int) -> None:
        if head.is_keyword(b"SYS_SRC_OFFSET"):
            token = fields.next()
            if token and token.content != b"_" and time_value(token.content, self.rate) != 0:
                raise Fault(13)
        elif head.is_keyword(b"SYS_GAIN"):
            token = fields.next()
            if token and not ZERO.fullmatch(token.content):
                raise Fault(13)

    def sequence(self, head: Token, fields: Fields, _: int) -> None:
        if head.is_keyword(b"SEQ_SAMPLE_RATE"):
            if fields.need().content.lower() not in RATES:
                raise Fault(12)
            self.rates.add("SEQ_SAMPLE_RATE")
        elif head.is_keyword(b"SEQ_FRAME_RATE"):
            found = FRAME_RATE.fullmatch(fields.need().content)
            if not found or int(found[1]) != self.rate:
                raise Fault(12)
            self.rates.add("SEQ_FRAME_RATE")

    def source_index(self, head: Token, fields: Fields, line_number: int) -> None:
        if not head.is_keyword(b"Index"):
            fields.finish()
            self.notices.append(Notice(2, line_number))
            return
        number = fields.number()
        self.at = f" index {number}"
        if number in self.sources:
            raise Fault(14)
        fields.need_keyword(b"F")
        url = fields.need().content
        if place_of(url) is None:
            raise Fault(9)
        uid = fields.need()
        source = Source(number, url, spelt(uid), fields.optional_time(), fields.optional_time())
        fields.finish()
        self.sources[number] = source

    def event_list(self, head: Token, fields: Fields, _: int) -> None:
        if head.is_keyword(b"Entry"):
            self.at = ""
            self.read_entry(fields)
        elif head.is_keyword(b"Rem"):
            pass
        elif self.entry is None:
            raise Fault(16)
        elif head.is_keyword(b"Infade"):
            self.read_fade("rise", fields)
        elif head.is_keyword(b"Outfade"):
            self.read_fade("fall", fields)
        elif head.is_keyword(b"Gain"):
            for token in fields.tokens:
                if not ZERO.fullmatch(token.content):
                    raise Fault(13)
        else:
            raise Fault(13)

    def read_entry(self, fields: Fields) -> None:
        number = fields.number()
        self.at = f" entry {number}"
        if number in self.entries:
            raise Fault(14)
        fields.need_keyword(b"Cut")
        if fields.need().content != b"I":
            raise Fault(13)
        index = fields.number()
        source = fields.channels()
        dest = fields.channels(source.width())
        source_in = fields.time()
        dest_in, separators = fields.time_and_separators()
        dest_out = fields.time()
        fields.finish()
        if not self.entries:
            self.separators = separators
        self.entries[number] = Entry(number, index, source, dest, source_in, dest_in, dest_out)
        self.entry = number

    def read_fade(self, kind: str, fields: Fields) -> None:
        if (self.entry, kind) in self.faded:
            raise Fault(17)
        length = fields.optional_time() or 0
        if length and fields.need().content.upper() != b"LIN":
            raise Fault(13)
        fields.finish()
        self.faded.add((self.entry, kind))
        self.entries[self.entry] = self.entries[self.entry]._replace(**{kind: length})


def spelt(token: Token) -> bytes:
    """A token as it stands in its line."""
    return {Kind.QUOTED: b'"%s"', Kind.KEYWORD: b"(%s)", Kind.WORD: b"%s"}[token.kind] % token.content


@lru_cache(maxsize=4)
def read_list(text: bytes, rate: Optional[int] = None) -> Project:
    """The project that a text spells, at its own rate of frames or at this one; raises its first fault. It is the same
    one each time, and nobody changes it."""
    lines = lines_of(text)
    reader = Reader(rate or rate_of(lines))
    end = read_lines(reader, enumerate(lines, 1))
    if end is None:
        raise Refused(3, f" at line {max(1, len(lines))}")
    missing = [4 for name in NEEDED if name not in reader.seen]
    missing += [11 for name in ("SEQ_SAMPLE_RATE", "SEQ_FRAME_RATE") if name not in reader.rates]
    if missing:
        raise Refused(missing[0], f" at line {end}")
    return reader.project()


class RateTold(Exception):
    """A line of SEQUENCE tells the rate."""


class Outline(Reader):
    """Looks for the rate of frames: at sections and at tokens, and at nothing else that lines say."""

    def take(self, section: str, number: int, line: bytes) -> None:
        if not is_cut(section, line):
            return
        fields = Fields(line)
        head = fields.next()
        if section == "SEQUENCE" and head is not None and head.is_keyword(b"SEQ_FRAME_RATE"):
            token = fields.next()
            found = token and FRAME_RATE.fullmatch(token.content)
            if found:
                raise RateTold(int(found[1]))
        fields.finish()


def rate_of(lines: list) -> int:
    """The rate of frames of a list: the first that SEQUENCE tells, before any line that can't stand or isn't cut."""
    try:
        read_lines(Outline(USUAL_RATE), enumerate(lines, 1))
    except RateTold as told:
        return told.args[0]
    except Refused:
        pass
    return USUAL_RATE


def rate_beside_faults(lines: list) -> int:
    """The same without the lines that can't stand where they are or aren't cut."""
    left = list(lines)
    while True:
        try:
            read_lines(Outline(USUAL_RATE), enumerate(left, 1))
            return USUAL_RATE
        except RateTold as told:
            return told.args[0]
        except Refused as refusal:
            left[int(re.match(r" at line (\d+)", refusal.place)[1]) - 1] = b""


def read_lines(reader: Reader, lines: Iterator) -> Optional[int]:
    """Reads line after line, and answers the number of the list's last one."""
    section, started = None, False
    for number, line in lines:
        trimmed = line.strip(BLANK)
        reader.at = ""
        try:
            if section is not None:
                if trimmed.upper() == b"</%s>" % section.encode():
                    section = None
                else:
                    reader.take(section, number, line)
            elif not trimmed:
                continue
            elif not started and trimmed.upper() == b"<ADL>":
                started = True
            elif started and trimmed.upper() == b"</ADL>":
                return number
            elif started and SECTION.fullmatch(trimmed):
                section = reader.open(SECTION.fullmatch(trimmed)[1], number)
            else:
                raise Fault(3)
        except (Fault, BadToken) as fault:
            raise Refused(fault.number, f" at line {number}{reader.at}") from fault
    return None
