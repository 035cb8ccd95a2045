"""A second reader of lists, written from docs/LIST.md: it shares no code with the model, which it is compared with.

It goes over each line by one expression for a token, and over each kind of line by a row of fields.
"""

import re
from functools import partial
from typing import NamedTuple, Optional

TOKEN = re.compile(rb"""[ \t]*(?: "(?P<quoted>[^"\r]*)" | \((?P<keyword>[!#-'*-~]+)\) | (?P<word>[!#-'*-~]+) )""", re.X)
HELD = {b"VERSION", b"PROJECT", b"SYSTEM", b"SEQUENCE", b"TRACKLIST"}
MOST_HELD = 65_535
ALLOWED = set(b"\t" + bytes(range(0x20, 0x7F)))
ZEROS = re.compile(rb"_|[-+]?0+\.?|[-+]?0+\.0+")


class Stop(Exception):
    """The number of a refusal, at the line that is read."""


class List(NamedTuple):
    """What a list says: held lines by section; index lines; entry lines, with the lengths of their fades; the
    separators of its times; notices, by kind and line."""
    held: dict
    sources: list
    entries: list
    separators: bytes
    notices: list


class Piece(NamedTuple):
    """A token: what it says, how it stands there, and whether it stands in parentheses."""
    says: bytes
    stands: bytes
    is_keyword: bool

    def is_named(self, name: bytes) -> bool:
        return self.is_keyword and self.says.upper() == name


class Row:
    """A line, from its left end on."""

    def __init__(self, line: bytes):
        self.line, self.at = line, 0

    def token(self) -> Optional[Piece]:
        found = TOKEN.match(self.line, self.at)
        if found:
            self.at = found.end()
            return Piece(found[found.lastgroup], found[0].lstrip(b" \t"), found.lastgroup == "keyword")
        left = self.line[self.at:].lstrip(b" \t")
        if left:
            raise Stop(misplaced(left))
        return None

    def fields(self, *wanted) -> list:
        """The values of the next tokens, each by a function and the number that refuses what it gives none for."""
        values = []
        for value_of, number in wanted:
            token = self.token()
            if token is None:
                raise Stop(10)
            value = value_of(token)
            if value is None:
                raise Stop(number)
            values.append(value)
        return values

    def rest(self) -> list:
        tokens = []
        while (token := self.token()) is not None:
            tokens.append(token)
        return tokens


def misplaced(left: bytes) -> int:
    """Why no token begins here: 1 for a byte that stands nowhere, 2 for one that can't stand there."""
    if left[:1] == b'"':
        return 1 if b"\r" in left else 2
    behind = re.match(rb"\(?[!#-'*-~]*", left).end()
    return 1 if behind < len(left) and left[behind] not in ALLOWED else 2


# What a token says


def number_in(token: Piece) -> Optional[int]:
    says = token.says
    is_one = 1 <= len(says) <= 6 and all(48 <= byte <= 57 for byte in says) and 0 < int(says) < 2 ** 15
    return int(says) if is_one else None


def time_in(token: Piece, rate: int) -> Optional[tuple]:
    """The samples since midnight, and the four separators, at so many frames a second."""
    parts = re.split(rb"([:;.,|=/])", token.says)
    if list(map(len, parts)) != [2, 1, 2, 1, 2, 1, 2, 1, 4] or not b"".join(parts[::2]).isdigit():
        return None
    clock = [int(part) for part in parts[::2]]
    if any(part >= limit for part, limit in zip(clock, (24, 60, 60, rate, 48_000 // rate))) and clock != [24, 0, 0, 0, 0]:
        return None
    samples = 0
    for part, size in zip(clock, (1, 60, 60, rate, 48_000 // rate)):
        samples = samples * size + part
    return samples, b"".join(parts[1::2])


def time_or_none(token: Piece, rate: int) -> Optional[tuple]:
    return (None, b"") if token.says == b"_" else time_in(token, rate)


def channels_in(token: Piece) -> Optional[tuple]:
    ends = token.says.split(b"~")
    if len(ends) > 2 or not all(end.isdigit() and len(end) <= 6 for end in ends):
        return None
    low, high = int(ends[0]), int(ends[-1])
    return (low, high) if 0 < low <= high < 65 else None


def url_in(token: Piece) -> Optional[bytes]:
    """The URL, where it names a file."""
    left = token.says[4:] if token.says[:4].upper() == b"URL:" else token.says
    host, slash, path = left[7:].partition(b"/")
    if left[:7].lower() != b"file://" or not slash:
        return None
    name = re.sub(rb"%[0-9a-fA-F]{2}", lambda code: bytes.fromhex(code[0][1:].decode()), path.rpartition(b"/")[2])
    try:
        named = name.decode()
    except UnicodeDecodeError:
        return None
    return None if named in ("", ".", "..") or set(named) & {"/", "\0"} else token.says


def exactly(*texts: bytes):
    return lambda token: True if token.says in texts else None


def in_parentheses(name: bytes):
    return lambda token: True if token.is_named(name) else None


# Lists


class Reading:
    """A list as far as it was read. `place` is what a refusal tells behind the line."""

    def __init__(self, rate: int):
        self.rate = rate
        self.time = partial(time_in, rate=rate)
        self.time_or_none = partial(time_or_none, rate=rate)
        self.held, self.sources, self.entries, self.notices = {}, {}, {}, []
        self.opened, self.rates, self.faded = set(), set(), set()
        self.separators, self.place, self.last_entry = b".../", "", None

    def lines_of_section(self, name: bytes, first: int, lines: list) -> int:
        """Reads the lines of a section up to its end, and gives the place behind it."""
        at = first
        while at < len(lines) and lines[at].strip(b" \t").upper() != b"</" + name + b">":
            self.line(name, at + 1, lines[at])
            at += 1
        return at + 1

    def line(self, name: bytes, number: int, line: bytes) -> None:
        self.place = ""
        bare = line.strip(b" \t")
        if name in HELD:
            if sum(map(len, self.held.values())) == MOST_HELD:
                raise Stop(15, number)
            self.held[name].append(line)
        kind = {b"SYSTEM": self.system, b"SEQUENCE": self.sequence, b"SOURCE_INDEX": self.source,
                b"EVENT_LIST": self.event}.get(name)
        try:
            if kind:
                if bare[:1] == b"<":
                    raise Stop(3)
                if name == b"EVENT_LIST" and self.last_entry:
                    self.place = f" entry {self.last_entry}"
                row = Row(line)
                head = row.token()
                if head:
                    kind(head, row, number)
                    row.rest()
            elif name not in HELD and bare and re.search(rb"GAIN|AUTOMATION|PAN|MUTE|FADE", name):
                raise Stop(13)
        except Stop as stop:
            raise Stop(stop.args[0], number) from stop

    def system(self, head: Piece, row: Row, _: int) -> None:
        fits = {b"SYS_SRC_OFFSET": lambda token: token.says == b"_" or (self.time(token) or (1,))[0] == 0,
                b"SYS_GAIN": lambda token: ZEROS.fullmatch(token.says)}.get(head.says.upper())
        if head.is_keyword and fits:
            token = row.token()
            if token and not fits(token):
                raise Stop(13)

    def sequence(self, head: Piece, row: Row, _: int) -> None:
        rates = {b"SEQ_SAMPLE_RATE": rb"[sS]?48000", b"SEQ_FRAME_RATE": rb"%d(\.0*)?" % self.rate}
        if head.is_keyword and head.says.upper() in rates:
            rate = re.compile(rates[head.says.upper()])
            row.fields((lambda token: rate.fullmatch(token.says), 12))
            self.rates.add(head.says.upper())

    def source(self, head: Piece, row: Row, line: int) -> None:
        if not head.is_named(b"INDEX"):
            row.rest()
            self.notices.append((2, line))
            return
        number, = row.fields((number_in, 7))
        self.place = f" index {number}"
        if number in self.sources:
            raise Stop(14)
        _, url, uid, start, length = row.fields(
            (in_parentheses(b"F"), 13), (url_in, 9), (lambda token: token.stands, 0),
            (self.time_or_none, 6), (self.time_or_none, 6))
        row.rest()
        self.sources[number] = number, url, uid, start[0], length[0]

    def event(self, head: Piece, row: Row, _: int) -> None:
        if head.is_named(b"ENTRY"):
            self.entry(row)
        elif not head.is_named(b"REM"):
            if self.last_entry is None:
                raise Stop(16)
            if head.is_named(b"INFADE") or head.is_named(b"OUTFADE"):
                self.fade(head.says.upper(), row)
            elif not head.is_named(b"GAIN") or not all_zeros(row):
                raise Stop(13)

    def entry(self, row: Row) -> None:
        self.place = ""
        number, = row.fields((number_in, 7))
        self.place = f" entry {number}"
        if number in self.entries:
            raise Stop(14)
        _, _, index, source = row.fields(
            (in_parentheses(b"CUT"), 13), (exactly(b"I"), 13), (number_in, 7), (channels_in, 8))
        dest, source_in, dest_in, dest_out = row.fields(
            (lambda token: of_width(channels_in(token), source), 8), (self.time, 6), (self.time, 6), (self.time, 6))
        row.rest()
        if not self.entries:
            self.separators = dest_in[1]
        self.entries[number] = [number, index, source, dest, source_in[0], dest_in[0], dest_out[0], 0, 0]
        self.last_entry = number

    def fade(self, name: bytes, row: Row) -> None:
        if (name, self.last_entry) in self.faded:
            raise Stop(17)
        (length, _), = row.fields((self.time_or_none, 6))
        if length:
            row.fields((lambda token: token.says.upper() == b"LIN" or None, 13))
        row.rest()
        self.faded.add((name, self.last_entry))
        self.entries[self.last_entry][7 if name == b"INFADE" else 8] = length or 0


def all_zeros(row: Row) -> bool:
    """Looks at each token before it goes on to the next."""
    while (token := row.token()) is not None:
        if not ZEROS.fullmatch(token.says):
            return False
    return True


def of_width(channels: Optional[tuple], other: tuple) -> Optional[tuple]:
    return channels if channels and channels[1] - channels[0] == other[1] - other[0] else None


def sections(reading: Reading, lines: list) -> int:
    """Reads section after section, and gives the number of the line that ends the list."""
    at, begun = 0, False
    while at < len(lines):
        bare = lines[at].strip(b" \t").upper()
        opening = re.fullmatch(rb"<([A-Z0-9_]+)>", bare)
        reading.place = ""
        at += 1
        if begun and bare == b"</ADL>":
            return at
        if begun and opening:
            open_section(reading, opening[1], at)
            at = reading.lines_of_section(opening[1], at, lines)
        elif not begun and bare == b"<ADL>":
            begun = True
        elif bare:
            raise Stop(3, at)
    reading.place = ""
    raise Stop(3, max(1, len(lines)))


def open_section(reading: Reading, name: bytes, line: int) -> None:
    if name in reading.opened:
        raise Stop(5, line)
    if name in HELD:
        reading.held[name] = []
    if name in HELD or name in (b"SOURCE_INDEX", b"EVENT_LIST"):
        reading.opened.add(name)
    else:
        reading.notices.append((1, line))


def rate_in(lines: list) -> int:
    """The first rate of frames that a line of SEQUENCE tells; 25 where a line in front of it can't stand or be cut."""
    section, begun, opened = None, False, set()
    for line in lines:
        bare = line.strip(b" \t").upper()
        if section is None:
            opening = re.fullmatch(rb"<([A-Z0-9_]+)>", bare)
            if begun and opening and bare != b"</ADL>":
                section = opening[1]
                if section in opened:
                    break
                if section in HELD or section in (b"SOURCE_INDEX", b"EVENT_LIST"):
                    opened.add(section)
            elif not begun and bare == b"<ADL>":
                begun = True
            elif bare:
                break
        elif bare == b"</" + section + b">":
            section = None
        elif section in (b"SYSTEM", b"SEQUENCE", b"SOURCE_INDEX", b"EVENT_LIST"):
            if bare[:1] == b"<":
                break
            row = Row(line)
            try:
                head = row.token()
                if section == b"SEQUENCE" and head and head.is_named(b"SEQ_FRAME_RATE"):
                    told = row.token()
                    rate = told and re.fullmatch(rb"(24|25|30)(\.0*)?", told.says)
                    if rate:
                        return int(rate[1])
                row.rest()
            except Stop:
                break
        elif section not in HELD and bare and re.search(rb"GAIN|AUTOMATION|PAN|MUTE|FADE", section):
            break
    return 25


def read(text: bytes):
    """The list that a text spells, or the line by which it is refused."""
    lines = text.removeprefix(b"\xef\xbb\xbf").split(b"\n")
    lines = [line.removesuffix(b"\r") for line in (lines if lines[-1] else lines[:-1])]
    reading = Reading(rate_in(lines))
    try:
        end = sections(reading, lines)
        reading.place = ""
        if not {b"SEQUENCE", b"SOURCE_INDEX", b"EVENT_LIST"} <= reading.opened:
            raise Stop(4, end)
        if len(reading.rates) < 2:
            raise Stop(11, end)
    except Stop as stop:
        return f"refused {stop.args[0]:02d} at line {stop.args[1]}{reading.place}"
    entries = [tuple(entry) for entry in reading.entries.values()]
    return List(reading.held, list(reading.sources.values()), entries, reading.separators, reading.notices)
