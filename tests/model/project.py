"""A project: what a list says."""

import re
from typing import NamedTuple, Optional

KEPT = ("VERSION", "PROJECT", "SYSTEM", "SEQUENCE", "TRACKLIST")
STANDARD_SEPARATORS = b".../"
ESCAPE = re.compile(rb"%([0-9A-Fa-f]{2})")
URL = re.compile(rb"(?:URL:)?file://[^/]*/(.*)", re.IGNORECASE | re.DOTALL)


class Place(NamedTuple):
    """What a URL names: the whole path, and the name of its last part."""
    path: bytes
    name: str


def decoded(path: bytes) -> bytes:
    return ESCAPE.sub(lambda found: bytes([int(found[1], 16)]), path)


def place_of(url: bytes) -> Optional[Place]:
    """What a URL names; None where it names no file."""
    found = URL.fullmatch(url)
    if not found:
        return None
    last = decoded(found[1].split(b"/")[-1])
    try:
        name = last.decode("utf-8")
    except UnicodeDecodeError:
        return None
    if name in ("", ".", "..") or "/" in name or "\0" in name:
        return None
    return Place(decoded(found[1]), name)


class Source(NamedTuple):
    """An index line. Start and length are samples, where they are told."""
    number: int
    url: bytes
    uid: bytes
    start: Optional[int]
    length: Optional[int]

    def place(self) -> Place:
        return place_of(self.url)

    def name(self) -> str:
        return self.place().name


class Channels(NamedTuple):
    first: int
    last: int

    def width(self) -> int:
        return self.last - self.first + 1

    def text(self) -> bytes:
        return b"%d" % self.first if self.first == self.last else b"%d~%d" % self


class Entry(NamedTuple):
    """An entry line with its fades; times and lengths are samples."""
    number: int
    index: int
    source: Channels
    dest: Channels
    source_in: int
    dest_in: int
    dest_out: int
    rise: int = 0
    fall: int = 0

    def length(self) -> int:
        return self.dest_out - self.dest_in


class Project(NamedTuple):
    """The kept lines by section, the indexes and entries in order of lines, the separators of times, the notices,
    the rate of frames."""
    header: dict
    sources: list
    entries: list
    separators: bytes
    notices: tuple = ()
    rate: int = 25
