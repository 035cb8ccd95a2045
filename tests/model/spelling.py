"""Writes lists: the one text of a project, and lines for tests."""

from typing import Iterable

from .project import KEPT, Entry, Project, Source
from .times import USUAL_RATE, time_text

SEQUENCE = (b"<SEQUENCE>", b"(SEQ_SAMPLE_RATE) S48000", b"(SEQ_FRAME_RATE) 25", b"</SEQUENCE>")


def list_text(source_lines: Iterable, entry_lines: Iterable, end: bytes = b"\r\n") -> bytes:
    """A list of these lines, with no section but the three that have to be there."""
    lines = [
        b"<ADL>", *SEQUENCE,
        b"<SOURCE_INDEX>", *source_lines, b"</SOURCE_INDEX>",
        b"<EVENT_LIST>", *entry_lines, b"</EVENT_LIST>",
        b"</ADL>",
    ]
    return b"".join(line + end for line in lines)


def source_line(number: int, name: str, base: bytes, length: bytes = b"_") -> bytes:
    return b'(Index) %04d (F) "URL:file://localhost/%s" _ %s %s' % (number, name.encode(), base, length)


def entry_line(
        number: int, index: int, source_in: bytes, dest_in: bytes, dest_out: bytes,
        source: bytes = b"1", dest: bytes = b"1") -> bytes:
    return b"(Entry) %04d (Cut) I %04d %s %s %s %s %s" % (number, index, source, dest, source_in, dest_in, dest_out)


def fade_line(keyword: bytes, length: int, separators: bytes = b".../", rate: int = USUAL_RATE) -> bytes:
    return b"(%s) %s LIN _ _ _" % (keyword, time_text(length, separators, rate))


def section(name: bytes, lines: Iterable) -> list:
    return [b"<%s>" % name, *lines, b"</%s>" % name]


def source_text(source: Source, separators: bytes, rate: int) -> bytes:
    start, length = (
        b"_" if value is None else time_text(value, separators, rate) for value in (source.start, source.length))
    return b'(Index) %04d (F) "%s" %s %s %s' % (source.number, source.url, source.uid, start, length)


def entry_texts(entry: Entry, separators: bytes, rate: int) -> list:
    """The entry's line, and those of its fades."""
    times = (time_text(value, separators, rate) for value in (entry.source_in, entry.dest_in, entry.dest_out))
    lines = [entry_line(entry.number, entry.index, *times, entry.source.text(), entry.dest.text())]
    for keyword, length in ((b"Infade", entry.rise), (b"Outfade", entry.fall)):
        if length:
            lines.append(fade_line(keyword, length, separators, rate))
    return lines


def project_text(project: Project) -> bytes:
    """The text of a project, its lines ended by CR LF."""
    lines = [b"<ADL>"]
    for name in KEPT:
        if name in project.header:
            lines += section(name.encode(), project.header[name])
    lines += section(b"SOURCE_INDEX", [
        source_text(source, project.separators, project.rate) for source in project.sources])
    entry_lines = [
        line for entry in project.entries for line in entry_texts(entry, project.separators, project.rate)]
    lines += section(b"EVENT_LIST", entry_lines)
    return b"".join(line + b"\r\n" for line in [*lines, b"</ADL>"])
