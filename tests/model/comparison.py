"""Whether two projects sound the same: by the exact sums of both, before any rounding."""

from collections import Counter
from typing import NamedTuple, Optional

from .commands import STANDARD, Answer, Options, accepted, notices_of, range_of
from .mixing import sums_of
from .refusal import Refused
from .times import time_text

HOUR = 3600 * 48_000


class Side(NamedTuple):
    """A list and its files."""
    text: bytes
    media: dict


class Difference(NamedTuple):
    """The first sample at which two projects differ, the lowest channel there, and the sums of both; at how many samples
    of each channel they differ in the hour from it on."""
    time: int
    channel: int
    sums: tuple
    counts: tuple


def accepted_as(number: int, side: Side) -> tuple:
    """The project and the binding of the list of this number; raises what it is refused with."""
    try:
        return accepted(*side)
    except Refused as refusal:
        raise Refused(refusal.number, f"{refusal.place} in list {number}") from None


def part_of_both(first, second, options: Options):
    """What is compared: what would be rendered of one list with the entries of both."""
    return range_of(first._replace(entries=[*first.entries, *second.entries]), options)


def first_difference(first: tuple, second: tuple, part) -> Optional[Difference]:
    """Where two projects differ first within a part of the day."""
    one, other = sums_of(*first), sums_of(*second)
    places = [
        (time, channel) for channel, time in {*one, *other}
        if part.begin <= time < part.end and channel <= part.channels
        and one.get((channel, time), 0) != other.get((channel, time), 0)
    ]
    if not places:
        return None
    time, channel = min(places)
    counted = Counter(channel for at, channel in places if at < time + HOUR)
    return Difference(
        time, channel, (one.get((channel, time), 0), other.get((channel, time), 0)),
        tuple(counted[channel] for channel in range(1, part.channels + 1)))


def is_whole(found: Difference, part) -> bool:
    """Whether all that is compared was looked at for samples that differ."""
    return part.end <= found.time + HOUR


def counts_line(found: Difference, part) -> str:
    """What standard error says of the samples that differ."""
    counted = ", ".join(f"{count} on channel {place + 1}" for place, count in enumerate(found.counts) if count)
    return f"samples that differ{'' if is_whole(found, part) else ' in the hour from then on'}: {counted}"


def sounding(project, found: Difference) -> list:
    """The entries of a project whose span and channels hold the place of a difference."""
    return [
        entry.number for entry in project.entries
        if entry.dest_in <= found.time < entry.dest_out and entry.dest.first <= found.channel <= entry.dest.last]


def notice_reported(notice) -> dict:
    return {"notice": notice.kind, "line" if notice.kind <= 2 else "index": notice.at}


def side_reported(side: tuple, **rest) -> dict:
    project, bound = side
    return {"notices": [notice_reported(notice) for notice in (*project.notices, *bound.notices)], **rest}


def difference(first: Side, second: Side, options: Options = STANDARD) -> Optional[tuple]:
    """Where two lists that are accepted differ first, and within what."""
    one, other = accepted(*first), accepted(*second)
    part = part_of_both(one[0], other[0], options)
    found = first_difference(one, other, part)
    return (found, part) if found else None


def report(first: Side, second: Side, options: Options = STANDARD) -> dict:
    """What the command reports of two lists that are accepted."""
    one, other = accepted(*first), accepted(*second)
    part = part_of_both(one[0], other[0], options)
    found = first_difference(one, other, part)
    if found is None:
        return {
            "same": True, "form": 6, "frames": part.frames(), "channels": part.channels, "first": side_reported(one),
            "second": side_reported(other)}
    sides = [
        side_reported(side, entries=sounding(side[0], found), sum=total)
        for side, total in zip((one, other), found.sums)]
    time = time_text(found.time, one[0].separators, one[0].rate).decode()
    return {
        "same": False, "form": 6, "difference": {"at": found.time, "channel": found.channel, "time": time},
        "differing": {"samples": list(found.counts), "complete": is_whole(found, part)},
        "same_before": found.time - part.begin, "first": sides[0], "second": sides[1]}


def compare(first: Side, second: Side, options: Options = STANDARD) -> Answer:
    """What the command prints of two lists, each over its files, and its status."""
    try:
        one, other = accepted_as(1, first), accepted_as(2, second)
        part = part_of_both(one[0], other[0], options)
        if part.frames() <= 0:
            raise Refused(58)
    except Refused as refusal:
        return Answer(1, str(refusal), {})
    notices = tuple(
        f"{notice} in list {number}" for number, side in ((1, one), (2, other)) for notice in notices_of(*side))
    found = first_difference(one, other, part)
    if found is None:
        return Answer(0, f"same {part.frames()} frames {part.channels} channels", {}, notices)
    at = time_text(found.time, one[0].separators, one[0].rate).decode()
    return Answer(1, f"differ at {at} channel {found.channel}", {}, notices)
