"""The exact sum of all entries, and how it is rounded to a depth."""

import math
from collections import defaultdict
from typing import NamedTuple

from .binding import Bound
from .project import Entry, Project
from .times import time_text

FULL_DEPTH = 48


def share(entry: Entry, place: int) -> tuple:
    """The part that a fade leaves of a sample, as numerator and denominator."""
    left = entry.length() - place
    if place < entry.rise:
        return place, entry.rise
    if left <= entry.fall:
        return left, entry.fall
    return 1, 1


def contribution(sample: int, depth: int, num: int, den: int) -> int:
    return sample * 2 ** (FULL_DEPTH - depth) * num // den


def contributions(entry: Entry, bound: Bound, begin: int, end: int) -> dict:
    """What an entry adds within a range of the day, by destination channel: a place and a number each."""
    index = bound.indexes[entry.index]
    sound = bound.sounds[index.name]
    first, last = max(begin, entry.dest_in), min(end, entry.dest_out)
    if first >= last:
        return {}
    frame = entry.source_in - index.base + first - entry.dest_in
    added = {}
    for step in range(entry.source.width()):
        samples = sound.samples(entry.source.first + step, frame, last - first)
        added[entry.dest.first + step] = [
            (place, contribution(sample, sound.depth, *share(entry, place - entry.dest_in)))
            for place, sample in enumerate(samples, first)
        ]
    return added


def sums_of(project: Project, bound: Bound) -> dict:
    """The exact sum by channel and sample of the day, where it isn't zero."""
    sums = defaultdict(int)
    for entry in project.entries:
        for channel, numbers in contributions(entry, bound, entry.dest_in, entry.dest_out).items():
            for place, number in numbers:
                sums[channel, place] += number
    return {place: total for place, total in sums.items() if total}


def finished(total: int, depth: int) -> int:
    """Rounded to the depth with halves up, and clipped."""
    unit = 2 ** (FULL_DEPTH - depth)
    highest = 2 ** (depth - 1) - 1
    return max(-highest - 1, min(highest, (total + unit // 2) // unit))


class Range(NamedTuple):
    """What is rendered: the samples of a part of the day, on the first channels."""
    begin: int
    end: int
    channels: int

    def frames(self) -> int:
        return self.end - self.begin


def exact(project: Project, bound: Bound, part: Range) -> list:
    """The exact sums of all channels, frame after frame."""
    sums = [0] * (part.frames() * part.channels)
    for entry in project.entries:
        for channel, numbers in contributions(entry, bound, part.begin, part.end).items():
            if channel <= part.channels:
                for place, number in numbers:
                    sums[(place - part.begin) * part.channels + channel - 1] += number
    return sums


def rendered(sums: list, depth: int) -> list:
    """The samples that sums are rounded to."""
    return [finished(total, depth) for total in sums]


def is_clipped(total: int, depth: int) -> bool:
    unit = 2 ** (FULL_DEPTH - depth)
    return not -2 ** (depth - 1) <= (total + unit // 2) // unit < 2 ** (depth - 1)


def clipped_line(sums: list, part: Range, depth: int, rate: int) -> str:
    """What standard error says of sums that are clipped, where some are."""
    clipped = [place for place, total in enumerate(sums) if is_clipped(total, depth)]
    if not clipped:
        return ""
    frame, channel = divmod(clipped[0], part.channels)
    channels = [str(number + 1) for number in sorted({place % part.channels for place in clipped})]
    words = ", ".join(channels[:-1]) + " and " + channels[-1] if len(channels) > 1 else channels[0]
    loudest = max(abs(sums[place]) for place in clipped)
    above = math.floor(200 * math.log10(loudest / 2 ** (FULL_DEPTH - 1)) + 0.5)
    return (
        f"clipped: {len(clipped)} sample{'s' * (len(clipped) > 1)} on channel{'s' * (len(channels) > 1)} {words}, the first "
        f"at {time_text(part.begin + frame, rate=rate).decode()} on channel {channel + 1}; the loudest sum is "
        f"{max(above, 0) // 10}.{max(above, 0) % 10} dB above full scale\n")
