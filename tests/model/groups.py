"""What a consolidation makes of the entries: pieces in groups, the four passes over them, the frames that are kept."""

from collections import defaultdict
from typing import Callable, Iterable, NamedTuple

from .binding import Bound
from .project import Channels, Entry, Project

RISE, FLAT, FALL = range(3)


class Piece(NamedTuple):
    """A part of an entry under one shape: a whole ramp, or flat. It reads a file from a frame on."""
    shape: int
    start: int
    length: int
    name: str
    frame: int
    source: Channels
    dest: Channels

    def head(self) -> tuple:
        """What a piece has to end like that this one goes on from."""
        return self.name, self.source, self.dest, self.start, self.frame

    def tail(self) -> tuple:
        return self.name, self.source, self.dest, self.start + self.length, self.frame + self.length


def group_of(entry: Entry, bound: Bound) -> list:
    """The in-fade, the flat middle and the out-fade, the empty ones left out."""
    index = bound.indexes[entry.index]
    middle = entry.length() - entry.rise - entry.fall
    pieces, at = [], 0
    for shape, length in ((RISE, entry.rise), (FLAT, middle), (FALL, entry.fall)):
        if length:
            frame = entry.source_in - index.base + at
            pieces.append(Piece(shape, entry.dest_in + at, length, index.name, frame, entry.source, entry.dest))
        at += length
    return pieces


def in_order(groups: Iterable) -> list:
    return sorted(groups, key=lambda group: group[0].start)


def from_checked(project: Project, bound: Bound) -> list:
    return in_order(group_of(entry, bound) for entry in project.entries if entry.length())


def split_fades(groups: list) -> list:
    return in_order([piece] for group in groups for piece in group)


def drop_silent(groups: list, bound: Bound) -> list:
    return [group for group in groups if not all(is_silent(piece, bound) for piece in group)]


def is_silent(piece: Piece, bound: Bound) -> bool:
    return bound.sounds[piece.name].is_silent(piece.source.first, piece.source.width(), piece.frame, piece.length)


def joined(groups: list, takes: Callable, join: Callable) -> list:
    """In order, each group goes to the first one put out that it continues and that takes it, or is put out last."""
    out, ends = [], defaultdict(set)
    for group in groups:
        places = [place for place in ends[group[0].head()] if takes(out[place], group)]
        if places:
            place = min(places)
            ends[out[place][-1].tail()].remove(place)
            out[place] = join(out[place], group)
        else:
            place = len(out)
            out.append(group)
        ends[out[place][-1].tail()].add(place)
    return out


def is_flat(group: list) -> bool:
    return len(group) == 1 and group[0].shape == FLAT


def join_cuts(groups: list) -> list:
    def longer(old: list, new: list) -> list:
        return [old[0]._replace(length=old[0].length + new[0].length)]

    return joined(groups, lambda old, new: is_flat(old) and is_flat(new), longer)


def regroup(groups: list) -> list:
    def takes(old: list, new: list) -> bool:
        return all(one.shape < other.shape for one in old for other in new)

    return joined(groups, takes, lambda old, new: old + new)


def standard_groups(project: Project, bound: Bound) -> list:
    return regroup(join_cuts(drop_silent(split_fades(from_checked(project, bound)), bound)))


class Run(NamedTuple):
    """Kept frames of a file without a gap."""
    name: str
    first: int
    length: int


def merged(spans: Iterable) -> list:
    """The maximal intervals that spans cover, from a first to behind a last frame; spans that touch are one."""
    found = []
    for first, last in sorted(spans):
        if found and first <= found[-1][1]:
            found[-1][1] = max(found[-1][1], last)
        else:
            found.append([first, last])
    return found


def runs_of(groups: list, bound: Bound, handle: int) -> list:
    """The frames at most a handle away from those that are read, as far as the home index can address them."""
    spans = defaultdict(list)
    for group in groups:
        for piece in group:
            spans[piece.name].append((piece.frame - handle, piece.frame + piece.length + handle))
    return [
        Run(home.name, max(0, first), min(home.addressable, last) - max(0, first))
        for home in bound.homes() for first, last in merged(spans[home.name])
    ]
