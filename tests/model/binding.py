"""Which file, base and frames each index has, and which entry can't be honoured."""

from typing import NamedTuple

from .project import Entry, Project, Source
from .refusal import Notice, Refused, printed_name
from .sounds import BadFile, Sound, read_sound
from .times import DAY


class Index(NamedTuple):
    """An index that some entry names: its file's name, the time of that file's first frame, the frames with a time."""
    number: int
    name: str
    base: int
    addressable: int


class Bound(NamedTuple):
    """The bound indexes by number, in order of their lines; the sounds by name of file; what is told of both."""
    indexes: dict
    sounds: dict
    notices: tuple

    def home(self, name: str) -> Index:
        """The index of this file with the least base, of equal ones the first."""
        return min((index for index in self.indexes.values() if index.name == name), key=lambda index: index.base)

    def homes(self) -> list:
        """The home indexes of all files, in order of their lines."""
        homes = {self.home(name).number for name in self.sounds}
        return [index for index in self.indexes.values() if index.number in homes]


def opened(source: Source, media: dict) -> Sound:
    place = f" at index {source.number} file {printed_name(source.name())}"
    if source.name() not in media:
        raise Refused(21, place)
    try:
        return read_sound(media[source.name()])
    except BadFile as fault:
        raise Refused(fault.number, place) from fault


def bound_index(source: Source, sound: Sound) -> Index:
    told = [time for time in (source.start, sound.time_reference, 0) if time is not None]
    base = told[0]
    return Index(source.number, source.name(), base, max(0, min(sound.frames(), DAY - base)))


def notices_of(index: Index, sound: Sound, is_first: bool) -> list:
    """What is told of a bound index; what concerns its file at the first index alone."""
    kinds = [(4, sound.time_reference not in (None, index.base))]
    if is_first:
        kinds += [(5, sound.short_bext), (6, sound.others), (7, sound.history_cut)]
    return [Notice(kind, index.number) for kind, is_told in kinds if is_told]


def bind(project: Project, media: dict) -> Bound:
    named = {entry.index for entry in project.entries}
    indexes, sounds, paths, notices = {}, {}, {}, []
    for source in project.sources:
        if source.number not in named:
            notices.append(Notice(3, source.number))
            continue
        path, name = source.place()
        if paths.setdefault(name, path) != path:
            raise Refused(30, f" at index {source.number}")
        is_first = name not in sounds
        if is_first:
            sounds[name] = opened(source, media)
        index = bound_index(source, sounds[name])
        indexes[source.number] = index
        notices += notices_of(index, sounds[name], is_first)
    return Bound(indexes, sounds, tuple(notices))


def faults_of_files(project: Project, media: dict, told: Refused) -> list:
    """What is wrong with the files of used indexes behind the one that is refused, each file once."""
    named = {entry.index for entry in project.entries}
    paths, faults, is_behind = {}, [], False
    for source in project.sources:
        if source.number not in named:
            continue
        path, name = source.place()
        is_first = name not in paths
        try:
            if paths.setdefault(name, path) != path:
                raise Refused(30, f" at index {source.number}")
            if is_first:
                opened(source, media)
        except Refused as fault:
            faults += [fault] if is_behind else []
            is_behind = is_behind or str(fault) == str(told)
    return faults


def faults_of_entries(project: Project, bound: Bound, told: Refused) -> list:
    """What is wrong with each entry by itself, but for the one that is refused."""
    faults = []
    for entry in project.entries:
        try:
            check_entry(entry, bound)
        except Refused as fault:
            faults += [fault] if str(fault) != str(told) else []
    return faults


def check_entry(entry: Entry, bound: Bound) -> None:
    place = f" at entry {entry.number}"
    if entry.index not in bound.indexes:
        raise Refused(41, place)
    index = bound.indexes[entry.index]
    if entry.length() < 0:
        raise Refused(42, place)
    if entry.rise + entry.fall > entry.length():
        raise Refused(43, place)
    if entry.source.last > bound.sounds[index.name].channels:
        raise Refused(44, place)
    first = entry.source_in - index.base
    if entry.length() > 0 and not 0 <= first <= first + entry.length() <= index.addressable:
        raise Refused(46, place)
