"""What each command answers for a list over its media."""

import re
from bisect import bisect_right
from typing import NamedTuple, Optional

from .binding import Bound, bind, check_entry, faults_of_entries, faults_of_files
from .groups import FALL, RISE, Run, from_checked, runs_of, standard_groups
from .marks import marks_of
from .mixing import Range, clipped_line, exact, rendered
from .project import STANDARD_SEPARATORS, Entry, Project, Source
from .refusal import Refused
from .sounds import Sound, packed, written_sound
from .spelling import project_text
from .text import lines_of, rate_beside_faults, read_list
from .times import time_value
from .tokens import BadToken, tokens_of

MOST_NUMBERED = 32_767
MOST_FURTHER = 20

# The bytes of a medium before its samples, its CodingHistory aside, and the byte that may pad that.
HEAD = 691

# Faults of a line alone, and not of its section.
OF_A_LINE = (1, 2, 6, 7, 8, 9, 10, 13, 14, 16, 17)
# Those that end nothing also where they name no entry and no index.
OF_ANY_LINE = (7, 13, 16)


class Options(NamedTuple):
    """What the words of a command choose. Times are texts."""
    handle: int = 48_000
    begin: Optional[str] = None
    end: Optional[str] = None
    channels: Optional[int] = None
    depth: int = 24

    def words(self, command: str) -> list:
        """The words for what isn't chosen by default."""
        rendering = "from", "to", "channels", "depth"
        options = {
            "consolidate": ("handle",), "render": rendering, "resume": rendering, "compare": rendering[:3],
        }.get(command, ())
        chosen = {
            "handle": self.handle, "from": self.begin, "to": self.end, "channels": self.channels, "depth": self.depth}
        standard = {"handle": 48_000, "from": None, "to": None, "channels": None, "depth": 24}
        return [
            word for option in options if chosen[option] != standard[option]
            for word in (f"--{option}", str(chosen[option]))
        ]


STANDARD = Options()


class Answer(NamedTuple):
    """The status, the last line printed, the files written, the lines of notices before; of a consolidation the bytes
    of samples in the sources, those that are kept, and all bytes that were written; of a refused check the faults told
    behind the first one; of a rendering what standard error says of clipped samples; of an accepted check how many bytes
    the media of a consolidation would take at most."""
    status: int
    line: str
    files: dict
    notices: tuple = ()
    saved: Optional[tuple] = None
    further: tuple = ()
    clipped: str = ""
    most: Optional[int] = None

    def output(self) -> str:
        return "".join(f"{line}\n" for line in (*self.notices, self.line))


def accepted(text: bytes, media: dict) -> tuple:
    """The project and its binding; raises what the list, a file or an entry is refused with."""
    project = read_list(text)
    bound = bind(project, media)
    for entry in project.entries:
        check_entry(entry, bound)
    return project, bound


def notices_of(project: Project, bound: Bound) -> tuple:
    return tuple(notice.line() for notice in (*project.notices, *bound.notices))


def check(text: bytes, media: dict, _: Options) -> Answer:
    project, bound = accepted(text, media)
    line = f"accepted {len(project.entries)} entries {len(bound.indexes)} indexes"
    return Answer(0, line, {}, notices_of(project, bound), most=most_of_media(project, bound, STANDARD.handle))


def most_of_media(project: Project, bound: Bound, handle: int) -> int:
    """The media that keep the frames of all entries, silent ones too, and for each that has frames the head of one more."""
    def head(name: str) -> int:
        return HEAD + len(bound.sounds[name].history)

    runs = runs_of(from_checked(project, bound), bound, handle)
    samples = (run.length * bound.sounds[run.name].frame_size() for run in runs)
    media = sum(head(run.name) + size + size % 2 for run, size in zip(runs, samples))
    return media + sum(head(bound.indexes[entry.index].name) for entry in project.entries if entry.length())


def range_of(project: Project, options: Options) -> Range:
    begin = min((entry.dest_in for entry in project.entries), default=0)
    end = max((entry.dest_out for entry in project.entries), default=0)
    if options.begin is not None:
        begin = time_value(options.begin.encode(), project.rate)
    if options.end is not None:
        end = time_value(options.end.encode(), project.rate)
    channels = options.channels or max((entry.dest.last for entry in project.entries), default=1)
    return Range(begin, end, channels)


def render(text: bytes, media: dict, options: Options) -> Answer:
    project, bound = accepted(text, media)
    part = range_of(project, options)
    if part.frames() <= 0:
        raise Refused(58)
    sums = exact(project, bound, part)
    data = packed(options.depth, rendered(sums, options.depth))
    sound = Sound(part.channels, options.depth, data, time_reference=part.begin)
    line = f"rendered {part.frames()} frames {part.channels} channels"
    files = {"render.wav": written_sound(sound), "render.marks": marks_of(text, part, options.depth)}
    clipped = clipped_line(sums, part, options.depth, project.rate)
    return Answer(0, line, files, notices_of(project, bound), clipped=clipped)


def medium_name(number: int) -> str:
    return f"M{number:05d}.wav"


def entry_of(number: int, group: list, run: int, base: int) -> Entry:
    """The entry of a group, over the index of its run."""
    first, last = group[0], group[-1]
    rise, fall = (sum(piece.length for piece in group if piece.shape == shape) for shape in (RISE, FALL))
    return Entry(
        number, run, first.source, first.dest, base + first.frame, first.start, last.start + last.length, rise, fall)


def renewed(project: Project, bound: Bound, groups: list, runs: list) -> Project:
    """The list over the media of the runs."""
    sources = [
        Source(number, b"URL:file://localhost/" + medium_name(number).encode(), b"_",
               bound.home(run.name).base + run.first, run.length)
        for number, run in enumerate(runs, 1)
    ]
    bases = {home.name: home.base for home in bound.homes()}
    begins = {home.name: [] for home in bound.homes()}
    for number, run in enumerate(runs, 1):
        begins[run.name].append((run.first, number))
    entries = [
        entry_of(number, group, run_of(group, begins[group[0].name]), bases[group[0].name])
        for number, group in enumerate(groups, 1)
    ]
    separators = project.separators if entries else STANDARD_SEPARATORS
    return Project(project.header, sources, entries, separators, rate=project.rate)


def run_of(group: list, begins: list) -> int:
    """The number of the run in which a group lies: of those of its file the last that begins no later."""
    return begins[bisect_right(begins, (group[0].frame, MOST_NUMBERED)) - 1][1]


def medium(run: Run, bound: Bound) -> bytes:
    sound = bound.sounds[run.name]
    base = bound.home(run.name).base
    return written_sound(sound._replace(data=sound.bytes_of(run.first, run.length), time_reference=base + run.first))


def consolidate(text: bytes, media: dict, options: Options) -> Answer:
    project, bound = accepted(text, media)
    groups = standard_groups(project, bound)
    runs = runs_of(groups, bound, options.handle)
    if len(runs) > MOST_NUMBERED:
        raise Refused(53)
    if len(groups) > MOST_NUMBERED:
        raise Refused(55)
    files = {medium_name(number): medium(run, bound) for number, run in enumerate(runs, 1)}
    files["consolidated.adl"] = project_text(renewed(project, bound, groups, runs))
    line = f"written {len(runs)} media {len(groups)} entries"
    return Answer(0, line, files, notices_of(project, bound), saved_by(bound, runs, files))


def saved_by(bound: Bound, runs: list, files: dict) -> tuple:
    sources = sum(len(sound.data) for sound in bound.sounds.values())
    kept = sum(run.length * bound.sounds[run.name].frame_size() for run in runs)
    return sources, kept, sum(map(len, files.values()))


WRITING = {"render": render, "consolidate": consolidate}
COMMANDS = {"check": check, **WRITING}


def answer(command: str, text: bytes, media: dict, options: Options = STANDARD) -> Answer:
    """What the command prints, its status and what it writes, for a list over these files."""
    try:
        return COMMANDS[command](text, media, options)
    except Refused as refusal:
        return Answer(1, str(refusal), {}, further=further_faults(text, media, refusal) if command == "check" else ())


def is_entry(line: bytes) -> bool:
    try:
        token = next(tokens_of(line), None)
    except BadToken:
        return False
    return token is not None and token.content.lower() == b"entry"


def without_line(text: bytes, number: int) -> bytes:
    """The list with this line emptied, and with those that are of it where it is an entry's."""
    lines = text.split(b"\n")
    end = number
    if is_entry(lines[number - 1]):
        while end < len(lines) and not is_entry(lines[end]) and not lines[end].lstrip(b" \t").startswith(b"<"):
            end += 1
    # A blank line: an empty one at the end of the text would be no line.
    lines[number - 1:end] = [b" "] * (end - number + 1)
    return b"\n".join(lines)


def line_at_fault(refusal: Refused) -> Optional[int]:
    """The line that is at fault by itself, if it is one."""
    place = re.fullmatch(r" at line (\d+)( \w+ \d+)?", refusal.place)
    if place and refusal.number in OF_A_LINE and (place[2] or refusal.number in OF_ANY_LINE):
        return int(place[1])
    return None


def further_lines(text: bytes, first: Refused) -> list:
    """The faults of the list without the lines at fault before, as long as these are faults of lines alone: 21. Times
    have the rate of the list without its lines at fault."""
    rate = rate_beside_faults(lines_of(text))
    faults, line = [first], line_at_fault(first)
    while len(faults) <= MOST_FURTHER + 1 and line is not None:
        text = without_line(text, line)
        try:
            read_list(text, rate)
            break
        except Refused as refusal:
            line = line_at_fault(refusal)
            faults.append(refusal)
    return faults[1:]


def further_faults(text: bytes, media: dict, first: Refused) -> tuple:
    """Behind the fault of a line, a file or an entry the others of that kind: 20, and how many more, or that there are
    more lines."""
    try:
        project = read_list(text)
    except Refused:
        faults = further_lines(text, first)
        told = tuple(fault.further() for fault in faults[:MOST_FURTHER])
        return (*told, "and more") if len(faults) > MOST_FURTHER else told
    try:
        bound = bind(project, media)
    except Refused:
        faults = faults_of_files(project, media, first)
    else:
        faults = faults_of_entries(project, bound, first)
    told = [fault.further() for fault in faults[:MOST_FURTHER]]
    return (*told, f"and {len(faults) - MOST_FURTHER} more") if len(faults) > MOST_FURTHER else tuple(told)
