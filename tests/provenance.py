"""What consolidate --report writes: by its schema, by the model, and by the sources, byte for byte."""

import hashlib
import json
import subprocess
from typing import NamedTuple

import model
from devices import file_size_limit
from examples import EXAMPLES, media_of_examples, text_of
from harness import LIST, MEDIA, OUT, Cases, Mismatch, Scene, Skipped, Suite, same, same_bytes, same_files, same_outcome
from model.commands import medium_name
from model.groups import runs_of, standard_groups
from random_projects import Dice
from reports import FORM, SCHEMA, measured, notice_told, within_memory
from tables import EMPTY_LIST, FIRST_LIST, wave

case = Cases()

REPORT = "consolidated.json"
SUMS = "SHA256SUMS"
NEW_LIST = "consolidated.adl"
MOST_TOLD = 1000
MOST = 32_767
MOST_REPORT = 10_000_000
PROJECTS = 40
FILE_SIZE = 1000
MIDNIGHT = b"00.00.00.00/0000"
MEDIUM = {"A.wav": wave()}


def digest(data: bytes) -> str:
    return hashlib.sha256(data).hexdigest()


def text_of_bytes(data: bytes):
    """Bytes as text, and none where they are no UTF-8."""
    try:
        return data.decode()
    except UnicodeDecodeError:
        return None


def words_with(handle: int) -> list:
    return ["consolidate", LIST, MEDIA, OUT, *model.Options(handle=handle).words("consolidate")]


# By the model


class Place(NamedTuple):
    """On a channel of the output, which channel of which file is played, and how far its frames are ahead of time."""
    channel: int
    name: str
    source: int
    ahead: int


def plays(entry, name: str, base: int) -> dict:
    """When an entry plays what, over a file whose first frame stands at this time."""
    ahead = entry.source_in - base - entry.dest_in
    times = range(entry.dest_in, entry.dest_out)
    return {
        Place(entry.dest.first + place, name, entry.source.first + place, ahead): times
        for place in range(entry.dest.width())
    }


def play_together(one: dict, other: dict) -> bool:
    """At some time, on some channel, both play the same frame of the same channel of one file."""
    return any(
        max(times.start, other[place].start) < min(times.stop, other[place].stop)
        for place, times in one.items() if place in other)


def told_medium(number: int, run, project, bound, data: bytes, whole: str | None) -> dict:
    sound, home = bound.sounds[run.name], bound.home(run.name)
    source = next(source for source in project.sources if source.number == home.number)
    return {
        "file": medium_name(number), "sha256": digest(data), "base": home.base + run.first, "frames": run.length,
        "channels": sound.channels, "depth": sound.depth,
        "source": {
            "file": run.name, "first": run.first, "index": home.number, "url": text_of_bytes(source.url),
            "identifier": text_of_bytes(source.uid), "sha256": whole,
        },
    }


def told_group(numbers: list) -> dict:
    return {"given": numbers[:MOST_TOLD], "more": len(numbers[MOST_TOLD:])}


def wanted_report(text: bytes, media: dict, handle: int, version: str, files: dict, digests: bool) -> dict:
    """The report of a consolidation that writes these files, with the digests of the sources or without them."""
    project, bound = model.accepted(text, media)
    runs = runs_of(standard_groups(project, bound), bound, handle)
    given = [
        (entry.number, plays(entry, bound.indexes[entry.index].name, bound.indexes[entry.index].base))
        for entry in project.entries]
    new, groups = [], []
    for entry in model.read_list(files[NEW_LIST]).entries:
        run = runs[entry.index - 1]
        own = plays(entry, run.name, bound.home(run.name).base)
        group = told_group([number for number, one in given if play_together(one, own)])
        if group not in groups:
            groups.append(group)
        new.append({"entry": entry.number, "group": groups.index(group)})
    return {
        "media": [told_medium(number, run, project, bound, files[medium_name(number)],
                              digest(media[run.name]) if digests else None)
                  for number, run in enumerate(runs, 1)],
        "entries": new, "groups": groups, "handle": handle, "given_list_sha256": digest(text),
        "new_list_sha256": digest(files[NEW_LIST]), "program": "adlcons", "version": version, "form": FORM,
        "notices": [notice_told(notice) for notice in (*project.notices, *bound.notices)],
    }


# What is written


def read_report(data: bytes) -> dict:
    """A line, without a space, with its names in order, which the schema allows."""
    report = json.loads(data)
    same("the text", data.decode(), json.dumps(
        report, ensure_ascii=False, separators=(",", ":"), sort_keys=True) + "\n")
    try:
        import jsonschema
    except ImportError:
        raise Skipped("jsonschema isn't installed (Debian package python3-jsonschema)") from None
    jsonschema.Draft202012Validator(json.loads(SCHEMA.read_text())).validate(report)
    return report


def check_sources(report: dict, files: dict, media: dict) -> None:
    """The sound of each medium is that of the frames that are told of its source, byte for byte."""
    for medium in report["media"]:
        written, source = (
            model.read_sound(data) for data in (files[medium["file"]], media[medium["source"]["file"]]))
        same("the form of a medium", (medium["channels"], medium["depth"]), (source.channels, source.depth))
        frames = source.bytes_of(medium["source"]["first"], medium["frames"])
        same("the length of a medium", len(frames), medium["frames"] * source.frame_size())
        same_bytes(f"the sound of {medium['file']}", written.data, frames)


def check_sums(scene: Scene, files: dict) -> None:
    """A line for each other file, and sha256sum passes them."""
    names = [*sorted(name for name in files if name.startswith("M")), NEW_LIST, REPORT]
    same("the checksums", files[SUMS].decode(), "".join(f"{digest(files[name])}  {name}\n" for name in names))
    checked = subprocess.run(
        ["sha256sum", "--strict", "--check", SUMS], cwd=scene.folder / OUT, capture_output=True, check=False)
    if checked.returncode:
        raise Mismatch(f"sha256sum: {checked.stdout.decode()}{checked.stderr.decode()}")


def consolidated(scene: Scene, text: bytes, media: dict, handle: int) -> dict:
    """The report of a consolidation with digests: all that is written and printed, with and without them, is compared
    with the model and with a plain one."""
    scene.put(text, media)
    scene.empty_out()
    plain = scene.run(*words_with(handle))
    same_files(scene.files(), model.answer("consolidate", text, media, model.Options(handle=handle)).files)
    without = scene.files()
    reported(scene, text, media, handle, plain, without, False)
    return reported(scene, text, media, handle, plain, without, True)


def reported(scene: Scene, text: bytes, media: dict, handle: int, plain, without: dict, digests: bool) -> dict:
    """The report of a consolidation that prints and writes just what the plain one did besides."""
    scene.empty_out()
    words = ("--report", "--digests") if digests else ("--report",)
    same("output, error and status", scene.run(*words_with(handle), *words), plain)
    files = scene.files()
    same_files({name: data for name, data in files.items() if name not in (REPORT, SUMS)}, without)
    report = read_report(files[REPORT])
    version = scene.run("--version").output.decode().removeprefix("adlcons ").rstrip("\n")
    wanted = wanted_report(text, media, handle, version, without, digests)
    for part, value in wanted.items():
        same(f"{part} of the report", report[part], value)
    same("the parts of the report", set(report), set(wanted))
    check_sources(report, files, media)
    check_sums(scene, files)
    return report


def whole(text: bytes, media: dict, handle: int = 48_000):
    return lambda scene: consolidated(scene, text, media, handle)


def random_project(seed: int):
    """A random project, where it isn't refused."""
    def body(scene: Scene) -> None:
        dice = Dice(seed)
        text, media, place = dice.project()
        options = dice.options(place)
        if model.answer("consolidate", text, media, options).status == 0:
            consolidated(scene, text, media, options.handle)
    return body


# By tables


def entries_of(*lines: bytes, name: str = "A.wav") -> bytes:
    return model.list_text([model.source_line(1, name, MIDNIGHT)], lines)


def cut(number: int, first: int, begin: int, end: int, *channels: bytes) -> bytes:
    return model.entry_line(number, 1, *(model.time_text(value) for value in (first, begin, end)), *channels)


def entries_told(text: bytes, media: dict, wanted: dict):
    """Of each new entry just these given ones are told."""
    def body(scene: Scene) -> None:
        report = consolidated(scene, text, media, 0)
        same("the entries", {
            entry["entry"]: report["groups"][entry["group"]]["given"] for entry in report["entries"]}, wanted)
        same("how many more", {group["more"] for group in report["groups"]}, {0})
    return body


def tables_of_entries() -> dict:
    """Lists, and of each new entry the given ones that it plays."""
    sounding = {"A.wav": wave([7] * 12)}
    faded = {"A.wav": wave([7] * 4 + [0] * 4 + [7] * 4)}
    fades = [model.fade_line(b"Infade", 4), model.fade_line(b"Outfade", 4)]
    return {
        "cuts that go on": (entries_of(cut(4, 0, 0, 4), cut(9, 4, 4, 8)), sounding, {1: [4, 9]}),
        "cuts of which one begins a frame too early": (
            entries_of(cut(4, 0, 0, 4), cut(9, 3, 4, 8)), sounding, {1: [4], 2: [9]}),
        "a silent middle": (entries_of(cut(5, 0, 0, 12), *fades), faded, {1: [5], 2: [5]}),
        "silence and no length": (
            entries_of(cut(1, 4, 0, 4), cut(2, 0, 4, 8), cut(3, 0, 9, 9)), faded, {1: [2]}),
        "entries that overlap by a sample": (
            entries_of(cut(1, 0, 0, 4), cut(2, 3, 3, 8)), sounding, {1: [1, 2], 2: [1, 2]}),
        "the same frames at other times": (entries_of(cut(1, 0, 0, 4), cut(2, 0, 4, 8)), sounding, {1: [1], 2: [2]}),
        "the same frames on other channels": (
            entries_of(cut(1, 0, 0, 4), cut(2, 0, 0, 4, b"1", b"2")), sounding, {1: [1], 2: [2]}),
    }


@case("more given entries than are told")
def more_than_told(scene: Scene) -> None:
    """Of 1,002 cuts that go on from one another the first 1,000 are told."""
    count = MOST_TOLD + 2
    text = entries_of(*(cut(place + 1, place, place, place + 1) for place in range(count)))
    report = consolidated(scene, text, {"A.wav": wave([7] * count)}, 0)
    same("the entries", report["entries"], [{"entry": 1, "group": 0}])
    same("the groups", report["groups"], [{"given": list(range(1, MOST_TOLD + 1)), "more": 2}])


@case("32,767 equal entries")
def equal_entries(scene: Scene) -> None:
    """As many equal entries as there may be: their group is told once."""
    scene.put(entries_of(*(cut(number, 0, 0, 4) for number in range(1, MOST + 1))), MEDIUM)
    _, status, peak = measured(scene, "consolidate", LIST, MEDIA, OUT, "--report")
    same("the status", status, 0)
    within_memory(peak)
    written = (scene.folder / OUT / REPORT).read_bytes()
    if len(written) > MOST_REPORT:
        raise Mismatch(f"the report has {len(written)} bytes, more than {MOST_REPORT}")
    report = read_report(written)
    same("the groups", report["groups"], [{"given": list(range(1, MOST_TOLD + 1)), "more": MOST - MOST_TOLD}])
    same("the entries", report["entries"], [{"entry": number, "group": 0} for number in range(1, MOST + 1)])


@case("texts that JSON escapes or can't have")
def odd_texts(scene: Scene) -> None:
    """Names, URLs and identifiers that JSON has to escape, and those that it can't have."""
    name = 'B "\\\u0001\u00e9.wav'
    lines = [
        b'(Index) 0001 (F) "URL:file://localhost/tapes/A.wav" "\x01\\ \xc3\xa9\x7f" 00.00.00.00/0000 _',
        b'(Index) 0002 (F) "URL:file://h\xe9st/B%20%22%5C%01%C3%A9.wav" "\xff" 00.00.00.00/0000 _',
    ]
    entries = [model.entry_line(number, number, MIDNIGHT, MIDNIGHT, model.time_text(4)) for number in (1, 2)]
    report = consolidated(scene, model.list_text(lines, entries), {"A.wav": wave(), name: wave()}, 0)
    same("the sources", [medium["source"] for medium in report["media"]], [
        {"file": "A.wav", "first": 0, "index": 1, "url": "URL:file://localhost/tapes/A.wav",
         "identifier": '"\u0001\\ \u00e9\u007f"', "sha256": digest(wave())},
        {"file": name, "first": 0, "index": 2, "url": None, "identifier": None, "sha256": digest(wave())},
    ])


@case("several lines for one file")
def several_lines(scene: Scene) -> None:
    """Of three lines for one file the one that an entry names and by which it begins earliest is told."""
    lines = [model.source_line(number, "A.wav", model.time_text(base)) for number, base in ((7, 9), (5, 2), (3, 0))]
    entries = [
        model.entry_line(number, index, model.time_text(base), *map(model.time_text, (begin, begin + 4)))
        for number, index, base, begin in ((1, 7, 9, 0), (2, 5, 2, 10))]
    report = consolidated(scene, model.list_text(lines, entries), MEDIUM, 0)
    same("the index and the time", [(medium["source"]["index"], medium["base"]) for medium in report["media"]], [(5, 2)])


# Where it isn't written


@case("no report of an entry at fault")
def refused(scene: Scene) -> None:
    """A list that is refused has no report."""
    scene.put(text_of("overrun"), media_of_examples()["overrun"])
    plain = scene.run("consolidate", LIST, MEDIA, OUT)
    same("the answer", scene.run("consolidate", LIST, MEDIA, OUT, "--report"), plain)
    same("the status", plain.status, 1)
    same("the files", scene.files(), {})


@case("no report over files that are there")
def in_the_way(scene: Scene) -> None:
    """The output is empty, or nothing is written: no checksums and no report are replaced."""
    scene.put(FIRST_LIST, MEDIUM)
    for name in (SUMS, REPORT):
        scene.put_out({name: b"of another project"})
        same_outcome(scene.run("consolidate", LIST, MEDIA, OUT, "--report"), 1, f"refused 20 at file {OUT}")
        same_files(scene.files(), {name: b"of another project"})


@case("a report that is broken off")
def limited(scene: Scene) -> None:
    """The media and their checksums are whole, and the report, which is longer than each of them, isn't: no list."""
    text = entries_of(*(cut(number, 0, 0, 4) for number in range(1, 41)))
    report = consolidated(scene, text, MEDIUM, 0)
    files = scene.files()
    same("whether the report is too long", len(files[REPORT]) > FILE_SIZE, True)
    scene.empty_out()
    got = scene.run(*words_with(0), "--report", "--digests", **file_size_limit(FILE_SIZE))
    same_outcome(got, 1, f"refused 62 at file {REPORT}")
    written = scene.files()
    same("whether the report is broken off", written.pop(REPORT) != files.pop(REPORT), True)
    del files[NEW_LIST]
    same_files(written, files)
    same("the media", sorted(name for name in files if name != SUMS), [medium["file"] for medium in report["media"]])


def run(suite: Suite) -> None:
    all_media = media_of_examples()
    for example in EXAMPLES:
        if example != "overrun":
            suite.case(f"where the media of {example} come from", whole(text_of(example), all_media[example]))
            suite.case(f"the same of {example} without handles", whole(text_of(example), all_media[example], 0))
    suite.case("where the media of a plain list come from", whole(FIRST_LIST, MEDIUM, 0))
    suite.case("the report of a list without entries", whole(EMPTY_LIST, {}))
    for seed in range(PROJECTS):
        suite.case(f"where the media of random project {seed} come from", random_project(seed))
    for name, (text, media, wanted) in tables_of_entries().items():
        suite.case(f"entries that are told: {name}", entries_told(text, media, wanted))
    case.run(suite)
