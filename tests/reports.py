"""What check --report prints: by its schema, and by the model."""

import json
import os
import re
import subprocess
import sys
from functools import partial
from pathlib import Path
from urllib.parse import quote

import model
from examples import EXAMPLES, media_of_examples, text_of
from harness import LIST, MEDIA, ROOM, Mismatch, Scene, Skipped, Suite, same, words_of
from model.binding import bind, faults_of_entries, faults_of_files
from model.refusal import Refused, is_unseen
from tables import FIRST_LIST, bext_chunk, data_chunk, format_chunk, riff_file, wave

SCHEMA = Path(__file__).resolve().parent.parent / "docs/report.schema.json"
PARTS = ("line", "entry", "index", "file")
MEMBERS = (
    "after", "before", "bits", "cause", "channels", "column", "file", "frames", "index", "meaning", "near", "rate",
    "remedy", "tag", "text", "word")
FORM = 6
MOST_EXPLAINED = 1000
MOST_MEMORY = 200_000_000


def in_order(value):
    """A value whose members are in the order of their names, and `complete` behind them."""
    if isinstance(value, list):
        return [in_order(each) for each in value]
    if isinstance(value, dict):
        return {name: in_order(value[name]) for name in sorted(value, key=lambda name: (name == "complete", name))}
    return value


def line_of(report: dict) -> str:
    """Returns a report as a line without a space, with its names in order and each invisible character escaped."""
    text = json.dumps(in_order(report), ensure_ascii=False, separators=(",", ":"))
    return "".join(json.dumps(each)[1:-1] if is_unseen(each) else each for each in text) + "\n"


def reported(scene: Scene, status: int) -> dict:
    """The report of the scene's list, which the schema allows."""
    got = scene.run("check", LIST, MEDIA, "--report")
    same("the status", got.status, status)
    return allowed(got.output.decode())


def allowed(text: str) -> dict:
    """The report of this text, which is in its form and which the schema allows."""
    report = json.loads(text)
    same("the text", text, line_of(report))
    try:
        import jsonschema
    except ImportError:
        raise Skipped("jsonschema isn't installed (Debian package python3-jsonschema)") from None
    jsonschema.Draft202012Validator(json.loads(SCHEMA.read_text())).validate(report)
    return report


def notice_told(notice) -> dict:
    return {"notice": notice.kind, "line" if notice.kind <= 2 else "index": notice.at}


def accepted_report(text: bytes, media: dict) -> dict:
    """What the model finds of a list that is accepted."""
    project, bound = model.accepted(text, media)
    indexes = [
        {
            "index": index.number, "file": index.name, "base": index.base,
            "frames": bound.sounds[index.name].frames(), "channels": bound.sounds[index.name].channels,
            "depth": bound.sounds[index.name].depth,
            "notices": [notice.kind for notice in bound.notices if notice.kind > 3 and notice.at == index.number],
        }
        for index in bound.indexes.values()]
    return {
        "accepted": True, "rate": project.rate, "entry_count": len(project.entries), "form": FORM, "indexes": indexes,
        "media_error": None, "not_honoured": [],
        "notices": [notice_told(notice) for notice in (*project.notices, *bound.notices)],
    }


def fault_told(refusal: Refused) -> dict:
    """A fault by the words of its place."""
    words = refusal.place.removeprefix(" at ").split(" ")
    places = dict(zip(words[::2], words[1::2]))
    told = {part: places.get(part) for part in PARTS}
    numbers = {part: int(told[part]) for part in PARTS[:3] if told[part] is not None}
    return {**told, **numbers, "refused": refusal.number}


def unexplained(report: dict) -> dict:
    """The report of a list that is refused without what explains its faults."""
    faults = [{name: value for name, value in fault.items() if name != "explained"} for fault in report["faults"]]
    return {**report, "faults": faults}


def written(scene: Scene, command: str) -> int:
    """How many bytes a command writes over the scene's list, the new list aside."""
    same("the status", scene.run(*words_of(command)).status, 0)
    files = scene.files()
    scene.empty_out()
    return sum(len(content) for name, content in files.items() if name != "consolidated.adl")


def with_room(scene: Scene, report: dict) -> dict:
    """A report without the room of the outputs, which is at least what they take, and of a rendering just that; standard
    error says the same."""
    room = report.pop("most_bytes")
    said = re.search(ROOM, scene.run("check", LIST, MEDIA).error.decode())
    same("what standard error says", said.groups(), tuple(room[name] and f"{room[name]}" for name in ("media", "rendering")))
    if written(scene, "consolidate") > room["media"]:
        raise Mismatch(f"the media take more than {room}")
    if report["entry_count"] > 0:
        same("what a rendering takes", room["rendering"], written(scene, "render"))
    return report


def accepted(text: bytes, media: dict):
    def body(scene: Scene) -> None:
        scene.put(text, media)
        same("the report", with_room(scene, reported(scene, 0)), accepted_report(text, media))
    return body


def refused(text: bytes, media: dict, faults, is_complete: bool = True):
    """The first fault and the further ones, as the model finds them."""
    def body(scene: Scene) -> None:
        scene.put(text, media)
        try:
            model.accepted(text, media)
        except Refused as refusal:
            first = refusal
        wanted = [fault_told(fault) for fault in (first, *faults(text, media, first))]
        report = reported(scene, 1)
        same("the report", unexplained(report), {
            "accepted": False, "complete": is_complete, "faults": wanted, "form": FORM, "media_error": None})
        error = scene.run("check", LIST, MEDIA).error.decode().splitlines()
        for fault, line in zip(report["faults"], error):
            told = fault["explained"]
            for name in ("meaning", "cause", "near"):
                if told[name] is not None and f"{told[name]}" not in line:
                    raise Mismatch(f"{name} of {fault} isn't said by {line!r}")
        same("whether the remedy is said", f"; {report['faults'][0]['explained']['remedy']} (" in error[0], True)
    return body


def files_at_fault(text: bytes, media: dict, first: Refused) -> list:
    return faults_of_files(model.read_list(text), media, first)


def entries_at_fault(text: bytes, media: dict, first: Refused) -> list:
    project = model.read_list(text)
    return faults_of_entries(project, bind(project, media), first)


def unread(scene: Scene) -> None:
    """A list that isn't there, or is none, has a report of just that."""
    for path, remedy in (("no.adl", "check the path"), (MEDIA, "name the list itself, not its folder")):
        got = scene.run("check", path, MEDIA, "--report")
        same("the status", got.status, 1)
        same("standard error", got.error.decode().startswith("the list can't be read: "), True)
        report = allowed(got.output.decode())
        same("the report", unexplained(report), {
            "accepted": False, "complete": False, "form": FORM, "media_error": None,
            "faults": [{"entry": None, "file": path, "index": None, "line": None, "refused": 21}]})
        told = report["faults"][0]["explained"]
        same("the remedy", (told["meaning"], told["remedy"]), ("the list can't be read", remedy))


def no_media(scene: Scene) -> None:
    """That the folder of the media can't be listed stands in the report, of a list that is refused and of one that names
    no file."""
    scene.put(FIRST_LIST)
    empty = b"".join(line for line in FIRST_LIST.splitlines(keepends=True) if b"(Entry)" not in line)
    (scene.folder / "E.adl").write_bytes(empty)
    for words, status in ((LIST, 1), ("E.adl", 0)):
        got = scene.run("check", words, "none", "--report")
        same("the status", got.status, status)
        report = allowed(got.output.decode())
        same("the folder", report["media_error"], "No such file or directory (os error 2)")
    (scene.folder / MEDIA / "A.wav").write_bytes(wave())
    same("the folder that is there", reported(scene, 0)["media_error"], None)


def not_honoured(scene: Scene) -> None:
    """What may be meant to be heard and is passed over stands in the report of a list that is accepted, line by line."""
    tracks = b"".join(each + b"\n" for each in (
        b"<TRACKLIST>", b"(Track) 1 (Mute) (Gain) -6.0", b"</TRACKLIST>", b"<SYSTEM>",
        b"(SYS_XFADE_LENGTH) 00.00.00.10/0000", b"</SYSTEM>"))
    text = FIRST_LIST.replace(b"<SEQUENCE>", tracks + b"<SEQUENCE>", 1)
    lines = text.splitlines(keepends=True)
    place = next(place for place, line in enumerate(lines) if line.startswith(b"(Entry)"))
    lines[place] = lines[place].rstrip(b"\n") + b' "x" (Mute)\n'
    scene.put(b"".join(lines), {"A.wav": wave()})
    same("what isn't honoured", reported(scene, 0)["not_honoured"], [
        {"line": 3, "words": "(Mute) (Gain) -6.0"}, {"line": 6, "words": "(SYS_XFADE_LENGTH) 00.00.00.10/0000"},
        {"line": place + 1, "words": '"x" (Mute)'}])
    said = scene.run("check", LIST, MEDIA).error.decode()
    for each in reported(scene, 0)["not_honoured"]:
        same("what standard error says", f"not honoured at line {each['line']}: {each['words']}; " in said, True)


def explained(scene: Scene) -> None:
    """Each fault has its column, word, line, cause and remedy; of a file what it is, or where it may be; of an entry its
    file and by how much that is passed."""
    lines = FIRST_LIST.splitlines(keepends=True)
    entry_line = lines[9]
    text = b"".join((
        *lines[:9], entry_line + b"(Gain) _ _ -3.00\n",
        entry_line.replace(b"0001 (Cut)", b"0002 (Cut)").replace(b"01.00.00.00/0004", b"01.00.00.25/0000"), *lines[10:]))
    scene.put(text, {"A.wav": wave()})
    one, other = (fault["explained"] for fault in reported(scene, 1)["faults"])
    same("the members", sorted(one), sorted(MEMBERS))
    same("a gain", [one[name] for name in ("meaning", "cause", "column", "word", "text")], [
        "unsupported line", "only a gain of zero is supported: another one changes the sound", 12, "-3.00", "(Gain) _ _ -3.00"])
    same("a time", [other[name] for name in ("meaning", "cause", "column", "word")], [
        "bad time", "the list has 25 frames a second", 65, "01.00.00.25/0000"])
    float_file = riff_file(format_chunk(tag=3, bits=32), data_chunk((1, 2)))
    text = model.list_text(
        [model.source_line(number, name, b"_") for number, name in ((1, "a.wav"), (2, "F.wav"))],
        [entry(number, number, 0, 2) for number in (1, 2)])
    scene.put(text, {"A.wav": wave(), "F.wav": float_file})
    one, other = (fault["explained"] for fault in reported(scene, 1)["faults"])
    same("a missing file", one["near"], "the folder has A.wav, in other capitals or another form of Unicode (NFC, NFD)")
    same("what is to be done", one["remedy"], "rename that file, or write its name in the list as it is in the folder")
    same("a file that isn't read", [other[name] for name in ("tag", "bits", "channels", "rate")], [3, 32, 1, 48000])
    scene.put(entries_of(entry(1, 1, 0, 5)), {"A.wav": wave()})
    (one,) = (fault["explained"] for fault in reported(scene, 1)["faults"])
    same("an entry", {name: one[name] for name in ("after", "before", "channels", "file", "frames", "index")}, {
        "after": 1, "before": None, "channels": 1, "file": "A.wav", "frames": 4, "index": 1})
    same("its cause", one["cause"], "entry 1 plays A.wav up to frame 5; the file has 4 (1 too many)")


def entries_of(*lines: bytes) -> bytes:
    """A list of these entries over a file."""
    return model.list_text([model.source_line(1, "A.wav", b"00.00.00.00/0000")], lines)


def base_past_the_day(scene: Scene) -> None:
    """A file that begins past the end of the day, under an index without a time: its number stands in the report."""
    first = model.DAY + 5
    media = {"A.wav": riff_file(format_chunk(), bext_chunk(first), data_chunk((1, 2, 3, 4)))}
    text = model.list_text([model.source_line(1, "A.wav", b"_")], [entry(1, 1, 0, 0)])
    scene.put(text, media)
    report = reported(scene, 0)
    report.pop("most_bytes")
    same("the report", report, accepted_report(text, media))
    same("the base", report["indexes"][0]["base"], first)


# Controls, format characters, fillers and blanks, of which each UTF-8 length has one.
INVISIBLE = "\x7f\u0080\u009b\u009f\u00ad\u0600\u200b\u200d\u202e\u2066\u2029\u2800\u3164\ufeff\U0001d173\U000e0001\U000e0fff"


def unprintable_names(scene: Scene) -> None:
    """A name of a file with each character that JSON has to escape, and with invisible ones, which are escaped too, in a
    report that is accepted and in one that isn't."""
    name = "".join(chr(code) for code in range(1, 0x30) if chr(code) != "/") + "\\é\u2028" + INVISIBLE + "日\U0001f3b5.wav"
    text = model.list_text([model.source_line(1, quote(name), b"_")], [entry(1, 1, 0, 4)])
    scene.put(text, {name: wave()})
    for status in (0, 1):
        if status == 1:
            (scene.folder / MEDIA / name).unlink()
        report = reported(scene, status)
        (told,) = report["indexes" if status == 0 else "faults"]
        same("the name", told["file"], name)


def invisible_texts(scene: Scene) -> None:
    """Invisible characters in a line of the list are escaped in what explains its fault and in what isn't honoured."""
    comment = f'"{INVISIBLE.removeprefix(chr(0x7F))}"'
    lines = FIRST_LIST.splitlines(keepends=True)
    gain = f"(Gain) _ _ -3.00 {comment}"
    scene.put(b"".join((*lines[:10], f"{gain}\n".encode(), *lines[10:])), {"A.wav": wave()})
    (fault,) = reported(scene, 1)["faults"]
    same("the line at fault", fault["explained"]["text"], gain)
    lines[9] = lines[9].rstrip(b"\n") + f" {comment} (Mute)\n".encode()
    scene.put(b"".join(lines), {"A.wav": wave()})
    (passed,) = reported(scene, 0)["not_honoured"]
    same("what isn't honoured", passed["words"], f"{comment} (Mute)")


# Long reports


MEASURE = """
import os, sys
quiet = [(os.POSIX_SPAWN_OPEN, 2, os.devnull, os.O_WRONLY, 0)]
program = os.posix_spawn(sys.argv[1], sys.argv[1:], os.environ, file_actions=quiet)
_, status, used = os.wait4(program, 0)
print(os.waitstatus_to_exitcode(status), used.ru_maxrss, file=sys.stderr)
"""


def measured(scene: Scene, *words) -> tuple:
    """What the program prints over these words, in a file, its status, and its peak of memory in bytes."""
    printed = scene.folder / "printed"
    with printed.open("wb") as file:
        # The peak of a process counts that of the one which it was forked from: so a small one forks it.
        done = subprocess.run(
            [sys.executable, "-I", "-S", "-c", MEASURE, scene.program, *words], cwd=scene.folder,
            stdin=subprocess.DEVNULL, stdout=file, stderr=subprocess.PIPE, check=True)
    status, peak = map(int, done.stderr.split()[-2:])
    return printed, status, 1024 * peak


def within_memory(peak: int) -> None:
    if peak > MOST_MEMORY:
        raise Mismatch(f"it took {peak} bytes of memory, more than {MOST_MEMORY}")


# A long line that isn't honoured, of which 65,535 are kept at most.
MUTE = b"(Mute) " + b"1 " * 72 + b"\n"


def long_lists() -> dict:
    """Ten megabytes with a notice or a fault in each line: the text, the status, and how many objects the report has."""
    sources = FIRST_LIST.index(b"</SOURCE_INDEX>")
    entries = FIRST_LIST.index(b"</EVENT_LIST>")
    tracks = FIRST_LIST.index(b"<SEQUENCE>")

    def with_lines(place: int, line: bytes, count: int) -> bytes:
        return FIRST_LIST[:place] + line * count + FIRST_LIST[place:]

    return {
        "notices": (with_lines(sources, b"x\n", 5_000_000), 0, 5_000_003),
        "brackets": (with_lines(entries, b"(\n", 5_000_000), 1, 5_000_001 + MOST_EXPLAINED),
        "gains": (with_lines(entries, b"(Gain) 1\n", 1_100_000), 1, 1_100_001 + MOST_EXPLAINED),
        "mutes": (with_lines(tracks, b"<TRACKLIST>\n" + MUTE * 65_000 + b"</TRACKLIST>\n", 1), 0, 65_003),
    }


def long_report(text: bytes, status: int, objects: int):
    """Its report takes little memory beside the list and its notices, and has all faults."""
    def body(scene: Scene) -> None:
        scene.put(text, {"A.wav": wave()})
        printed, got, peak = measured(scene, "check", LIST, MEDIA, "--report")
        same("the status", got, status)
        within_memory(peak)
        with printed.open("rb") as file:
            same("the objects", sum(part.count(b"{") for part in iter(partial(file.read, 1 << 20), b"")), objects)
            file.seek(-30, os.SEEK_END)
            end = file.read()
        same("the end", end.endswith(b',"complete":true}\n' if status else b'],"rate":25}\n'), True)
    return body


def entry(number: int, index: int, begin: int, end: int) -> bytes:
    return model.entry_line(number, index, *(model.time_text(value) for value in (0, begin, end)))


def run(suite: Suite) -> None:
    all_media = media_of_examples()
    for example in EXAMPLES:
        if example != "overrun":
            suite.case(f"the report of {example}", accepted(text_of(example), all_media[example]))
    suite.case("the report of an entry at fault", refused(text_of("overrun"), all_media["overrun"], entries_at_fault))
    suite.case("the report of a list with a notice", accepted(FIRST_LIST.replace(
        b"</SOURCE_INDEX>", model.source_line(2, "B.wav", b"_") + b"\n</SOURCE_INDEX>"), {"A.wav": wave()}))
    several = entries_of(entry(1, 1, 0, 5), entry(2, 1, 0, 4), entry(3, 1, 4, 2))
    suite.case("the report of two entries at fault", refused(several, {"A.wav": wave()}, entries_at_fault))
    files = model.list_text(
        [model.source_line(number, f"{name}.wav", b"_") for number, name in ((1, "A"), (2, "Bé"), (3, "C"))],
        [entry(number, number, 0, 4) for number in (1, 2, 3)])
    suite.case("the report of two files at fault", refused(files, {"A.wav": wave(), "C.wav": b"no"}, files_at_fault))
    suite.case("the report of a line at fault", refused(
        FIRST_LIST.replace(b"(Cut)", b"(Cat)"), {"A.wav": wave()}, lambda *_: []))
    for name, part, other in (
            ("rate", b"FRAME_RATE) 25", b"FRAME_RATE) 29"), ("rate that isn't there", b"(SEQ_FRAME_RATE) 25\n", b""),
            ("section that isn't there", b"<SOURCE_INDEX>", b"<SOURCES>")):
        suite.case(f"the report of a {name}", refused(
            FIRST_LIST.replace(part, other), {"A.wav": wave()}, lambda *_: [], is_complete=False))
    suite.case("the report of a file that begins past the day", base_past_the_day)
    suite.case("the report of a name that JSON escapes", unprintable_names)
    suite.case("the report of invisible characters in the list", invisible_texts)
    for name, (text, status, objects) in long_lists().items():
        suite.case(f"the report of ten megabytes of {name}", long_report(text, status, objects))
    suite.case("the report of a list that isn't there", unread)
    suite.case("the report over a folder that isn't there", no_media)
    suite.case("the report of what isn't honoured", not_honoured)
    suite.case("the report of what explains faults", explained)
