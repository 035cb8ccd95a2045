"""What standard error says beside the lines of the output: it says what is so, and what to do about just that."""

import json
import os
import re
from urllib.parse import quote

import model
from harness import (
    LIST, MEDIA, OUT, Cases, Mismatch, Outcome, Scene, expect_refused, meddled, same, same_outcome,
    words_of,
)
from model import FRONT
from progress import on_terminal, put_sound, put_stretches
from tables import FIRST_LIST, changed, data_chunk, format_chunk, riff_file, wave

case = Cases()
run = case.run

MIDNIGHT = b"00.00.00.00/0000"
NOBODY = 65_534
MEDIA_FILES = {"A.wav": wave()}
STORED_RUN = b"698 bytes: 1000 -1000 32767 -32768\n"


def expect_said(got: Outcome, line: str, said: tuple, unsaid: tuple = ()) -> None:
    """The refusal, and what its explanation says and doesn't say."""
    same_outcome(got, 1, line)
    for text in said:
        if text not in got.error.decode():
            raise Mismatch(f"{text!r} isn't said of {line!r}: {got.error!r}")
    for text in unsaid:
        if text in got.error.decode():
            raise Mismatch(f"{text!r} is said of {line!r}: {got.error!r}")


def said_of(text: bytes, line: str, *said: str):
    """`check` refuses the list with this line, and says this of it."""
    def body(scene: Scene) -> None:
        scene.put(text, MEDIA_FILES)
        expect_said(scene.run("check", LIST, MEDIA), line, said)
    return body


def with_url(url: bytes) -> bytes:
    return FIRST_LIST.replace(b"URL:file://localhost/A.wav", url)


def without_rights() -> None:
    """Makes a process one of a user who owns nothing, where it may do that."""
    if os.getuid() == 0:
        os.setgroups([])
        os.setgid(NOBODY)
        os.setuid(NOBODY)


OF_GAINS = "only a gain of zero is supported: another one changes the sound"
NOT_SKIPPED = "export the project again with this rendered into its sound files, or without it if it needn't be heard"

OF_LISTS = {
    "a name in Latin-1": (
        with_url(b"URL:file://localhost/%E9.wav"), "refused 09 at line 7 index 1",
        "; the name of the file isn't UTF-8; name the file"),
    "a path with backslashes": (
        with_url(rb"URL:file:\\C\A.wav"), "refused 09 at line 7 index 1", "; it holds \\, but / parts folders; name"),
    "a name of dots": (
        with_url(b"URL:file://localhost/.."), "refused 09 at line 7 index 1",
        '; the line is: (Index) 0001 (F) "URL:file://localhost/.." _ 00.00.00.00/0000 _; name the file'),
    "a list of UTF-16": (
        FIRST_LIST.decode().encode("utf-16"), "refused 03 at line 1", "; the list is UTF-16: save it as UTF-8;"),
    "an index of another kind": (
        FIRST_LIST.replace(b"(F)", b"(M)"), "refused 13 at line 7 index 1", "; of indexes only files, (F), are supported; export"),
    "an entry of another kind": (
        FIRST_LIST.replace(b"(Cut)", b"(Silence)"), "refused 13 at line 10 entry 1",
        "; of entries only (Cut) I is supported, with a capital I; export"),
    "a curve": (
        FIRST_LIST.replace(b"</EVENT_LIST>", b"(Infade) 00.00.00.00/0001 COS\n</EVENT_LIST>"),
        "refused 13 at line 11 entry 1", "; of curves only LIN is supported; export"),
    "a gain": (
        FIRST_LIST.replace(b"</EVENT_LIST>", b"(Gain) _ _ -3.00\n</EVENT_LIST>"), "refused 13 at line 11 entry 1",
        f"; {OF_GAINS}; {NOT_SKIPPED}"),
    "a line with tabs": (
        changed(10, b"(Entry)\t0001\t(Cut)\tI"), "refused 10 at line 10 entry 1", "; the line is: (Entry) 0001 (Cut) I;"),
}

for name, (text, line, said) in OF_LISTS.items():
    case.add(f"said of {name}", said_of(text, line, said))


@case("said of what isn't permitted")
def not_permitted(scene: Scene) -> None:
    """The remedy follows the system's word, and nothing is called unfinished that isn't there."""
    scene.put(FIRST_LIST, MEDIA_FILES)
    (scene.folder / OUT).chmod(0o555)
    for command, name in (("render", "render.wav"), ("consolidate", "M00001.wav")):
        got = scene.run(command, LIST, MEDIA, OUT, preexec_fn=without_rights)
        said = ": Permission denied (os error 13); get permission to write there, or name another empty folder "
        expect_said(got, f"refused 62 at file {name}", (said,), ("unfinished", "make room"))
        same("the output", scene.files(), {})
    (scene.folder / OUT).chmod(0o755)
    (scene.folder / MEDIA / "A.wav").chmod(0)
    got = scene.run("check", LIST, MEDIA, preexec_fn=without_rights)
    said = ": Permission denied (os error 13); get permission to read it "
    expect_said(got, "refused 22 at index 1 file A.wav", (said,))
    (scene.folder / LIST).chmod(0)
    got = scene.run("check", LIST, MEDIA, preexec_fn=without_rights)
    expect_said(got, f"refused 21 at file {LIST}", (said,))


@case("said of what is no plain file")
def no_plain_file(scene: Scene) -> None:
    scene.put(FIRST_LIST)
    for make in (os.mkdir, os.mkfifo):
        path = scene.folder / MEDIA / "A.wav"
        make(path)
        got = scene.run("check", LIST, MEDIA)
        expect_said(got, "refused 22 at index 1 file A.wav", (": it isn't a plain file; put a plain file there ",))
        path.rmdir() if path.is_dir() else path.unlink()


@case("said of what is in the output")
def in_the_output(scene: Scene) -> None:
    """What is in an output that isn't empty is named; one that isn't there or is none is to be made or named."""
    scene.put(FIRST_LIST, MEDIA_FILES)
    (scene.folder / OUT / "lost+\nfound").mkdir()
    got = scene.run("render", LIST, MEDIA, OUT)
    expect_said(got, f"refused 20 at file {OUT}", (
        ": it already contains lost+%0Afound; make an empty folder and name that ",))
    for name, said in (("none", "; make that folder first "), (LIST, "; name a folder, which this isn't ")):
        expect_said(scene.run("render", LIST, MEDIA, name), f"refused 20 at file {name}", (said,), ("contains",))


@case("an output that is gone or changed")
def gone_meanwhile(scene: Scene) -> None:
    """An output that is taken away, or changed, while the command is at work is 62, and 66 where a job finds it so."""
    put_sound(scene)
    path, other = scene.folder / OUT / "render.wav", scene.folder / "other.wav"
    marks = scene.folder / OUT / "render.marks"
    for is_so in (path.exists, marks.exists):
        for meddle, found in (
            (path.unlink, r"No such file or directory \(os error 2\)|it is gone"),
            (lambda: other.replace(path), "it was changed meanwhile|it is shorter than it was"),
        ):
            other.write_bytes(b"another file")
            got = meddled(scene, ["render", LIST, MEDIA, OUT, "--depth", "16"], is_so, meddle)
            line = got.output.decode().rstrip("\n")
            if not re.fullmatch(r"refused (62 at file render\.wav|66 at job \d+)", line):
                raise Mismatch(f"an output that was taken away is answered with {line!r}")
            expect_said(got, line, ("run again into an empty folder",), ("adlcons resume",))
            if not re.search(rf": ({found}); ", got.error.decode()):
                raise Mismatch(f"what became of the output isn't told: {got.error!r}")
            scene.empty_out()


@case("marks that are gone")
def marks_gone_meanwhile(scene: Scene) -> None:
    """Marks that are taken away are 62 at once, and what is unfinished is the rendered file."""
    put_sound(scene)
    sound, marks = (scene.folder / OUT / name for name in ("render.wav", "render.marks"))
    second = slice(690 + 3 * 4096, 690 + 2 * 3 * 4096)

    def is_marked() -> bool:
        return marks.exists() and b"\1" in marks.read_bytes()[FRONT:]

    for is_so in (is_marked, lambda: is_marked() and any(sound.read_bytes()[second])):
        got = meddled(scene, words_of("render"), is_so, marks.unlink)
        said = "; unfinished in the output: render.wav; run again into an empty folder"
        expect_said(got, "refused 62 at file render.marks", (said,))
        found = r": (No such file or directory \(os error 2\)|it is gone); "
        if not re.search(found, got.error.decode()):
            raise Mismatch(f"what became of the marks isn't told: {got.error!r}")
        scene.empty_out()


@case("a medium that is gone")
def medium_gone_meanwhile(scene: Scene) -> None:
    """So it is with each medium of a consolidation, and no list is written then."""
    put_stretches(scene)
    for number in (1, 2):
        path = scene.folder / OUT / f"M{number:05d}.wav"
        got = meddled(scene, words_of("consolidate", model.Options(handle=0)), path.exists, path.unlink)
        said = ": No such file or directory (os error 2); run again"
        expect_said(got, f"refused 62 at file {path.name}", (said,), ("unfinished",))
        same("whether there is a list", (scene.folder / OUT / "consolidated.adl").exists(), False)
        scene.empty_out()


@case("control characters in words")
def control_characters(scene: Scene) -> None:
    """A mistake in the words tells their control and format characters as the escapes of their bytes."""
    for words in (
            ("\x1b]0;x\a",), ("render", LIST, MEDIA, OUT, "--\x1b[2J"), ("check", LIST, MEDIA, "a\rb\u0085"),
            ("check", LIST, MEDIA, "a\u200bb\u00ad\U000e0041")):
        got = scene.run(*words)
        same(f"status and standard output of {words}", (got.status, got.output), (2, b""))
        raw = [character for character in got.error.decode() if character != "\n" and not character.isprintable()]
        same(f"control characters of {words} on standard error", raw, [])
    same("an escape", b"'%1B]0;x%07'" in scene.run("\x1b]0;x\a").error, True)


@case("invisible characters in names of files")
def invisible_names(scene: Scene) -> None:
    """A missing file whose name looks like that of another one: its invisible characters are printed as escapes."""
    for name in ("\u200bA.wav", "A\u00ad.wav", "A.wav\u2060", "\u3164A.wav", "A\u2800.wav", "A.\U000e0041wav", "A\ufe0f.wav"):
        text = FIRST_LIST.replace(b"A.wav", quote(name).encode())
        printed = "".join(each if each.isascii() else quote(each) for each in name)
        expect_refused(scene, text, MEDIA_FILES, f"refused 21 at index 1 file {printed}")


NEARLY = "; the folder has %s, in other capitals or another form of Unicode (NFC, NFD); rename that file"


@case("a name that is nearly the one")
def nearly_the_name(scene: Scene) -> None:
    """Where a file is missing, one whose name differs in case or in its form of Unicode alone is told."""
    composed, apart = "\u00e9.wav", "e\u0301.wav"
    for wanted, there in ((composed, apart), (apart, composed), ("A.wav", "a.WAV"), ("\u00c9a.wav", "E\u0301A.WAV")):
        text = with_url(b"URL:file://localhost/" + quote(wanted).encode())
        scene.put(text, {"other.wav": wave(), there: wave()})
        for command in model.COMMANDS:
            got = scene.run(*words_of(command))
            expect_said(got, f"refused 21 at index 1 file {wanted}", (NEARLY % there,))
        (scene.folder / MEDIA / there).unlink()
        expect_said(scene.run("check", LIST, MEDIA), f"refused 21 at index 1 file {wanted}", (), ("the folder has",))


@case("a file in a folder, or behind a backslash")
def elsewhere(scene: Scene) -> None:
    """A file that is missing and lies in a folder of MEDIA is told, and so is a \\ where only / parts folders."""
    line = "refused 21 at index 1 file "
    scene.put(FIRST_LIST)
    (scene.folder / MEDIA / "Edits").mkdir()
    (scene.folder / MEDIA / "Edits" / "A.wav").write_bytes(wave())
    for command in model.COMMANDS:
        said = ("; found in Edits/; add --search, or put it into the folder itself",)
        expect_said(scene.run(*words_of(command)), f"{line}A.wav", said)
    scene.put(with_url(rb"URL:file://localhost/C:\Audio Files\VO.wav"), {"VO.wav": wave()})
    said = "; VO.wav is there: write / for \\; correct the list"
    expect_said(scene.run("check", LIST, MEDIA), rf"{line}C:\Audio Files\VO.wav", (said,))


KEPT_TIME = (
    "only integer PCM of 16, 24 or 32 bits is read: ffmpeg -i IN -c:a pcm_s24le -write_bext 1 OUT keeps the "
    "TimeReference, and clips what lies above full scale")
FLOAT = "the file is 32-bit floating point (format tag 3); "
SUB_FORMAT = b"\x16\0\x20\0\3\0\0\0\3\0\0\0\0\0\x10\0\x80\0\0\xaa\0\x38\x9b\x71"


def sound(**format) -> bytes:
    return riff_file(format_chunk(**format), data_chunk((1, 2, 3, 4)))


# What is said of a file that isn't read: its bytes, the number, what it is, and what to do.
OF_FILES = {
    "floating point": (
        sound(tag=3, bits=32, channels=2), 27, FLOAT + KEPT_TIME),
    "floating point, extensible": (
        sound(tag=0xfffe, bits=32, more=SUB_FORMAT), 27, FLOAT + KEPT_TIME),
    "8 bits": (sound(bits=8), 27, "the file is 8-bit integer PCM; " + KEPT_TIME),
    "ADPCM": (sound(tag=2, bits=4, block=2), 27, "the file is Microsoft ADPCM (format tag 2); " + KEPT_TIME),
    "a tag without a name": (sound(tag=0x1234), 27, "the file has format tag 4660; " + KEPT_TIME),
    "65 channels": (sound(channels=65), 27, "the file has 65 channels; only 1 to 64 channels are read: split the file"),
    "another rate": (
        sound(rate=44100), 29,
        "the file has 44100 samples a second; convert the file to 48000, and its TimeReference with it"),
    "FLAC": (b"fLaC\0\0\0\x22", 23, "the file is FLAC; convert the file to WAVE"),
    "AIFF": (b"FORM\0\0\0\0AIFFCOMM", 23, "the file is AIFF; convert the file to WAVE"),
    "MP3": (b"ID3\4\0\0\0\0\0\0\0\0", 23, "the file is MP3; convert the file to WAVE"),
    "an empty file": (b"", 23, "the file is empty; copy the file again"),
    "zeros": (bytes(100), 23, "the file begins with zeros, as one whose copy was interrupted; copy the file again"),
    "another file": (b"hello", 23, "the file doesn't begin as RIFF or RF64 of form WAVE; convert the file to WAVE"),
}


def said_of_file(data: bytes, number: int, said: str):
    """Every command refuses the list for its file, and says what that is; a check says it of a further one too."""
    def body(scene: Scene) -> None:
        scene.put(FIRST_LIST, {"A.wav": data})
        for command in model.COMMANDS:
            got = scene.run(*words_of(command))
            expect_said(got, f"refused {number} at index 1 file A.wav", (f": {said}",))
        lines = [model.source_line(1, "Gone.wav", MIDNIGHT), model.source_line(2, "A.wav", MIDNIGHT)]
        entries = [model.entry_line(each, each, MIDNIGHT, MIDNIGHT, model.time_text(3)) for each in (1, 2)]
        scene.put(model.list_text(lines, entries))
        further = scene.run("check", LIST, MEDIA).error.decode().splitlines()[-1]
        same("what is said of it behind its place", further.partition(": ")[2].partition(": ")[2][:len(said)], said)
    return body


for name, (data, number, said) in OF_FILES.items():
    case.add(f"said of a file: {name}", said_of_file(data, number, said))


# What is said of an entry at fault, by its words behind the number and its place.
OF_ENTRIES = (
    (46, (100, 0, 5), {}, "entry 1 plays A.wav up to frame 5; the file has 4 (1 too many); correct its source in"),
    (46, (98, 0, 3), {}, "entry 1 begins 2 frames before the first one of A.wav, which has 4; correct its source in"),
    (42, (100, 5, 3), {}, "entry 1 ends 2 samples before it starts; correct its times"),
    (44, (100, 0, 3), {"source": b"1~2", "dest": b"1~2"},
     "entry 1 plays channel 2 of A.wav, which has 1; correct the channels, or name another file; a mono clip on two "
     "channels is two entries, one on each"),
)


@case("said of entries")
def said_of_entries(scene: Scene) -> None:
    """A fault of an entry is told in its own numbers: the file, its frames, and by how many it is passed."""
    index = model.source_line(1, "A.wav", model.time_text(100))
    good = model.entry_line(1, 1, *map(model.time_text, (100, 0, 4)))
    for number, times, channels, said in OF_ENTRIES:
        line = model.entry_line(1, 1, *map(model.time_text, times), **channels)
        scene.put(model.list_text([index], [line]), MEDIA_FILES)
        expect_said(scene.run("check", LIST, MEDIA), f"refused {number} at entry 1", (f": {said}",))
        later = model.entry_line(2, 1, *map(model.time_text, times), **channels)
        unknown = good.replace(b"I 0001", b"I 0007")
        scene.put(model.list_text([index], [unknown, later]), MEDIA_FILES)
        got = scene.run("check", LIST, MEDIA)
        same("the line", got.output, b"refused 41 at entry 1\n")
        if b": entry 1 plays index 7, which SOURCE_INDEX doesn't have; add the index" not in got.error:
            raise Mismatch(f"41 is explained so: {got.error!r}")
        further = got.error.decode().splitlines()[-1].partition(": ")[2].partition(": ")[2]
        same("what is said of it behind its place", further[:len(said)], said.replace("entry 1", "entry 2"))


@case("further faults behind a bad number")
def further_words(scene: Scene) -> None:
    """Each further line tells its column and its word, also behind the bad number of an index or an entry, and the first
    one of a number what to do."""
    text = with_bad_numbers(b"(Gain) _ _ -3.00\n(Gain) _ _ -6.00\n")
    told = (
        "also 07 at line 11: bad number of an index or an entry: such a number is 1 to 32767, in at most six digits; at "
        "column 9 stands: 0; number indexes and entries from 1",
        f"also 13 at line 14 entry 2: unsupported line; at column 12 stands: -3.00; {OF_GAINS}; {NOT_SKIPPED}",
        f"also 13 at line 15 entry 2: unsupported line; at column 12 stands: -6.00; {OF_GAINS}",
        "also 06 at line 16 entry 3: bad time; at column 65 stands: 01.00.00.25/0000; the list has 25 frames a second; "
        "correct the time; the day's end is 24.00.00.00/0000")
    expect_refused(scene, text, MEDIA_FILES, "refused 07 at line 7")
    same("what is told", tuple(scene.run("check", LIST, MEDIA).error.decode().splitlines()[1:]), told)


@case("all that is at fault")
def all_that_is_at_fault(scene: Scene) -> None:
    """With --all every line, file and entry at fault is told, by each command; without, 20 of them by a check alone."""
    count, nothing, second = 40, b"00.00.00.00/0000", b"00.00.01.00/0000"
    numbers = range(1, count + 1)
    faders = b"<FADER_LIST>\n" + b"(Fader) 1\n" * count + b"</FADER_LIST>\n</ADL>"
    missing = model.list_text(
        [model.source_line(number, f"{number}.wav", nothing) for number in numbers],
        [model.entry_line(number, number, nothing, nothing, second) for number in numbers])
    too_long = model.list_text(
        [model.source_line(1, "A.wav", nothing)],
        [model.entry_line(number, 1, nothing, nothing, second) for number in numbers])
    for text, told, more in (
        (FIRST_LIST.replace(b"</ADL>", faders), [f"13 at line {12 + number}" for number in numbers], "and more"),
        (missing, [f"21 at index {number} file {number}.wav" for number in numbers], "and 19 more"),
        (too_long, [f"46 at entry {number}" for number in numbers], "and 19 more"),
    ):
        scene.put(text, MEDIA_FILES)
        also = tuple(f"also {each}" for each in told[1:])
        for command in model.COMMANDS:
            words = words_of(command)
            same_outcome(scene.run(*words, "--all"), 1, f"refused {told[0]}", further=also)
            few = (*also[:20], more) if command == "check" else ()
            same_outcome(scene.run(*words), 1, f"refused {told[0]}", further=few)
    scene.put(FIRST_LIST, MEDIA_FILES)
    same_outcome(scene.run("check", "--all", LIST, MEDIA), 0, "accepted 1 entries 1 indexes")


def faulty_faders(count: int) -> bytes:
    return FIRST_LIST.replace(b"</ADL>", b"<FADER_LIST>\n" + b"(Fader) 1\n" * count + b"</FADER_LIST>\n</ADL>")


def missing_files(count: int) -> bytes:
    numbers, nothing = range(1, count + 1), b"00.00.00.00/0000"
    return model.list_text(
        [model.source_line(number, f"{number}.wav", nothing) for number in numbers],
        [model.entry_line(number, number, nothing, nothing, b"00.00.01.00/0000") for number in numbers])


@case("more faults than are listed")
def more_faults(scene: Scene) -> None:
    """--all lists 10,000 further faults at most and then says how many more there are; a report has them all."""
    for text_of, first, last in (
            (faulty_faders, "13 at line 13", "13 at line 10013"),
            (missing_files, "21 at index 1 file 1.wav", "21 at index 10001 file 10001.wav")):
        for count, more in ((10_001, []), (10_002, ["and 1 more"]), (10_004, ["and 3 more"])):
            scene.put(text_of(count), MEDIA_FILES)
            got = scene.run("check", "--all", LIST, MEDIA)
            same("the status and standard output", (got.status, got.output), (1, f"refused {first}\n".encode()))
            _, *told = got.error.decode().splitlines()
            same("the last fault", told[9_999].split(": ")[0], f"also {last}")
            same("how many more", told[10_000:], more)
        got = scene.run("check", "--report", LIST, MEDIA)
        same("how many faults the report has", len(json.loads(got.output)["faults"]), 10_004)


@case("the rate behind faults")
def rate_behind_faults(scene: Scene) -> None:
    """The rate of a list holds for its further lines, also where it is told behind the first of them."""
    faders = b"<FADER_LIST>\n(Fader) 1\n</FADER_LIST>\n<SEQUENCE>"
    text = FIRST_LIST.replace(b"<SEQUENCE>", faders, 1).replace(b"FRAME_RATE) 25", b"FRAME_RATE) 30")
    for time, told in ((b"01.00.00.29/0000", ()), (b"01.00.00.30/0000", ("also 06 at line 13 entry 1",))):
        scene.put(text.replace(b"01.00.00.00/0004", time), MEDIA_FILES)
        same_outcome(scene.run("check", LIST, MEDIA), 1, "refused 13 at line 3", further=told)


@case("an empty name of the media")
def current_folder(scene: Scene) -> None:
    """An empty name of the media is the current folder, which can be read. Standard error says so, and of another name
    nothing."""
    scene.put(FIRST_LIST)
    told = b"the name of the folder of the media is empty: the current folder was taken\n"
    for command in model.COMMANDS:
        got = scene.run(*["" if word == MEDIA else word for word in words_of(command)])
        same("what is said of the name", got.error[-len(told):], told)
        same_outcome(got._replace(error=got.error[:-len(told)]), 1, "refused 21 at index 1 file A.wav")
    (scene.folder / "A.wav").write_bytes(wave())
    accepted = "accepted 1 entries 1 indexes"
    room = b"consolidate would write at most 1390 bytes of media\nrender would write 747 bytes\n"
    for media, said in (("", told), (".", b"")):
        same("a check", scene.run("check", LIST, media), Outcome(0, f"{accepted}\n".encode(), room + said))
    same("both of a comparison", scene.run("compare", LIST, "", LIST, ""), Outcome(0, b"same 4 frames 1 channels\n", 2 * told))


@case("said of empty ranges")
def empty_ranges(scene: Scene) -> None:
    """An empty range is refused, whatever the list has; one with silence alone is rendered."""
    texts = model.list_text([], []), FIRST_LIST
    said = ("; name a range by --from and --to, or check the list's entries ",)
    for text, words in (
        (texts[0], ()), (texts[0], ("--from", "01.00.00.00/0000")),
        (texts[1], ("--from", "02.00.00.00/0000")), (texts[1], ("--to", "01.00.00.00/0000")),
    ):
        scene.put(text, MEDIA_FILES)
        expect_said(scene.run("render", LIST, MEDIA, OUT, *words), "refused 58", said, ("no entry has a length",))
    silent = "--from", "02.00.00.00/0000", "--to", "02.00.00.00/0010"
    same_outcome(scene.run("render", LIST, MEDIA, OUT, *silent), 0, "rendered 10 frames 1 channels")
    scene.empty_out()
    scene.put(texts[0], {})
    same_outcome(scene.run("render", LIST, MEDIA, OUT, "--to", "00.00.00.00/0010"), 0, "rendered 10 frames 1 channels")


@case("said of words that fail")
def words_that_fail(scene: Scene) -> None:
    """A word that isn't UTF-8 is named, a mistake names its option, and of a bad time just its option is named."""
    scene.put(FIRST_LIST, MEDIA_FILES)
    got = scene.run("check", LIST, b"M\xe9dia")
    same("a word in Latin-1", got, Outcome(2, b"", b"error: word 3 isn't UTF-8: M%E9dia\n"))
    for option, value, said in (
        ("--depth", "24bit", b"a depth is 16, 24 or 32"), ("--channels", "65", b"there are 1 to 64 channels"),
        ("--order", "name", b"an order is time or source"),
    ):
        got = scene.run("render", LIST, MEDIA, OUT, option, value)
        same(f"status and standard output of {option}", (got.status, got.output), (2, b""))
        if not got.error.startswith(b"error: " + said + b"\n"):
            raise Mismatch(f"{option} {value} is answered with {got.error!r}")
    got = scene.run("render", LIST, MEDIA, OUT, "--from", "1 h")
    same("a bad time", got, Outcome(2, b"", b"bad time: --from\n"))


@case("said without words")
def where_to_go_on(scene: Scene) -> None:
    """Without words a terminal is told of help, and nothing else is."""
    shown = on_terminal(scene, [])
    told = b"this was a stored example; 'adlcons --help' tells the commands\n"
    same("what a terminal is told", shown, Outcome(0, STORED_RUN, told))
    same("what a pipe is told", scene.run(), Outcome(0, STORED_RUN, b""))


PASSED = FIRST_LIST.replace(b"<SEQUENCE>", b"""<TRACKLIST>
(Track) 1 "Dialog (Mute)" _
(Track) 2 "Music" (MUTE) (Gain) -6.0
(Track) 3 "Atmos" (Pan) 0
</TRACKLIST>
<SYSTEM>
(SYS_XFADE_LENGTH) 00.00.00.10/0000
</SYSTEM>
<LEVEL_LIST>
(Level) 1 -12.0 dB
</LEVEL_LIST>
<SEQUENCE>""", 1).replace(b"01.00.00.00/0004\n", b"01.00.00.00/0004 _ MUTE\n")

HONOURED = FIRST_LIST.replace(b"<SEQUENCE>", b"""<TRACKLIST>
(Track) 1 Mute "Gain" Pan
</TRACKLIST>
<SYSTEM>
(SYS_XFADE_LENGTH) 00.00.00.00/0000
</SYSTEM>
<SEQUENCE>""", 1).replace(b"01.00.00.00/0004\n", b"01.00.00.00/0004 _ R\n")


@case("what isn't honoured")
def passed_over(scene: Scene) -> None:
    """What may be meant to be heard and is passed over is told by its line, in every command that is done."""
    told = "".join(f"not honoured at line {line}: {word}\n" for line, word in (
        (4, "(MUTE) (Gain) -6.0; gain, pan and mute of a track aren't applied"),
        (5, "(Pan) 0; gain, pan and mute of a track aren't applied"),
        (8, "(SYS_XFADE_LENGTH) 00.00.00.10/0000; default crossfades aren't heard"),
        (10, "<LEVEL_LIST>; levels and volumes aren't applied"),
        (21, "MUTE; what follows the fields of an entry is ignored")))
    lists = [(PASSED, told), (HONOURED, "")]
    lists += [(text.replace(b"\n", b"\r\n"), wanted) for text, wanted in lists]
    for text, wanted in lists:
        scene.put(text, MEDIA_FILES)
        for words in (("check", LIST, MEDIA), ("render", LIST, MEDIA, OUT), ("consolidate", LIST, MEDIA, OUT)):
            got = scene.run(*words)
            same(f"the status of {words[0]}", got.status, 0)
            same("what isn't honoured", "".join(
                line for line in got.error.decode().splitlines(keepends=True) if "honoured" in line), wanted)
            scene.empty_out()


@case("much that isn't honoured")
def many_passed_over(scene: Scene) -> None:
    """At most 20 of them are told, and how many more there are."""
    for count, more in ((20, ""), (21, "and 1 more lines"), (50, "and 30 more lines")):
        tracks = b"<TRACKLIST>\n" + b"(Mute)\n" * count + b"</TRACKLIST>\n<SEQUENCE>"
        scene.put(FIRST_LIST.replace(b"<SEQUENCE>", tracks, 1), MEDIA_FILES)
        got = scene.run("check", LIST, MEDIA)
        same_outcome(got, 0, "accepted 1 entries 1 indexes")
        same("the lines", got.error.count(b"not honoured at line "), min(count, 20))
        same(f"whether {more!r} is told", more.encode() in got.error, True)


@case("a source that changed meanwhile")
def changed_source(scene: Scene) -> None:
    """A source that is written to or taken away meanwhile is told before the line; the status stays."""
    frames = put_sound(scene)
    source, path = scene.folder / MEDIA / "A.wav", scene.folder / OUT / "render.wav"
    other, whole = scene.folder / "other.wav", source.read_bytes()
    told = b"the source A.wav changed while the command ran: run it again\n"
    # Another file takes the name at once: a source that is written in place is short for a moment.
    for meddle, wanted in (
        (lambda: os.utime(source, (1, 1)), told), (lambda: other.replace(source), told), (source.unlink, told),
        (lambda: None, b""),
    ):
        other.write_bytes(whole)
        source.write_bytes(whole)
        got = meddled(scene, ["render", LIST, MEDIA, OUT, "--depth", "16"], path.exists, meddle)
        line = b"rendered %d frames 1 channels\n" % frames
        same("what is told of a source", got, Outcome(0, line, wanted))
        scene.empty_out()


@case("a source that is cut short meanwhile")
def cut_source(scene: Scene) -> None:
    """A source that is cut short meanwhile is given up at the first job that reads past its end."""
    put_sound(scene)
    source, path = scene.folder / MEDIA / "A.wav", scene.folder / OUT / "render.wav"
    got = meddled(
        scene, ["render", LIST, MEDIA, OUT, "--depth", "16"], path.exists, lambda: os.truncate(source, 44 + 3 * 8192))
    same("the line and the status", (got.output, got.status), (b"refused 66 at job 3\n", 1))


@case("further lines at fault")
def further_lines(scene: Scene) -> None:
    """A check tells the further lines at fault, 20 of them and whether there are more, and nothing that only follows from
    the line before."""
    lines = FIRST_LIST.splitlines(keepends=True)
    entry = lines[9]
    fades = b"(Infade) 00.00.00.00/0001 COS _ _ _\n(Gain) _ _ -3.00\n"
    faulty = [
        entry.replace(b"(Cut)", b"(Silence)") + b"(Infade) 00.00.00.00/0001 LIN _ _ _\n",
        entry.replace(b"0001 (Cut)", b"0002 (Cut)") + fades,
        entry.replace(b"0001 (Cut)", b"0003 (Cut)").replace(b"1 1", b"1 99"),
        entry.replace(b"0001 (Cut)", b"0004 (Cut)"),
    ]
    faders = b"<FADER_LIST>\n(Fader) 1\n(Fader) 2\n</FADER_LIST>\n"
    text = b"".join((*lines[:9], *faulty, *lines[10:11], faders, *lines[11:]))
    wanted = (
        "also 13 at line 13 entry 2", "also 13 at line 14 entry 2", "also 08 at line 15 entry 3", "also 13 at line 19",
        "also 13 at line 20")
    same("what the model tells", model.answer("check", text, MEDIA_FILES).further, wanted)
    expect_refused(scene, text, MEDIA_FILES, "refused 13 at line 10 entry 1")
    for count, more in ((21, ()), (22, ("and more",)), (40, ("and more",))):
        text = FIRST_LIST.replace(b"</ADL>", b"<FADER_LIST>\n" + b"(Fader) 1\n" * count + b"</FADER_LIST>\n</ADL>")
        wanted = (*(f"also 13 at line {line}" for line in range(14, 34)), *more)
        same("what the model tells", model.answer("check", text, MEDIA_FILES).further, wanted)
        expect_refused(scene, text, MEDIA_FILES, "refused 13 at line 13")


def with_bad_numbers(gains: bytes) -> bytes:
    """A list with a bad number of an index and of an entry, and further faults behind them, of which these are some."""
    lines = FIRST_LIST.splitlines(keepends=True)
    index, entry = lines[6], lines[9]
    return b"".join((
        *lines[:6], index.replace(b"0001", b"0"), *lines[6:9],
        entry.replace(b"0001 (Cut)", b"0 (Cut)") + b"(Infade) 00.00.00.00/0001 COS\n",
        entry.replace(b"0001 (Cut)", b"0002 (Cut)") + gains,
        entry.replace(b"0001 (Cut)", b"0003 (Cut)").replace(b"01.00.00.00/0004", b"01.00.00.25/0000"), *lines[10:]))


@case("further lines behind bad numbers")
def behind_bad_numbers(scene: Scene) -> None:
    """A bad number of an index or of an entry ends no list of faults."""
    text = with_bad_numbers(b"(Gain) _ _ -3.00\n")
    same("how many the model tells", len(model.answer("check", text, MEDIA_FILES).further), 3)
    expect_refused(scene, text, MEDIA_FILES, "refused 07 at line 7")
