"""Lists in the form that workstations export, written by hand: how often each is refused, and that each refusal says at
once what is at fault, by how much, and what to do about it. Behind a rate that isn't read (12) nothing more is looked for."""

from typing import NamedTuple

import model
from harness import LIST, MEDIA, Mismatch, Scene, Suite, same
from tables import data_chunk, format_chunk, riff_file

SECOND = 48_000
LONG = 30 * SECOND


class Round(NamedTuple):
    """A check of a list over media by their paths: the line that it prints, what is said of that, and the further faults
    with what is said of each; how the list is corrected then, by texts and what stands in their place, and the media."""
    line: str
    said: tuple
    also: tuple = ()
    corrections: tuple = ()
    media: dict = {}
    words: tuple = ()


def sound(frames: int = 2 * SECOND, rate: int = SECOND, **format) -> bytes:
    channels, bits = format.get("channels", 1), format.get("bits", 16)
    return riff_file(format_chunk(rate=rate, **format), data_chunk((0,) * (frames * channels), bits))


SOUND, STEREO = sound(), sound(channels=2)
FLOAT = sound(channels=2, tag=3, bits=32)
AT_44100 = sound(rate=44_100)

NO_CURVE = "of curves only LIN is supported"
NO_GAIN = "only a gain of zero is supported: another one changes the sound"
UNSUPPORTED = "gain, pan, automation or a line that isn't known may change the sound, so none is skipped"
INTO_SOUND = "export the project again with this rendered into its sound files, or without it if it needn't be heard"
RATES = (
    "the sample rate must be 48000 and the frame rate 24, 25 or 30, the same throughout the list",
    "export the project again at such rates; changing the number in the file alone makes wrong times")
TO_INTEGER = (
    "the file is 32-bit floating point (format tag 3)",
    "only integer PCM of 16, 24 or 32 bits is read: ffmpeg -i IN -c:a pcm_s24le -write_bext 1 OUT keeps the TimeReference, "
    "and clips what lies above full scale")

NUENDO = """<ADL>
<VERSION>
(ADL_ID) "06.64.43.52.01.01.01.04.01.02.03.04"
(VER_ADL_VERSION) 01.02.00
(VER_CREATOR) "Nuendo"
(VER_CRTR) 5.5.0
</VERSION>
<PROJECT>
(PROJ_TITLE) "Film Rolle 1"
(PROJ_CREATE_DATE) 2024-05-06T10:11:12+01:00
</PROJECT>
<SYSTEM>
(SYS_SRC_OFFSET) 00.00.00.00/0000
(SYS_BIT_DEPTH) 24
(SYS_AUDIO_CODEC) PCM
(SYS_XFADE_LENGTH) 00.00.00.01/0000
(SYS_GAIN) 0
</SYSTEM>
<SEQUENCE>
(SEQ_SAMPLE_RATE) S48000
(SEQ_FRAME_RATE) 25
(SEQ_CLEAN) FALSE
(SEQ_DEST_START) 10.00.00.00/0000
</SEQUENCE>
<TRACKLIST>
(Track) 1 "Dialog" _
</TRACKLIST>
<SOURCE_INDEX>
(Index) 0001 (F) "URL:file://localhost/Film/Audio/Dialog-01.wav" N-1 10.00.00.00/0000 00.00.02.00/0000 "Dialog-01" N
(Index) 0002 (F) "URL:file://localhost/Film/Edits/Geräusch-03.wav" N-2 10.00.00.00/0000 00.00.02.00/0000 "Geräusch-03" N
</SOURCE_INDEX>
<EVENT_LIST>
(Entry) 0001 (Cut) I 0001 1 1 10.00.00.00/0000 10.00.00.00/0000 10.00.01.00/0000 R
(Infade) 00.00.00.02/0000 CURVE 0.5 0.8 _
(Gain) _ _ -3.00
(Pan) _ 0.50
(Entry) 0002 (Cut) I 0002 1~2 1~2 10.00.00.00/0000 10.00.01.00/0000 10.00.02.00/0000 R
(Outfade) 00.00.00.02/0000 LIN _ _ _
</EVENT_LIST>
<FADER_LIST>
(FP) 1 10.00.00.00/0000 -6.00
(FP) 1 10.00.01.00/0000 0.00
</FADER_LIST>
</ADL>
""".encode("latin-1")

NUENDO_MEDIA = {"Dialog-01.wav": SOUND, "Edits/Geräusch-03.wav": SOUND}

NUENDO_ROUNDS = (
    Round(
        "refused 09 at line 30 index 2", ("the name of the file isn't UTF-8", "name the file by URL:file://localhost/NAME"),
        (
            ("also 13 at line 34 entry 1", "at column 27 stands: CURVE", NO_CURVE, INTO_SOUND),
            ("also 13 at line 35 entry 1", "at column 12 stands: -3.00", NO_GAIN),
            ("also 13 at line 36 entry 1", "at column 1 stands: (Pan)", UNSUPPORTED),
            ("also 13 at line 41", "at column 1 stands: (FP)", UNSUPPORTED),
            ("also 13 at line 42", "at column 1 stands: (FP)", UNSUPPORTED)),
        ((b"\xe4", "ä".encode()), (b"CURVE 0.5 0.8 _", b"LIN _ _ _"), (b"(Gain) _ _ -3.00\n(Pan) _ 0.50\n", b""),
         (b"(FP) 1 10.00.00.00/0000 -6.00\n(FP) 1 10.00.01.00/0000 0.00\n", b"")),
        NUENDO_MEDIA),
    Round(
        "refused 21 at index 2 file Geräusch-03.wav",
        ("found in Edits/; add --search, or put it into the folder itself",), media=NUENDO_MEDIA),
    Round(
        "refused 44 at entry 2", (
            "entry 2 plays channel 2 of Geräusch-03.wav, which has 1",
            "a mono clip on two channels is two entries, one on each"), (), (
            (b"(Entry) 0002 (Cut) I 0002 1~2 1~2", b"(Entry) 0002 (Cut) I 0002 1 1"),
            (b"</EVENT_LIST>", b"(Entry) 0003 (Cut) I 0002 1 2 10.00.00.00/0000 10.00.01.00/0000 10.00.02.00/0000 R\n"
                               b"</EVENT_LIST>")),
        NUENDO_MEDIA, ("--search",)),
    Round(
        "accepted 3 entries 2 indexes", (
            "not honoured at line 16: (SYS_XFADE_LENGTH) 00.00.00.01/0000; default crossfades aren't heard",
            "Geräusch-03.wav is taken from Edits/Geräusch-03.wav"), media=NUENDO_MEDIA, words=("--search",)))

PYRAMIX = b"""<ADL>
<VERSION>
(VER_CREATOR) "Pyramix"
</VERSION>
<SEQUENCE>
(SEQ_SAMPLE_RATE) S48000
(SEQ_FRAME_RATE) 29.97
</SEQUENCE>
<SOURCE_INDEX>
(Index) 0001 (F) "URL:file://localhost/Pyramix/Media/Take%201.wav" _ 00.00.00.00/0000 00.00.02.00/0000
</SOURCE_INDEX>
<EVENT_LIST>
(Entry) 0001 (Cut) I 0001 1~2 1~2 00.00.00.00/0000 01.00.00.00/0000 01.00.01.00/0000
(Outfade) 00.00.00.05/0000 COS _ _ _
(Entry) 0002 (Silence) 1~2 01.00.01.00/0000 01.00.02.00/0000
(Entry) 0003 (Cut) I 0001 1~2 1~2 00.00.01.00/0000 01.00.02.00/0000 01.00.03.00/0000
(Infade) 00.00.00.05/0000 COS _ _ _
</EVENT_LIST>
</ADL>
"""

PYRAMIX_ROUNDS = (
    Round("refused 12 at line 7", ("at column 18 stands: 29.97", *RATES), (), ((b"29.97", b"25"),), {"Take 1.wav": FLOAT}),
    Round(
        "refused 13 at line 14 entry 1", ("at column 28 stands: COS", NO_CURVE, INTO_SOUND), (
            ("also 13 at line 15 entry 2", "at column 14 stands: (Silence)", "of entries only (Cut) I is supported"),
            ("also 13 at line 17 entry 3", "at column 27 stands: COS", NO_CURVE)),
        ((b"COS", b"LIN"), (b"(Entry) 0002 (Silence) 1~2 01.00.01.00/0000 01.00.02.00/0000\n", b"")),
        {"Take 1.wav": FLOAT}),
    Round("refused 27 at index 1 file Take 1.wav", TO_INTEGER, media={"Take 1.wav": FLOAT}),
    Round("accepted 2 entries 1 indexes", (), media={"Take 1.wav": STEREO}))

SADIE = rb"""<ADL>
<SEQUENCE>
(seq_sample_rate) S48000
(seq_frame_rate) 25
</SEQUENCE>
<SOURCE_INDEX>
(index) 1 (f) "URL:file://localhost/Take1.wav" _ 00|00|00|00/0000 00|00|02|00/0000
(index) 2 (t) "TAPE 12" _ 00|00|00|00/0000 00|00|02|00/0000
(index) 3 (f) "URL:file://localhost/C:\Sessions\Film\VO_Anna_02.wav" _ 00|00|00|00/0000 00|00|02|00/0000
</SOURCE_INDEX>
<EVENT_LIST>
(entry) 1 (cut) i 1 1 1 00|00|00|00/0000 10|00|00|00/0000 10|00|01|00/0000
(entry) 2 (cut) i 3 1 1 00|00|00|00/0000 10|00|01|00/0000 10|00|02|00/0000
(entry) 3 (cut) i 1 1 1 00|00|01|00/0000 10|00|02|00/0000 10|00|03|01/0000
</EVENT_LIST>
</ADL>
"""

SADIE_MEDIA = {"TAKE1.WAV": SOUND, "VO_Anna_02.wav": SOUND}
RIGHT_NAMES = {"Take1.wav": SOUND, "VO_Anna_02.wav": SOUND}

SADIE_ROUNDS = (
    Round(
        "refused 13 at line 8 index 2", ("at column 11 stands: (t)", "of indexes only files, (F), are supported", INTO_SOUND),
        tuple((
            f"also 13 at line {line} entry {entry}", "at column 17 stands: i",
            "of entries only (Cut) I is supported, with a capital I")
            for line, entry in ((12, 1), (13, 2), (14, 3))),
        ((b"(cut) i", b"(cut) I"), (b'(index) 2 (t) "TAPE 12" _ 00|00|00|00/0000 00|00|02|00/0000\n', b"")), SADIE_MEDIA),
    Round(
        "refused 21 at index 1 file Take1.wav",
        ("the folder has TAKE1.WAV, in other capitals", "rename that file, or write its name in the list as it is"),
        ((r"also 21 at index 3 file C:\Sessions\Film\VO_Anna_02.wav",
          "VO_Anna_02.wav is there: write / for \\; correct the list"),),
        ((rb"C:\Sessions\Film\VO", b"C:/Sessions/Film/VO"),), SADIE_MEDIA),
    Round(
        "refused 46 at entry 3", (
            "entry 3 plays Take1.wav up to frame 97920; the file has 96000 (1920 too many)",
            "correct its source in or its length"), (), ((b"10|00|03|01/0000", b"10|00|03|00/0000"),), RIGHT_NAMES),
    Round("accepted 3 entries 2 indexes", (), media=RIGHT_NAMES))

AATRANSLATOR = rb"""<ADL>
<VERSION>
(VER_CREATOR) "AATranslator"
</VERSION>
<SEQUENCE>
(SEQ_SAMPLE_RATE) S48000
(SEQ_FRAME_RATE) 23.976
</SEQUENCE>
<TRACKLIST>
(Track) 1 "Dialog" (Mute)
</TRACKLIST>
<SOURCE_INDEX>
(Index) 0001 (F) "URL:file://localhost/D:\Reel 1\Boom.wav" _ 00.00.00.00/0000 _
(Index) 0002 (F) "URL:file://localhost/D:\Reel 1\Lav.wav" _ 00.00.00.00/0000 _
(Index) 0003 (F) "URL:file://localhost/Room.wav" _ 00.00.00.00/0000 _
</SOURCE_INDEX>
<EVENT_LIST>
(Entry) 0001 (Cut) I 0001 1 1 00.00.00.00/0000 01.00.00.00/0000 01.00.01.00/0000
(Gain) _ _ -2.50
(Entry) 0002 (Cut) I 0002 1 2 00.00.00.00/0000 01.00.00.00/0000 01.00.01.00/0000
(Gain) _ _ -1.00
(Mute) 1
(Entry) 0003 (Cut) I 0003 1 1 00.00.00.00/0000 01.00.01.00/0000 01.00.02.00/0000
</EVENT_LIST>
<VOLUME_LIST>
(Volume) 1 01.00.00.00/0000 -6.00
</VOLUME_LIST>
</ADL>
"""

REEL = {"Boom.wav": SOUND, "Lav.wav": SOUND, "Room.wav": AT_44100}

AATRANSLATOR_ROUNDS = (
    Round("refused 12 at line 7", ("at column 18 stands: 23.976", *RATES), (), ((b"23.976", b"24"),), REEL),
    Round(
        "refused 13 at line 19 entry 1", ("at column 12 stands: -2.50", NO_GAIN, INTO_SOUND), (
            ("also 13 at line 21 entry 2", "at column 12 stands: -1.00", NO_GAIN, INTO_SOUND),
            ("also 13 at line 22 entry 2", "at column 1 stands: (Mute)", UNSUPPORTED)),
        ((b"(Gain) _ _ -2.50\n", b""), (b"(Gain) _ _ -1.00\n(Mute) 1\n", b"")), REEL),
    Round(
        r"refused 21 at index 1 file D:\Reel 1\Boom.wav",
        ("Boom.wav is there: write / for \\; correct the list",), (
            (r"also 21 at index 2 file D:\Reel 1\Lav.wav", "Lav.wav is there: write / for \\; correct the list"),
            ("also 29 at index 3 file Room.wav", "the file has 44100 samples a second",
             "convert the file to 48000, and its TimeReference with it")),
        ((b"D:\\Reel 1\\", b"D:/Reel 1/"),), REEL),
    Round("accepted 3 entries 3 indexes", (
        "not honoured at line 10: (Mute); gain, pan and mute of a track aren't applied",
        "not honoured at line 22: <VOLUME_LIST>; levels and volumes aren't applied"), media={**REEL, "Room.wav": SOUND}))

AUDITION = b"""<ADL>
<VERSION>
(VER_CREATOR) "Audition"
</VERSION>
<SEQUENCE>
(SEQ_SAMPLE_RATE) S48000
(SEQ_FRAME_RATE) 30
</SEQUENCE>
<SOURCE_INDEX>
(Index) 0000 (F) "URL:file://localhost/Interview_Recorded/Interview%20001.wav" _ 00.00.00.00/0000 _
(Index) 0001 (F) "URL:file://localhost/music%20bed.wav" _ 00.00.00.00/0000 _
</SOURCE_INDEX>
<EVENT_LIST>
(Entry) 0000 (Cut) I 0000 1~2 1~2 00.00.00.00/0000 00.00.00.00/0000 00.00.01.00/0000
(Entry) 0001 (Cut) I 0001 1 1 00.00.00.00/0000 00.00.00.00/0000 00.00.30.00/0001
</EVENT_LIST>
</ADL>
"""

INTERVIEW = {"Interview 001.wav": FLOAT, "music bed.wav": sound(LONG)}

AUDITION_ROUNDS = (
    Round(
        "refused 07 at line 10", (
            "at column 9 stands: 0000", "such a number is 1 to 32767", "number indexes and entries from 1"),
        (("also 07 at line 14", "at column 9 stands: 0000", "such a number is 1 to 32767"),),
        ((b"(Index) 0001", b"(Index) 0002"), (b"(Entry) 0001 (Cut) I 0001", b"(Entry) 0002 (Cut) I 0002"),
         (b"(Index) 0000", b"(Index) 0001"), (b"(Entry) 0000 (Cut) I 0000", b"(Entry) 0001 (Cut) I 0001")), INTERVIEW),
    Round(
        "refused 27 at index 1 file Interview 001.wav", TO_INTEGER,
        (("also 21 at index 2 file music bed.wav", "put the file into the folder, or name the folder that has it"),),
        media={"Interview 001.wav": FLOAT}),
    Round(
        "refused 46 at entry 2", (
            "entry 2 plays music bed.wav up to frame 1440001; the file has 1440000 (1 too many)",
            "correct its source in or its length"), (), ((b"30.00/0001", b"30.00/0000"),),
        {**INTERVIEW, "Interview 001.wav": STEREO}),
    Round("accepted 2 entries 2 indexes", (), media={**INTERVIEW, "Interview 001.wav": STEREO}))

EXPORTS = {
    "Nuendo": (NUENDO, NUENDO_ROUNDS), "Pyramix": (PYRAMIX, PYRAMIX_ROUNDS), "SADiE": (SADIE, SADIE_ROUNDS),
    "AATranslator": (AATRANSLATOR, AATRANSLATOR_ROUNDS), "Audition": (AUDITION, AUDITION_ROUNDS)}


def put_media(scene: Scene, media: dict) -> None:
    """Leaves just these files among the media, each under its path there."""
    for path in sorted((scene.folder / MEDIA).rglob("*"), reverse=True):
        path.rmdir() if path.is_dir() else path.unlink()
    for name, data in media.items():
        path = scene.folder / MEDIA / name
        path.parent.mkdir(exist_ok=True)
        path.write_bytes(data)


def seen(media: dict, words: tuple) -> dict:
    """The media by their names that a check finds with these words."""
    return {
        path.rpartition("/")[2]: data for path, data in media.items() if "/" not in path or "--search" in words}


def expect_words(line: str, said: tuple) -> None:
    for words in said:
        if words not in line:
            raise Mismatch(f"{words!r} isn't said: {line!r}")


def expect_round(scene: Scene, text: bytes, each: Round) -> None:
    """The check prints the line, as the model does, and says all that it has to of each fault."""
    scene.put(text)
    put_media(scene, each.media)
    got = scene.run("check", LIST, MEDIA, *each.words)
    wanted = model.answer("check", text, seen(each.media, each.words))
    same("the line of the model", wanted.line, each.line)
    same("the lines of the check", got.output.decode(), wanted.output())
    same("the status", got.status, wanted.status)
    if got.status == 0:
        expect_words(got.error.decode(), each.said)
        return
    first, *others = got.error.decode().splitlines()
    further = [line for line in others if line.startswith("also ")]
    expect_words(first, each.said)
    same("the further faults", tuple(line.partition(": ")[0] for line in further), tuple(head for head, *_ in each.also))
    same("those of the model", wanted.further, tuple(head for head, *_ in each.also))
    for line, (_, *said) in zip(further, each.also, strict=True):
        expect_words(line, said)


def exported(text: bytes, rounds: tuple):
    """The list is refused round by round, and corrected by what is said of it, until it is accepted."""
    def body(scene: Scene) -> None:
        left = text
        for each in rounds:
            expect_round(scene, left, each)
            for old, new in each.corrections:
                same(f"whether {old!r} is there to be corrected", old in left, True)
                left = left.replace(old, new)
    return body


def run(suite: Suite) -> None:
    for name, (text, rounds) in EXPORTS.items():
        suite.case(f"a list as {name} exports it", exported(text, rounds))
