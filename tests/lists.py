"""Lists of the whole profile: what is read, the first fault of each other text, and what is told beside."""

import model
import second_reader
from harness import Mismatch, Scene, Suite, expect_done, expect_line, expect_refused, model_reads, same, words_of
from tables import FIRST_LIST, changed, wave, with_line_after, without

MEDIA = {"A.wav": wave()}
LINES = FIRST_LIST.splitlines()
SOURCE, ENTRY = LINES[6], LINES[9]
SEPARATORS = b":;.,|=/"
MIDNIGHT = b"00.00.00.00/0000"
MOST_KEPT = 65_535

# Each line in place of line 7, which is the index line.
INDEX_LINES = {
    "number zero": (SOURCE.replace(b"0001", b"0000"), "07 at line 7"),
    "number 32768": (SOURCE.replace(b"0001", b"32768"), "07 at line 7"),
    "a number of seven digits": (SOURCE.replace(b"0001", b"0000001"), "07 at line 7"),
    "a letter in the number": (SOURCE.replace(b"0001", b"000A"), "07 at line 7"),
    "a sign before the number": (SOURCE.replace(b"0001", b"+1"), "07 at line 7"),
    "the number alone": (b"(Index) 0001", "10 at line 7 index 1"),
    "nothing behind the keyword": (b"(Index)", "10 at line 7"),
    "another form than a file": (SOURCE.replace(b"(F)", b"(D)"), "13 at line 7 index 1"),
    "F without parentheses": (SOURCE.replace(b"(F)", b"F"), "13 at line 7 index 1"),
    "no closing quote": (SOURCE.replace(b'.wav"', b".wav"), "02 at line 7 index 1"),
    "http": (SOURCE.replace(b"URL:file://localhost/", b"http://a/"), "09 at line 7 index 1"),
    "no slash behind the host": (SOURCE.replace(b"localhost/A.wav", b"localhost"), "09 at line 7 index 1"),
    "no slashes": (SOURCE.replace(b"file://localhost/", b"file:"), "09 at line 7 index 1"),
    "no name": (SOURCE.replace(b"A.wav", b""), "09 at line 7 index 1"),
    "a full stop as name": (SOURCE.replace(b"A.wav", b"."), "09 at line 7 index 1"),
    "the folder above": (SOURCE.replace(b"A.wav", b"x/%2e%2E"), "09 at line 7 index 1"),
    "a slash in the name": (SOURCE.replace(b"A.wav", b"x%2FA.wav"), "09 at line 7 index 1"),
    "a zero byte in the name": (SOURCE.replace(b"A.wav", b"A%00.wav"), "09 at line 7 index 1"),
    "a name that is no UTF-8": (SOURCE.replace(b"A.wav", b"\xe4.wav"), "09 at line 7 index 1"),
    "an escape that is no UTF-8": (SOURCE.replace(b"A.wav", b"%E4.wav"), "09 at line 7 index 1"),
    "no time": (SOURCE.replace(MIDNIGHT, b"now"), "06 at line 7 index 1"),
    "frame 25": (SOURCE.replace(MIDNIGHT, b"00.00.00.25/0000"), "06 at line 7 index 1"),
    "rest 1920": (SOURCE.replace(MIDNIGHT, b"00.00.00.00/1920"), "06 at line 7 index 1"),
    "second 60": (SOURCE.replace(MIDNIGHT, b"00.00.60.00/0000"), "06 at line 7 index 1"),
    "minute 60": (SOURCE.replace(MIDNIGHT, b"00.60.00.00/0000"), "06 at line 7 index 1"),
    "hour 25": (SOURCE.replace(MIDNIGHT, b"25.00.00.00/0000"), "06 at line 7 index 1"),
    "past the day's end": (SOURCE.replace(MIDNIGHT, b"24.00.00.00/0001"), "06 at line 7 index 1"),
    "a separator that is none": (SOURCE.replace(MIDNIGHT, b"00-00.00.00/0000"), "06 at line 7 index 1"),
    "a short rest": (SOURCE.replace(MIDNIGHT, b"00.00.00.00/000"), "06 at line 7 index 1"),
    "no length": (SOURCE[:-2], "10 at line 7 index 1"),
    "a length that is no time": (SOURCE[:-1] + b"4", "06 at line 7 index 1"),
    "a byte of no ASCII behind": (SOURCE + b" \xe9", "01 at line 7 index 1"),
    "a zero byte behind": (SOURCE + b"\0", "01 at line 7 index 1"),
    "a bracket": (b" <Index> 0001", "03 at line 7"),
}

# Each line in place of line 10, which is the entry line.
ENTRY_LINES = {
    "number zero": (ENTRY.replace(b"(Entry) 0001", b"(Entry) 0000"), "07 at line 10"),
    "number 32768": (ENTRY.replace(b"(Entry) 0001", b"(Entry) 32768"), "07 at line 10"),
    "index zero": (ENTRY.replace(b"I 0001", b"I 0000"), "07 at line 10 entry 1"),
    "another kind of entry": (ENTRY.replace(b"(Cut)", b"(Silence)"), "13 at line 10 entry 1"),
    "Cut without parentheses": (ENTRY.replace(b"(Cut)", b"Cut"), "13 at line 10 entry 1"),
    "a small i": (ENTRY.replace(b" I ", b" i "), "13 at line 10 entry 1"),
    "an output": (ENTRY.replace(b" I ", b" O "), "13 at line 10 entry 1"),
    "two source channels": (ENTRY.replace(b" 1 1 ", b" 1~2 1 "), "08 at line 10 entry 1"),
    "two destination channels": (ENTRY.replace(b" 1 1 ", b" 1 1~2 "), "08 at line 10 entry 1"),
    "channel 0": (ENTRY.replace(b" 1 1 ", b" 0 1 "), "08 at line 10 entry 1"),
    "channel 65": (ENTRY.replace(b" 1 1 ", b" 1 65 "), "08 at line 10 entry 1"),
    "channels backwards": (ENTRY.replace(b" 1 1 ", b" 2~1 2~1 "), "08 at line 10 entry 1"),
    "channels of seven digits": (ENTRY.replace(b" 1 1 ", b" 0000001 1 "), "08 at line 10 entry 1"),
    "channels by a minus": (ENTRY.replace(b" 1 1 ", b" 1-2 1-2 "), "08 at line 10 entry 1"),
    "no destination out": (ENTRY[:-17], "10 at line 10 entry 1"),
    "destination in at frame 25": (ENTRY.replace(b"01.00.00.00/0000", b"01.00.00.25/0000"), "06 at line 10 entry 1"),
    "source in `_`": (ENTRY.replace(b" " + MIDNIGHT, b" _"), "06 at line 10 entry 1"),
    "destination out past the day's end": (
        ENTRY.replace(b"01.00.00.00/0004", b"24.00.00.00/0001"), "06 at line 10 entry 1"),
    "a byte of no ASCII behind": (ENTRY + b"\xe9", "01 at line 10 entry 1"),
    "a byte of no ASCII in the keyword": (b"(Entr\xe9y) 1", "01 at line 10"),
    "a byte of no ASCII before the number": (b"(Entry) \xe9", "01 at line 10"),
    "a CR inside": (ENTRY.replace(b" (Cut)", b"\r(Cut)"), "01 at line 10 entry 1"),
    "two CRs at its end": (ENTRY + b"\r\r", "01 at line 10 entry 1"),
    "a quote that stays open": (ENTRY + b' "', "02 at line 10 entry 1"),
    "a CR in quotes": (ENTRY + b' "\r"', "01 at line 10 entry 1"),
    "a parenthesis that stays open": (ENTRY + b" (R", "02 at line 10 entry 1"),
    "a parenthesis that wasn't open": (ENTRY + b" R)", "02 at line 10 entry 1"),
    "empty parentheses": (ENTRY + b" ()", "02 at line 10 entry 1"),
    "a space in parentheses": (ENTRY + b" (a b)", "02 at line 10 entry 1"),
    "a field's fault left of a byte's": (ENTRY.replace(b" 1 1 ", b" 0 1 ") + b"\xe9", "08 at line 10 entry 1"),
    "a byte's fault left of a field's": (ENTRY.replace(b" 1 1 ", b" \xe9 0 "), "01 at line 10 entry 1"),
    "an open quote where fields are missing": (b'(Entry) 0001 (Cut) "I', "02 at line 10 entry 1"),
    "a bracket": (b"<Entry> 0001", "03 at line 10"),
}

# Each line put in behind a line of the first list.
FURTHER_LINES = {
    "text behind the head": (1, b"text", "03 at line 2"),
    "the list's end at once": (1, b"</ADL>", "04 at line 2"),
    "a section's end that wasn't open": (1, b"</SEQUENCE>", "03 at line 2"),
    "text between sections": (5, b"(Rem)", "03 at line 6"),
    "a section again": (5, b"<sequence>", "05 at line 6"),
    "a section inside a section": (6, b"<EVENT_LIST>", "03 at line 7"),
    "another sample rate": (3, b"(SEQ_SAMPLE_RATE) S44100", "12 at line 4"),
    "no sample rate told": (3, b"(SEQ_SAMPLE_RATE)", "10 at line 4"),
    "another frame rate": (4, b"(SEQ_FRAME_RATE) 25.01", "12 at line 5"),
    "a second frame rate": (4, b"(SEQ_FRAME_RATE) 24", "12 at line 5"),
    "23.976 frames": (3, b"(SEQ_FRAME_RATE) 23.976", "12 at line 4"),
    "29.97 frames": (3, b"(SEQ_FRAME_RATE) 29.97", "12 at line 4"),
    "60 frames": (3, b"(SEQ_FRAME_RATE) 60", "12 at line 4"),
    "an empty frame rate": (4, b'(SEQ_FRAME_RATE) ""', "12 at line 5"),
    "an index again": (7, SOURCE, "14 at line 8 index 1"),
    "an index's number again": (7, b"(Index) 1 broken", "14 at line 8 index 1"),
    "a byte of no ASCII among the sources": (7, b"(Rem) \xe9", "01 at line 8"),
    "an entry again": (10, ENTRY, "14 at line 11 entry 1"),
    "a fade before the entries": (9, b"(Infade) " + MIDNIGHT, "16 at line 10"),
    "a gain before the entries": (9, b"(Gain) 0", "16 at line 10"),
    "an unknown line before the entries": (9, b"anything", "16 at line 10"),
    "an unknown line of an entry": (10, b"(Mute)", "13 at line 11 entry 1"),
    "a word of an entry": (10, b"Rem", "13 at line 11 entry 1"),
    "a byte of no ASCII behind an entry": (10, b"(Re\xe9", "01 at line 11 entry 1"),
    "a bracket behind an entry": (10, b"<x>", "03 at line 11"),
    "a gain": (10, b"(Gain) -3.00", "13 at line 11 entry 1"),
    "a second gain that isn't zero": (10, b"(Gain) 0.00 _ 1", "13 at line 11 entry 1"),
    "an empty gain": (10, b'(Gain) ""', "13 at line 11 entry 1"),
    "a fade without time": (10, b"(Infade)", "10 at line 11 entry 1"),
    "a fade of no time": (10, b"(Outfade) 2", "06 at line 11 entry 1"),
    "a fade without curve": (10, b"(Infade) 00.00.00.00/0002", "10 at line 11 entry 1"),
    "another curve": (10, b"(Infade) 00.00.00.00/0002 COS", "13 at line 11 entry 1"),
    "a fade longer than its entry": (10, b"(Infade) 00.00.00.00/0005 LIN", "43 at entry 1"),
    "two fades": (10, b"(Infade) _\n(infade) _", "17 at line 12 entry 1"),
    "two fades, the second broken": (10, b"(Outfade) _\n(Outfade) \xe9", "17 at line 12 entry 1"),
}

SYSTEM_LINES = {
    "an offset": (b"(SYS_SRC_OFFSET) 00.00.00.00/0001", "13 at line 3"),
    "an offset that is no time": (b"(SYS_SRC_OFFSET) 0", "13 at line 3"),
    "a system's gain": (b"(SYS_GAIN) 1.0", "13 at line 3"),
    "a bracket in SYSTEM": (b"<x>", "03 at line 3"),
    "a quote that stays open in SYSTEM": (b'(Rem) "', "02 at line 3"),
}

ACCEPTED = {
    "CR LF": FIRST_LIST.replace(b"\n", b"\r\n"),
    "CR LF and LF mixed": FIRST_LIST.replace(b"\n", b"\r\n", 5),
    "the last line without its end": FIRST_LIST[:-1],
    "a CR at the end": FIRST_LIST[:-1] + b"\r",
    "a byte order mark": b"\xef\xbb\xbf" + FIRST_LIST,
    "lines behind the list": FIRST_LIST + b"<ADL>\nanything\n",
    "any bytes behind the list": FIRST_LIST + bytes(range(256)) * 300,
    "small letters": FIRST_LIST.lower().replace(b"a.wav", b"A.wav").replace(b" i ", b" I "),
    "spaces and tabs": FIRST_LIST.replace(b" ", b" \t ").replace(b"\n", b" \t\n"),
    "no spaces beside parentheses": changed(10, ENTRY.replace(b") ", b")").replace(b" (", b"(")),
    "fields in quotes": changed(10, ENTRY.replace(b" I 0001 1 1 ", b' "I" "0001"(1) "1"')),
    "numbers of one and six digits": FIRST_LIST.replace(b" 0001 ", b" 1 ").replace(b"(Entry) 1 ", b"(Entry) 000001 "),
    "index and entry 32767": FIRST_LIST.replace(b" 0001 ", b" 32767 "),
    "channels of six digits": changed(10, ENTRY.replace(b" 1 1 ", b" 000001 1~1 ")),
    "channel 64": changed(10, ENTRY.replace(b" 1 1 ", b" 1 64 ")),
    "further tokens": changed(10, ENTRY + b' R "any \xff" (K)'),
    "a length": changed(7, SOURCE[:-1] + b"00.00.00.00/0004"),
    "a length of a day": changed(7, SOURCE[:-1] + b"24.00.00.00/0000"),
    "no in": changed(7, SOURCE.replace(MIDNIGHT, b"_")),
    "an identifier": changed(7, SOURCE.replace(b'" _', b'" "a (take) \xe9"')),
    "a frame rate with a point": changed(4, b"(SEQ_FRAME_RATE) 25."),
    "a frame rate with zeros": changed(4, b"(SEQ_FRAME_RATE) 25.000"),
    "24 frames": changed(4, b"(SEQ_FRAME_RATE) 24"),
    "24 frames with a point": changed(4, b"(SEQ_FRAME_RATE) 24."),
    "24 frames, told behind the entries": b"\n".join(
        (LINES[0], *LINES[5:8], *LINES[8:11], *LINES[1:3], b"(SEQ_FRAME_RATE) 24", LINES[4], LINES[11])).replace(
            MIDNIGHT + b" _", b"00.00.04.23/1990 _").replace(b" " + MIDNIGHT + b" 01", b" 00.00.04.23/1990 01"),
    "30 frames": changed(4, b"(SEQ_FRAME_RATE) 30.00"),
    "30 frames, told twice": changed(4, b"(SEQ_FRAME_RATE) 30.\n(SEQ_FRAME_RATE) 30.00"),
    "the last time of a second at 30 frames": changed(4, b"(SEQ_FRAME_RATE) 30").replace(
        MIDNIGHT + b" _", b"00.00.04.29/1590 _").replace(b" " + MIDNIGHT + b" 01", b" 00.00.04.29/1590 01"),
    "no letter before the sample rate": changed(3, b"(SEQ_SAMPLE_RATE) 48000"),
    "blank lines": b"\n \n" + FIRST_LIST.replace(b"\n", b"\n\t\n"),
    "remarks before and behind entries": with_line_after(9, b"(Rem) reel 1").replace(ENTRY, ENTRY + b"\n(rem) (x) 1"),
    "no gain": with_line_after(10, b"(Gain) 0.00 _ -0 +00."),
    "empty fades": with_line_after(10, b"(Infade) _\n(Outfade) 00.00.00.00/0000 COS"),
    "a fade": with_line_after(10, b"(Infade) 00.00.00.00/0002 lin _ _ _"),
    "both fades": with_line_after(10, b"(Outfade) 00.00.00.00/0001 LIN\n(Infade) 00.00.00.00/0003 LIN"),
    "sections in another order": b"\n".join((LINES[0], *LINES[8:11], *LINES[5:8], *LINES[1:5], LINES[11])),
    "up to the day's end": changed(10, model.entry_line(
        1, 1, b"00.00.00.00/0001", b"23.59.59.24/1917", b"24.00.00.00/0000")),
    "from midnight": changed(10, model.entry_line(1, 1, b"00.00.00.00/0001", MIDNIGHT, b"00.00.00.00/0003")),
}

URLS = {
    "no URL:": b"file://localhost/A.wav",
    "no host": b"URL:file:///A.wav",
    "another host": b"url:FILE://studio.example/A.wav",
    "folders before the name": b"URL:file://localhost/takes/day%201/../A.wav",
    "escapes": b"URL:file://localhost/%41%2ewav",
}


def refused_at(text: bytes, line: str):
    return lambda scene: expect_refused(scene, text, MEDIA, f"refused {line}")


def accepted(text: bytes):
    return lambda scene: expect_done(scene, text, MEDIA)


def system(line: bytes) -> bytes:
    return FIRST_LIST.replace(b"<ADL>\n", b"<ADL>\n<SYSTEM>\n%s\n</SYSTEM>\n" % line)


def further_in_front(scene: Scene) -> None:
    """A line that can't be cut, before the rate: the list is read at 25, and what is told behind its fault at 30. So a
    time that 30 hasn't is told although it stands in front."""
    entry = ENTRY.replace(b"01.00.00.00/0004", b"01.00.00.00/1700")
    sequence = (line.replace(b"25", b"30") for line in LINES[1:5])
    text = b"\n".join((LINES[0], LINES[8], entry, b'(Rem) "', LINES[10], *sequence, *LINES[5:8], LINES[11]))
    same("what the model tells", model.answer("check", text, MEDIA).further, ("also 06 at line 3 entry 1",))
    expect_refused(scene, text, MEDIA, "refused 02 at line 4 entry 1")


def cut_short(scene: Scene) -> None:
    """A list that ends early is 3 at its last line, wherever it ends between two lines."""
    lines = FIRST_LIST.splitlines(keepends=True)
    for count in range(len(lines)):
        expect_refused(scene, b"".join(lines[:count]), MEDIA, f"refused 03 at line {max(1, count)}")
    expect_refused(scene, b"\xef\xbb\xbf", MEDIA, "refused 03 at line 1")


def each_prefix(scene: Scene) -> None:
    """Wherever the text ends, `check` refuses it as the model does, and accepts it whole."""
    for size in range(len(FIRST_LIST) + 1):
        text = FIRST_LIST[:size]
        wanted = model.answer("check", text, MEDIA)
        same("the status of the model", wanted.status, 0 if size >= len(FIRST_LIST) - 1 else 1)
        expect_line(scene, "check", text, MEDIA, wanted.line)


def needed_lines(scene: Scene) -> None:
    """What has to be there is missed at the end of the list."""
    expect_refused(scene, without(3), MEDIA, "refused 11 at line 11")
    expect_refused(scene, without(4), MEDIA, "refused 11 at line 11")
    for first, last, line in ((2, 5, 8), (6, 8, 9), (9, 11, 9)):
        text = b"\n".join(each for at, each in enumerate(LINES, 1) if not first <= at <= last)
        expect_refused(scene, text, MEDIA, f"refused 04 at line {line}")


def kept_lines(scene: Scene) -> None:
    """Kept lines are written byte for byte, and 65,535 of them are the most."""
    head = b"<ADL>\n<VERSION>\n%s</VERSION>\n<TRACKLIST>\n%s</TRACKLIST>\n"
    tracks = b"  (Track) 1 \"open \xe9\n\n<b>\r\n"
    text = FIRST_LIST.replace(b"<ADL>\n", head % (b"(Ver_ADL_ID) 1234\r\n", tracks))
    expect_done(scene, text, MEDIA)
    most = MOST_KEPT - 2
    for count, line in ((most, "accepted 1 entries 1 indexes"), (most + 1, f"refused 15 at line {MOST_KEPT + 7}")):
        text = FIRST_LIST.replace(b"<ADL>\n", head % (b"x\n" * count, b""))
        expect_line(scene, "check", text, MEDIA, line)
    text = FIRST_LIST.replace(b"<ADL>\n", head % (b"x\n" * (MOST_KEPT + 1), b""))
    expect_refused(scene, text, MEDIA, f"refused 15 at line {MOST_KEPT + 3}")


def skipped_sections(scene: Scene) -> None:
    """An unknown section is skipped with a notice, as often as it comes; one of gain, pan or fade where it's empty."""
    skipped = with_line_after(8, b"<MARKERS>\nx \xe9 \"\n<EVENT_LIST>\n</MARKERS>\n<Markers>\n</MARKERS>")
    for command in model.COMMANDS:
        notices = model.answer(command, skipped, MEDIA).notices
        same("the notices", notices, ("notice 1 at line 9", "notice 1 at line 13"))
    expect_done(scene, skipped, MEDIA)
    for name in (b"FADE_TABLE", b"Company", b"AUTOMATION_1", b"gain", b"MUTES"):
        expect_done(scene, with_line_after(8, b"<%s>\n \t\n</%s>" % (name, name)), MEDIA)
        refused = with_line_after(8, b"<%s>\n\nx\n</%s>" % (name, name))
        expect_refused(scene, refused, MEDIA, "refused 13 at line 11")
    again = with_line_after(1, b"<ADL>\nanything\n</ADL>")
    same("the notices", model.answer("check", again, MEDIA).notices, ("notice 1 at line 2",))
    expect_done(scene, again, MEDIA)


def dropped_lines(scene: Scene) -> None:
    """Other lines among the sources are dropped with a notice."""
    text = with_line_after(7, b"(Rem) takes of the day\n\nIndex 2")
    same("the notices", model.answer("check", text, MEDIA).notices, ("notice 2 at line 8", "notice 2 at line 10"))
    expect_done(scene, text, MEDIA)


def columns(scene: Scene) -> None:
    """Standard error tells the column of a fault, counted from 1 in bytes, and what stands there."""
    for text, line, at in (
        (changed(4, b"(SEQ_FRAME_RATE) 29.97"), 4, b"29.97"),
        (changed(7, SOURCE.replace(b"URL:file://localhost", b"http://a")), 7, b'"http://a/A.wav"'),
        (changed(7, SOURCE.replace(MIDNIGHT, b"00.00.00.25/0000")), 7, b"00.00.00.25/0000"),
        (changed(7, SOURCE[:-1] + b"4"), 7, b"4"),
        (changed(10, ENTRY.replace(b"(Cut)", b"(Silence)")), 10, b"(Silence)"),
        (changed(10, ENTRY.replace(b" I ", b" O ")), 10, b"O"),
        (changed(10, ENTRY.replace(b"I 0001", b"I 00000")), 10, b"00000"),
        (changed(10, ENTRY.replace(b" 1 1 ", b" 1 65 ")), 10, b"65"),
        (changed(10, ENTRY.replace(b" 1 1 ", b" 2~1 1 ")), 10, b"2~1"),
        (changed(10, ENTRY.replace(b" 1 1 ", b" 1 1~2 ")), 10, b"1~2"),
        (changed(10, ENTRY.replace(b" " + MIDNIGHT, b" _")), 10, b"_"),
        (changed(10, ENTRY.replace(b"01.00.00.00/0004", b"24.00.00.00/0001")), 10, b"24.00.00.00/0001"),
        (changed(10, ENTRY + b" more" * 20 + b" \x01"), 10, b"\x01"),
        (changed(10, ENTRY + b' "open'), 10, b'"open'),
        (changed(10, ENTRY[:-17]), 10, None),
        (with_line_after(10, ENTRY.replace(b"(Entry) 0001", b"(Entry) 000001")), 11, b"000001"),
        (with_line_after(10, b"(Infade) 00.00.00.00/0002 COS"), 11, b"COS"),
        (with_line_after(10, b"(Gain) 0.00 _ -3.00"), 11, b"-3.00"),
        (with_line_after(10, b" (Mute) 1"), 11, b"(Mute)"),
        (system(b"(SYS_GAIN) 1.0"), 3, b"1.0"),
        (system(b"  <SEQUENCE>"), 3, b"<SEQUENCE>"),
        (system(b'(SYS_SRC_OFFSET) _ "open'), 3, b'"open'),
        (changed(3, b"(SEQ_SAMPLE_RATE)  S44100 _"), 3, b"S44100"),
        (changed(3, b"(SEQ_SAMPLE_RATE) \t"), 3, None),
        (changed(7, SOURCE.replace(b"(Index) 0001", b"(Index) +1")), 7, b"+1"),
        (changed(7, SOURCE.replace(b"(F)", b"F")), 7, b"F"),
        (changed(7, b"(Index) 1 "), 7, None),
        (changed(10, ENTRY.replace(b"I 0001", b"I 0000001")), 10, b"0000001"),
        (changed(10, ENTRY.replace(b" 1 1 ", b" 1~2~3 1~2 ")), 10, b"1~2~3"),
        (changed(9, b" <EVENTS"), 9, b"<EVENTS"),
        (with_line_after(9, b"\t(Gain) 0"), 10, b"(Gain)"),
        (with_line_after(10, b"(Gain) 0 0.- 0"), 11, b"0.-"),
        (with_line_after(10, b"(Infade) _ LIN\n (Infade) _ LIN"), 12, b"(Infade)"),
        (with_line_after(8, b"<PAN>\n  all of 1\n</PAN>"), 10, b"all"),
        (with_line_after(5, b"  <SEQUENCE>"), 6, b"<SEQUENCE>"),
        (b"<ADL>\n  </ADL>", 2, b"</ADL>"),
        (without(4), 11, b"</ADL>"),
        (b"\n".join(LINES[:-1]), 11, b"</EVENT_LIST>"),
        (b"\xef\xbb\xbf ADL\n", 1, b"ADL"),
        (b"", 1, None),
    ):
        scene.put(text, MEDIA)
        whole = text.removeprefix(b"\xef\xbb\xbf").split(b"\n")[line - 1]
        wanted = f"; the line ends at column {len(whole) + 1};"
        if at is not None:
            shown = at.decode().replace("\x01", "%01")
            wanted = f"; at column {whole.rindex(at) + 1} stands: {shown};"
        got = scene.run(*words_of("check")).error.decode()
        if wanted not in got:
            raise Mismatch(f"the explanation of {whole!r}\n    expected {wanted}\n    got      {got}")


def frames_told(scene: Scene) -> None:
    """Standard error tells the list's rate where the frame of a time passes it, and not where another field does."""
    for rate in (24, 25, 30):
        told = f"; the list has {rate} frames a second;".encode()
        text = changed(4, b"(SEQ_FRAME_RATE) %d" % rate)
        for time, is_told in (
            (b"00.00.00.%02d/0000" % rate, True), (b"00:00:00:99:0000", True), (b"00.00.60.00/0000", False),
            (b"00.00.00.00/%04d" % (48_000 // rate), False), (b"0000", False),
        ):
            scene.put(text.replace(MIDNIGHT + b" _", time + b" _"), MEDIA)
            got = scene.run(*words_of("check"))
            same(f"what is told of {time!r} at {rate}", told in got.error, is_told)


def frames_of_a_second(rate: int):
    """An entry at each frame of a second: each time is read and written at the rate, and the next frame is none."""
    def body(scene: Scene) -> None:
        begins = [172_800_000 + frame * 48_000 // rate for frame in range(rate)]
        lines = [
            model.entry_line(number, 1, MIDNIGHT, *(model.time_text(value, rate=rate) for value in (begin, begin + 4)))
            for number, begin in enumerate(begins, 1)]
        same("the frame of the last one", lines[-1].split(b" ")[8], b"01.00.00.%02d/0000" % (rate - 1))
        text = changed(4, b"(SEQ_FRAME_RATE) %d" % rate).replace(ENTRY, b"\n".join(lines))
        expect_done(scene, text, MEDIA)
        written = model.answer("consolidate", text, MEDIA).files["consolidated.adl"]
        for line in lines:
            if line.split(b" ")[8] not in written:
                raise Mismatch(f"the consolidated list lacks the time of {line!r}")
        for wrong in (b"00.00.00.%02d/0000" % rate, b"00.00.00.00/%04d" % (48_000 // rate)):
            bad = changed(4, b"(SEQ_FRAME_RATE) %d" % rate).replace(MIDNIGHT + b" _", wrong + b" _")
            expect_refused(scene, bad, MEDIA, "refused 06 at line 7 index 1")
    return body


def any_separators(scene: Scene) -> None:
    for place, separator in enumerate(SEPARATORS):
        mark = bytes([separator])
        others = b"".join(SEPARATORS[(place + step) % 7:][:1] for step in (1, 2, 3, 4))
        dest_in = model.time_text(172_800_000, others)
        same_mark = FIRST_LIST.replace(b"00.00.00.00/", mark.join([b"00"] * 4) + mark)
        expect_done(scene, same_mark, MEDIA)
        expect_done(scene, FIRST_LIST.replace(b"01.00.00.00/0000", dest_in), MEDIA)


def many_numbers(scene: Scene) -> None:
    """Numbers need no order, and those of five digits are written with five."""
    source_lines = [model.source_line(number, "A.wav", MIDNIGHT) for number in (32767, 2, 10000, 1)]
    entry_lines = [
        model.entry_line(number, index, MIDNIGHT, b"01.00.00.00/%04d" % first, b"01.00.00.00/%04d" % last)
        for number, index, first, last in ((32767, 10000, 4, 8), (10000, 32767, 0, 4), (9999, 1, 2, 3))
    ]
    expect_done(scene, model.list_text(source_lines, entry_lines), MEDIA)


def long_list(scene: Scene) -> None:
    """A list longer than one read, with more than 9999 entries on one frame each."""
    entry_lines = [
        model.entry_line(number, 1, MIDNIGHT, *(model.time_text(172_800_000 + begin) for begin in (number, number + 1)))
        for number in range(1, 10_102)
    ]
    expect_done(scene, model.list_text([SOURCE], entry_lines), MEDIA)


def many_sections(scene: Scene) -> None:
    """100,000 lines of which each opens a section, and none is closed."""
    text = b"<ADL>\n" + b"<X>\n" * 100_000
    expect_line(scene, "check", text, MEDIA, "refused 03 at line 100001")


def second_reader_differs(scene: Scene) -> None:
    """The comparison of both readers sees each field that is read otherwise."""
    text = with_line_after(10, b"(Infade) 00.00.00.00/0002 LIN\n(Rem)").replace(b"<ADL>\n", b"<ADL>\n<X>\n</X>\n")
    same("both readers", second_reader.read(text), model_reads(text))
    for one, other in (
        (b"0001 (F)", b"0002 (F)"), (b"A.wav", b"B.wav"), (b'" _', b'" x'), (MIDNIGHT + b" _", b"_ _"),
        (b"0000 _", b"0000 " + MIDNIGHT), (b"(Entry) 0001", b"(Entry) 2"), (b"I 0001", b"I 2"), (b" 1 1 ", b" 2 1 "),
        (b" 1 1 ", b" 1 2 "), (b"1 " + MIDNIGHT, b"1 00.00.00.01/0000"), (b"01.00.00.00/0000", b"00.59.00.00/0000"),
        (b"/0004", b"/0005"), (b"/0002", b"/0003"), (b"Infade", b"Outfade"),
        (b" 01.00.00.00/0000", b" 01:00.00.00/0000"), (b"S48000", b"48000"), (b"<X>\n</X>\n", b""), (b"</ADL>", b""),
        (b"S48000", b"S44100"),
    ):
        if second_reader.read(text.replace(one, other, 1)) == model_reads(text):
            raise Mismatch(f"{other!r} is read as {one!r}")


def run(suite: Suite) -> None:
    for name, (line, answer) in INDEX_LINES.items():
        suite.case(f"index line: {name}", refused_at(changed(7, line), answer))
    for name, (line, answer) in ENTRY_LINES.items():
        suite.case(f"entry line: {name}", refused_at(changed(10, line), answer))
    for name, (number, line, answer) in FURTHER_LINES.items():
        suite.case(f"list: {name}", refused_at(with_line_after(number, line), answer))
    for name, (line, answer) in SYSTEM_LINES.items():
        suite.case(f"list: {name}", refused_at(system(line), answer))
    for name, text in ACCEPTED.items():
        suite.case(f"list accepted: {name}", accepted(text))
    suite.case("a frame that the rate hasn't", frames_told)
    for rate in (24, 25, 30):
        suite.case(f"each frame of a second at {rate}", frames_of_a_second(rate))
    for name, url in URLS.items():
        suite.case(f"url accepted: {name}", accepted(FIRST_LIST.replace(b"URL:file://localhost/A.wav", url)))
    suite.case("a second reader", second_reader_differs)
    suite.case("a further fault in front of the first", further_in_front)
    suite.case("a list that is cut short", cut_short)
    suite.case("a list of each length", each_prefix)
    suite.case("what has to be there", needed_lines)
    suite.case("kept lines", kept_lines)
    suite.case("skipped sections", skipped_sections)
    suite.case("dropped lines", dropped_lines)
    suite.case("columns of faults", columns)
    suite.case("all separators", any_separators)
    suite.case("numbers of four and five digits", many_numbers)
    suite.case("a list of 10,101 entries", long_list)
    suite.case("a section opened 100,000 times", many_sections)
