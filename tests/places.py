"""What LIST, MEDIA and OUT name: files, folders, standard input, and nothing."""

import os
import resource
import subprocess
from functools import partial
from urllib.parse import quote

import model
from harness import (
    LIST, MEDIA, OUT, TIMEOUT, Mismatch, Outcome, Scene, Skipped, Suite, expect_answer, preloaded, same, same_answer,
    same_files, same_outcome, same_shape, words_of,
)
from tables import FIRST_LIST, rendered_files, wave

AT_16_BITS = model.Options(depth=16)
DEPTH = AT_16_BITS.words("render")
RENDERED = model.Answer(0, "rendered 4 frames 1 channels", rendered_files())
MEDIA_FILES = {"A.wav": wave()}
MEMORY = 256 * 2 ** 20
# Format characters, fillers and blanks; and spaces, a combining mark and others that are visible or as wide as one.
INVISIBLE = (
    "\u00ad\u034f\u0600\u0605\u061c\u06dd\u070f\u08e2\u115f\u1160\u17b4\u180b\u180e\u200b\u200c\u200d\u2060\u2061\u206a"
    "\u2800\u3164\ufe0f\ufeff\uffa0\ufff9\ufffb\U000110bd\U0001d173\U000e0001\U000e0041\U000e0100")
VISIBLE = "\u00a0\u0301\u0606\u2003\u2801\u3000\u3163\ufffd\U0001f3b5"


def prepared(scene: Scene) -> None:
    scene.put(FIRST_LIST, MEDIA_FILES)


def refused(line: str, *words: str, out: dict = None):
    """Both commands refuse the words behind them with this line, and leave the output as it is."""
    def body(scene: Scene) -> None:
        prepared(scene)
        for name, data in (out or {}).items():
            (scene.folder / OUT / name).write_bytes(data)
        for command in model.WRITING:
            same_outcome(scene.run(command, *words), 1, line)
            same_files(scene.files(), out or {})
    return body


def from_standard_input(scene: Scene) -> None:
    scene.put(b"no list", MEDIA_FILES)
    for command in model.WRITING:
        wanted = model.answer(command, FIRST_LIST, MEDIA_FILES)
        same_answer(scene.run(command, "-", MEDIA, OUT, given=FIRST_LIST), wanted)
        same_files(scene.files(), wanted.files)
        scene.empty_out()
    same_outcome(scene.run("render", "-", MEDIA, OUT, given=b""), 1, "refused 03 at line 1")


def long_standard_input(scene: Scene) -> None:
    """More than one read of it."""
    scene.put(b"", MEDIA_FILES)
    text = FIRST_LIST + b"behind the list\n" * 100_000
    got = scene.run("render", "-", MEDIA, OUT, *DEPTH, given=text)
    same_outcome(got, 0, RENDERED.line)
    same_files(scene.files(), model.answer("render", text, MEDIA_FILES, AT_16_BITS).files)


def closed_standard_input(scene: Scene) -> None:
    prepared(scene)
    got = scene.run("render", "-", MEDIA, OUT, preexec_fn=lambda: os.close(0))
    same_outcome(got, 1, "refused 21 at file -")
    same_files(scene.files(), {})


def odd_standard_input(scene: Scene) -> None:
    """It comes byte by byte between interruptions, breaks off, or never ends."""
    prepared(scene)
    slow = preloaded(scene, INPUT="slow")
    same_outcome(scene.run("render", "-", MEDIA, OUT, *DEPTH, given=FIRST_LIST, env=slow), 0, RENDERED.line)
    same_files(scene.files(), RENDERED.files)
    scene.empty_out()
    for how, word in (("broken", b": Input/output error"), ("endless", b"or doesn't end; check")):
        got = scene.run("render", "-", MEDIA, OUT, given=FIRST_LIST, env=preloaded(scene, INPUT=how))
        same_outcome(got, 1, "refused 21 at file -")
        if word not in got.error:
            raise Mismatch(f"standard error says {got.error!r}")
        same_files(scene.files(), {})


def dash_is_no_file(scene: Scene) -> None:
    prepared(scene)
    (scene.folder / "-").write_bytes(b"no list")
    same_outcome(scene.run("render", "-", MEDIA, OUT, given=FIRST_LIST), 0, RENDERED.line)
    scene.empty_out()
    same_outcome(scene.run("render", "./-", MEDIA, OUT, given=FIRST_LIST), 1, "refused 03 at line 1")


def list_is_folder(scene: Scene) -> None:
    (scene.folder / LIST).mkdir()
    for command in model.WRITING:
        same_outcome(scene.run(command, LIST, MEDIA, OUT), 1, f"refused 21 at file {LIST}")


def control_characters(scene: Scene) -> None:
    """A name is printed on one line: invisible characters as the escapes of their bytes, all others unchanged."""
    prepared(scene)
    for name, printed in (
        ("no\nlist", "no%0Alist"), ("\t.adl", "%09.adl"), ("\x7f", "%7F"), ("\u0085", "%C2%85"),
        ("no list", "no list"), ("Ü%0A.adl", "Ü%0A.adl"),
        ("wav.\u202edlA", "wav.%E2%80%AEdlA"), ("a\u2028b", "a%E2%80%A8b"), ("a\u2029b", "a%E2%80%A9b"),
        ("\u2066a\u2069", "%E2%81%A6a%E2%81%A9"), ("a\u200fb\u200e", "a%E2%80%8Fb%E2%80%8E"),
        ("\u061ca", quote("\u061ca")), ("\u2027\u202f\u2065\u206a\u200d", "\u2027\u202f%E2%81%A5%E2%81%AA%E2%80%8D"),
        *((f"A{each}.adl", f"A{quote(each)}.adl") for each in INVISIBLE),
        *((f"A{each}.adl", f"A{each}.adl") for each in VISIBLE),
    ):
        same_outcome(scene.run("render", name, MEDIA, OUT), 1, f"refused 21 at file {printed}")
        same_outcome(scene.run("render", LIST, MEDIA, name), 1, f"refused 20 at file {printed}")
        (scene.folder / name).write_bytes(b"no list")
        same_outcome(scene.run("render", LIST, MEDIA, name), 1, f"refused 20 at file {printed}")


def output_with_folder(scene: Scene) -> None:
    prepared(scene)
    (scene.folder / OUT / "inside").mkdir()
    for command in model.WRITING:
        same_outcome(scene.run(command, LIST, MEDIA, OUT), 1, f"refused 20 at file {OUT}")
    same("the output", scene.files(), {"inside": None})


def output_again(scene: Scene) -> None:
    """A second run finds its output full, and leaves it."""
    prepared(scene)
    expect_answer(scene, "render", RENDERED, AT_16_BITS)
    same_outcome(scene.run("render", LIST, MEDIA, OUT), 1, f"refused 20 at file {OUT}")
    same_outcome(scene.run("consolidate", LIST, MEDIA, OUT), 1, f"refused 20 at file {OUT}")
    same_files(scene.files(), RENDERED.files)


def other_places(scene: Scene) -> None:
    """Absolute paths, closing slashes, links, and an output inside the media."""
    prepared(scene)
    (scene.folder / "link").symlink_to(MEDIA)
    (scene.folder / MEDIA / "inside").mkdir()
    whole_paths = str(scene.folder / MEDIA), str(scene.folder / OUT)
    for media, out in ((MEDIA, OUT), (f"{MEDIA}/", f"{OUT}/"), ("link", OUT), whole_paths):
        same_outcome(scene.run("render", LIST, media, out, *DEPTH), 0, RENDERED.line)
        same_files(scene.files(), RENDERED.files)
        scene.empty_out()
    same_outcome(scene.run("render", LIST, MEDIA, f"{MEDIA}/inside", *DEPTH), 0, RENDERED.line)
    same_files(scene.files(f"{MEDIA}/inside"), RENDERED.files)


def linked_source(scene: Scene) -> None:
    scene.put(FIRST_LIST, {"B.wav": wave()})
    (scene.folder / MEDIA / "A.wav").symlink_to("B.wav")
    expect_answer(scene, "render", RENDERED, AT_16_BITS)


def checked_places(scene: Scene) -> None:
    """`check` reads list and media like the others, and looks at no output."""
    prepared(scene)
    line = "accepted 1 entries 1 indexes"
    (scene.folder / OUT / "x").write_bytes(b"")
    same_outcome(scene.run("check", LIST, MEDIA), 0, line)
    same_outcome(scene.run("check", "-", MEDIA, given=FIRST_LIST), 0, line)
    same_outcome(scene.run("check", "none.adl", MEDIA), 1, "refused 21 at file none.adl")


def missing_media(scene: Scene) -> None:
    """A folder of media that isn't there is as an empty one, and is told in a line of its own."""
    prepared(scene)
    for words in (("check", LIST, "none"), ("render", LIST, "none", OUT), ("consolidate", LIST, "none", OUT)):
        got = scene.run(*words)
        explained, told = got.error.splitlines(keepends=True)
        same_outcome(Outcome(got.status, got.output, explained), 1, "refused 21 at index 1 file A.wav")
        same_shape("what is told of the folder", told, r"[^\n]*none[^\n]*No such file or directory[^\n]*\n")
    late = scene.run("render", LIST, "none", OUT, "--from=1")
    same("a bad time first", late.error.splitlines()[0], b"bad time: --from")
    same("nothing of the folder behind it", b"none" in late.error, False)
    same_files(scene.files(), {})


def told_folder(scene: Scene) -> None:
    """So is the name of a folder that can't be read, on standard error."""
    prepared(scene)
    for name, printed in (("no\x1b[31mred", "no%1B[31mred"), ("\u202ered", "%E2%80%AEred")):
        told = scene.run("check", LIST, name).error.decode().splitlines()[-1]
        same("what is told of the folder", told.partition(":")[0], f"the folder {printed} can't be read")


def unnamed_output(scene: Scene) -> None:
    """The empty name is no folder for a rendering that is gone on with either, and nothing is written where it runs."""
    prepared(scene)
    before = sorted(scene.folder.rglob("*"))
    same_outcome(scene.run("resume", LIST, MEDIA, ""), 1, "refused 20 at file ")
    same("the files", sorted(scene.folder.rglob("*")), before)


def dangling_link(scene: Scene) -> None:
    """A link that leads nowhere isn't a file of another name."""
    scene.put(FIRST_LIST)
    (scene.folder / MEDIA / "A.wav").symlink_to("gone.wav")
    got = scene.run("check", LIST, MEDIA)
    same_outcome(got, 1, "refused 21 at index 1 file A.wav")
    same("whether another name is told", b"other capitals" in got.error, False)
    (scene.folder / MEDIA / "a.WAV").write_bytes(wave())
    if b"; the folder has a.WAV, in other capitals" not in scene.run("check", LIST, MEDIA).error:
        raise Mismatch("the name that is there isn't told")


def list_is_device(scene: Scene) -> None:
    """A device may have no end: it is refused before it is read. Standard input may be one."""
    prepared(scene)
    for path in ("/dev/zero", "/dev/full", "/dev/null"):
        if not os.path.exists(path):
            raise Skipped(f"there is no {path} here")
        for command in model.COMMANDS:
            got = scene.run(*[path if word == LIST else word for word in words_of(command)])
            same_outcome(got, 1, f"refused 21 at file {path}")
            if b": it isn't a plain file; name a file or a pipe, or - for standard input (" not in got.error:
                raise Mismatch(f"standard error says {got.error!r}")
    with open("/dev/zero", "rb") as zeros:
        done = subprocess.run(
            [scene.program, "check", "-", MEDIA], cwd=scene.folder, stdin=zeros, capture_output=True, timeout=TIMEOUT)
    same_outcome(Outcome(done.returncode, done.stdout, done.stderr), 1, "refused 03 at line 1")


def long_no_list(scene: Scene) -> None:
    """A file that can't begin a list is refused by its first line, whatever its length: there is no memory for all of
    it."""
    prepared(scene)
    limit = partial(resource.setrlimit, resource.RLIMIT_AS, (MEMORY, MEMORY))
    for front, number in ((b"", 1), (b"RIFF", 1), (b"\n \r\n<ADX", 3), (b"\xef\xbb\xbf\t<adl>", 1)):
        with open(scene.folder / LIST, "wb") as file:
            file.write(front)
            file.truncate(2 ** 31)
        same_outcome(scene.run("check", LIST, MEDIA, preexec_fn=limit), 1, f"refused 03 at line {number}")


def fronts(scene: Scene) -> None:
    """Long texts are judged by their front as they are by all of it."""
    prepared(scene)
    tail = FIRST_LIST.partition(b"\n")[2] + b"behind the list\n" * 6_000
    for front in (
            b"<ADL>", b"<adl>\t \r", b"\r\n\n  <Adl>", b"\xef\xbb\xbf<ADL>", b"", b" ", b"<ADL", b"<ADL> x", b"<ADL>>", b"x<ADL>",
            b"\r\r\n<ADL>", b" \r <ADL>", b"<ADL>\r\r", b"<\nADL>", b"</ADL>", b"\xef\xbb<ADL>", b"\xef\xbb\xbf\xef\xbb\xbf<ADL>",
            b"\n" * 70_000 + b"<ADL>", b" " * 70_000 + b"<ADX>", b"\0<ADL>", b"(" + b"x" * 70_000):
        text = front + b"\n" + tail
        wanted = model.answer("check", text, MEDIA_FILES)
        scene.put(text)
        got = scene.run("check", LIST, MEDIA)
        same(f"the answer to {front[:20]!r}", (got.status, got.output.decode()), (
            wanted.status, "".join(f"{line}\n" for line in (*wanted.notices, wanted.line))))
        same("the answer from standard input", scene.run("check", "-", MEDIA, given=text), got)


def run(suite: Suite) -> None:
    unlisted = "refused 20 at file none"
    suite.case("no such list", refused("refused 21 at file none.adl", "none.adl", MEDIA, OUT))
    suite.case("no such folder of a list", refused("refused 21 at file none/L.adl", "none/L.adl", MEDIA, OUT))
    suite.case("an empty name of a list", refused("refused 21 at file ", "", MEDIA, OUT))
    suite.case("a list that is a folder", list_is_folder)
    suite.case("a list that is a device", list_is_device)
    suite.case("a long file that is no list", long_no_list)
    suite.case("the front of a long text", fronts)
    suite.case("an empty name of an output that is gone on with", unnamed_output)
    suite.case("a folder of media that is told", told_folder)
    suite.case("a link that leads nowhere", dangling_link)
    suite.case("a list from standard input", from_standard_input)
    suite.case("a long list from standard input", long_standard_input)
    suite.case("standard input is closed", closed_standard_input)
    suite.case("odd standard input", odd_standard_input)
    suite.case("- is standard input", dash_is_no_file)
    suite.case("no such output", refused(unlisted, LIST, MEDIA, "none"))
    suite.case("an empty name of an output", refused("refused 20 at file ", LIST, MEDIA, ""))
    suite.case("an output that is a file", refused(f"refused 20 at file {LIST}", LIST, MEDIA, LIST))
    suite.case("an output that isn't empty", refused(f"refused 20 at file {OUT}", LIST, MEDIA, OUT, out={"x": b""}))
    suite.case("a hidden file in the output", refused(f"refused 20 at file {OUT}", LIST, MEDIA, OUT, out={".x": b"1"}))
    suite.case("an output that is the media", refused(f"refused 20 at file {MEDIA}", LIST, MEDIA, MEDIA))
    suite.case("an output that has a folder", output_with_folder)
    suite.case("a second run into one output", output_again)
    suite.case("the list before the output", refused("refused 21 at file none.adl", "none.adl", MEDIA, "none"))
    suite.case("the output before the media", refused(unlisted, LIST, "nowhere", "none"))
    suite.case("no such media", missing_media)
    suite.case("the places of a check", checked_places)
    suite.case("control characters in names", control_characters)
    suite.case("other ways to name the places", other_places)
    suite.case("a source that is a link", linked_source)
