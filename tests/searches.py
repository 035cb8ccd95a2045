"""`--search`: media that lie in folders below MEDIA are found by their names."""

import os

import model
from harness import LIST, MEDIA, Mismatch, Scene, Suite, same, same_files, words_of
from tables import FIRST_LIST, wave

HERE = {"A.wav": wave()}
OPTIONS = model.Options(handle=0, depth=16)
REFUSED = "refused 21 at index 1 file A.wav\n"


def put_below(scene: Scene, *paths: str, data: bytes = wave()) -> None:
    """The first list over a folder of media in which the file lies only under these paths."""
    scene.put(FIRST_LIST)
    for path in paths:
        (scene.folder / MEDIA / path).parent.mkdir(parents=True, exist_ok=True)
        (scene.folder / MEDIA / path).write_bytes(data)


def said(scene: Scene, *words: str) -> tuple:
    got = scene.run(*words)
    return got.status, got.output.decode(), got.error.decode()


def expect_words(told: str, *wanted: str) -> None:
    for each in wanted:
        if each not in told:
            raise Mismatch(f"standard error lacks {each!r}: {told!r}")


def found(scene: Scene) -> None:
    """Every command does over a file below what it does over one that lies right inside, and says where it was found."""
    put_below(scene, "Edits/Day 1/A.wav")
    for command in ("check", "consolidate", "render"):
        status, _, _ = said(scene, *words_of(command, OPTIONS))
        same(f"the status of {command} without the search", status, 1)
        scene.empty_out()
        status, output, error = said(scene, *words_of(command, OPTIONS), "--search")
        wanted = model.answer(command, FIRST_LIST, HERE, OPTIONS)
        same(f"what {command} prints", (status, output), (0, wanted.output()))
        same_files(scene.files(), wanted.files)
        expect_words(error, "A.wav is taken from Edits/Day 1/A.wav\n")
        if command != "render":
            scene.empty_out()
    status, output, _ = said(scene, *words_of("resume", OPTIONS), "--search")
    same("what resume prints", (status, output), (0, "resumed 4 frames 1 blocks were marked\n"))
    status, output, _ = said(scene, "show", LIST, MEDIA, "--search")
    same("the picture", (status, output.startswith("<svg"), output.endswith("</svg>\n")), (0, True, True))


def right_inside(scene: Scene) -> None:
    """A file right inside is the source, whatever lies below, and then nothing is said of it."""
    put_below(scene, "A.wav")
    put_below(scene, "old/A.wav", "older/A.wav", data=wave([1]))
    status, output, error = said(scene, *words_of("render", OPTIONS), "--search")
    same("what render prints", (status, output), (0, model.answer("render", FIRST_LIST, HERE, OPTIONS).output()))
    same_files(scene.files(), model.answer("render", FIRST_LIST, HERE, OPTIONS).files)
    same("what is said of a folder", "taken from" in error, False)


def twice(scene: Scene) -> None:
    """A name that lies twice below isn't taken, and both paths are said."""
    put_below(scene, "one/A.wav", "two/A.wav")
    for command in ("check", "consolidate", "render"):
        status, output, error = said(scene, *words_of(command, OPTIONS), "--search")
        same(f"what {command} prints", (status, output), (1, REFUSED))
        expect_words(error, "one/A.wav", "two/A.wav")
        same_files(scene.files(), {})


def nowhere(scene: Scene) -> None:
    """What has no file of the name isn't found: another name, a folder, a broken link."""
    put_below(scene, "Edits/B.wav", "Edits/a.wav")
    (scene.folder / MEDIA / "Edits" / "sub" / "A.wav").mkdir(parents=True)
    os.symlink("none", scene.folder / MEDIA / "Edits" / "link")
    same("what check prints", said(scene, *words_of("check"), "--search")[:2], (1, REFUSED))


def links(scene: Scene) -> None:
    """No link is followed below: so a loop of links ends, and no source is an output under another name."""
    put_below(scene, "Edits/take.wav")
    os.symlink("..", scene.folder / MEDIA / "Edits" / "up")
    outside = scene.folder / "outside"
    outside.mkdir()
    (outside / "A.wav").write_bytes(wave())
    os.symlink(outside, scene.folder / MEDIA / "away")
    same("behind a link", said(scene, *words_of("check"), "--search")[:2], (1, REFUSED))
    os.symlink("take.wav", scene.folder / MEDIA / "Edits" / "A.wav")
    same("a link to a file", said(scene, *words_of("check"), "--search")[:2], (1, REFUSED))


def many(scene: Scene) -> None:
    """Two thousand files in a hundred folders, in one walk."""
    count = 2000
    lines = [model.source_line(number, f"T{number}.wav", b"00.00.00.00/0000") for number in range(1, count + 1)]
    entries = [
        model.entry_line(number, number, b"00.00.00.00/0000", b"00.00.00.00/0000", b"00.00.00.00/0004")
        for number in range(1, count + 1)]
    text = model.list_text(lines, entries)
    scene.put(text)
    for number in range(1, count + 1):
        folder = scene.folder / MEDIA / f"folder {number % 100}"
        folder.mkdir(exist_ok=True)
        (folder / f"T{number}.wav").write_bytes(wave())
    status, output, error = said(scene, *words_of("check"), "--search")
    same("what check prints", (status, output), (0, f"accepted {count} entries {count} indexes\n"))
    same("how many are told", error.count("is taken from"), 20)
    expect_words(error, f"and {count - 20} more media from folders below\n")


def hinted(scene: Scene) -> None:
    """Without the search a file that lies in a folder right below is told, with the option that takes it."""
    put_below(scene, "Edits/A.wav")
    expect_words(said(scene, *words_of("check"))[2], "found in Edits/; add --search")


def run(suite: Suite) -> None:
    for name, body in {
        "media below are found": found, "a file right inside comes first": right_inside, "a name that lies twice": twice,
        "nothing of the name below": nowhere, "links below": links, "many media below": many,
        "the hint to search": hinted,
    }.items():
        suite.case(name, body)
