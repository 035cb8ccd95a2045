"""The examples, byte for byte, and what their pages say of them."""

import subprocess
import sys
import tempfile
from functools import lru_cache
from pathlib import Path

import model
from harness import LIST, MEDIA, TIMEOUT, Mismatch, Scene, Suite, expect_answer, same, same_bytes, same_files

FOLDER = Path(__file__).resolve().parent.parent / "examples"

# What the words of the examples' pages choose.
EXAMPLES = {
    "dialogue": model.Options(handle=4800), "music": model.Options(handle=0), "exported": model.STANDARD,
    "overrun": model.STANDARD,
}
ENDS = (2 ** 23 - 1, -2 ** 23)


def made_media(target: Path) -> dict:
    """The files that the script makes, by example and name."""
    subprocess.run([sys.executable, FOLDER / "make_media", target], check=True, timeout=TIMEOUT)
    return {
        example: {path.name: path.read_bytes() for path in (target / example / "media").iterdir()}
        for example in EXAMPLES
    }


@lru_cache
def media_of_examples() -> dict:
    """The same, made once."""
    with tempfile.TemporaryDirectory() as folder:
        return made_media(Path(folder))


def check_page(example: str, command: str, answer: model.Answer) -> None:
    """The example's page has the command, the printed lines, and each written file with its length."""
    page = (FOLDER / example / "README.txt").read_text().splitlines()
    places = {"check": "", "render": " RENDERED", "consolidate": " CONSOLIDATED"}
    words = [f"adlcons {command} {example}.adl media{places[command]}", *EXAMPLES[example].words(command)]
    sizes = [f"{name} {len(data)} bytes" for name, data in answer.files.items()]
    told = answer.clipped.splitlines()
    for line in (" ".join(words), *answer.notices, answer.line, *told, *sizes, *clipped_lines(answer)):
        if f"    {line}" not in page:
            raise Mismatch(f"examples/{example}/README.txt has no line {line!r}")


def clipped_lines(answer: model.Answer) -> list:
    """How often the ends of 24 bits stand in a rendering, where they do."""
    if "render.wav" not in answer.files:
        return []
    data = model.read_sound(answer.files["render.wav"]).data
    samples = [int.from_bytes(data[at:at + 3], "little", signed=True) for at in range(0, len(data), 3)]
    return [f"{samples.count(end)} samples at {end}" for end in ENDS if end in samples]


def text_of(example: str) -> bytes:
    return (FOLDER / example / f"{example}.adl").read_bytes()


def runs(example: str, command: str, all_media: dict, wanted: model.Answer):
    def body(scene: Scene) -> None:
        scene.put(text_of(example), all_media[example])
        check_page(example, command, wanted)
        expect_answer(scene, command, wanted, EXAMPLES[example])
    return body


def same_each_time(all_media: dict):
    def body(scene: Scene) -> None:
        again = made_media(scene.folder)
        for example in EXAMPLES:
            same_files(again[example], all_media[example])
    return body


def renders_the_same(example: str, all_media: dict, wanted: model.Answer):
    """What is consolidated renders to the bytes of the example."""
    def body(scene: Scene) -> None:
        scene.put(text_of(example), all_media[example])
        (scene.folder / "rendered").mkdir()
        same("the status", scene.run("consolidate", LIST, MEDIA, "OUT").status, 0)
        same("the status", scene.run("render", "OUT/consolidated.adl", "OUT", "rendered").status, 0)
        same_bytes("render.wav", scene.files("rendered")["render.wav"], wanted.files["render.wav"])
    return body


def as_exported(_: Scene) -> None:
    """The exported list has what its page says of it: a byte order mark, CR LF alone, tabs, names with spaces."""
    text = text_of("exported")
    found = (
        text.startswith(b"\xef\xbb\xbf"), text.count(b"\n") == text.count(b"\r\n"), b"\t" in text, b"%20" in text,
        b"Door slam (2).wav" in text)
    same("mark, line ends, tabs, and both ways to spell a space", found, (True,) * 5)


def overrun_mended(all_media: dict):
    """With the end that its page names the list is accepted."""
    def body(scene: Scene) -> None:
        text = text_of("overrun").replace(b"01:00:00:20/0001", b"01:00:00:20/0000")
        scene.put(text, all_media["overrun"])
        wanted = model.answer("render", text, all_media["overrun"])
        same("the line of the model", wanted.line, "rendered 38400 frames 1 channels")
        expect_answer(scene, "render", wanted)
    return body


def run(suite: Suite) -> None:
    all_media = media_of_examples()
    for example in EXAMPLES:
        for command in model.COMMANDS:
            wanted = model.answer(command, text_of(example), all_media[example], EXAMPLES[example])
            suite.case(f"example {example}: {command}", runs(example, command, all_media, wanted))
            if command == "render" and wanted.status == 0:
                suite.case(f"the consolidated {example} renders the same", renders_the_same(example, all_media, wanted))
    suite.case("the examples' media are the same on each run", same_each_time(all_media))
    suite.case("the exported list", as_exported)
    suite.case("the overrun, mended", overrun_mended(all_media))
