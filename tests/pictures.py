"""The picture of a list: its words, and the pixels that a renderer draws of it."""

import shutil
import struct
import subprocess
import xml.etree.ElementTree as ElementTree
import zlib
from pathlib import Path
from typing import NamedTuple

import model
from examples import media_of_examples, text_of
from harness import LIST, MEDIA, Cases, Mismatch, Scene, Skipped, Suite, same, same_bytes, same_files
from model.groups import from_checked, runs_of
from tables import wave

case = Cases()

TIMEOUT = 60
TOP = Path(__file__).resolve().parent.parent
PICTURE = TOP / "docs/dialogue.svg"
SVG = "{http://www.w3.org/2000/svg}"
LEFT, WIDTH = 120, 1030
WHITE = (255, 255, 255)


class Image(NamedTuple):
    """The pixels of a picture, in rows of so many bytes for each: red, green, blue, and opacity where it has one."""
    rows: list
    size: int

    def at(self, across: float, down: float) -> tuple:
        begin = self.size * int(across)
        return tuple(self.rows[int(down)][begin:begin + 3])


def unfiltered(kind: int, row: bytearray, before: bytes, size: int) -> bytes:
    """A row of pixels of so many bytes as it was before its filter (PNG, 9.2)."""
    for at in range(len(row)):
        left, up, corner = row[at - size] if at >= size else 0, before[at], before[at - size] if at >= size else 0
        near = [abs(up - corner), abs(left - corner), abs(left + up - 2 * corner)]
        nearest = (left, up, corner)[near.index(min(near))]
        row[at] = (row[at] + (0, left, up, (left + up) // 2, nearest)[kind]) % 256
    return bytes(row)


def image_of(png: bytes) -> Image:
    """The pixels of a PNG file in colours of 8 bits, with opacity or without."""
    at, data = 8, b""
    while at < len(png):
        length, name = struct.unpack_from(">I4s", png, at)
        if name == b"IHDR":
            width, _, depth, kind = struct.unpack_from(">IIBB", png, at + 8)
            same("the depth, and whether it has colours", (depth, kind in (2, 6)), (8, True))
        elif name == b"IDAT":
            data += png[at + 8:at + 8 + length]
        at += 12 + length
    size = 3 if kind == 2 else 4
    data, rows, before = zlib.decompress(data), [], bytes(size * width)
    for begin in range(0, len(data), size * width + 1):
        before = unfiltered(data[begin], bytearray(data[begin + 1:begin + 1 + size * width]), before, size)
        rows.append(before)
    return Image(rows, size)


def shown(scene: Scene, *words: str) -> bytes:
    """The picture of the scene's list."""
    got = scene.run("show", LIST, MEDIA, *words)
    same("the status", got.status, 0)
    return got.output


def drawn(scene: Scene, picture: bytes) -> Image:
    if not shutil.which("rsvg-convert"):
        raise Skipped("rsvg-convert isn't installed (Debian package librsvg2-bin)")
    (scene.folder / "picture.svg").write_bytes(picture)
    done = subprocess.run(
        ["rsvg-convert", "picture.svg"], cwd=scene.folder, check=True, capture_output=True, timeout=TIMEOUT)
    return image_of(done.stdout)


def lanes_of(picture: bytes) -> dict:
    """How far down the words of each channel stand."""
    texts = ElementTree.fromstring(picture).iter(f"{SVG}text")
    return {int(each.text[8:]): int(each.get("y")) for each in texts if each.text.startswith("channel ")}


def bars_of(picture: bytes) -> dict:
    """How far down the words of each file stand."""
    texts = ElementTree.fromstring(picture).iter(f"{SVG}text")
    return {each.text.split(": ")[0]: int(each.get("y")) for each in texts if " s played" in (each.text or "")}


class Times(NamedTuple):
    """Times over the width of the picture."""
    begin: int
    end: int

    def place(self, time: float) -> float:
        return LEFT + WIDTH * (time - self.begin) / (self.end - self.begin)


def sounding(project, channel: int, time: float) -> int:
    """How many entries sound on a channel at a time."""
    return sum(
        entry.dest_in < time < entry.dest_out and entry.dest.first <= channel <= entry.dest.last
        for entry in project.entries)


def entries_drawn(text: bytes, media: dict):
    """At the middle between any two ends of entries and fades each lane is white where nothing sounds, grey where an
    entry does, and darker where more do."""
    def body(scene: Scene) -> None:
        scene.put(text, media)
        project, _ = model.accepted(text, media)
        picture = shown(scene)
        image, lanes = drawn(scene, picture), lanes_of(picture)
        times = Times(min(each.dest_in for each in project.entries), max(each.dest_out for each in project.entries))
        ends = sorted({
            end for each in project.entries
            for end in (each.dest_in, each.dest_out, each.dest_in + each.rise, each.dest_out - each.fall)})
        shades = {}
        for begin, end in zip(ends, ends[1:]):
            if times.place(end) - times.place(begin) > 8:
                across = (times.place(begin) + times.place(end)) / 2 + 2.5
                for channel, down in lanes.items():
                    count = sounding(project, channel, (begin + end) / 2)
                    shades.setdefault(count, set()).add(image.at(across, down + 15.5))
        same("the colour of silence", shades.pop(0, {WHITE}), {WHITE})
        darkest = [max(shade[0] for shade in shades[count]) for count in sorted(shades)]
        same("the shades by how many entries sound", darkest, sorted(set(darkest), reverse=True))
        if not darkest or darkest[0] > 235:
            raise Mismatch("no entry is drawn")
    return body


def files_drawn(text: bytes, media: dict, handle: int):
    """Along the bar of each file what is played is black, what is kept beside it grey, and the rest white."""
    def body(scene: Scene) -> None:
        scene.put(text, media)
        project, bound = model.accepted(text, media)
        groups = from_checked(project, bound)
        played, kept = (runs_of(groups, bound, each) for each in (0, handle))
        picture = shown(scene, "--handle", str(handle))
        image, bars = drawn(scene, picture), bars_of(picture)
        same("the files", sorted(bars), sorted(bound.sounds))
        for name, sound in bound.sounds.items():
            across = Times(0, sound.frames())
            ends = sorted({0, sound.frames(), *(
                end for run in played + kept if run.name == name for end in (run.first, run.first + run.length))})
            for begin, end in zip(ends, ends[1:]):
                middle = (begin + end) / 2
                if across.place(end) - across.place(begin) > 4:
                    shade = image.at(across.place(middle), bars[name] + 13)[0]
                    told = [
                        any(run.name == name and run.first < middle < run.first + run.length for run in runs)
                        for runs in (played, kept)]
                    same(f"what is drawn of {name} at frame {middle}", (shade == 0, shade < 255), tuple(told))
    return body


def words_told(text: bytes, media: dict):
    """The picture has a role, a title and a description, a title for each entry, and a time code at each mark."""
    def body(scene: Scene) -> None:
        scene.put(text, media)
        project, _ = model.accepted(text, media)
        root = ElementTree.fromstring(shown(scene))
        same("role and width", (root.get("role"), root.get("width")), ("img", "1200"))
        names = root.get("aria-labelledby").split()
        told = [each for each in root if each.get("id") in names]
        same("what tells the picture", [each.tag for each in told], [f"{SVG}title", f"{SVG}desc"])
        same("the title", told[0].text, LIST)
        same("how many entries", told[1].text.split(" entries")[0], str(len(project.entries)))
        titles = [each.text.split(":")[0] for each in root.iter(f"{SVG}title")]
        same("the titles", titles[1:], [f"entry {entry.number}" for entry in project.entries])
    return body


@case("a name in a picture")
def named(scene: Scene) -> None:
    """Names of files are escaped, and what XML can't have is replaced."""
    name = "a<b>&\"'\x01.wav"
    times = [model.time_text(value) for value in (0, 0, 4)]
    text = model.list_text(
        [model.source_line(1, name.replace('"', "%22"), b"_")], [model.entry_line(1, 1, *times)])
    scene.put(text, {name: wave()})
    titles = [each.text for each in ElementTree.fromstring(shown(scene)).iter(f"{SVG}title")]
    same("the name in a title", "a<b>&\"'\ufffd.wav" in titles[1], True)


def refused_picture(scene: Scene, line: str) -> ElementTree.Element:
    """The picture of a list that is refused by this line, which stands on standard error alone."""
    got = scene.run("show", LIST, MEDIA)
    same("the status", got.status, 1)
    same("the refusal on standard error", got.error.decode().splitlines()[0], line)
    return ElementTree.fromstring(got.output)


def faults_in(root: ElementTree.Element) -> list:
    """The titles of the entries with a broken line round them."""
    groups = [each for each in root.iter(f"{SVG}g") if each.get("stroke-dasharray")]
    return [each.find(f"{SVG}title").text.split(":")[0] for each in groups]


def hatched_in(root: ElementTree.Element) -> list:
    """Where what is missing is hatched: its left edge, its width and how far down, in pixels."""
    boxes = [each for each in root.iter(f"{SVG}rect") if each.get("fill") == "url(#missing)"]
    return [(float(each.get("x")), float(each.get("width")), int(each.get("y"))) for each in boxes[:-1]]


@case("a list whose text is refused has no picture")
def refused_text(scene: Scene) -> None:
    """Nothing is drawn of a list whose text is at fault."""
    scene.put(b"no list", {})
    got = scene.run("show", LIST, MEDIA)
    same("status and standard output", (got.status, got.output), (1, b""))
    same("the refusal", got.error.decode().splitlines()[0], "refused 03 at line 1")


@case("the picture of entries at fault")
def refused_entries(scene: Scene) -> None:
    """Entries that play what their file doesn't have are marked, and what is missing is hatched: before the file begins
    and after it ends. One on a channel that its file doesn't have is marked, with nothing missing."""
    def entry(number: int, first: int, begin: int, end: int, source: bytes = b"1") -> bytes:
        return model.entry_line(number, 1, *(model.time_text(each) for each in (first, begin, end)), source=source)

    source = model.source_line(1, "a.wav", model.time_text(100))
    lines = [entry(1, 100, 0, 8), entry(2, 104, 10, 20), entry(3, 97, 20, 28), entry(4, 100, 30, 34, b"2")]
    scene.put(model.list_text([source], lines), {"a.wav": wave(range(8))})
    root = refused_picture(scene, "refused 46 at entry 2")
    same("the entries at fault", faults_in(root), ["entry 2, refused 46", "entry 3, refused 46", "entry 4, refused 44"])
    times, top = Times(0, 34), min(down for _, _, down in hatched_in(root))
    hatched = [(begin, begin + width) for begin, width, _ in hatched_in(root)]
    for got, wanted in zip(hatched, [(14, 20), (20, 23)], strict=True):
        for edge, time in zip(got, wanted):
            same(f"an edge at {time}", abs(edge - times.place(time)) < 0.2, True)
    same("one lane", {down for _, _, down in hatched_in(root)}, {top})
    words = next(each.text for each in root if each.get("id") == "words")
    same("what the description says", words.endswith("; 3 entries are at fault, or their files."), True)


@case("the picture of files at fault")
def refused_files(scene: Scene) -> None:
    """Entries of files that are missing or broken are marked and hatched whole, also by another index of the file."""
    def entry(number: int, index: int, begin: int) -> bytes:
        return model.entry_line(number, index, *(model.time_text(each) for each in (0, begin, begin + 4)))

    names = ["a.wav", "gone.wav", "gone.wav", "b.wav"]
    sources = [model.source_line(number, name, b"_") for number, name in enumerate(names, 1)]
    lines = [entry(number, number, 10 * number) for number in range(1, 5)]
    scene.put(model.list_text(sources, lines), {"a.wav": wave(range(8)), "b.wav": b"no sound"})
    root = refused_picture(scene, "refused 21 at index 2 file gone.wav")
    same("the entries at fault", faults_in(root), ["entry 2, refused 21", "entry 3, refused 21", "entry 4, refused 23"])
    times = Times(10, 44)
    for (begin, width, _), time in zip(hatched_in(root), (20, 30, 40), strict=True):
        same(f"the edges from {time} on", abs(begin - times.place(time)) + abs(width - 4 * WIDTH / 34) < 0.3, True)


# A part of the timeline


def parted(scene: Scene) -> None:
    """A list of three entries that go on from one another, of which the first one rises and the last one falls."""
    def entry(number: int, begin: int, end: int) -> bytes:
        return model.entry_line(number, 1, *(model.time_text(each) for each in (begin, begin, end)))

    fades = (b"(Infade) 00.00.00.01/0000 LIN _ _ _", b"(Outfade) 00.00.00.01/0000 LIN _ _ _")
    lines = [entry(1, 0, 4800), fades[0], entry(2, 4800, 7200), entry(3, 7200, 9600), fades[1]]
    scene.put(model.list_text([model.source_line(1, "a.wav", b"_")], lines), {"a.wav": wave([1] * 9600)})


def times_of(begin: int, end: int) -> list:
    return ["--from", model.time_text(begin).decode(), "--to", model.time_text(end).decode()]


def shapes_in(root: ElementTree.Element) -> list:
    """The corners of each entry's shape."""
    return [
        [tuple(map(float, corner.split(","))) for corner in each.get("points").split()]
        for each in root.iter(f"{SVG}polygon")]


def titles_in(root: ElementTree.Element) -> list:
    return [each.text.split(":")[0] for each in root.iter(f"{SVG}title")][1:]


@case("a part of a picture, cut at its edges")
def part_cut(scene: Scene) -> None:
    """What reaches into the part is cut at its edges, as high as its fade is there."""
    parted(scene)
    root = ElementTree.fromstring(shown(scene, *times_of(960, 8640)))
    same("the entries", titles_in(root), ["entry 1", "entry 2", "entry 3"])
    first, second, third = shapes_in(root)
    times, (top, low) = Times(960, 8640), (58, 102)
    half, end = (top + low) / 2, LEFT + WIDTH
    wanted = [
        [(LEFT, low), (LEFT, half), (times.place(1920), top), (times.place(4800), top), (times.place(4800), top),
         (times.place(4800), low)],
        [(times.place(4800), low), (times.place(4800), top), (times.place(7200), top), (times.place(7200), low)],
        [(times.place(7200), low), (times.place(7200), top), (times.place(7200), top), (times.place(7680), top),
         (end, half), (end, low)]]
    for got, corners in zip((first, second, third), wanted, strict=True):
        for one, other in zip(got, corners, strict=True):
            same(f"a corner near {other}", max(abs(one[0] - other[0]), abs(one[1] - other[1])) < 0.2, True)
    ruler = [each for each in root.iter(f"{SVG}text") if (each.text or "").count(".") == 3 and each.get("y") == "46"]
    for mark in ruler:
        hours, minutes, seconds, frames = map(int, mark.text.split("."))
        time = ((hours * 60 + minutes) * 60 + seconds) * 48_000 + frames * 1920
        same(f"the mark {mark.text}", abs(float(mark.get("x")) - times.place(time)) < 0.2, True)
    same("how many marks", len(ruler), 4)


@case("what lies outside a part of a picture")
def part_left_out(scene: Scene) -> None:
    """Entries outside of the part aren't drawn, nor those that only meet its edge; one time may be chosen alone."""
    parted(scene)
    for words, drawn_entries in (
        (times_of(4800, 7200), ["entry 2"]), (times_of(4799, 7200), ["entry 1", "entry 2"]),
        (times_of(4800, 7201), ["entry 2", "entry 3"]), (times_of(7200, 0)[:2], ["entry 3"]),
        (times_of(0, 4800)[2:], ["entry 1"]), (times_of(9600, 20_000), []),
    ):
        root = ElementTree.fromstring(shown(scene, *words))
        same(f"the entries from and to {words}", titles_in(root), drawn_entries)
        words_of_picture = next(each.text for each in root if each.get("id") == "words")
        same("the description", words_of_picture.split(" entries")[0], f"{len(drawn_entries)} of 3")
        for corner in sum(shapes_in(root), []):
            same(f"whether {corner} lies in the picture", LEFT <= corner[0] <= LEFT + WIDTH, True)


@case("a part of a picture that is empty, or of bad times")
def part_refused(scene: Scene) -> None:
    """An empty part is 58 and a bad time a mistake, in the words of a rendering, and neither has a picture."""
    parted(scene)
    for words in (times_of(4800, 4800), times_of(4801, 4800), times_of(9600, 0)[:2]):
        got, rendered = (scene.run(*command, *words) for command in (
            ("show", LIST, MEDIA), ("render", LIST, MEDIA, "OUT")))
        same("status and standard output", (got.status, got.output), (1, b""))
        same("the refusal", got.error, b"refused 58\n" + rendered.error)
    for words in (["--from", "x"], ["--to", "00.00.00.25/0000"], ["--to", "x", "--from", "y"]):
        got, rendered = (scene.run(*command, *words) for command in (
            ("show", LIST, MEDIA), ("render", LIST, MEDIA, "OUT")))
        same("the mistake", got, rendered)
        same("status and words", (got.status, got.error.splitlines()[0]), (2, f"bad time: {words[-2]}".encode()))


@case("a part of a picture of entries at fault")
def part_at_fault(scene: Scene) -> None:
    """What is missing of an entry at fault is hatched as far as it lies in the part."""
    source = model.source_line(1, "a.wav", model.time_text(100))
    lines = [
        model.entry_line(number, 1, *(model.time_text(each) for each in times))
        for number, times in ((1, (100, 0, 8)), (2, (104, 10, 20)))]
    scene.put(model.list_text([source], lines), {"a.wav": wave(range(8))})
    for (begin, end), wanted in (((16, 18), [(16, 18)]), ((12, 16), [(14, 16)]), ((0, 9), []), ((10, 14), [])):
        got = scene.run("show", LIST, MEDIA, *times_of(begin, end))
        same("status and refusal", (got.status, got.error.splitlines()[0]), (1, b"refused 46 at entry 2"))
        hatched, times = hatched_in(ElementTree.fromstring(got.output)), Times(begin, end)
        for (edge, width, _), (first, last) in zip(hatched, wanted, strict=True):
            same("its left edge", abs(edge - times.place(first)) < 0.2, True)
            same("its right edge", abs(edge + width - times.place(last)) < 0.3, True)
    got = scene.run("show", LIST, MEDIA, *times_of(9, 9))
    same("status and standard output of an empty part", (got.status, got.output), (1, b""))


def kept_picture(all_media: dict):
    """README's picture is what the program prints of the example."""
    def body(scene: Scene) -> None:
        for name, data in all_media["dialogue"].items():
            (scene.folder / MEDIA / name).write_bytes(data)
        (scene.folder / "dialogue.adl").write_bytes(text_of("dialogue"))
        got = scene.run("show", "dialogue.adl", MEDIA, "--handle", "4800")
        same_bytes("docs/dialogue.svg", PICTURE.read_bytes(), got.output)
        same("README shows it", "(docs/dialogue.svg)" in (TOP / "README.md").read_text(), True)
        same_files(scene.files(), {})
    return body


def run(suite: Suite) -> None:
    all_media = media_of_examples()
    for example in ("dialogue", "music", "exported"):
        text, media = text_of(example), all_media[example]
        suite.case(f"the words of the picture of {example}", words_told(text, media))
        suite.case(f"the entries in the picture of {example}", entries_drawn(text, media))
        suite.case(f"the files in the picture of {example}", files_drawn(text, media, 4800))
    case.run(suite)
    suite.case("README's picture", kept_picture(all_media))
