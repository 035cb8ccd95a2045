"""What render --report and resume --report write: each value by the files themselves, and by samples that are known."""

import hashlib
import json

import model
from clipping import SECOND, layered, stored
from full_disk import disk, make_room
from harness import LIST, MEDIA, OUT, Cases, Scene, Skipped, preloaded, same, same_outcome
from model import BLOCK
from reports import SCHEMA
from tables import VERSION

case = Cases()
run = case.run

REPORT = "render.json"
SOUND = "render.wav"
NOTHING = {"channels": [], "first": None, "peak": 0, "samples": 0}
# Full scale of an exact sum, and a step of a sample of 24 bits.
FULL_SCALE = 2 ** 47
STEP = 2 ** 24
HOUR = 3600 * SECOND


def expect_report(scene: Scene, clipped: dict, depth: int, first: int, frames: int, channels: int, marked=None) -> None:
    """The report is this value of JSON in a line, byte for byte, with the digests of the files that lie there."""
    files = scene.files()
    wanted = {
        "channels": channels, "clipped": clipped, "depth": depth, "first": first, "form": 1, "frames": frames,
        "given_list_sha256": hashlib.sha256((scene.folder / LIST).read_bytes()).hexdigest(), "marked": marked,
        "program": "adlcons", "sha256": hashlib.sha256(files[SOUND]).hexdigest(), "version": VERSION,
    }
    same("the report", files[REPORT].decode(), json.dumps(wanted, separators=(",", ":"), sort_keys=True) + "\n")
    try:
        import jsonschema
    except ImportError:
        raise Skipped("jsonschema isn't installed (Debian package python3-jsonschema)") from None
    jsonschema.Draft202012Validator(json.loads(SCHEMA.read_text())).validate(json.loads(files[REPORT]))


def put_quiet(scene: Scene, frames: int, begin: int = 0) -> None:
    scene.put(layered(1, frames, 1, begin), {"A.wav": stored([place % 7 for place in range(frames)])})


@case("a report of a rendering without a clipped sample")
def of_nothing_clipped(scene: Scene) -> None:
    """The range and the depth that are chosen; what is printed is as without a report, and so is the file."""
    put_quiet(scene, 100, HOUR)
    words = ["render", LIST, MEDIA, OUT, "--depth", "16", "--channels", "3", "--from", model.time_text(HOUR + 10).decode()]
    plain = scene.run(*words)
    sound = scene.files()[SOUND]
    same("whether there is a report", REPORT in scene.files(), False)
    scene.empty_out()
    got = scene.run(*words, "--report")
    same("what is said", got, plain)
    same("the file", scene.files()[SOUND], sound)
    same("the files", sorted(scene.files()), [REPORT, "render.marks", SOUND])
    expect_report(scene, NOTHING, 16, HOUR + 10, 90, 3)


@case("a report has what was clipped")
def of_clipped(scene: Scene) -> None:
    """Which channels, the first one's time, the loudest sum and how many: two of the samples are clipped."""
    samples = [1, 1, 2 ** 22, 5, 2, -2 ** 22 - 1, -2 ** 22, 2 ** 22 - 1]
    scene.put(layered(2, 4, 2, HOUR), {"A.wav": stored(samples, 2)})
    same("the status", scene.run("render", LIST, MEDIA, OUT, "--report").status, 0)
    clipped = {"channels": [1, 2], "first": HOUR + 1, "peak": FULL_SCALE + 2 * STEP, "samples": 2}
    expect_report(scene, clipped, 24, HOUR, 4, 2)


@case("a report of the last of 64 channels")
def of_one_channel(scene: Scene) -> None:
    """The last of 64 channels alone, in a last block that is short."""
    frames = 3 * BLOCK + 9
    samples = [0] * (64 * frames - 1) + [2 ** 22]
    scene.put(layered(2, frames, 64), {"A.wav": stored(samples, 64)})
    same("the status", scene.run("render", LIST, MEDIA, OUT, "--report").status, 0)
    clipped = {"channels": [64], "first": frames - 1, "peak": FULL_SCALE, "samples": 1}
    expect_report(scene, clipped, 24, 0, frames, 64)


@case("a report of a resumed rendering")
def of_resumed(scene: Scene) -> None:
    """A rendering that was stopped: how many blocks were marked, and what was clipped of the others."""
    blocks = 80
    scene.put(layered(2, blocks * BLOCK), {"A.wav": stored([2 ** 22] * (blocks * BLOCK))})
    environment = preloaded(scene)
    for write in (9, 12, 15):
        scene.empty_out()
        scene.run("render", LIST, MEDIA, OUT, "--report", env={**environment, "KILL_WRITE": str(write)})
        marks = scene.files().get("render.marks", b"")
        marked = marks[44:].count(1) if marks[:1] == b"\x01" else 0
        same("the status", scene.run("resume", LIST, MEDIA, OUT, "--report").status, 0)
        rest = blocks - marked
        clipped = {
            "channels": [1], "first": marked * BLOCK, "peak": FULL_SCALE, "samples": rest * BLOCK} if rest else NOTHING
        expect_report(scene, clipped, 24, 0, blocks * BLOCK, 1, marked)


@case("a report of a rendering that is done")
def of_finished(scene: Scene) -> None:
    """A rendering that is done without one: its blocks were all marked. A report that is there is replaced."""
    put_quiet(scene, 5 * BLOCK)
    same("the status", scene.run("render", LIST, MEDIA, OUT).status, 0)
    (scene.folder / OUT / REPORT).write_bytes(b"x" * 5000)
    same_outcome(scene.run("resume", LIST, MEDIA, OUT), 0, f"resumed {5 * BLOCK} frames 5 blocks were marked")
    same("what isn't asked for", scene.files()[REPORT], b"x" * 5000)
    same_outcome(scene.run("resume", LIST, MEDIA, OUT, "--report"), 0, f"resumed {5 * BLOCK} frames 5 blocks were marked")
    expect_report(scene, NOTHING, 24, 0, 5 * BLOCK, 1, 5)


@case("a disk without room for the report")
def on_a_full_disk(scene: Scene) -> None:
    """No room for the report: the rendering is whole, the refusal names the report, and resume writes it."""
    put_quiet(scene, BLOCK)
    same("the status", scene.run("render", LIST, MEDIA, OUT).status, 0)
    sound = scene.files()[SOUND]
    scene.empty_out()
    # The folder and both files of the rendering.
    with disk(scene, files=3):
        got = scene.run("render", LIST, MEDIA, OUT, "--report")
        same("the refusal", (got.status, got.output), (1, b"refused 62 at file render.json\n"))
        same("whether it says that the disk is full", b": the disk is full: " in got.error, True)
        same("the file", scene.files()[SOUND], sound)
        make_room(scene)
        same_outcome(scene.run("resume", LIST, MEDIA, OUT, "--report"), 0, f"resumed {BLOCK} frames 1 blocks were marked")
        expect_report(scene, NOTHING, 24, 0, BLOCK, 1, 1)


@case("no report of what is refused")
def of_what_is_refused(scene: Scene) -> None:
    """A list that is refused has no report, and neither has a time that can't be read."""
    scene.put(layered(1, 4), {})
    same("the status", scene.run("render", LIST, MEDIA, OUT, "--report").status, 1)
    same("the files", scene.files(), {})
    same("the status", scene.run("render", LIST, MEDIA, OUT, "--report", "--from", "x").status, 2)
    same("the files", scene.files(), {})
