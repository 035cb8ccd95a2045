"""Files past 4 GB: they are written as RF64 (EBU Tech 3306), and other programs read their length and last frame alike.

The long source is a hole but for its last second. Each output is taken away before the next one is written.
"""

import ctypes
import json
import os
import re
import resource
import shutil
import struct
import subprocess
from functools import partial
from pathlib import Path

import model
from harness import MEDIA, OUT, TIMEOUT, Cases, Scene, Skipped, same, same_bytes, same_outcome, words_of
from peers.tools import PACKAGES, output_of, text_of
from tables import format_chunk, rf64_file, riff_chunk, wave

case = Cases()
run = case.run

MIDNIGHT = b"00.00.00.00/0000"
MEMORY_LIMIT = 256 * 2 ** 20

# The most frames of one channel and 16 bits that RIFF can tell.
LONGEST_AT_16_BITS = 2_147_483_306

# How a mono file of one frame more begins: RF64 with its `ds64`, then `bext`.
RF64_HEAD = bytes.fromhex(
    "52463634 ffffffff 57415645 64733634 1c000000 0000000001000000 56fdffff00000000 abfeff7f00000000 00000000"
    "62657874 5a020000")

# Where the samples of a written file without CodingHistory begin.
HEAD_SIZE = 690

# The long source: stereo, 32 bits, 6 GB of silence and a second of sound.
FRAME = 8
SILENT = 750_000_000
SOUND = 48_000
FRAMES = SILENT + SOUND
BLOCK = 2 ** 24


def want_room(scene: Scene, size: int) -> None:
    if shutil.disk_usage(scene.folder).free < 3 * size // 2:
        raise Skipped("the disk has no room for a file past 4 GB")


def run_limited(scene: Scene, command: str, options: model.Options, line: str) -> None:
    """The command prints this line, in little memory."""
    limit = partial(resource.setrlimit, resource.RLIMIT_AS, (MEMORY_LIMIT, MEMORY_LIMIT))
    same_outcome(scene.run(*words_of(command, options), preexec_fn=limit, timeout=TIMEOUT), 0, line)


@case("a file one frame past RIFF")
def one_frame_past_riff(scene: Scene) -> None:
    """One frame more than the size field of RIFF can tell is written as RF64, byte for byte as its table has it."""
    frames = LONGEST_AT_16_BITS + 1
    want_room(scene, 2 * frames)
    entries = [
        model.entry_line(number, 1, MIDNIGHT, model.time_text(begin), model.time_text(begin + 4))
        for number, begin in ((1, 0), (2, frames - 4))
    ]
    scene.put(model.list_text([model.source_line(1, "A.wav", MIDNIGHT)], entries), {"A.wav": wave()})
    run_limited(scene, "render", model.Options(depth=16), f"rendered {frames} frames 1 channels")
    with open(scene.folder / OUT / "render.wav", "rb") as file:
        head = file.read(HEAD_SIZE)
        same("the sound's first bytes", file.read(10), bytes.fromhex("e803 18fc ff7f 0080 0000"))
        file.seek(-10, os.SEEK_END)
        same("its last bytes", file.read(), bytes.fromhex("0000 e803 18fc ff7f 0080"))
        same("the length", file.tell(), HEAD_SIZE + 2 * frames)
    same_bytes("the head", head[:56], RF64_HEAD)
    same_bytes("the head of the samples", head[682:], bytes.fromhex("64617461 ffffffff"))


@case("a fade that takes a day")
def day_of_fade(scene: Scene) -> None:
    """An in-fade over all of the day: its last sample is one step from full scale at 32 bits."""
    entry = model.entry_line(1, 1, MIDNIGHT, MIDNIGHT, model.time_text(model.DAY))
    fade = model.fade_line(b"Infade", model.DAY)
    scene.put(model.list_text([model.source_line(1, "A.wav", MIDNIGHT)], [entry, fade]))
    told = riff_chunk(b"ds64", struct.pack("<QQQI", 0, 2 * model.DAY, model.DAY, 0))
    with open(scene.folder / MEDIA / "A.wav", "wb") as file:
        file.write(rf64_file(told, format_chunk(), b"data" + b"\xff" * 4))
        file.seek(2 * model.DAY - 2, os.SEEK_CUR)
        file.write(struct.pack("<h", -32_768))
    last = model.time_text(model.DAY - 1).decode()
    run_limited(scene, "render", model.Options(depth=32, begin=last), "rendered 1 frames 1 channels")
    # -2^47 by (day - 1) / day, rounded down and then to steps of 2^16
    sample = (scene.folder / OUT / "render.wav").read_bytes()[HEAD_SIZE:]
    same_bytes("the sample", sample, struct.pack("<i", -2_147_483_647))


def last_second() -> bytes:
    """Frames that differ from one another, over the whole range of 32 bits."""
    return b"".join(
        struct.pack("<ii", place * 7919 % 65_536 * 65_536 - 2 ** 31, -(place * 30_011 % 65_536 * 32_768))
        for place in range(SOUND)
    )


def sizes(form: int) -> bytes:
    """The contents of `ds64` of a file whose form has this size."""
    return struct.pack("<QQQI", form, FRAME * FRAMES, FRAMES, 0)


def put_long_source(scene: Scene) -> None:
    """A list that plays all of the long source, and that source."""
    entry = model.entry_line(1, 1, MIDNIGHT, MIDNIGHT, model.time_text(FRAMES), b"1~2", b"1~2")
    scene.put(model.list_text([model.source_line(1, "A.wav", MIDNIGHT)], [entry]))
    head = rf64_file(riff_chunk(b"ds64", sizes(0)), format_chunk(channels=2, bits=32), b"data" + b"\xff" * 4)
    with open(scene.folder / MEDIA / "A.wav", "wb") as file:
        file.write(head)
        file.seek(FRAME * SILENT, os.SEEK_CUR)
        file.write(last_second())


def expect_long_file(path: Path) -> None:
    """RF64 with its sizes, the silence and the last second."""
    length = HEAD_SIZE + FRAME * FRAMES
    same("the length of the file", path.stat().st_size, length)
    with open(path, "rb") as file:
        head = file.read(HEAD_SIZE)
        same_bytes("its head", head[:48], b"RF64" + b"\xff" * 4 + b"WAVE" + riff_chunk(b"ds64", sizes(length - 8)))
        same_bytes("the head of its samples", head[-8:], b"data" + b"\xff" * 4)
        nothing = bytes(BLOCK)
        for at in range(0, FRAME * SILENT, BLOCK):
            size = min(BLOCK, FRAME * SILENT - at)
            same(f"whether the {size} bytes from {at} on are silent", file.read(size) == nothing[:size], True)
        same_bytes("the last second", file.read(), last_second())


def read_by_sox(path: Path) -> tuple:
    """In one run, since it goes through a long file as it opens it."""
    form = ("-t", "raw", "-e", "signed-integer", "-b", "32", "-L", "-")
    words = ("sox", "-V3", path, *form, "trim", f"{FRAMES - 1}s")
    done = subprocess.run(words, stdin=subprocess.DEVNULL, capture_output=True, timeout=TIMEOUT)
    return int(re.search(rb"= (\d+) samples", done.stderr)[1]), done.stdout


def read_by_ffmpeg(path: Path) -> tuple:
    length = text_of("ffprobe", "-v", "error", "-show_entries", "stream=duration_ts", "-of", "csv=p=0", path)
    begin = f"{(FRAMES - 48) / 48_000:.3f}"
    last = output_of("ffmpeg", "-v", "error", "-ss", begin, "-i", path, "-f", "s32le", "-c:a", "pcm_s32le", "-")
    return int(length), last[-FRAME:]


class SoundFileInfo(ctypes.Structure):
    """`SF_INFO` of libsndfile."""
    _fields_ = [("frames", ctypes.c_int64)] + [
        (name, ctypes.c_int) for name in ("rate", "channels", "format", "sections", "seekable")]


def read_by_sndfile(path: Path) -> tuple:
    """The last frame by the library of sndfile-info, which itself shows no samples."""
    length = re.findall(r"^Frames +: (\d+)$", text_of("sndfile-info", path), re.MULTILINE)[-1]
    library = ctypes.CDLL("libsndfile.so.1")
    library.sf_open.restype = ctypes.c_void_p
    info, frame = SoundFileInfo(), (ctypes.c_int * 2)()
    file = ctypes.c_void_p(library.sf_open(bytes(path), 0x10, ctypes.byref(info)))
    library.sf_seek(file, ctypes.c_int64(FRAMES - 1), os.SEEK_SET)
    library.sf_readf_int(file, frame, ctypes.c_int64(1))
    library.sf_close(file)
    return int(length), bytes(frame)


def read_by_mediainfo(path: Path) -> tuple:
    """It reads no samples."""
    tracks = json.loads(text_of("mediainfo", "--Output=JSON", path))["media"]["track"]
    return int(next(track["SamplingCount"] for track in tracks if track["@type"] == "Audio")), None


# The frames and the last frame by other programs.
PEERS = {
    "sox": read_by_sox, "ffprobe": read_by_ffmpeg, "sndfile-info": read_by_sndfile, "mediainfo": read_by_mediainfo,
}


def expect_read_alike(path: Path) -> None:
    """Each program that is installed reads the same length and the same last frame."""
    last = last_second()[-FRAME:]
    for tool, read in PEERS.items():
        if shutil.which(tool):
            same(f"the frames and the last frame by {tool}", read(path), (FRAMES, None if tool == "mediainfo" else last))
    missing = [f"{tool} (Debian package {PACKAGES[tool]})" for tool in PEERS if not shutil.which(tool)]
    if missing:
        raise Skipped(f"not all of its peers are installed: {', '.join(missing)}")


@case("a rendering of 6 GB")
def rendered(scene: Scene) -> None:
    """A rendering of 6 GB, and how other programs read it."""
    want_room(scene, FRAME * FRAMES)
    put_long_source(scene)
    run_limited(scene, "render", model.Options(depth=32), f"rendered {FRAMES} frames 2 channels")
    path = scene.folder / OUT / "render.wav"
    expect_long_file(path)
    expect_read_alike(path)


@case("a consolidation of 6 GB")
def consolidated(scene: Scene) -> None:
    """One medium of 6 GB, the check of the written list, and how other programs read it."""
    want_room(scene, FRAME * FRAMES)
    put_long_source(scene)
    run_limited(scene, "consolidate", model.STANDARD, "written 1 media 1 entries")
    checked = scene.run("check", f"{OUT}/consolidated.adl", OUT)
    same_outcome(checked, 0, "accepted 1 entries 1 indexes")
    path = scene.folder / OUT / "M00001.wav"
    expect_long_file(path)
    expect_read_alike(path)
