"""Other programs read render.wav and each medium: rate, channels, depth, frames, time reference, texts, samples."""

import json
import re
from pathlib import Path
from typing import NamedTuple

import model
from harness import OUT, Scene, Suite, same, same_answer, same_bytes, words_of
from tables import bext_chunk, data_chunk, format_chunk, riff_file

from .tools import case, output_of, text_of

RATE = 48_000
FRAMES_A_MILLISECOND = 48
DESCRIPTION = "Take one"
HISTORY = "A=PCM,F=48000,W=24,M=stereo"

# What is written of the project: media, and renderings at each depth with one to all channels.
WRITTEN = (
    ("consolidate", model.Options(handle=100)), ("render", model.Options(depth=16)),
    ("render", model.Options(depth=24, channels=1)), ("render", model.Options(depth=32, channels=6)),
    ("render", model.Options(depth=24, channels=64)),
)


class File(NamedTuple):
    """A sound file that was written, and what is to be read of it."""
    path: Path
    sound: model.Sound

    def name(self) -> str:
        return f"{self.path.name} of {self.sound.channels} channels and {self.sound.depth} bits"

    def has_texts(self) -> bool:
        return any(self.sound.text)


def numbers(frames: int, channels: int, depth: int) -> list:
    unit = 2 ** (depth - 16)
    return [
        ((place * 7919 + channel * 30_011) % 65_536 - 32_768) * unit + place % unit
        for place in range(frames) for channel in range(channels)
    ]


def project() -> tuple:
    """Cuts of a stereo and a mono file that overlap and leave a gap, some with fades, at full loudness."""
    bext = bext_chunk(7, DESCRIPTION.encode(), HISTORY.encode() + b"\r\n")
    media = {
        "A.wav": riff_file(bext, format_chunk(channels=2, bits=24), data_chunk(numbers(5000, 2, 24), 24)),
        "B.wav": riff_file(format_chunk(), data_chunk(numbers(3000, 1, 16))),
    }
    source_lines = [
        model.source_line(1, "A.wav", b"00.00.00.00/0000"), model.source_line(2, "B.wav", b"23.00.00.00/0000"),
    ]
    entry_lines = [
        model.entry_line(1, 1, b"00.00.00.00/0000", b"12.00.00.00/0000", b"12.00.00.01/0080", b"1~2", b"1~2"),
        model.fade_line(b"Outfade", 500),
        model.entry_line(2, 2, b"23.00.00.00/1000", b"12.00.00.00/1500", b"12.00.00.01/0979"),
        model.fade_line(b"Infade", 500),
        model.entry_line(3, 1, b"00.00.00.02/0001", b"12.00.00.01/1200", b"12.00.00.01/1201", b"2", b"4"),
    ]
    return model.list_text(source_lines, entry_lines), media


def each_file(check):
    """Writes the project in each way, and checks each sound file that comes of it."""
    def body(scene: Scene) -> None:
        text, media = project()
        scene.put(text, media)
        for command, options in WRITTEN:
            wanted = model.answer(command, text, media, options)
            same_answer(scene.run(*words_of(command, options)), wanted)
            for name, data in wanted.files.items():
                if name.endswith(".wav"):
                    check(File(scene.folder / OUT / name, model.read_sound(data)))
            scene.empty_out()
    return body


def soxi_reads(file: File) -> None:
    got = {option: text_of("soxi", f"-{option}", file.path).strip() for option in "trcbseD"}
    sound = file.sound
    wanted = {
        "t": "wav", "r": "48000", "c": str(sound.channels), "b": str(sound.depth), "s": str(sound.frames()),
        "e": "Signed Integer PCM", "D": f"{sound.frames() / RATE:.6f}",
    }
    same(f"what soxi reads of {file.name()}", got, wanted)


def sox_plays(file: File) -> None:
    form = ["-t", "raw", "-e", "signed-integer", "-b", str(file.sound.depth), "-L", "-"]
    same_bytes(f"the samples of {file.name()} by sox", output_of("sox", "-D", file.path, *form), file.sound.data)


def ffprobe_reads(file: File) -> None:
    sound = file.sound
    fields = "stream=codec_name,sample_rate,channels,bits_per_sample,duration_ts:format_tags"
    found = json.loads(text_of("ffprobe", "-v", "error", "-show_entries", fields, "-of", "json", file.path))
    wanted = {
        "codec_name": f"pcm_s{sound.depth}le", "sample_rate": "48000", "channels": sound.channels,
        "bits_per_sample": sound.depth, "duration_ts": sound.frames(),
    }
    same(f"the streams that ffprobe reads of {file.name()}", found["streams"], [wanted])
    tags = found["format"]["tags"]
    same("the time reference by ffprobe", int(tags["time_reference"]), sound.time_reference)
    if file.has_texts():
        texts = tags["comment"], tags["coding_history"].strip()
        same("the texts by ffprobe", texts, (DESCRIPTION, HISTORY))


def ffmpeg_plays(file: File) -> None:
    codec = f"s{file.sound.depth}le"
    got = output_of("ffmpeg", "-v", "error", "-i", file.path, "-f", codec, "-c:a", f"pcm_{codec}", "-")
    same_bytes(f"the samples of {file.name()} by ffmpeg", got, file.sound.data)


def field(text: str, name: str) -> int:
    """The last number behind this name and a colon."""
    return int(re.findall(rf"^ *{name} *: *(0x[0-9a-f]+|\d+)", text, re.MULTILINE)[-1], 0)


def sndfile_info_reads(file: File) -> None:
    sound = file.sound
    text = text_of("sndfile-info", file.path)
    got = [field(text, name) for name in ("Sample Rate", "Frames", "Channels", "Bit Width")]
    same(f"what sndfile-info reads of {file.name()}", got, [RATE, sound.frames(), sound.channels, sound.depth])
    text = text_of("sndfile-info", "--broadcast", file.path)
    got = [field(text, name) for name in ("Time ref", "BWF version")]
    same(f"the bext that sndfile-info reads of {file.name()}", got, [sound.time_reference, 1])
    if file.has_texts():
        same("its texts", [part in text for part in (DESCRIPTION, HISTORY)], [True, True])


def sndfile_convert_reads(file: File) -> None:
    target = file.path.parent.parent / "converted.wav"
    output_of("sndfile-convert", f"-pcm{file.sound.depth}", file.path, target)
    got = model.read_sound(target.read_bytes()).data
    same_bytes(f"the samples of {file.name()} by sndfile-convert", got, file.sound.data)


def mediainfo_reads(file: File) -> None:
    """It tells no length of a file that is shorter than a millisecond."""
    sound = file.sound
    tracks = json.loads(text_of("mediainfo", "--Output=JSON", file.path))["media"]["track"]
    audio, = (track for track in tracks if track["@type"] == "Audio")
    wanted = {
        "Format": "PCM", "SamplingRate": "48000", "Channels": str(sound.channels), "BitDepth": str(sound.depth),
        "Delay_Source": "Container (bext)",
    }
    if sound.frames() >= FRAMES_A_MILLISECOND:
        wanted["SamplingCount"] = str(sound.frames())
    same(f"what mediainfo reads of {file.name()}", {name: audio.get(name) for name in wanted}, wanted)
    delay = sound.time_reference / RATE
    same("the time reference by mediainfo, in milliseconds", audio["Delay"], f"{delay:.3f}")
    if file.has_texts():
        general, = (track for track in tracks if track["@type"] == "General")
        same("the description by mediainfo", general["Description"], DESCRIPTION)


READERS = {
    "soxi": ("reads what is written", soxi_reads),
    "sox": ("plays the same samples", sox_plays),
    "ffprobe": ("reads what is written", ffprobe_reads),
    "ffmpeg": ("plays the same samples", ffmpeg_plays),
    "sndfile-info": ("reads what is written", sndfile_info_reads),
    "sndfile-convert": ("reads the same samples", sndfile_convert_reads),
    "mediainfo": ("reads what is written", mediainfo_reads),
}


def run(suite: Suite) -> None:
    for tool, (name, check) in READERS.items():
        case(suite, tool, name, each_file(check))
