"""Files that other programs write: read here and compared with their own decoding, or refused by number."""

import struct
import subprocess
from pathlib import Path
from typing import Callable, NamedTuple

import model
from harness import MEDIA, OUT, TIMEOUT, Scene, Suite, expect_answer, expect_line, same, same_bytes
from tables import data_chunk, format_chunk, riff_file

from .tools import case, output_of

FRAMES = 700
PLAIN = "plain.wav"
TIME = 172_800_000


class Form(NamedTuple):
    """What a file that another program writes has in it."""
    channels: int = 1
    depth: int = 16
    time_reference: int = None
    kinds: str = ""


def tone(form: Form) -> list:
    """Numbers of the whole range, others on each channel."""
    unit = 2 ** (form.depth - 16)
    return [
        ((place * 7919 + channel * 30_011) % 65_536 - 32_768) * unit + place % unit
        for place in range(FRAMES) for channel in range(form.channels)
    ]


def plain_file(form: Form) -> bytes:
    return riff_file(format_chunk(channels=form.channels, bits=form.depth), data_chunk(tone(form), form.depth))


def sox(*options: str):
    """sox writes the tone with these options for its output."""
    return lambda source, target: output_of("sox", "-R", "-D", "-V1", source, *options, target)


def sox_piped(source: Path, target: Path) -> None:
    """sox writes into a pipe, where it can't come back to fill in what it counted."""
    raw_samples = ["-t", "raw", "-r", "48000", "-e", "signed", "-b", "16", "-c", "1", "-"]
    words = ["sox", "-R", "-D", "-V1", *raw_samples, "-t", "wav", "-"]
    raw = model.read_sound(source.read_bytes()).data
    target.write_bytes(subprocess.run(words, input=raw, check=True, capture_output=True, timeout=TIMEOUT).stdout)


def ffmpeg(*options: str):
    """ffmpeg writes the tone with these options for its output."""
    return lambda source, target: output_of("ffmpeg", "-v", "error", "-y", "-i", source, *options, "-f", "wav", target)


def ffmpeg_piped(source: Path, target: Path) -> None:
    target.write_bytes(output_of("ffmpeg", "-v", "error", "-i", source, "-f", "wav", "-"))


def sndfile_convert(*options: str, ending: str = ".wav"):
    """libsndfile writes the tone; it goes by the ending of the name."""
    def write(source: Path, target: Path) -> None:
        named = target.with_name(f"converted{ending}")
        output_of("sndfile-convert", *options, source, named)
        named.rename(target)
    return write


def with_history(source: Path, target: Path) -> None:
    """libsndfile writes a broadcast extension with a history."""
    output_of(
        "sndfile-metadata-set", "--bext-description", "Take one", "--bext-originator", "adlcons", "--bext-time-ref",
        str(TIME), "--bext-coding-hist", "A=PCM,F=48000,W=16,M=mono", source, target)


def decoded_by_sox(path: Path, form: Form) -> bytes:
    return output_of("sox", "-D", "-V1", path, "-t", "raw", "-e", "signed-integer", "-b", str(form.depth), "-L", "-")


def decoded_by_ffmpeg(path: Path, form: Form) -> bytes:
    codec = f"s{form.depth}le"
    return output_of("ffmpeg", "-v", "error", "-i", path, "-f", codec, "-c:a", f"pcm_{codec}", "-")


def decoded_by_sndfile(path: Path, form: Form) -> bytes:
    target = path.with_name("decoded.raw")
    output_of("sndfile-convert", f"-pcm{form.depth}", path, target)
    return target.read_bytes()


DECODERS = {
    "sox": decoded_by_sox, "ffmpeg": decoded_by_ffmpeg, "sndfile-convert": decoded_by_sndfile,
    "sndfile-metadata-set": decoded_by_sndfile,
}

BEXT = ("-write_bext", "1", "-metadata", "description=A take", "-metadata", f"time_reference={TIME}")
ALWAYS = ("-rf64", "always")

READ = {
    "sox": {
        "a plain file": (Form(), sox()),
        "a plain file, by its type": (Form(), sox("-t", "wavpcm")),
        "a file with a comment": (Form(), sox("--comment", "A take")),
        "24 bits, EXTENSIBLE": (Form(depth=24, kinds="6"), sox("-b", "24")),
        "24 bits, plain": (Form(depth=24), sox("-b", "24", "-t", "wavpcm")),
        "32 bits": (Form(depth=32, kinds="6"), sox("-b", "32", "-e", "signed-integer")),
        "stereo": (Form(2), sox()),
        "six channels of 24 bits": (Form(6, 24, kinds="6"), sox()),
    },
    "ffmpeg": {
        "a plain file with its LIST chunk": (Form(kinds="6"), ffmpeg()),
        "a file without LIST": (Form(), ffmpeg("-bitexact")),
        "a file with bext": (Form(time_reference=TIME, kinds="6"), ffmpeg(*BEXT)),
        "a file with a peak envelope": (Form(kinds="6"), ffmpeg("-write_peak", "on")),
        "a file that may be RF64 and isn't": (Form(kinds="6"), ffmpeg("-rf64", "auto")),
        "RF64": (Form(kinds="6"), ffmpeg(*ALWAYS)),
        "RF64 with bext": (Form(2, 24, TIME, "6"), ffmpeg(*ALWAYS, *BEXT, "-c:a", "pcm_s24le")),
        "24 bits, EXTENSIBLE": (Form(depth=24, kinds="6"), ffmpeg("-c:a", "pcm_s24le")),
        "32 bits": (Form(2, 32, kinds="6"), ffmpeg("-c:a", "pcm_s32le")),
        "stereo": (Form(2, kinds="6"), ffmpeg("-c:a", "pcm_s16le")),
        "six channels of 24 bits": (Form(6, 24, kinds="6"), ffmpeg("-c:a", "pcm_s24le")),
        "64 channels of 32 bits, RF64": (Form(64, 32, kinds="6"), ffmpeg(*ALWAYS, "-c:a", "pcm_s32le")),
    },
    "sndfile-convert": {
        "a plain file": (Form(), sndfile_convert("-pcm16")),
        "24 bits": (Form(depth=24), sndfile_convert("-pcm24")),
        "six channels of 32 bits": (Form(6, 32), sndfile_convert("-pcm32")),
        "RF64": (Form(2), sndfile_convert("-pcm16", ending=".rf64")),
    },
    "sndfile-metadata-set": {
        "a file with a history": (Form(time_reference=TIME), with_history),
    },
}

REFUSED = {
    "sox": {
        "8 bits": (27, sox("-b", "8", "-e", "unsigned-integer")),
        "float samples": (27, sox("-b", "32", "-e", "floating-point")),
        "a-law": (27, sox("-e", "a-law")),
        "44100": (29, sox("-r", "44100", "-b", "16")),
        "96000": (29, sox("-r", "96000", "-b", "16")),
        "stereo, 44100": (29, sox("-r", "44100", "-c", "2")),
        "AIFF": (23, sox("-t", "aiff")),
        "RIFX": (23, sox("-B", "-t", "wav")),
        "a file from a pipe": (26, sox_piped),
    },
    "ffmpeg": {
        "float samples": (27, ffmpeg("-c:a", "pcm_f32le")),
        "44100": (29, ffmpeg("-ar", "44100")),
        "a file from a pipe": (26, ffmpeg_piped),
    },
    "sndfile-convert": {
        "float samples": (27, sndfile_convert("-float32")),
        "44100": (29, sndfile_convert("-pcm16", "-override-sample-rate=44100")),
        "Wave64": (23, sndfile_convert("-pcm16", ending=".w64")),
    },
}


def project(form: Form) -> bytes:
    """One cut of all frames and channels of the file, at the file's own time."""
    channels = b"1" if form.channels == 1 else b"1~%d" % form.channels
    times = (model.time_text(value) for value in (form.time_reference or 0, TIME, TIME + FRAMES))
    cut = model.entry_line(1, 1, *times, channels, channels)
    return model.list_text([model.source_line(1, "A.wav", b"_")], [cut])


def written(scene: Scene, form: Form, write: Callable) -> bytes:
    """The file that the other program writes."""
    source, target = scene.folder / PLAIN, scene.folder / "A.wav"
    source.write_bytes(plain_file(form))
    write(source, target)
    return target.read_bytes()


def is_read(tool: str, form: Form, write: Callable):
    """Rendered it has the samples that its own program decodes; consolidated it is as the model has it."""
    def body(scene: Scene) -> None:
        data = written(scene, form, write)
        samples = DECODERS[tool](scene.folder / "A.wav", form)
        wanted = model.packed(form.depth, tone(form))
        same_bytes("the samples that the program itself decodes", samples, wanted)
        text, media = project(form), {"A.wav": data}
        notices = tuple(f"notice {kind} at index 1" for kind in form.kinds)
        same("the notices", model.answer("check", text, media).notices, notices)
        scene.put(text, media)
        options = model.Options(depth=form.depth)
        for command in ("check", "consolidate", "render"):
            scene.empty_out()
            expect_answer(scene, command, model.answer(command, text, media, options), options)
        same_bytes("the samples", model.read_sound(scene.files()["render.wav"]).data, samples)
    return body


def is_refused(number: int, write: Callable):
    def body(scene: Scene) -> None:
        data = written(scene, Form(), write)
        for command in model.COMMANDS:
            expect_line(scene, command, project(Form()), {"A.wav": data}, f"refused {number} at index 1 file A.wav")
    return body


def keeps_history(scene: Scene) -> None:
    """What libsndfile wrote into the broadcast extension is carried to the medium, where it reads it again."""
    data = written(scene, Form(), with_history)
    text = project(Form(time_reference=TIME))
    scene.put(text, {"A.wav": data})
    expect_answer(scene, "consolidate", model.answer("consolidate", text, {"A.wav": data}))
    read = ["sndfile-metadata-get", "--bext-description", "--bext-originator", "--bext-coding-hist"]
    told = [output_of(*read, scene.folder / place) for place in (f"{MEDIA}/A.wav", f"{OUT}/M00001.wav")]
    same("the broadcast extension of source and medium", told[0], told[1])
    for part in (b"Take one", b"A=PCM,F=48000,W=16,M=mono"):
        same(f"{part!r} is told", part in told[1], True)
    same("the time", struct.unpack_from("<Q", (scene.folder / OUT / "M00001.wav").read_bytes(), 394), (TIME,))


def run(suite: Suite) -> None:
    for tool, files in READ.items():
        for name, (form, write) in files.items():
            case(suite, tool, f"{name} is read", is_read(tool, form, write))
    for tool, files in REFUSED.items():
        for name, (number, write) in files.items():
            case(suite, tool, f"{name} is refused", is_refused(number, write))
    case(suite, "sndfile-metadata-get", "a history is carried", keeps_history)
