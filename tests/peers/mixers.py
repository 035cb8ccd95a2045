"""Other programs fade and mix as it is done here, to one step of the written depth."""

from pathlib import Path

import model
from harness import OUT, Mismatch, Scene, Suite, same, same_answer, words_of
from tables import data_chunk, format_chunk, riff_file

from .tools import case, output_of

FRAMES = 4800
RISE = 1000
FALL = 700
LATER = 1000
HOUR = 172_800_000


def tone(turn: int) -> list:
    """Stereo, below half of the range, so that two of it aren't clipped."""
    return [(place * turn + channel * 30_011) % 32_000 - 16_000 for place in range(FRAMES) for channel in (0, 1)]


def entry(number: int, index: int, begin: int, rise: int = 0, fall: int = 0) -> list:
    times = (model.time_text(value) for value in (0, HOUR + begin, HOUR + begin + FRAMES))
    lines = [model.entry_line(number, index, *times, b"1~2", b"1~2")]
    for keyword, length in ((b"Infade", rise), (b"Outfade", fall)):
        if length:
            lines.append(model.fade_line(keyword, length))
    return lines


def numbers_of(data: bytes, depth: int) -> list:
    size = depth // 8
    return [int.from_bytes(data[at:at + size], "little", signed=True) for at in range(0, len(data), size)]


def agrees(entry_lines: list, depth: int, peer):
    """The rendered samples and those of the other program are one step apart at most."""
    def body(scene: Scene) -> None:
        media = {
            name: riff_file(format_chunk(channels=2), data_chunk(tone(turn)))
            for name, turn in (("A.wav", 7919), ("B.wav", 104_729))
        }
        midnight = b"00.00.00.00/0000"
        sources = [model.source_line(number, name, midnight) for number, name in enumerate(sorted(media), 1)]
        text = model.list_text(sources, entry_lines)
        scene.put(text, media)
        options = model.Options(depth=depth)
        same_answer(scene.run(*words_of("render", options)), model.answer("render", text, media, options))
        target = scene.folder / "peer.raw"
        peer(scene.folder / "M", target, depth)
        ours = numbers_of(model.read_sound((scene.folder / OUT / "render.wav").read_bytes()).data, depth)
        theirs = numbers_of(target.read_bytes(), depth)
        same("the count of samples", len(theirs), len(ours))
        apart = max(abs(one - other) for one, other in zip(ours, theirs))
        if apart > 1:
            raise Mismatch(f"the samples are up to {apart} steps apart")
    return body


def sox_fades(media: Path, target: Path, depth: int) -> None:
    form = ["-t", "raw", "-e", "signed-integer", "-b", str(depth), "-L"]
    output_of("sox", "-D", media / "A.wav", *form, target, "fade", "t", f"{RISE}s", f"{FRAMES}s", f"{FALL}s")


def sox_mixes(media: Path, target: Path, depth: int) -> None:
    form = ["-t", "raw", "-e", "signed-integer", "-b", str(depth), "-L"]
    later = f"|sox {media / 'B.wav'} -p pad {LATER}s"
    output_of("sox", "-D", "-m", "-v", "1", media / "A.wav", "-v", "1", later, *form, target)


def ffmpeg_form(target: Path, depth: int) -> list:
    return ["-f", f"s{depth}le", "-c:a", f"pcm_s{depth}le", target]


def ffmpeg_fades(media: Path, target: Path, depth: int) -> None:
    fades = f"afade=t=in:ns={RISE}:curve=tri,afade=t=out:ss={FRAMES - FALL}:ns={FALL}:curve=tri"
    output_of("ffmpeg", "-v", "error", "-i", media / "A.wav", "-af", fades, *ffmpeg_form(target, depth))


def ffmpeg_mixes(media: Path, target: Path, depth: int) -> None:
    mix = f"[1:a]adelay={LATER}S:all=1[later];[0:a][later]amix=inputs=2:normalize=0"
    files = ["-i", media / "A.wav", "-i", media / "B.wav"]
    output_of("ffmpeg", "-v", "error", *files, "-filter_complex", mix, *ffmpeg_form(target, depth))


FADED = entry(1, 1, 0, RISE, FALL)
LAYERS = [*entry(1, 1, 0), *entry(2, 2, LATER)]
AGREE = {
    "sox": {"fades": (FADED, 24, sox_fades), "layers": (LAYERS, 24, sox_mixes)},
    "ffmpeg": {"fades": (FADED, 16, ffmpeg_fades), "layers": (LAYERS, 16, ffmpeg_mixes)},
}


def run(suite: Suite) -> None:
    for tool, mixes in AGREE.items():
        for name, (entry_lines, depth, peer) in mixes.items():
            case(suite, tool, f"{name} agree", agrees(entry_lines, depth, peer))
