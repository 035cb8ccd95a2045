"""Random projects against the model, and what consolidation promises: the same sums over the new media."""

import model
from random_projects import Dice
from harness import MEDIA, Mismatch, Scene, Suite, expect_answer, same, same_bytes, same_files, words_of
from tables import FIRST_LIST, wave

PROJECTS = 300

# What random projects have to meet, each at least once in a run of all.
PROFILE = {
    *(f"a source of {depth} bits" for depth in (16, 24, 32)),
    *(f"a rendering of {depth} bits" for depth in (16, 24, 32)),
    *(f"notice {kind}" for kind in range(1, 8)), *(f"refused {number}" for number in (21, 30, 41, 42, 43, 44, 46, 58)),
    "a source as RF64", "a source of 64 channels", "a source of several channels", "channel 64", "a crossfade",
    "a fade-in", "a fade-out", "both fades", "no handle", "a handle within a file", "a handle past its file",
    "a part of a list", "a chosen number of channels", "several media", "a silent part", "joined cuts",
}


def written_media(scene: Scene) -> tuple:
    """The written list, and the media beside it."""
    files = scene.files()
    return files.pop("consolidated.adl"), files


def same_sums(text: bytes, media: dict, new_text: bytes, new_media: dict) -> None:
    """Both lists have the same exact sum on each channel at each sample of the day."""
    old, new = model.accepted(text, media), model.accepted(new_text, new_media)
    same("the sums over the written media", model.sums_of(*new), model.sums_of(*old))


def whole_range(text: bytes, media: dict, options: model.Options) -> model.Options:
    """The same options with the list's own range and channels told, so that another list is rendered to the same."""
    project = model.accepted(text, media)[0]
    part = model.range_of(project, options)
    begin, end = (model.time_text(value, rate=project.rate).decode() for value in (part.begin, part.end))
    return options._replace(begin=begin, end=end, channels=part.channels)


def rendered_by(scene: Scene, options: model.Options) -> bytes:
    """The rendered file alone, since its marks are those of its list; nothing where the range is empty."""
    scene.empty_out()
    scene.run(*words_of("render", options))
    files = scene.files()
    scene.empty_out()
    return files.get("render.wav", b"")


def consolidated_again(scene: Scene, text: bytes, media: dict, options: model.Options) -> None:
    """A consolidated project, consolidated again, is the same bytes."""
    for name in scene.files(MEDIA):
        (scene.folder / MEDIA / name).unlink()
    scene.put(text, media)
    scene.empty_out()
    same("the status", scene.run(*words_of("consolidate", options)).status, 0)
    same_files(scene.files(), {"consolidated.adl": text, **media})


def parts_met(text: bytes, media: dict, options: model.Options, answers: list) -> set:
    """What a random project has of the profile."""
    met = {" ".join(line.split()[:2]) for answer in answers for line in (*answer.notices, answer.line)}
    if answers[-1].status:
        return met
    read, bound = model.accepted(text, media)
    written = model.read_list(answers[-1].files["consolidated.adl"])
    sounds, entries = bound.sounds.values(), read.entries
    fades = {(entry.rise > 0, entry.fall > 0) for entry in entries}
    met |= {f"a source of {sound.depth} bits" for sound in sounds} | {f"a rendering of {options.depth} bits"}
    return met | {name for name, is_met in {
        "a source as RF64": any(media[name].startswith(b"RF64") for name in bound.sounds),
        "a source of 64 channels": any(sound.channels == 64 for sound in sounds),
        "a source of several channels": any(1 < sound.channels < 64 for sound in sounds),
        "channel 64": any(entry.dest.last == 64 for entry in entries),
        "a crossfade": any(one.fall and other.rise and one.dest_in < other.dest_in < one.dest_out < other.dest_out
                           for one in entries for other in entries),
        "a fade-in": (True, False) in fades, "a fade-out": (False, True) in fades, "both fades": (True, True) in fades,
        "no handle": options.handle == 0, "a handle within a file": 0 < options.handle < 40,
        "a handle past its file": options.handle > 90,
        "a part of a list": options.begin is not None, "a chosen number of channels": options.channels is not None,
        "several media": len(written.sources) > 1,
        "a silent part": length_of(written) < length_of(read),
        "joined cuts": len(written.entries) < sum(entry.length() > 0 for entry in entries)
                       and length_of(written) == length_of(read),
    }.items() if is_met}


def length_of(project) -> int:
    return sum(entry.length() for entry in project.entries)


def project(seed: int, met: set):
    def body(scene: Scene) -> None:
        dice = Dice(seed)
        text, media, place = dice.project()
        options = dice.options(place)
        answers = [model.answer(command, text, media, options) for command in ("check", "render", "consolidate")]
        met.update(parts_met(text, media, options, answers))
        scene.put(text, media)
        for command, wanted in zip(("check", "render"), answers):
            expect_answer(scene, command, wanted, options)
            scene.empty_out()
        wanted = answers[-1]
        if wanted.status == 0:
            whole = whole_range(text, media, options)
            sound = rendered_by(scene, whole)
        expect_answer(scene, "consolidate", wanted, options)
        if wanted.status == 0:
            new_text, new_media = written_media(scene)
            same_sums(text, media, new_text, new_media)
            consolidated_again(scene, new_text, new_media, options)
            same_bytes("the sound of the new list", rendered_by(scene, whole), sound)
    return body


def whole_profile(met: set):
    return lambda scene: same("what no random project meets", sorted(PROFILE - met), [])


def other_sums(scene: Scene) -> None:
    """The comparison of sums sees one wrong bit in a written medium, and a time that is one sample off."""
    media = {"A.wav": wave()}
    scene.put(FIRST_LIST, media)
    expect_answer(scene, "consolidate", model.answer("consolidate", FIRST_LIST, media))
    text, written = written_media(scene)
    same_sums(FIRST_LIST, media, text, written)
    medium = bytearray(written["M00001.wav"])
    medium[-1] ^= 1
    later = text.replace(b"01.00.00.00/0000 01.00.00.00/0004", b"01.00.00.00/0001 01.00.00.00/0005")
    for new_text, new_media in ((text, {"M00001.wav": bytes(medium)}), (later, written)):
        try:
            same_sums(FIRST_LIST, media, new_text, new_media)
        except Mismatch:
            continue
        raise Mismatch("other sums are taken for the same")


def layers(scene: Scene) -> None:
    """Many entries on one sample, which sum past all 32-bit numbers and back."""
    media = {"A.wav": wave([32_767] * 2), "B.wav": wave([-32_768] * 2)}
    midnight = b"00.00.00.00/0000"
    source_lines = [model.source_line(1, "A.wav", midnight), model.source_line(2, "B.wav", midnight)]
    count = 20_000
    entry_lines = [
        model.entry_line(number, 1 + number % 2, midnight, midnight, b"00.00.00.00/%04d" % (1 + number % 2))
        for number in range(1, count + 1)
    ]
    text = model.list_text(source_lines, entry_lines)
    scene.put(text, media)
    options = model.Options(depth=16)
    wanted = model.answer("render", text, media, options)
    expect_answer(scene, "render", wanted, options)
    same_bytes("its samples", wanted.files["render.wav"][690:], bytes.fromhex("f0d8") + bytes.fromhex("0080"))


def run(suite: Suite) -> None:
    suite.case("other sums are seen", other_sums)
    met = set()
    for seed in range(PROJECTS):
        suite.case(f"random project {seed}", project(seed, met))
    suite.case("random projects meet the whole profile", whole_profile(met))
    suite.case("20,000 layers", layers)
