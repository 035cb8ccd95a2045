"""What a user takes for granted of the output: nothing is replaced, done means on the disk, handles suffice."""

import resource
import subprocess
from functools import partial

import model
from harness import (
    LIST, MEDIA, OUT, TIMEOUT, Mismatch, Scene, Suite, preloaded, same, same_answer, same_files, same_outcome,
    words_of,
)
from tables import FIRST_LIST, wave

MIDNIGHT = b"00.00.00.00/0000"
ROUNDS = 50
SOURCES = 300
HANDLES = 20
CUTS = 40
EXACT = model.Options(handle=0)


def sound_of(count: int, sample: int) -> bytes:
    """A file of so many stretches of four frames, with a frame between them."""
    return wave([sample, sample + 1, -sample, 1, 0] * count)


def cuts_over(name: str, count: int) -> bytes:
    """So many cuts of four frames of one source, one behind the other, that leave out a frame between them."""
    entry_lines = [
        model.entry_line(place + 1, 1, *(model.time_text(value) for value in (5 * place, 4 * place, 4 * place + 4)))
        for place in range(count)
    ]
    return model.list_text([model.source_line(1, name, MIDNIGHT)], entry_lines)


def at_once(command: str):
    """Two runs into one folder at the same time: at most one is done, and its files are whole and its own."""
    def body(scene: Scene) -> None:
        media = {"A.wav": sound_of(CUTS, 1000), "B.wav": sound_of(CUTS, 7)}
        texts = {"A.adl": cuts_over("A.wav", CUTS), "B.adl": cuts_over("B.wav", CUTS)}
        scene.put(texts["A.adl"], media)
        for name, text in texts.items():
            (scene.folder / name).write_bytes(text)
        done = 0
        for _ in range(ROUNDS):
            runs = {name: subprocess.Popen(
                [scene.program, command, name, MEDIA, OUT, *EXACT.words(command)], cwd=scene.folder,
                stdout=subprocess.PIPE, stderr=subprocess.PIPE) for name in texts}
            lines = {name: run.communicate(timeout=TIMEOUT)[0] for name, run in runs.items()}
            winners = [name for name, run in runs.items() if run.returncode == 0]
            if len(winners) > 1:
                raise Mismatch(f"both runs are done: {lines}")
            for name in winners:
                same_files(scene.files(), model.answer(command, texts[name], media, EXACT).files)
            for name in set(texts) - set(winners):
                if not lines[name].startswith((b"refused 20 at file OUT", b"refused 62 at file ")):
                    raise Mismatch(f"the other run says {lines[name]!r}")
            done += len(winners)
            scene.empty_out()
        if not done:
            raise Mismatch("no run was done")
    return body


def run_logged(scene: Scene, words: list, environment: dict, fails: int = 0) -> tuple:
    log = scene.folder / "log"
    log.unlink(missing_ok=True)
    got = scene.run(*words, env={**environment, "SYNC_FAILS": str(fails)})
    return got, log.read_text().splitlines() if log.exists() else []


def syncs_of(command: str, media: int, reports: tuple) -> list:
    """What is synced, and the file that is refused where that fails, none where it is a job's, which is done again. All
    media are there before the first is synced, so their folder is synced once; the files of a report come behind them,
    and the list last."""
    if command == "render":
        sound, marks = ("render.wav", "render.wav"), ("render.marks", "render.marks")
        made = [sound, (OUT, "render.wav"), marks, (OUT, "render.marks"), marks, marks, marks]
        return [*made, ("render.wav", None), marks, sound, marks]
    names = [f"M{number:05d}.wav" for number in range(1, media + 1)]
    files = [(name, name) for name in names]
    last = [(synced, name) for name in (*reports, "consolidated.adl") for synced in (name, OUT)]
    return [files[0], (OUT, names[0]), *files[1:], *last]


def on_the_disk(command: str, *options: str, reports: tuple = ()):
    """Each output and its folder are synced, the list last, before the line is written; a sync that fails outside a job
    is 62."""
    def body(scene: Scene) -> None:
        text = cuts_over("A.wav", 3)
        media = {"A.wav": sound_of(3, 1000)}
        scene.put(text, media)
        environment = preloaded(scene, SYNC_LOG=str(scene.folder / "log"))
        wanted = model.answer(command, text, media, EXACT)
        words = [*words_of(command, EXACT), *options]
        syncs = syncs_of(command, 3, reports)
        got, log = run_logged(scene, words, environment)
        same_answer(got, wanted)
        told = ["print out"] if wanted.saved is None else ["print out", "print err"]
        same("what is synced and printed", log, [f"sync {name}" for name, _ in syncs] + told)
        scene.empty_out()
        for fails, (_, output) in enumerate(syncs, 1):
            got, log = run_logged(scene, words, environment, fails)
            if output is None:
                same_answer(got, wanted)
                same_files(scene.files(), wanted.files)
                scene.empty_out()
                continue
            same_outcome(got, 1, f"refused 62 at file {output}")
            logged = [*(f"sync {name}" for name, _ in syncs[:fails]), "print out", "print err"]
            same("what is synced and printed", log, logged)
            if b"Input/output error" not in got.error or output.encode() not in got.error:
                raise Mismatch(f"standard error doesn't tell what failed: {got.error!r}")
            scene.empty_out()
    return body


def lost_by_a_sync(scene: Scene) -> None:
    """Jobs of 96 blocks are synced by twos. Where a sync of them fails the system may have lost the bytes of both, and
    the next sync wouldn't tell, so the last of them isn't taken for done though the device works again: 66, without a
    mark. What was marked before stays so, and the rendering is gone on with."""
    frames = 4096 * 300
    media = {"A.wav": wave([1, -2, 3, 4] * (frames // 4))}
    text = model.list_text(
        [model.source_line(1, "A.wav", MIDNIGHT)],
        [model.entry_line(1, 1, *map(model.time_text, (0, 0, frames)))])
    scene.put(text, media)
    environment = preloaded(scene, SYNC_LOG=str(scene.folder / "log"))
    options = EXACT._replace(depth=16)
    words, wanted = words_of("render", options), model.answer("render", text, media, options)
    got, log = run_logged(scene, words, environment)
    same_answer(got, wanted)
    sound, marks = "sync render.wav", "sync render.marks"
    made = [sound, f"sync {OUT}", marks, f"sync {OUT}", marks, marks, marks]
    same("what is synced", log[:-1], [*made, sound, marks, sound, marks, sound, marks])
    for fails, job, marked in ((8, 1, 0), (10, 3, 192)):
        scene.empty_out()
        got, log = run_logged(scene, words, environment, fails)
        same_outcome(got, 1, f"refused 66 at job {job}")
        same("what is synced", [line for line in log if line.startswith("sync")], [*made, sound, marks, sound][:fails])
        same("the blocks that are marked", scene.files()["render.marks"][44:].count(1), marked)
        got = scene.run("resume", *words[1:])
        same_outcome(got, 0, f"resumed {frames} frames {marked} blocks were marked")
        same_files(scene.files(), wanted.files)


def few_handles(scene: Scene) -> None:
    """Many sources in turn, with few handles."""
    names = [f"S{number:03d}.wav" for number in range(SOURCES)]
    media = {name: wave([number, 7]) for number, name in enumerate(names)}
    source_lines = [model.source_line(number, name, MIDNIGHT) for number, name in enumerate(names, 1)]
    entry_lines = [
        model.entry_line(
            number, 1 + 7 * number % SOURCES, MIDNIGHT, *map(model.time_text, (2 * number, 2 * number + 2)))
        for number in range(1, SOURCES + 1)
    ]
    text = model.list_text(source_lines, entry_lines)
    scene.put(text, media)
    limit = partial(resource.setrlimit, resource.RLIMIT_NOFILE, (HANDLES, HANDLES))
    for command in model.WRITING:
        wanted = model.answer(command, text, media, EXACT)
        same_answer(scene.run(*words_of(command, EXACT), preexec_fn=limit), wanted)
        same_files(scene.files(), wanted.files)
        scene.empty_out()


def one_write_a_line(scene: Scene) -> None:
    """Many runs into one log at once leave whole lines."""
    scene.put(FIRST_LIST, {})
    log = scene.folder / "lines"
    with log.open("ab") as file:
        words = [scene.program, "check", LIST, MEDIA]
        runs = [subprocess.Popen(words, cwd=scene.folder, stdout=file, stderr=file) for _ in range(60)]
        for run in runs:
            run.wait(timeout=TIMEOUT)
    lines = log.read_bytes().splitlines()
    same("the lines of refusals", lines.count(b"refused 21 at index 1 file A.wav"), 60)
    same("the lines of explanations", sum(line.endswith(b"(adlcons explain 21)") for line in lines), 60)
    same("all lines", len(lines), 120)


def told_reasons(scene: Scene) -> None:
    """What the second line tells beside the meaning: the line at fault, the system's word, what is unfinished."""
    scene.put(FIRST_LIST.replace(b"(SEQ_FRAME_RATE) 25", b"(SEQ_FRAME_RATE) 24 \xc3\xa4\x01"), {})
    got = scene.run("render", LIST, MEDIA, OUT)
    if b"; the line is: (SEQ_FRAME_RATE) 24 %C3%A4%01;" not in got.error:
        raise Mismatch(f"the line at fault isn't told: {got.error!r}")
    got = scene.run("render", "none.adl", MEDIA, OUT)
    if b": No such file or directory" not in got.error:
        raise Mismatch(f"the system's word isn't told: {got.error!r}")


def run(suite: Suite) -> None:
    for command in model.WRITING:
        suite.case(f"two runs into one folder at once, {command}", at_once(command))
        suite.case(f"done means on the disk, {command}", on_the_disk(command))
    suite.case("done means on the disk, consolidate --report", on_the_disk(
        "consolidate", "--report", reports=("SHA256SUMS", "consolidated.json")))
    suite.case("bytes lost by a sync", lost_by_a_sync)
    suite.case("few handles", few_handles)
    suite.case("one write a line", one_write_a_line)
    suite.case("what a refusal's explanation tells", told_reasons)
