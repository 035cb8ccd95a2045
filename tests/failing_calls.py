"""Each system call on a file of a project fails once, and three times in a row: strace answers EIO in its place. A
rendering is killed at each, too, and gone on with."""

import hashlib
import json
import re
import shutil
import signal
import subprocess
from pathlib import Path
from typing import NamedTuple

import model
from harness import (
    LIST, MEDIA, OUT, TIMEOUT, Mismatch, Outcome, Scene, Skipped, Suite, preloaded, same, same_files,
)
from tables import wave

REPORT = "render.json"
FRAMES = 9_000
SOURCES = ("A.wav", "B.wav")
MEDIA_COUNT = 40
# Calls that ask a device for something. `close` comes behind a sync, and `lseek` asks no device.
CALLS = "openat,read,pread64,write,pwrite64,fstat,newfstatat,statx,fsync,fdatasync,ftruncate,fallocate,getdents64"
REFUSED = re.compile(rb"refused (20|21|22|52|62|66)((?: at index \d+)?(?: at job \d+)?)(?: file ([^\n]*)| at file ([^\n]*))?\n")


class Call(NamedTuple):
    """The call of this number among those of this name, and the project's file that it is on."""

    name: str
    number: int
    file: str


def put_project(scene: Scene) -> None:
    """Two sources, and three cuts with fades in three blocks."""
    spans = ((1, 0, 5_000), (2, 4_000, 9_000), (1, 9_000, 10_000))
    lines = [
        model.entry_line(number, index, b"00.00.00.00/0000", model.time_text(start), model.time_text(end))
        for number, (index, start, end) in enumerate(spans, 1)
    ]
    sources = [model.source_line(number, name, b"00.00.00.00/0000") for number, name in ((1, "A.wav"), (2, "B.wav"))]
    samples = {name: [(place * step) % 20_000 - 10_000 for place in range(FRAMES)]
               for name, step in (("A.wav", 7), ("B.wav", 11))}
    scene.put(model.list_text(sources, lines), {name: wave(values) for name, values in samples.items()})


def traced(scene: Scene, command: str, *options: str, words: tuple = ()) -> Outcome:
    """The command with further words under strace, which writes its trace beside the list."""
    strace = ["strace", "-y", "-qq", "-o", scene.folder / "trace", "-e", f"trace={CALLS}", *options]
    done = subprocess.run(
        [*strace, scene.program, command, LIST, MEDIA, OUT, *words], cwd=scene.folder, capture_output=True,
        timeout=TIMEOUT)
    return Outcome(done.returncode, done.stdout, done.stderr)


def file_of(line: str, folder: Path) -> str:
    """The project's file that a call is on, from the folder of the list on; nothing where it is on none."""
    # short lines are padded before the equals sign
    asked = re.split(r"\) += ", line)[0]
    by_handle = re.search(rf"<{re.escape(str(folder))}/([^>]*)>", asked)
    by_name = re.search(r'"([^"]*)"', asked) if line.startswith(("openat", "newfstatat", "statx")) else None
    names = [found[1] for found in (by_handle, by_name) if found and found[1] not in ("", ".")]
    return "" if any(name.startswith("/") for name in names) else "/".join(names)


def calls_in(trace: str, folder: Path) -> list:
    counts: dict = {}
    calls = []
    for line in trace.splitlines():
        name = line.partition("(")[0]
        counts[name] = counts.get(name, 0) + 1
        file = file_of(line, folder)
        if file.split("/")[0] in (LIST, MEDIA, OUT):
            calls.append(Call(name, counts[name], file))
    return calls


def refusals_of(call: Call) -> set:
    """The numbers and names of the refusals that may come where a call fails."""
    folder, _, file = call.file.partition("/")
    if folder == LIST:
        # any output that exists may be a list that can't be identified
        return {(21, LIST), (62, "render.wav"), (62, "render.marks")}
    if folder == MEDIA:
        # 52 names its file on standard error alone
        return {(52, ""), *((number, name) for name in ([file] if file else SOURCES) for number in (21, 22))}
    if file:
        return {(62, file)}
    # the folder is compared at each sync of a file in it
    media = (f"M{number:05}.wav" for number in range(1, MEDIA_COUNT + 1))
    return {(20, OUT), *((62, name) for name in (
        "render.wav", "render.marks", REPORT, *media, "SHA256SUMS", "consolidated.json", "consolidated.adl"))}


def check_failed(got: Outcome, failed: list, times: int, written: dict, begun: dict, whole: tuple) -> None:
    """It is done all the same, with the same files, or refused for this file, with no list beside unfinished media."""
    if got.status == 0:
        same("what is printed", got.output, whole[0])
        same_files(written, whole[1])
        return
    told = REFUSED.fullmatch(got.output)
    if got.status != 1 or not told:
        raise Mismatch(f"status {got.status}, {got.output!r} and {got.error!r}")
    number, name = int(told[1]), (told[3] or told[4] or b"").decode()
    wanted = set().union(*map(refusals_of, failed), {(66, "")} if times == 3 else set())
    if (number, name) not in wanted:
        raise Mismatch(f"refused {number} for {name!r}, where one of {sorted(wanted)} was expected")
    if number in (20, 21, 22, 52):
        same_files(written, begun)
    if name != "consolidated.adl":
        same("whether a list is there", "consolidated.adl" in written, False)


def nothing(_: Scene) -> dict:
    """A command begins with an empty output."""
    return {}


def stopped(scene: Scene) -> dict:
    """The files of a rendering whose disk fails once its first block is marked."""
    environment = preloaded(scene)
    for writes in range(1, 100):
        scene.run("render", LIST, MEDIA, OUT, env={**environment, "WRITE_FAILS": str(writes)})
        files = scene.files()
        scene.empty_out()
        if b"\1" in files.get("render.marks", b"")[44:]:
            return files
    raise Mismatch("no block is ever marked")


def injected(scene: Scene, command: str, call: Call, what: str, times: int = 1, words: tuple = ()) -> Outcome:
    """The command, with this in the place of the call and of those of its name behind it, so many in all."""
    last = call.number + times - 1
    return traced(scene, command, "-e", f"inject={call.name}:{what}:when={call.number}..{last}", words=words)


def calls_of(scene: Scene, command: str, words: tuple = ()) -> tuple:
    """What an unbroken command prints and leaves, and its calls."""
    if not shutil.which("strace"):
        raise Skipped("strace isn't installed (Debian package strace)")
    done = traced(scene, command, words=words)
    same("the status of the unbroken command", done.status, 0)
    calls = calls_in((scene.folder / "trace").read_text(), scene.folder)
    if len(calls) < 20:
        raise Mismatch(f"only {len(calls)} calls on files of the project: {calls}")
    return (done.output, scene.files()), calls


def expect_whole(scene: Scene, files: dict, words: tuple = ()) -> None:
    """What is left of a rendering is gone on with, now that nothing fails. Its report is one of the same file."""
    same("the status once nothing fails", scene.run("resume", LIST, MEDIA, OUT, *words).status, 0)
    written = scene.files()
    if "--report" in words:
        digest = json.loads(written[REPORT])["sha256"]
        same("the digest in the report", digest, hashlib.sha256(files["render.wav"]).hexdigest())
        written[REPORT] = files[REPORT]
    same_files(written, files)


def each_call(command: str, times: int, before=nothing, words: tuple = ()):
    """It fails so often in a row; a rendering is gone on with then."""
    def body(scene: Scene) -> None:
        put_project(scene)
        begun = before(scene)
        scene.put_out(begun)
        whole, calls = calls_of(scene, command, words)
        for call in calls:
            scene.put_out(begun)
            got = injected(scene, command, call, "error=EIO", times, words)
            # behind a call that fails others may come than in an unbroken run
            lines = (scene.folder / "trace").read_text().splitlines()
            failed = calls_in("\n".join(line for line in lines if line.endswith("(INJECTED)")), scene.folder)
            try:
                check_failed(got, failed, times, scene.files(), begun, whole)
                if got.status and command != "consolidate":
                    expect_whole(scene, whole[1], words)
            except Mismatch as fault:
                raise Mismatch(f"{call.name} {call.number} on {call.file} failed: {fault}") from fault
    return body


def killed_at_each_call(command: str, before=nothing):
    """A rendering that is killed there is gone on with."""
    def body(scene: Scene) -> None:
        put_project(scene)
        begun = before(scene)
        scene.put_out(begun)
        whole, calls = calls_of(scene, command)
        for call in calls:
            scene.put_out(begun)
            got = injected(scene, command, call, "signal=KILL")
            try:
                same("the status of a killed command", got.status, -signal.SIGKILL)
                expect_whole(scene, whole[1])
            except Mismatch as fault:
                raise Mismatch(f"killed at {call.name} {call.number} on {call.file}: {fault}") from fault
    return body


def killed_with_a_report(scene: Scene) -> None:
    """Where a consolidation is killed, a list that is there stands beside a whole report and whole media."""
    put_project(scene)
    words = ("--report",)
    (_, whole), calls = calls_of(scene, "consolidate", words)
    lists = 0
    for call in calls:
        scene.empty_out()
        injected(scene, "consolidate", call, "signal=KILL", words=words)
        files = scene.files()
        if "consolidated.adl" in files:
            lists += 1
            rest = {name: data for name, data in files.items() if name != "consolidated.adl"}
            same_files(rest, {name: data for name, data in whole.items() if name != "consolidated.adl"})
    same("whether a kill leaves a list", lists > 0, True)


def opened_once(scene: Scene) -> None:
    """Each source is opened once, however often it is read."""
    put_project(scene)
    for command in model.WRITING:
        scene.empty_out()
        _, calls = calls_of(scene, command)
        opened = [call.file for call in calls if call.name == "openat"]
        counts = [opened.count(f"{MEDIA}/{name}") for name in SOURCES]
        same(f"how often {command} opens each source", counts, [1, 1])


def synced_before_the_list(scene: Scene) -> None:
    """Of more media than stay open each is synced behind its last write, twice in all, before the list is made."""
    if not shutil.which("strace"):
        raise Skipped("strace isn't installed (Debian package strace)")
    spans = [(5 * place, 4 * place, 4 * place + 4) for place in range(MEDIA_COUNT)]
    lines = [model.entry_line(number, 1, *map(model.time_text, span)) for number, span in enumerate(spans, 1)]
    sources = [model.source_line(1, "A.wav", b"00.00.00.00/0000")]
    scene.put(model.list_text(sources, lines), {"A.wav": wave([7] * (5 * MEDIA_COUNT))})
    same("the status", traced(scene, "consolidate", words=("--handle", "0")).status, 0)
    syncs: dict = {}
    unsynced = set()
    for call in calls_in((scene.folder / "trace").read_text(), scene.folder):
        if call.file == f"{OUT}/consolidated.adl":
            break
        if call.name in ("write", "pwrite64", "ftruncate"):
            unsynced.add(call.file)
        elif call.name == "fsync":
            unsynced.discard(call.file)
            syncs[call.file] = syncs.get(call.file, 0) + 1
    same("media that aren't synced when the list is made", unsynced, set())
    media = {f"{OUT}/M{number:05d}.wav": 2 for number in range(1, MEDIA_COUNT + 1)}
    same("syncs of each medium, and of their folder", syncs, {**media, OUT: 1})


def run(suite: Suite) -> None:
    suite.case("each source is opened once", opened_once)
    suite.case("each medium is synced before the list", synced_before_the_list)
    for command in model.WRITING:
        suite.case(f"each call of {command} fails once", each_call(command, 1))
        suite.case(f"each call of {command} fails three times in a row", each_call(command, 3))
    for times, often in ((1, "once"), (3, "three times in a row")):
        for command in ("consolidate", "render"):
            case = each_call(command, times, words=("--report",))
            suite.case(f"each call of {command} with a report fails {often}", case)
    suite.case("a consolidation with a report is killed at each call", killed_with_a_report)
    suite.case("each call of resume fails once", each_call("resume", 1, stopped))
    suite.case("each call of resume fails three times in a row", each_call("resume", 3, stopped))
    suite.case("render is killed at each call", killed_at_each_call("render"))
    suite.case("resume is killed at each call", killed_at_each_call("resume", stopped))
