"""Runs cases over the program, each in a folder of its own, and counts them."""

import os
import re
import shutil
import signal
import subprocess
import tempfile
from contextlib import contextmanager
from pathlib import Path
from typing import Callable, NamedTuple, Optional

import model
import second_reader

# How long a program may take before it is taken for one that hangs, on the slowest machine.
TIMEOUT = 600
LIST = "L.adl"
MEDIA = "M"
OUT = "OUT"


class Mismatch(Exception):
    """The program did something else than it has to."""


class Skipped(Exception):
    """The case can't be run here."""


class Outcome(NamedTuple):
    status: int
    output: bytes
    error: bytes


class Scene:
    """A folder with a list, media and an empty output, and the program run in it."""

    def __init__(self, program: Path, folder: Path):
        self.program = program
        self.folder = folder
        for name in (MEDIA, OUT):
            (folder / name).mkdir()

    def put(self, text: bytes, media: Optional[dict] = None) -> None:
        (self.folder / LIST).write_bytes(text)
        for name, data in (media or {}).items():
            (self.folder / MEDIA / name).write_bytes(data)

    def run(self, *words, given: bytes = b"", **how) -> Outcome:
        """Runs the program over these words, with these bytes on standard input."""
        done = subprocess.run(
            [self.program, *words], cwd=self.folder, input=given, timeout=how.pop("timeout", TIMEOUT),
            stdout=how.pop("stdout", subprocess.PIPE), stderr=subprocess.PIPE, **how,
        )
        return Outcome(done.returncode, done.stdout or b"", done.stderr)

    def files(self, name: str = OUT) -> dict:
        """The files of a folder, with their bytes. What is no file has no bytes."""
        return {
            path.name: path.read_bytes() if path.is_file() else None
            for path in (self.folder / name).iterdir()
        }

    def empty_out(self) -> None:
        for path in (self.folder / OUT).iterdir():
            path.unlink()

    def put_out(self, files: dict) -> None:
        """Leaves just these files in the output."""
        self.empty_out()
        for name, data in files.items():
            (self.folder / OUT / name).write_bytes(data)


def brief(value) -> str:
    text = repr(value)
    return text if len(text) <= 400 else f"{text[:400]}.. ({len(text)} characters)"


def same(what: str, got, wanted) -> None:
    if got != wanted:
        raise Mismatch(f"{what}\n    expected {brief(wanted)}\n    got      {brief(got)}")


def same_files(got: dict, wanted: dict) -> None:
    same("the names of the written files", sorted(got), sorted(wanted))
    for name in sorted(wanted):
        same_bytes(name, got[name], wanted[name])


def same_bytes(what: str, got: bytes, wanted: bytes) -> None:
    if got != wanted:
        pairs = enumerate(zip(got, wanted))
        at = next((at for at, (one, other) in pairs if one != other), min(len(got), len(wanted)))
        raise Mismatch(
            f"{what}: {len(wanted)} bytes expected, {len(got)} got; they differ from byte {at}\n"
            f"    expected {wanted[at:at + 24].hex(' ')}\n    got      {got[at:at + 24].hex(' ')}"
        )


EXPLANATION = r"[^\n]+: [^\n]+; [^\n]+ \(adlcons explain %d\)\n"
FURTHER = r"%s(?:: [^\n]+)?\n"
SAVED = r"kept (\d+) of (\d+) bytes of samples; wrote (\d+) bytes in all\n"
ROOM = r"consolidate would write at most (\d+) bytes of media\n(?:render would write (\d+) bytes\n)?"

NOTICE = r"notice %d: [^\n]+ \(adlcons explain notice %d\)\n"
PASSED_OVER = r"(?:not honoured at line \d+: [^\n]+\n){0,20}(?:and \d+ more lines with what isn't honoured\n)?"


def meanings_of(notices: tuple) -> str:
    """What standard error says of notices: each kind once, in a line."""
    kinds = sorted({int(notice.split()[1]) for notice in notices})
    return "".join(NOTICE % (kind, kind) for kind in kinds)


def same_outcome(
        got: Outcome, status: int, line: str, notices: tuple = (), further: tuple = (), clipped: str = "",
        room: str = "") -> None:
    """Notices and one line on standard output. On standard error one line that explains the refusal, with one for each
    further fault, and of a full disk what the output takes; or one that says what a consolidation saved, one for each
    kind of notice, what isn't honoured, what of a rendering is clipped, and of a check how much the outputs would take."""
    same("standard output", got.output.decode(), "".join(f"{each}\n" for each in (*notices, line)))
    if status == 1:
        told = "".join(FURTHER % re.escape(each) for each in further)
        same_shape(f"the explanation of {line}", got.error, EXPLANATION % int(line.split()[1]) + told + room)
    else:
        saved = SAVED if line.startswith("written") else ""
        most = ROOM if line.startswith("accepted") else ""
        wanted = saved + meanings_of(notices) + PASSED_OVER + re.escape(clipped) + most
        same_shape("standard error", got.error, wanted)
    same("the status", got.status, status)


def same_shape(what: str, got: bytes, pattern: str) -> None:
    if not re.fullmatch(pattern, got.decode()):
        raise Mismatch(f"{what}\n    expected {pattern}\n    got      {brief(got)}")


def same_answer(got: Outcome, wanted: model.Answer) -> None:
    """What was printed, and the status."""
    same_outcome(got, wanted.status, wanted.line, wanted.notices, wanted.further, wanted.clipped)
    if wanted.most is not None:
        same("how many bytes media would take at most", int(re.search(ROOM, got.error.decode()).group(1)), wanted.most)
    if wanted.saved is not None:
        kept, whole, written = map(int, re.match(SAVED, got.error.decode()).groups())
        told = whole, kept, written
        same("the bytes of samples in the sources, those kept, and all that were written", told, wanted.saved)


def words_of(command: str, options: model.Options = model.STANDARD) -> list:
    """The words of a command over the scene's places."""
    places = [LIST, MEDIA] if command == "check" else [LIST, MEDIA, OUT]
    return [command, *places, *options.words(command)]


def expect_answer(scene: Scene, command: str, wanted: model.Answer, options: model.Options = model.STANDARD) -> None:
    """Runs a command over the scene's list, which leaves list and media as they are. Both readers read what it reads
    and writes as the same lists."""
    before = (scene.folder / LIST).read_bytes(), scene.files(MEDIA)
    same_answer(scene.run(*words_of(command, options)), wanted)
    files = scene.files()
    same_files(files, wanted.files)
    same("the list and the media", ((scene.folder / LIST).read_bytes(), scene.files(MEDIA)), before)
    for text in ([before[0]] if command == "check" else []) + [files[name] for name in files if name.endswith(".adl")]:
        same("the list as a second reader reads it", second_reader.read(text), model_reads(text))


def model_reads(text: bytes):
    """What the model reads of a list, in the second reader's words."""
    try:
        project = model.read_list(text)
    except model.Refused as refusal:
        return str(refusal)
    return second_reader.List(
        {name.encode(): lines for name, lines in project.header.items()},
        [tuple(source) for source in project.sources],
        [(entry.number, entry.index, tuple(entry.source), tuple(entry.dest), *entry[4:]) for entry in project.entries],
        project.separators, [tuple(notice) for notice in project.notices])


def expect_line(
        scene: Scene, command: str, text: bytes, media: dict, line: str,
        options: model.Options = model.STANDARD) -> None:
    """The command prints this line for the list, and the model says so too; so do notices, status and files."""
    wanted = model.answer(command, text, media, options)
    same("the line of the model", wanted.line, line)
    expect_alone(scene, command, text, media, wanted, options)


def expect_alone(
        scene: Scene, command: str, text: bytes, media: dict, wanted: model.Answer, options: model.Options) -> None:
    """The command answers so over these files, which are put down first, and its output is taken away."""
    scene.put(text, media)
    expect_answer(scene, command, wanted, options)
    scene.empty_out()


def expect_refused(scene: Scene, text: bytes, media: dict, line: str) -> None:
    """All commands refuse the list with this line, and write nothing."""
    for command in model.COMMANDS:
        expect_line(scene, command, text, media, line)


def expect_done(scene: Scene, text: bytes, media: dict, options: model.Options = model.STANDARD) -> None:
    """All commands accept the list, and do what the model does."""
    for command in model.COMMANDS:
        wanted = model.answer(command, text, media, options)
        same("the status of the model", wanted.status, 0)
        expect_alone(scene, command, text, media, wanted, options)


PRELOAD = Path(__file__).resolve().parent / "preload.c"


def preloaded(scene: Scene, **settings) -> dict:
    """The environment of a program with our own reads, prints and syncs, which are built here."""
    if not shutil.which("gcc"):
        raise Skipped("gcc isn't installed (Debian package gcc)")
    library = scene.folder / "preload.so"
    subprocess.run(["gcc", "-shared", "-fPIC", "-O1", "-o", library, PRELOAD, "-ldl"], check=True)
    return {**os.environ, "LD_PRELOAD": str(library), **settings}


@contextmanager
def stopped(scene: Scene, words: list, write: int):
    """The program as it stands before its write of this number."""
    environment = preloaded(scene, STOP_WRITE=str(write))
    with subprocess.Popen(
            [scene.program, *words], cwd=scene.folder, env=environment, stdout=subprocess.PIPE,
            stderr=subprocess.PIPE) as process:
        found = os.waitid(os.P_PID, process.pid, os.WSTOPPED | os.WEXITED | os.WNOWAIT)
        if found.si_code != os.CLD_STOPPED:
            raise Mismatch(f"{words} makes fewer than {write} writes: {process.communicate()}")
        try:
            yield process
        except BaseException:
            process.kill()
            raise


def gone_on(process: subprocess.Popen) -> Outcome:
    """What becomes of a program that was stopped."""
    process.send_signal(signal.SIGCONT)
    output, error = process.communicate(timeout=TIMEOUT)
    return Outcome(process.returncode, output, error)


def meddled(scene: Scene, words: list, is_so: Callable[[], bool], meddle: Callable[[], None]) -> Outcome:
    """What becomes of the program where this is done once that is so: before the first of its writes."""
    for write in range(1, 1000):
        with stopped(scene, words, write) as process:
            if is_so():
                meddle()
                return gone_on(process)
            process.kill()
        scene.empty_out()
    raise Mismatch(f"it is never so while {words} work")


class Cases:
    """The cases of a group, each a function under its name, in the order in which they stand in its file."""

    def __init__(self):
        self.bodies = []

    def __call__(self, name: str):
        """Makes a function the next case."""
        def put(body: Callable[[Scene], None]) -> Callable[[Scene], None]:
            self.add(name, body)
            return body
        return put

    def add(self, name: str, body: Callable[[Scene], None]) -> None:
        self.bodies.append((name, body))

    def run(self, suite: "Suite") -> None:
        for name, body in self.bodies:
            suite.case(name, body)


class Suite:
    """The cases that were run, and what became of them."""

    def __init__(self, program: Path):
        self.program = program
        self.passed = 0
        self.failed = 0
        self.skipped = []

    @staticmethod
    @contextmanager
    def folder():
        """A folder for as long as it is used, into which every user may look."""
        with tempfile.TemporaryDirectory(prefix="adlcons-") as name:
            os.chmod(name, 0o755)
            yield Path(name)

    def case(self, name: str, body: Callable[[Scene], None]) -> None:
        with self.folder() as folder:
            try:
                body(Scene(self.program, folder))
                self.passed += 1
            except Skipped as reason:
                self.skip(name, str(reason))
            except Mismatch as fault:
                self.fail(name, str(fault))
            except Exception as fault:
                self.fail(name, f"{type(fault).__name__}: {fault}")

    def fail(self, name: str, reason: str) -> None:
        self.failed += 1
        print(f"FAILED {name}: {reason}", flush=True)

    def skip(self, name: str, reason: str) -> None:
        self.skipped.append(f"skipped {name}: {reason}")

    def add(self, passed: int, failed: int, skipped: list) -> None:
        """The cases of a group that was run elsewhere."""
        self.passed += passed
        self.failed += failed
        self.skipped += skipped

    def close(self) -> int:
        """Prints the closing lines, and answers the status. In CI a skipped case is a failed one."""
        for line in self.skipped:
            print(line)
        print(f"{self.passed} passed, {self.failed} failed, {len(self.skipped)} skipped")
        return 1 if self.failed or (self.skipped and os.environ.get("CI")) else 0
