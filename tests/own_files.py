"""A command changes no file but its own: not a source, not the list, not a file that another process puts in the place of
an output while the command runs. EXCHANGES in the environment is the number of random exchanges, 30 without it."""

import os
import random
import shutil
import subprocess
from pathlib import Path

import model
from harness import LIST, MEDIA, OUT, Mismatch, Outcome, Scene, Skipped, Suite, same, same_bytes, same_files
from outputs import BUSY, MARKS, SHORT, SOUND, expect_kept_out, prepared, state_of
from tables import FIRST_LIST, wave

SEED = 89
EXCHANGES = int(os.environ.get("EXCHANGES", "30"))
REPORT = "render.json"
DEPTH = ("--depth", "16")
RESUME = ("resume", LIST, MEDIA, OUT, *DEPTH)
# A command that takes longer waits in a call that doesn't return.
WAIT = 30
# A call on the file that is exchanged is delayed by so many microseconds, and the exchange is made after so many seconds.
DELAY, HALFWAY = 500_000, 0.25


def source_below(name: str, *words: str):
    """A source that --search finds in OUT under the name of an output is refused before the first write."""
    def body(scene: Scene) -> None:
        text = FIRST_LIST.replace(b"A.wav", name.encode())
        out = scene.folder / MEDIA / OUT
        out.mkdir()
        (scene.folder / LIST).write_bytes(text)
        (out / name).write_bytes(wave())
        same("the check", scene.run("check", LIST, MEDIA, "--search").status, 0)
        before = state_of(scene)
        got = scene.run("resume", LIST, MEDIA, f"{MEDIA}/{OUT}", "--search", *DEPTH, *words)
        same("status and line", (got.status, got.output), (1, f"refused 20 at file {MEDIA}/{OUT}\n".encode()))
        same("list, media and output", state_of(scene), before)
        wanted = f"{MEDIA}/{OUT}/{name} is the same file as {MEDIA}/{OUT}/{name}\n"
        if not got.error.decode().startswith(wanted):
            raise Mismatch(f"standard error says {got.error!r}")
    return body


def list_on_input(name: str, *words: str):
    """The list on standard input, redirected from an output, is refused before the first write."""
    def body(scene: Scene) -> None:
        prepared(scene)
        path = scene.folder / OUT / name
        shutil.copy(scene.folder / LIST, path)
        before = state_of(scene)
        with path.open("rb") as given:
            done = subprocess.run(
                [scene.program, "resume", "-", MEDIA, OUT, *DEPTH, *words], cwd=scene.folder, stdin=given,
                capture_output=True, timeout=WAIT)
        expect_kept_out(scene, Outcome(done.returncode, done.stdout, done.stderr), f"{OUT}/{name}", "standard input")
        same("list, media and output", state_of(scene), before)
    return body


def unknown_input(scene: Scene) -> None:
    """If standard input can't be identified, a rendering that exists isn't written to, and a new one is."""
    needs_strace()
    whole = prepared(scene)
    for files, status in ((whole, 1), ({}, 0)):
        scene.put_out(files)
        with (scene.folder / LIST).open("rb") as given:
            done = subprocess.run(
                ["strace", "-qq", "-o", scene.folder / "trace", "-P", "/dev/stdin", "-e", "trace=statx,newfstatat",
                 "-e", "inject=statx,newfstatat:error=EACCES", scene.program, "resume", "-", MEDIA, OUT, *DEPTH],
                cwd=scene.folder, stdin=given, capture_output=True, timeout=WAIT)
        same("the status", done.returncode, status)
        same_files(scene.files(), whole)
        if status == 1:
            same("the line", done.stdout, f"{BUSY}\n".encode())


def needs_strace() -> None:
    if not shutil.which("strace"):
        raise Skipped("strace isn't installed (Debian package strace)")


def delayed(scene: Scene, call: str, path: str, number: int, words: tuple, exchange) -> Outcome:
    """Runs the program; its call of this kind and number on this path is delayed, and the exchange is made meanwhile."""
    needs_strace()
    with subprocess.Popen(
            ["strace", "-qq", "-o", scene.folder / "trace", "-P", path, "-P", f"{path}/", "-e", f"trace={call}",
             "-e", f"inject={call}:delay_enter={DELAY}:when={number}", scene.program, *words],
            cwd=scene.folder, stdout=subprocess.PIPE, stderr=subprocess.PIPE) as process:
        try:
            process.wait(HALFWAY)
        except subprocess.TimeoutExpired:
            pass
        exchange()
        try:
            output, error = process.communicate(timeout=WAIT)
        except subprocess.TimeoutExpired:
            subprocess.run(["pkill", "-KILL", "-P", str(process.pid)], check=False)
            process.kill()
            process.communicate()
            raise Mismatch(f"{words} hangs after call {number} of {call} on {path}")
    return Outcome(process.returncode, output, error)


def linked_late(name: str, put):
    """A hard link that comes in the place of an output after the output was examined isn't emptied or written to."""
    def body(scene: Scene) -> None:
        for call in ("statx", "openat"):
            for number in (1, 2, 3):
                scene.empty_out()
                whole = put(scene)
                victim = os.urandom(len(whole[name]))
                (scene.folder / "victim").write_bytes(victim)

                def exchange() -> None:
                    (scene.folder / OUT / "link").hardlink_to(scene.folder / "victim")
                    (scene.folder / OUT / "link").replace(scene.folder / OUT / name)

                got = delayed(scene, call, f"{OUT}/{name}", number, RESUME, exchange)
                same_bytes(f"the other file, at {call} {number}", (scene.folder / "victim").read_bytes(), victim)
                calls = (scene.folder / "trace").read_text().count(f"{call}(")
                if calls >= number and got.status != 1:
                    raise Mismatch(f"{call} {number}: status {got.status}, {got.output!r}")
    return body


def becomes_pipe(name: str, put):
    """An output that becomes a pipe between two calls doesn't make the command wait."""
    def body(scene: Scene) -> None:
        for call in ("statx", "openat"):
            for number in (1, 2, 3):
                scene.empty_out()
                put(scene)

                def exchange() -> None:
                    os.mkfifo(scene.folder / OUT / "pipe")
                    (scene.folder / OUT / "pipe").replace(scene.folder / OUT / name)

                delayed(scene, call, f"{OUT}/{name}", number, RESUME, exchange)
    return body


def folder_exchanged(command: str):
    """The path of OUT leads to another folder by the time its files are created: the command is refused, says why, and
    changes nothing that was there before."""
    def body(scene: Scene) -> None:
        prepared(scene)
        other = scene.folder / "other"
        other.mkdir()
        (other / "letter.txt").write_bytes(b"not ours")
        first = "M00001.wav" if command == "consolidate" else SOUND

        def exchange() -> None:
            (scene.folder / OUT).rename(scene.folder / "away")
            (scene.folder / OUT).symlink_to("other")

        words = (command, LIST, MEDIA, OUT, *SHORT.words(command))
        got = delayed(scene, "openat", f"{OUT}/{first}", 1, words, exchange)
        same("the status", got.status, 1)
        if not got.output.startswith(b"refused 62 at file "):
            raise Mismatch(f"standard output says {got.output!r}")
        if b"leads to another folder now" not in got.error:
            raise Mismatch(f"standard error doesn't say why: {got.error!r}")
        same_bytes("the other file", (other / "letter.txt").read_bytes(), b"not ours")
        same("the folder that was named", list((scene.folder / "away").iterdir()), [])
    return body


# The states of OUT in which a command begins.

def empty(scene: Scene) -> dict:
    whole = prepared(scene)
    scene.empty_out()
    return whole


def without_marks(scene: Scene) -> dict:
    whole = prepared(scene)
    scene.put_out({SOUND: bytes(len(whole[SOUND]))})
    return whole


def unmarked(scene: Scene) -> dict:
    whole = prepared(scene)
    marks = whole[MARKS][:model.FRONT] + bytes(len(whole[MARKS]) - model.FRONT)
    scene.put_out({SOUND: bytes(byte ^ (at > 700) for at, byte in enumerate(whole[SOUND])), MARKS: marks})
    return whole


def finished(scene: Scene) -> dict:
    whole = prepared(scene)
    scene.put_out(whole)
    return whole


STATES = (empty, without_marks, unmarked, finished)


class Exchange:
    """Something of another's that comes in the place of an output or of OUT, and how to see that it is unchanged."""

    def __init__(self, scene: Scene, kind: str, target: str, length: int):
        self.folder = scene.folder
        self.kind = kind
        self.path = scene.folder / target
        self.victim = scene.folder / "victim"
        self.bytes = os.urandom(length)
        if target == OUT:
            self.victim.mkdir()
            for name in (SOUND, MARKS, "letter.txt"):
                (self.victim / name).write_bytes(self.bytes)
        else:
            self.victim.write_bytes(self.bytes)

    def make(self) -> None:
        new = self.folder / "new"
        if self.kind == "symbolic link":
            new.symlink_to(self.victim)
        elif self.kind == "pipe":
            os.mkfifo(new)
        elif self.kind == "folder":
            new.mkdir()
        elif self.kind == "hard link" and self.victim.is_file():
            new.hardlink_to(self.victim)
        elif self.victim.is_dir():
            new = self.victim
        else:
            new.write_bytes(self.bytes)
        if self.path.exists() or self.path.is_symlink():
            self.path.rename(self.folder / "away")
        new.rename(self.path)
        if new == self.victim:
            self.victim = self.path

    def check(self, at: str, is_first_look: bool) -> None:
        """All that was there is unchanged. A file that comes before the command looks for its outputs is an output."""
        files = [self.victim] if self.victim.is_file() else [self.victim / name for name in (SOUND, MARKS, "letter.txt")]
        for file in () if is_first_look and self.victim.is_dir() else files:
            same_bytes(f"{at}: {file.name}", file.read_bytes(), self.bytes)
        if self.kind == "other file" and self.path.is_file() and not is_first_look:
            same_bytes(f"{at}: the file that was put there", self.path.read_bytes(), self.bytes)


def random_exchange(number: int):
    """An exchange at a random call: no file of another's is changed, and the command ends."""
    def body(scene: Scene) -> None:
        choice = random.Random(SEED * 100_000 + number)
        state = STATES[number % len(STATES)]
        command = "render" if state is empty and choice.random() < 0.5 else "resume"
        target = choice.choice((f"{OUT}/{SOUND}", f"{OUT}/{MARKS}", OUT))
        kind = choice.choice(("hard link", "symbolic link", "pipe", "folder", "other file"))
        call = choice.choice(("openat", "statx", "flock" if target == OUT else "openat"))
        at = choice.randint(1, 4)
        whole = state(scene)
        exchange = Exchange(scene, kind, target, len(whole[MARKS if target.endswith(MARKS) else SOUND]))
        words = (command, LIST, MEDIA, OUT, *DEPTH)
        what = f"{kind} for {target}, {state.__name__}, {command}, {call} {at}"
        got = delayed(scene, call, target, at, words, exchange.make)
        first = "openat" if target == OUT else "statx"
        exchange.check(what, call == first and at == 1)
        same_bytes(f"{what}: the source", (scene.folder / MEDIA / "A.wav").read_bytes(), wave())
        same_bytes(f"{what}: the list", (scene.folder / LIST).read_bytes(), FIRST_LIST)
        if got.status not in (0, 1):
            raise Mismatch(f"{what}: status {got.status}, {got.error!r}")
    return body


def unlisted_folder(scene: Scene) -> None:
    """A file that --search finds below isn't taken if another of its name may be in a folder that can't be listed."""
    scene.put(FIRST_LIST)
    for folder in (b"s1", b"s\xe9"):
        path = os.path.join(os.fsencode(scene.folder / MEDIA), folder)
        os.mkdir(path)
        with open(os.path.join(path, b"A.wav"), "wb") as file:
            file.write(wave())
    for command in ("check", "render", "consolidate"):
        words = (command, LIST, MEDIA, *([] if command == "check" else [OUT]), "--search")
        got = scene.run(*words)
        same(command, (got.status, got.output), (1, b"refused 21 at index 1 file A.wav\n"))
        for wanted in (b"s1/A.wav isn't taken", b"can't be searched"):
            if wanted not in got.error:
                raise Mismatch(f"standard error lacks {wanted!r}: {got.error!r}")
        same_files(scene.files(), {})
    (scene.folder / MEDIA / "A.wav").write_bytes(wave())
    got = scene.run("check", LIST, MEDIA, "--search")
    same("a file directly in the folder", (got.status, got.output), (0, b"accepted 1 entries 1 indexes\n"))


def failing_folder(scene: Scene) -> None:
    """The same of a folder whose opening fails."""
    needs_strace()
    scene.put(FIRST_LIST)
    for folder in ("one", "two"):
        (scene.folder / MEDIA / folder).mkdir()
    (scene.folder / MEDIA / "one" / "A.wav").write_bytes(wave())
    for error, wanted in (("EIO", 1), ("EACCES", 1)):
        done = subprocess.run(
            ["strace", "-qq", "-o", scene.folder / "trace", "-P", f"{MEDIA}/two/", "-e", "trace=openat",
             "-e", f"inject=openat:error={error}", scene.program, "check", LIST, MEDIA, "--search"],
            cwd=scene.folder, capture_output=True, timeout=WAIT)
        same("status and line", (done.returncode, done.stdout), (wanted, b"refused 21 at index 1 file A.wav\n"))
        if b"two/ in the media folder can't be searched" not in done.stderr:
            raise Mismatch(f"standard error says {done.stderr!r}")
    got = scene.run("check", LIST, MEDIA, "--search")
    same("without the failure", (got.status, got.output), (0, b"accepted 1 entries 1 indexes\n"))


def run(suite: Suite) -> None:
    for name, words in ((SOUND, ()), (MARKS, ()), (REPORT, ("--report",))):
        suite.case(f"a source found below is {name}", source_below(name, *words))
        suite.case(f"the list on standard input is {name}", list_on_input(name, *words))
    suite.case("standard input can't be identified", unknown_input)
    for name in (SOUND, MARKS):
        for put in (unmarked, finished):
            suite.case(f"{name} is linked late, {put.__name__}", linked_late(name, put))
            suite.case(f"{name} becomes a pipe, {put.__name__}", becomes_pipe(name, put))
    for command in ("render", "consolidate"):
        suite.case(f"OUT is exchanged while {command} runs", folder_exchanged(command))
    suite.case("a folder below that has no name in UTF-8", unlisted_folder)
    suite.case("a folder below that can't be opened", failing_folder)
    for number in range(EXCHANGES):
        suite.case(f"random exchange {number}", random_exchange(number))
