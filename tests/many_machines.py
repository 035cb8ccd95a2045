"""Parts of a rendering that are made side by side and joined: the bytes of a single rendering."""

import os
import shlex
import shutil
import signal
import socket
import subprocess
import time
from contextlib import contextmanager
from pathlib import Path
from typing import Callable

import model
from random_projects import Dice
from resumes import plain
from harness import LIST, MEDIA, OUT, Mismatch, Scene, Skipped, Suite, same, same_bytes

MAKEFILE = Path(__file__).resolve().parent.parent / "examples" / "many_machines" / "Makefile"
FIRST_SEED, PROJECTS = 1000, 6
PARTS = (1, 2, 3, 5, 7, 4)
TIMEOUT = 60


def need(**packages: str) -> None:
    for program, package in packages.items():
        if not shutil.which(program):
            raise Skipped(f"{program} isn't installed (Debian package {package})")


def make_words(scene: Scene, **settings) -> list:
    """The words of make over the scene's list; settings are the makefile's variables."""
    need(make="make")
    told = {"LIST": LIST, "MEDIA": MEDIA, "WORK": "work", "ADLCONS": scene.program, **settings}
    return ["make", "-f", str(MAKEFILE), *(f"{name}={value}" for name, value in told.items())]


def make(scene: Scene, *words: str, **settings) -> subprocess.CompletedProcess:
    return subprocess.run(
        [*make_words(scene, **settings), "-j4", *words],
        cwd=scene.folder, capture_output=True, timeout=TIMEOUT, env={"PATH": os.environ["PATH"]})


def expect_joined(scene: Scene, text: bytes, media: dict, settings: dict) -> None:
    """The joined file is the one that a single rendering of the range writes."""
    done = make(scene, **settings)
    if done.returncode != 0:
        raise Mismatch(f"make ends with {done.returncode}: {done.stderr.decode()}")
    options = model.Options(
        begin=settings["FROM"], end=settings["TO"], channels=settings["CHANNELS"], depth=settings["DEPTH"])
    wanted = model.answer("render", text, media, options).files["render.wav"]
    same_bytes("the joined file", (scene.folder / "work" / "render.wav").read_bytes(), wanted)


def times_at(dice: Dice, place: int, *values: int) -> list:
    """Times so many samples behind a place of the day, at the rate of the project that was drawn last."""
    return [model.time_text(min(model.DAY, place + value), rate=dice.rate).decode() for value in values]


def accepted_project(dice: Dice, command: str) -> tuple:
    """The next project that a command accepts."""
    text, media, place = dice.project()
    while model.answer(command, text, media).status:
        text, media, place = dice.project()
    return text, media, place


def joined(seed: int):
    """A random project, in one to seven parts, at each depth."""
    def body(scene: Scene) -> None:
        dice = Dice(seed)
        text, media, place = accepted_project(dice, "check")
        scene.put(text, media)
        begin, end = times_at(dice, place, 5, dice.randint(60, 140))
        expect_joined(scene, text, media, {
            "FROM": begin, "TO": end, "PARTS": PARTS[seed % len(PARTS)],
            "CHANNELS": dice.choice((1, 2, 6, 64)), "DEPTH": (16, 24, 32)[seed % 3]})
    return body


def prepared(scene: Scene) -> tuple:
    """A list that can be rendered, and what is to be rendered of it."""
    dice = Dice(FIRST_SEED)
    text, media, place = accepted_project(dice, "render")
    scene.put(text, media)
    times = times_at(dice, place, 0, 140)
    return text, media, dict(zip(("FROM", "TO"), times), PARTS=3, CHANNELS=2, DEPTH=24)


def begun_again(scene: Scene) -> None:
    """A part that is missing is rendered again, and the others aren't; all are where the list or the form changed."""
    text, media, settings = prepared(scene)
    parts = scene.folder / "work" / "parts"
    same("the status of one part", make(scene, "work/parts/P0003.wav", **settings).returncode, 0)
    same("the one part", [path.name for path in parts.iterdir()], ["P0003.wav"])
    expect_joined(scene, text, media, settings)
    before = {path.name: path.stat().st_mtime_ns for path in parts.iterdir()}
    same("the parts", sorted(before), ["P0001.wav", "P0002.wav", "P0003.wav"])
    (parts / "P0002.wav").unlink()
    expect_joined(scene, text, media, settings)
    same("the parts made again", [name for name in sorted(before)
                                  if (parts / name).stat().st_mtime_ns != before[name]], ["P0002.wav"])
    expect_joined(scene, text, media, {**settings, "DEPTH": 16})
    text = model.list_text([], [])
    scene.put(text)
    expect_joined(scene, text, media, settings)


def gone_on_with(scene: Scene) -> None:
    """A part that was broken off goes on: what is marked of it stays as it is, also where that is wrong."""
    blocks = 6
    text, media = plain(2 * blocks)
    scene.put(text, media)
    end = model.time_text(2 * blocks * model.BLOCK).decode()
    settings = {"FROM": "00.00.00.00/0000", "TO": end, "PARTS": 2, "CHANNELS": 1, "DEPTH": 16}
    expect_joined(scene, text, media, settings)
    whole = scene.folder / "work" / "render.wav"
    wanted = bytearray(whole.read_bytes())
    ranges = [MAKEFILE.parent / "ranges", "words", LIST, settings["FROM"], end, "2", "2"]
    words = subprocess.run(ranges, cwd=scene.folder, check=True, capture_output=True, timeout=TIMEOUT).stdout.split()
    run = scene.folder / "work" / "run" / "0002"
    run.mkdir(parents=True)
    same("the status", scene.run("render", LIST, MEDIA, run, *words, "--channels", "1", "--depth", "16").status, 0)
    sound, marks = (bytearray((run / name).read_bytes()) for name in ("render.wav", "render.marks"))
    # The first block is marked and wrong, the second one isn't marked and is silent.
    size = 2 * model.BLOCK
    sound[690:690 + size] = b"\x55" * size
    sound[690 + size:690 + 2 * size] = bytes(size)
    marks[model.FRONT + 1] = 0
    for name, data in (("render.wav", sound), ("render.marks", marks)):
        (run / name).write_bytes(data)
    (scene.folder / "work" / "parts" / "P0002.wav").unlink()
    same("the status", make(scene, **settings).returncode, 0)
    wanted[690 + blocks * size:690 + (blocks + 1) * size] = b"\x55" * size
    same_bytes("the joined file", whole.read_bytes(), bytes(wanted))


def refused(scene: Scene) -> None:
    """What can't be rendered, or isn't told, ends make, and no joined file is left."""
    text, media, settings = prepared(scene)
    for changed, told in (
        ({"CHANNELS": 65}, b"65"), ({"TO": settings["FROM"]}, b"there can't be 3 parts"),
        ({"FROM": "now"}, b"'now' is no time"),
        ({"TO": "23.59.59.30/0000"}, b"is no time at"), ({"PARTS": 0}, b"0 parts"), ({"LIST": "None.adl"}, b"None.adl"),
    ):
        done = make(scene, **{**settings, **changed})
        if done.returncode == 0 or told not in done.stderr + done.stdout:
            raise Mismatch(f"make over {changed} ends with {done.returncode}: {done.stderr.decode()}")
    for name in ("FROM", "TO", "CHANNELS"):
        done = make(scene, **{key: value for key, value in settings.items() if key != name})
        if done.returncode == 0 or f"{name} isn't told".encode() not in done.stderr:
            raise Mismatch(f"make without {name} ends with {done.returncode}: {done.stderr.decode()}")
    expect_joined(scene, text, media, settings)
    scene.put(b"no list")
    if make(scene, **settings).returncode == 0 or (scene.folder / "work" / "render.wav").exists():
        raise Mismatch("make over no list leaves a joined file")


def spread_by_parallel(scene: Scene) -> None:
    """GNU parallel makes the parts, and make joins them and renders none again."""
    need(parallel="parallel")
    text, media, settings = prepared(scene)
    settings["PARTS"] = 8
    parts = [f"work/parts/P{number:04d}.wav" for number in range(1, 9)]
    done = subprocess.run(
        ["parallel", "--will-cite", "-j4", shlex.join(make_words(scene, **settings)), ":::", *parts],
        cwd=scene.folder, capture_output=True, timeout=TIMEOUT)
    same("how parallel ends", (done.returncode, [part for part in parts if (scene.folder / part).exists()]), (0, parts))
    before = [(scene.folder / part).stat().st_mtime_ns for part in parts]
    expect_joined(scene, text, media, settings)
    same("the times of the parts", [(scene.folder / part).stat().st_mtime_ns for part in parts], before)


SLURM = """ClusterName=test
SlurmctldHost={host}(127.0.0.1)
SlurmctldPort={port}
SlurmdPort={next_port}
AuthType=auth/munge
AuthInfo=socket={folder}/munge.sock
SlurmUser=root
SlurmdUser=root
StateSaveLocation={folder}/state
SlurmdSpoolDir={folder}/spool
SlurmctldPidFile={folder}/control.pid
SlurmdPidFile={folder}/node.pid
SlurmctldLogFile={folder}/control.log
SlurmdLogFile={folder}/node.log
ProctrackType=proctrack/linuxproc
TaskPlugin=task/none
SelectType=select/cons_tres
SelectTypeParameters=CR_Core
ReturnToService=2
MpiDefault=none
JobAcctGatherType=jobacct_gather/none
KillWait=1
NodeName={host} NodeAddr=127.0.0.1 CPUs={processors} State=UNKNOWN
PartitionName=all Nodes={host} Default=YES State=UP
"""


def wait_for(what: str, is_so: Callable[[], bool]) -> None:
    for _ in range(TIMEOUT * 10):
        if is_so():
            return
        time.sleep(0.1)
    raise Mismatch(f"{what} isn't so after {TIMEOUT} seconds")


def is_running(number: int) -> bool:
    try:
        return Path(f"/proc/{number}/stat").read_text().rpartition(")")[2].split()[0] != "Z"
    except OSError:
        return False


@contextmanager
def slurm(folder: Path):
    """A Slurm of one node in a folder of its own, which ends with the test: its commands' environment."""
    need(sbatch="slurm-wlm", slurmctld="slurm-wlm", slurmd="slurm-wlm", munged="munge")
    if os.geteuid() != 0:
        raise Skipped("a Slurm of the test's own wants root")
    for place in (folder, *folder.parents[:-1]):
        place.chmod(place.stat().st_mode | 0o055)
    for name in ("state", "spool"):
        (folder / name).mkdir()
    key = folder / "munge.key"
    key.write_bytes(os.urandom(1024))
    key.chmod(0o400)
    host = socket.gethostname().split(".")[0]
    with socket.create_server(("127.0.0.1", 0)) as free:
        port = free.getsockname()[1]
    settings = folder / "slurm.conf"
    settings.write_text(SLURM.format(
        host=host, folder=folder, port=port, next_port=port + 1, processors=os.cpu_count()))
    environment = {**os.environ, "SLURM_CONF": str(settings)}
    pids = [folder / f"{name}.pid" for name in ("munge", "control", "node")]
    try:
        subprocess.run(
            ["munged", "--force", f"--key-file={key}", f"--socket={folder}/munge.sock", f"--pid-file={pids[0]}",
             f"--log-file={folder}/munge.log", f"--seed-file={folder}/seed"],
            check=True, capture_output=True, timeout=TIMEOUT)
        for daemon in ("slurmctld", "slurmd"):
            subprocess.run([daemon, "-f", settings], env=environment, check=True, capture_output=True, timeout=TIMEOUT)
        wait_for("that the node is idle", lambda: b"idle" in subprocess.run(
            ["sinfo", "--noheader"], env=environment, capture_output=True, timeout=TIMEOUT).stdout)
        yield environment
    finally:
        # Each writes to its folder until it has ended.
        for pid in reversed(pids):
            if pid.exists():
                number = int(pid.read_text())
                os.kill(number, signal.SIGTERM)
                wait_for(f"that {pid.stem} has ended", lambda: not is_running(number))


def spread_by_slurm(scene: Scene) -> None:
    """A job array makes the parts; one that is broken off leaves no part, and is made by a later job."""
    text, media, settings = prepared(scene)
    settings["PARTS"] = 8
    command = shlex.join(make_words(scene, **settings)) + " $(printf work/parts/P%04d.wav $SLURM_ARRAY_TASK_ID)"
    parts = scene.folder / "work" / "parts"
    fifo = scene.folder / "fifo.adl"
    os.mkfifo(fifo)
    state = scene.folder / "slurm"
    state.mkdir()
    with slurm(state) as environment:
        def batch(*words: str) -> str:
            done = subprocess.run(
                ["sbatch", "--parsable", "-o", "job.out", *words], cwd=scene.folder, env=environment, check=True,
                capture_output=True, timeout=TIMEOUT)
            return done.stdout.decode().strip()

        def are_gone() -> bool:
            return not subprocess.run(
                ["squeue", "--noheader"], env=environment, capture_output=True, timeout=TIMEOUT).stdout

        batch("--wait", "--array=1-3,5-8", "--wrap", command)
        # The program waits for its list, which never comes, until its job is cancelled.
        broken = batch("--wrap", f"exec {shlex.quote(str(scene.program))} render {fifo.name} {MEDIA} {OUT}")
        wait_for("that the job runs", lambda: b" R " in subprocess.run(
            ["squeue", "--noheader", "-j", broken], env=environment, capture_output=True, timeout=TIMEOUT).stdout)
        subprocess.run(["scancel", broken], env=environment, check=True, capture_output=True, timeout=TIMEOUT)
        wait_for("that no job is left", are_gone)
        same("the parts", sorted(path.name for path in parts.iterdir()),
             [f"P{number:04d}.wav" for number in (1, 2, 3, 5, 6, 7, 8)])
        batch("--wait", "--array=4", "--wrap", command)
    same("all parts", len(list(parts.iterdir())), 8)
    before = {path.name: path.stat().st_mtime_ns for path in parts.iterdir()}
    expect_joined(scene, text, media, settings)
    same("the times of the parts", {path.name: path.stat().st_mtime_ns for path in parts.iterdir()}, before)


def run(suite: Suite) -> None:
    for seed in range(FIRST_SEED, FIRST_SEED + PROJECTS):
        suite.case(f"random project {seed} in parts", joined(seed))
    suite.case("parts that are there already", begun_again)
    suite.case("a part that was broken off", gone_on_with)
    suite.case("parts that can't be made", refused)
    suite.case("parts that GNU parallel makes", spread_by_parallel)
    suite.case("parts that Slurm makes", spread_by_slurm)
