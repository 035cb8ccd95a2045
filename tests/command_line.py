"""The words of the command line: the stored run, faults of the words, help."""

from harness import LIST, MEDIA, OUT, Cases, Mismatch, Outcome, Scene, same, same_files
from tables import FIRST_LIST, VERSION, rendered_files, wave

case = Cases()
run = case.run

STORED_RUN = b"698 bytes: 1000 -1000 32767 -32768\n"

MISTAKES = {
    "no output": ("render", LIST, MEDIA),
    "no output to consolidate": ("consolidate", LIST, MEDIA),
    "a command alone": ("render",),
    "a word too many": ("render", LIST, MEDIA, OUT, "more"),
    "an unknown command": ("rendre", LIST, MEDIA, OUT),
    "a command in capitals": ("RENDER", LIST, MEDIA, OUT),
    "an output of a check": ("check", LIST, MEDIA, OUT),
    "a handle of a rendering": ("render", LIST, MEDIA, OUT, "--handle", "1"),
    "a depth of a consolidation": ("consolidate", LIST, MEDIA, OUT, "--depth", "16"),
    "an option of a check": ("check", LIST, MEDIA, "--depth", "16"),
    "a depth of 20": ("render", LIST, MEDIA, OUT, "--depth", "20"),
    "a depth of nothing": ("render", LIST, MEDIA, OUT, "--depth"),
    "a depth twice": ("render", LIST, MEDIA, OUT, "--depth", "16", "--depth", "16"),
    "an order of a consolidation": ("consolidate", LIST, MEDIA, OUT, "--order", "time"),
    "no output to go on with": ("resume", LIST, MEDIA),
    "a depth of 20 to go on with": ("resume", LIST, MEDIA, OUT, "--depth", "20"),
    "an output of a picture": ("show", LIST, MEDIA, OUT),
    "a picture with a handle of more than a day": ("show", LIST, MEDIA, "--handle", "4147200001"),
    "digests of a rendering": ("render", LIST, MEDIA, OUT, "--digests"),
    "an order by name": ("render", LIST, MEDIA, OUT, "--order", "name"),
    "an order in capitals": ("render", LIST, MEDIA, OUT, "--order", "TIME"),
    "no channels": ("render", LIST, MEDIA, OUT, "--channels", "0"),
    "65 channels": ("render", LIST, MEDIA, OUT, "--channels", "65"),
    "channels in words": ("render", LIST, MEDIA, OUT, "--channels", "two"),
    "digests without a report": ("consolidate", LIST, MEDIA, OUT, "--digests"),
    "digests of a check": ("check", LIST, MEDIA, "--report", "--digests"),
    "a handle of more than a day": ("consolidate", LIST, MEDIA, OUT, "--handle", "4147200001"),
    "a handle below zero": ("consolidate", LIST, MEDIA, OUT, "--handle=-1"),
    "a handle past all numbers": ("consolidate", LIST, MEDIA, OUT, "--handle", "18446744073709551616"),
    "a handle of a time": ("consolidate", LIST, MEDIA, OUT, "--handle", "00.00.00.00/0001"),
    "no second list": ("compare", LIST, MEDIA),
    "no second media": ("compare", LIST, MEDIA, LIST),
    "a fifth place": ("compare", LIST, MEDIA, LIST, MEDIA, OUT),
    "two lists on standard input": ("compare", "-", MEDIA, "-", MEDIA),
    "a comparison of 65 channels": ("compare", LIST, MEDIA, LIST, MEDIA, "--channels", "65"),
    "a depth of a comparison": ("compare", LIST, MEDIA, LIST, MEDIA, "--depth", "16"),
    "an unknown option": ("render", "--loud", LIST, MEDIA, OUT),
    "an unknown option behind": ("consolidate", LIST, MEDIA, OUT, "--loud"),
    "an unknown short option": ("render", "-x", LIST, MEDIA, OUT),
    "an empty word": ("",),
    "all of it with a value": ("check", LIST, MEDIA, "--all=1"),
    "all of it twice": ("check", LIST, MEDIA, "--all", "--all"),
    "all of an explanation": ("explain", "--all"),
    "two numbers": ("explain", "13", "46"),
    "a number that no refusal has": ("explain", "59"),
    "a number that no notice has": ("explain", "notice", "8"),
    "two notices": ("explain", "notice", "1", "2"),
    "help of no command": ("help", "relink"),
    "a list alone": (LIST,),
}

SHOWN = (
    ("--help",), ("-h",), ("check", "--help"), ("render", "--help"), ("consolidate", "--help"), ("resume", "--help"),
    ("compare", "--help"), ("show", "--help"), ("explain", "--help"), ("--version",), ("-V",), ("help",),
    ("help", "render"))


def prepared(scene: Scene) -> None:
    scene.put(FIRST_LIST, {"A.wav": wave()})


@case("forms of options")
def option_forms(scene: Scene) -> None:
    """A number may have a plus, an option its value behind `=`, and options may stand anywhere."""
    prepared(scene)
    for words in (
        ("render", "--depth=16", LIST, MEDIA, OUT, "--channels", "+1"), ("render", LIST, "--depth", "16", MEDIA, OUT),
        ("render", LIST, MEDIA, OUT, "--depth", "16", "--order", "time"),
        ("render", "--order=source", LIST, MEDIA, OUT, "--depth", "16"),
        ("render", LIST, MEDIA, OUT, "--depth", "16", "--from=01.00.00.00/0000", "--to", "01:00|00,00=0004"),
    ):
        same(f"the answer of {words}", scene.run(*words), Outcome(0, b"rendered 4 frames 1 channels\n", b""))
        same_files(scene.files(), rendered_files())
        scene.empty_out()


@case("times that can't be read")
def bad_times(scene: Scene) -> None:
    """A time that can't be read is told before all faults in the list, and behind places that can't be used."""
    good, bad = "01.00.00.00/0000", ("1", "", "24.00.00.00/0001", "00.00.00.25/0000", "00.00.00.00/1920")
    for text in (FIRST_LIST, b"no list"):
        scene.put(text, {"A.wav": wave()})
        for time in bad:
            for option, words in (
                ("--from", (f"--from={time}",)), ("--to", (f"--to={time}",)),
                ("--to", ("--from", good, f"--to={time}")), ("--from", (f"--to={time}", f"--from={time}")),
            ):
                got = scene.run("render", LIST, MEDIA, OUT, *words)
                same(f"the answer of {words}", got, Outcome(2, b"", f"bad time: {option}\n".encode()))
    same_files(scene.files(), {})
    full = scene.run("render", LIST, MEDIA, MEDIA, "--from=1")
    same("the output first", full.output, f"refused 20 at file {MEDIA}\n".encode())
    same("the list first", scene.run("render", "none", MEDIA, OUT, "--from=1").output, b"refused 21 at file none\n")


HELP = """Checks, consolidates and renders audio decision lists in the shape of AES31-3

Usage: adlcons <COMMAND>

Commands:
  check        Check a list and the files that it uses, and write nothing
  consolidate  Write new media of just the frames that a list plays, and a list
  render       Render a list to one sound file, OUT/render.wav
  resume       Continue an interrupted rendering, with the same arguments
  compare      Say whether two lists sound the same, or where they differ first
  show         Draw a list as SVG: entries over time, and what of files is kept
  explain      Tell what the number of a refusal or notice means, and what to do
  help         Print this message or the help of the given subcommand(s)

Options:
  -h, --help     Print help
  -V, --version  Print version

Exit status: 0 done or same, 1 refused or different, 2 usage error.
A refusal is one line with its number and its place.
'adlcons explain 46' says what 46 means and what to do.
Example: adlcons render session.adl sources rendered
"""

CHECK_HELP = """Check a list and the files that it uses, and write nothing

Usage: adlcons check [OPTIONS] <LIST> <MEDIA>

Arguments:
  <LIST>   The list, a file; - is standard input
  <MEDIA>  The folder of the list's WAVE files

Options:
      --all     List all further faults of the first one's kind
      --search  Look for missing media by name in the folders below
      --report  Print all that is found as JSON
  -h, --help    Print help

Example: adlcons check session.adl sources
"""

CONSOLIDATE_HELP = """Write new media of just the frames that a list plays, and a list

Usage: adlcons consolidate [OPTIONS] <LIST> <MEDIA> <OUT>

Arguments:
  <LIST>   The list, a file; - is standard input
  <MEDIA>  The folder of the list's WAVE files
  <OUT>    The folder to write to: an existing, empty one

Options:
      --all         List all further faults of the first one's kind
      --search      Look for missing media by name in the folders below
      --handle <N>  Frames kept on each side of what plays [default: 48000]
      --report      Write where the media come from, and checksums
      --digests     Have the SHA-256 of each whole source in the report
      --verify      Read it again, and compare it with what was given
  -h, --help        Print help

Example: adlcons consolidate session.adl sources consolidated --handle 96000
"""

COMPARE_HELP = """Say whether two lists sound the same, or where they differ first

Usage: adlcons compare [OPTIONS] <LIST> <MEDIA> <LIST2> <MEDIA2>

Arguments:
  <LIST>    The list, a file; - is standard input
  <MEDIA>   The folder of the list's WAVE files
  <LIST2>   The second list, a file; one of both may be -
  <MEDIA2>  The folder of the second list's WAVE files

Options:
      --all           List all further faults of the first one's kind
      --search        Look for missing media by name in the folders below
      --report        Print all that is found as JSON
      --from <T>      First sample, hh.mm.ss.ff/rrrr [default: earliest start]
      --to <T>        Time just after the last sample [default: latest end]
      --channels <N>  Channels, 1 to 64 [default: up to the highest named]
  -h, --help          Print help

Example: adlcons compare session.adl sources new/consolidated.adl new
"""

NO_OUT = """error: the following required arguments were not provided:
  <OUT>

Usage: adlcons render <LIST> <MEDIA> <OUT>

For more information, try '--help'.
"""

NO_COMMAND = """error: unrecognized subcommand 'rendr'

  tip: a similar subcommand exists: 'render'

Usage: adlcons <COMMAND>

For more information, try '--help'.
"""


@case("the texts of help and mistakes")
def texts(scene: Scene) -> None:
    """What help, the version and mistakes say."""
    for words, text in (
        (("--help",), HELP), (("check", "-h"), CHECK_HELP), (("consolidate", "-h"), CONSOLIDATE_HELP),
        (("compare", "-h"), COMPARE_HELP),
        (("help",), HELP), (("--version",), f"adlcons {VERSION}\n"),
    ):
        same(f"the text of {words}", scene.run(*words).output.decode(), text)
    for words, text in ((("render", LIST, MEDIA), NO_OUT), (("rendr", LIST, MEDIA, OUT), NO_COMMAND)):
        same(f"the mistake of {words}", scene.run(*words).error.decode(), text)


BAD_DEPTH = """error: a depth is 16, 24 or 32

Usage: adlcons %s [OPTIONS] <LIST> <MEDIA> <OUT>

For more information, try '--help'.
"""


@case("a mistake in a value")
def bad_values(scene: Scene) -> None:
    """A mistake in a value shows the usage of its command."""
    for command in ("render", "resume"):
        got = scene.run(command, LIST, MEDIA, OUT, "--depth", "20")
        same("the mistake", got, Outcome(2, b"", (BAD_DEPTH % command).encode()))
    got = scene.run("explain", "13", "46")
    same("of an explanation", b"Usage: adlcons explain [WHAT] [NUMBER]\n" in got.error, True)


@case("no words: the stored run")
def stored_run(scene: Scene) -> None:
    same("the stored run", scene.run(), Outcome(0, STORED_RUN, b""))


def mistake(words: tuple):
    def body(scene: Scene) -> None:
        prepared(scene)
        before = sorted(path.name for path in scene.folder.iterdir())
        got = scene.run(*words)
        same("the status and standard output", (got.status, got.output), (2, b""))
        if not got.error.strip():
            raise Mismatch("nothing on standard error")
        same_files(scene.files(), {})
        same("the folder", sorted(path.name for path in scene.folder.iterdir()), before)
    return body


for name, words in MISTAKES.items():
    case.add(f"words: {name}", mistake(words))


@case("help and version")
def shown(scene: Scene) -> None:
    """Help and version are printed, in 80 columns, and nothing is done."""
    for words in SHOWN:
        got = scene.run(*words)
        same(f"status and standard error of {words}", (got.status, got.error), (0, b""))
        if not got.output.strip() or max(map(len, got.output.splitlines())) > 80:
            raise Mismatch(f"{words} prints {got.output!r}")
    for words in SHOWN[2:9]:
        if b"Example" not in scene.run(*words).output:
            raise Mismatch(f"{words} shows no example")


@case("help beside other words")
def help_beside_words(scene: Scene) -> None:
    """Where help is asked for, nothing else is done."""
    prepared(scene)
    got = scene.run("render", LIST, MEDIA, OUT, "--help")
    same("the status", got.status, 0)
    same_files(scene.files(), {})


@case("a path behind --")
def words_behind_dashes(scene: Scene) -> None:
    """Behind `--` a word that begins with a dash is a path."""
    prepared(scene)
    (scene.folder / "--list").write_bytes(FIRST_LIST)
    got = scene.run("render", "--depth", "16", "--", "--list", MEDIA, OUT)
    same("the answer", got, Outcome(0, b"rendered 4 frames 1 channels\n", b""))
