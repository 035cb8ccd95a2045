"""The program in docs/LIBRARY.md, which takes minutes to compile."""

import re
import shutil
import subprocess

from documents import DOCS, TOP, code_in, with_examples
from harness import OUT, Cases, Mismatch, Scene, Skipped, same

case = Cases()
run = case.run

# How long `rt try` may take for all crates below the program, on a slow machine with other work.
TIMEOUT = 1200


@case("the program of LIBRARY.md")
def library_program(scene: Scene) -> None:
    """The program that LIBRARY.md has for two folders, with its shelf that counts, compiles in a copy of this tree, and
    consolidates an example."""
    if not shutil.which("rt"):
        raise Skipped("rt isn't in the path (the Rattle toolchain)")
    examples = with_examples(scene)
    tree = scene.folder / "tree"
    shutil.copytree(TOP / "crates", tree / "crates", ignore=shutil.ignore_patterns("out"))
    shutil.copy(TOP / "HANDLES", tree)
    line = re.search(r"`(mine: [\w ]+)`", (DOCS / "LIBRARY.md").read_text())[1]
    (tree / "crates.txt").write_text(f"{(TOP / 'crates.txt').read_text()}{line}\n")
    (tree / "crates/mine/src").mkdir(parents=True)
    main, _, counted = code_in("LIBRARY.md", "rust")
    shelf = re.search(r"FolderShelf::new\(.*\)\?", main)[0]
    main = main.replace("use anyhow", "mod counted;\n\nuse anyhow", 1)
    main = main.replace(shelf, f"counted::Counted::new({shelf})")
    main = main.replace("    Ok(())\n", '    println!(rt; "{} bytes", shelf.bytes())?;\n    Ok(())\n')
    for name, code in (("main.rt", main), ("counted.rt", counted)):
        (tree / "crates/mine/src" / name).write_text(code)
    words = [examples / "dialogue/dialogue.adl", examples / "dialogue/media", scene.folder / OUT]
    done = subprocess.run(["rt", "try", "--", *words], cwd=tree / "crates/mine", capture_output=True, timeout=TIMEOUT)
    printed = done.stdout.decode()
    if "3 media written\n" not in printed or done.returncode:
        raise Mismatch(f"the program doesn't run: {printed}{done.stderr.decode()}")
    same("what it writes", sorted(scene.files()), ["M00001.wav", "M00002.wav", "M00003.wav", "consolidated.adl"])
