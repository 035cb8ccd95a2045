"""Public functions that the documents name are run: by the program, or by a test of the libraries.

The call graph is made from the source text, by names. It has too many edges rather than too few: a call of a method
leads to each method of that name. So a function that isn't reached here is run by nothing.
"""

import re
from functools import cached_property
from pathlib import Path
from typing import NamedTuple, Optional

import citing
from harness import Cases, Scene, same

case = Cases()
run = case.run

TOP = Path(__file__).resolve().parent.parent
PROGRAM = "adlcons"
TEXT = re.compile(r"""//.*|b?"(?:\\[\s\S]|[^"\\])*"|b?'(?:\\.[^']*|[^'\\])'""")
FUNCTION = re.compile(r"^( *)(?P<shown>pub(?:\([\w ]+\))? )?(?:const )?(?:unsafe )?fn (?P<name>\w+)", re.M)
BLOCK = re.compile(r"^impl(?:<[^{]*?>)? (?:(?P<of>[\w:<>', ]+?) for )?(?P<type>[\w:]+)[^{;]*\{$", re.M)
TRAIT = re.compile(r"^pub trait (?P<type>\w+)[^{;]*\{$", re.M)
IMPORT = re.compile(r"^(?:pub )?use (?P<path>[\w:]+?)(?:::\{(?P<names>[^}]*)\})?;", re.M)
CALL = re.compile(r"(?P<before>\.|(?:(?P<type>\w+)(?:::<[^()]*?>)?::))?\b(?P<name>[a-z_]\w*)\b(?!\s*!)")
CALLED = re.compile(r"\(|::<")
# Called by the language: by `?`, `for`, `==`, `{}` and where a value ends.
IMPLICIT = {"drop", "fmt", "from", "eq", "partial_cmp", "cmp", "next", "into_iter", "clone", "default", "deref", "hash"}


class Function(NamedTuple):
    """A function: of a type, where it is a method, and of a trait, where it is a method of that."""

    crate: str
    owner: Optional[str]
    name: str
    is_public: bool
    is_test: bool
    is_of_trait: bool
    file: Path
    at: int

    def title(self) -> str:
        return f"{self.crate}: {self.owner + '::' if self.owner else ''}{self.name}"


def plain(text: str) -> str:
    """The text with each comment and each literal blanked out."""
    return TEXT.sub(lambda part: re.sub(r"[^\n]", " ", part[0]), text)


def body_of(text: str, start: int, indent: str) -> str:
    """What a function does, without its contract: nothing, where it is only declared."""
    head = re.compile(rf"\{{$|^{indent}\{{$|;$", re.M)
    clause = re.compile(rf"^{indent}    (?:requires|ensures|ghost|decreases)\b", re.M)
    end = re.compile(rf"^{indent}\}}", re.M)
    first = head.search(text, start)
    said = clause.search(text, start, first.end()) if first else None
    if said:
        first = re.compile(rf"^{indent}\{{$", re.M).search(text, start)
    if not first or first[0] == ";":
        return ""
    if "\n" not in text[first.end():] or text[first.end() - 2:first.end()] == "{}":
        return ""
    last = end.search(text, first.end())
    return text[first.end():last.start()] if last else ""


def is_passed(call: re.Match, body: str, whole: str) -> bool:
    """A function is passed by its name: an argument that is no variable."""
    if not re.search(r"[(,]\s*$", body[:call.start()]) or not re.match(r"\s*[),]", body[call.end():]):
        return False
    name = call["name"]
    bound = (
        rf"\blet\b[^=;]*\b{name}\b[^=;]*=|\b{name}\s*:|\bfor\b[^{{]*\b{name}\b[^{{]*\bin\b"
        rf"|\|[^|\n]*\b{name}\b[^|\n]*\||\b{name}\b[^\n]*=>")
    return not re.search(bound, whole)


class Sources:
    """All functions of the repository, and what each may call."""

    def __init__(self):
        self.functions = []
        self.imports = {}
        self.texts = {}
        for crate in citing.edges():
            for file in sorted((TOP / "crates" / crate / "src").rglob("*.rt")):
                self.read(crate, file)

    def read(self, crate: str, file: Path) -> None:
        """Finds the functions of a file, and what it imports."""
        whole = file.read_text()
        text = plain(whole)
        self.texts[file] = text
        self.imports[file] = dict(imported(crate, text))
        owners = sorted(
            [(found.start(), found["type"].rpartition("::")[2], bool(found["of"])) for found in BLOCK.finditer(text)]
            + [(found.start(), found["type"], True) for found in TRAIT.finditer(text)])
        for found in FUNCTION.finditer(text):
            inside = [owner for owner in owners if owner[0] < found.start()] if found[1] else []
            owner, is_of_trait = (inside[-1][1], inside[-1][2]) if inside else (None, False)
            before = text[:found.start()].rstrip().rsplit("\n", 1)[-1].strip()
            self.functions.append(Function(
                crate, owner, found["name"], found["shown"] == "pub ", before == "#[test]", is_of_trait, file,
                found.start()))

    @cached_property
    def methods(self) -> dict:
        """The methods of each name."""
        found = {}
        for function in self.functions:
            if function.owner:
                found.setdefault(function.name, []).append(function)
        return found

    @cached_property
    def free(self) -> dict:
        """The other functions, by crate and name."""
        found = {}
        for function in self.functions:
            if not function.owner:
                found.setdefault((function.crate, function.name), []).append(function)
        return found

    def called_by(self, function: Function) -> list:
        """What a function may call."""
        text = self.texts[function.file]
        indent = FUNCTION.match(text, function.at)[1]
        found = []
        body = body_of(text, function.at, indent)
        whole = text[function.at:text.find(body, function.at) + len(body)] if body else ""
        for call in CALL.finditer(body):
            if call["before"] or CALLED.match(body, call.end()) or is_passed(call, body, whole):
                found += self.meant(function, call["before"], call["type"], call["name"])
        return found

    def meant(self, caller: Function, before: Optional[str], owner: Optional[str], name: str) -> list:
        """The functions that a name may mean, after a dot or a path."""
        if before == ".":
            return self.methods.get(name, [])
        if owner and owner[0].isupper():
            owner = caller.owner if owner == "Self" else owner
            named = [method for method in self.methods.get(name, []) if method.owner == owner]
            # of a type parameter, or by another name
            return named or [method for method in self.methods.get(name, []) if method.is_of_trait]
        crate, module = self.imports[caller.file].get(
            name, (owner if owner in citing.edges() else caller.crate, owner or caller.file.stem))
        found = self.from_crate(crate, name)
        return [function for function in found if function.file.stem == module] or found

    def from_crate(self, crate: str, name: str) -> list:
        """The functions of this name that a crate has, or passes on."""
        if (crate, name) in self.free:
            return self.free[crate, name]
        below = [each for each in citing.edges().get(crate, []) if (each, name) in self.free]
        return [function for each in below for function in self.free[each, name]]

    def reached(self) -> set:
        """The functions that the program or a test may call."""
        open_ones = [function for function in self.functions if function.is_test
                     or (function.crate, function.owner, function.name) == (PROGRAM, None, "main")
                     or (function.is_of_trait and function.name in IMPLICIT)]
        found = set(open_ones)
        while open_ones:
            for called in self.called_by(open_ones.pop()):
                if called not in found:
                    found.add(called)
                    open_ones.append(called)
        return found


def imported(crate: str, text: str):
    """The names that a file imports, each with its crate and the last module on its path."""
    for found in IMPORT.finditer(text):
        path = found["path"] if found["names"] else found["path"].rpartition("::")[0]
        names = found["names"] or found["path"].rpartition("::")[2]
        first, _, rest = path.partition("::")
        of = crate if first in ("crate", "self", "super") else first
        for name in re.findall(r"(\w+)(?: as (\w+))?(?=,|\s*$|\s*\})", names.replace("\n", " ").strip() + ","):
            if of in citing.edges():
                yield name[1] or name[0], (of, rest.rpartition("::")[2])


def named() -> set:
    """What the documents name as code: functions alone or with their types."""
    pages = "".join(page.read_text() for page in (TOP / "README.md", *sorted((TOP / "docs").glob("*.md"))))
    return set(re.findall(r"`(?:\w+::)*?((?:[A-Z]\w+::)?[a-z]\w*)(?:\([^`]*\))?`", pages))


@case("public functions that the documents name are run")
def all_are_run(_: Scene) -> None:
    """The program, or a test of the libraries, reaches each of them."""
    sources, names = Sources(), named()
    reached = sources.reached()
    same("some function is reached", len(reached) > 1000, True)
    left = [function.title() for function in sources.functions
            if function.is_public and function.crate in citing.program_crates() and function not in reached
            and (f"{function.owner}::{function.name}" if function.owner else function.name) in names]
    same("those that nothing runs", left, [])
