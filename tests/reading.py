"""Which definitions have to be read to believe a statement: those that it names, those that these name, and so on."""

import re
from dataclasses import dataclass, field
from functools import lru_cache
from pathlib import Path

import citing

TOP = Path(__file__).resolve().parent.parent
CRATES = TOP / "crates"
USE = re.compile(r"^ *(pub |ghost )?use Rattle\.([\w.]+?)(?:\.\{([^}]*)\}| as (\w+));?$", re.M)
START = re.compile(r"^( *)((?:(?:abbrev|unfoldable|pub|record|data) )+|(?=[^\s:]+ : ))([^\s:({]+)")
WIDTH = 200
WORD = re.compile(r"(?<![\w.'])([A-Za-z_][\w'-]*)(?:\.([A-Za-z_][\w'-]*))?")


@dataclass
class Definition:
    """A definition: its crate, its file, its name, and its lines."""

    crate: str
    stem: str
    name: str
    lines: list

    @property
    def text(self) -> str:
        return "\n".join(re.sub(r'--.*|"(?:\\.|[^"\\])*"', "", line) for line in self.lines)

    @property
    def length(self) -> int:
        """Its lines without blank ones and remarks."""
        return sum(1 for line in self.lines if line.strip() and not line.strip().startswith("--"))


@dataclass
class Page:
    """A file of definitions: what it defines, and what its names stand for."""

    definitions: dict = field(default_factory=dict)
    cases: dict = field(default_factory=dict)
    names: dict = field(default_factory=dict)
    modules: dict = field(default_factory=dict)


def imports(text: str) -> tuple:
    """The names that a text imports, each with its module and its name there; and its modules by their other names."""
    names, modules = {}, {}
    for _, path, listed, other in USE.findall(text):
        if other:
            modules[other] = path
        for name in filter(None, (name.strip() for name in listed.split(","))):
            there, _, here = name.partition(" as ")
            names[here or there] = (path, there)
    return names, modules


def is_start(found: re.Match, depth: int) -> bool:
    """Whether a definition begins at a line, and not a part of the one before it: they stand this far to the right."""
    if found[3] in ("use", "mod") or found[3].startswith("{"):
        return False
    if not found[2]:
        return not found[1]
    return found[2] != "pub " or len(found[1]) <= depth


def page_of(crate: str, path: Path) -> Page:
    text = path.read_text()
    page = Page()
    page.names, page.modules = imports(text)
    found, depth = None, 0
    for line in text.splitlines():
        start = START.match(line)
        if re.match(r" *module ", line):
            # how far its definitions stand to the right is seen at the first one
            found, depth = None, WIDTH
        elif line.startswith("use ") or line.startswith("pub use "):
            found = None
        elif start and is_start(start, depth):
            depth = len(start[1])
            found = page.definitions[start[3]] = Definition(crate, path.stem, start[3], [])
        if found:
            found.lines.append(line)
            case = re.match(r"^ +([A-Za-z][\w'-]*) :", line)
            if case and " data " in f" {found.lines[0]}":
                page.cases[case[1]] = found.name
    for definition in page.definitions.values():
        while not definition.lines[-1].strip() or definition.lines[-1].strip().startswith("--"):
            definition.lines.pop()
    return page


@lru_cache(None)
def pages() -> dict:
    """The files of definitions by their modules."""
    return {
        f"{crate}.specs.{path.stem}": page_of(crate, path)
        for crate in citing.edges() for path in sorted((CRATES / crate / "specs").glob("*.antt")) if path.stem != "Lib"
    }


class Reading:
    """What has to be read: definitions by module and name, and the types and traits of the code that they name."""

    def __init__(self):
        self.found = {}
        self.declared = set()

    def take(self, module: str, name: str) -> None:
        """Takes in a name of a module, with all that it stands for."""
        if ".declared." in module:
            crate, _, path = module.partition(".specs.declared.")
            parts = path.split(".")
            # the cases of an enum, and what is ghost in a trait, are the type's
            types = [part for part in (*parts, name) if re.match("(?!The|Ghosts)[A-Z]", part)]
            if types:
                self.declared.add((crate, types[0]))
            return
        page = pages().get(module)
        if page is None or (module, name) in self.found:
            return
        if name in page.definitions:
            self.found[module, name] = page.definitions[name]
            self.take_text(page.definitions[name].text, page, module, name)
        elif name in page.names:
            self.take(*page.names[name])
        elif name in page.cases:
            self.take(module, page.cases[name])

    def take_text(self, text: str, page: Page, module: str, own: str = "") -> None:
        """Takes in what a text names."""
        for first, second in WORD.findall(text):
            if second and first in page.modules:
                self.take(page.modules[first], second)
            elif first != own and (first in page.definitions or first in page.cases):
                self.take(module, first)
            elif first in page.names:
                self.take(*page.names[first])
        for name, (path, there) in page.names.items():
            signs = [sign for sign in name.split("◌") if sign.strip()]
            if "◌" in name and signs and all(sign in text for sign in signs):
                self.take(path, there)

    @property
    def files(self) -> dict:
        """How many lines are read of each file, in the order of crates.txt."""
        lengths = {}
        for definition in self.found.values():
            key = definition.crate, definition.stem
            lengths[key] = lengths.get(key, 0) + definition.length
        order = list(citing.edges())
        return dict(sorted(lengths.items(), key=lambda item: (order.index(item[0][0]), item[0][1])))

    @property
    def lines(self) -> int:
        return sum(self.files.values())


def of_definitions(*names: str) -> Reading:
    """What has to be read for definitions, each by `crate/File/name`."""
    reading = Reading()
    for name in names:
        crate, stem, own = name.split("/")
        if own not in pages()[f"{crate}.specs.{stem}"].definitions:
            raise KeyError(name)
        reading.take(f"{crate}.specs.{stem}", own)
    return reading


def of_functions(*names: str) -> Reading:
    """What has to be read for the contracts of functions, each by `crate/file.rt/name`."""
    reading = Reading()
    for name in names:
        crate, file, function = name.split("/")
        text = (CRATES / crate / "src" / file).read_text()
        head = re.search(rf"\bfn {function}\b.*?^\}}?\s*\{{$|\bfn {function}\b.*?^\{{$", text, re.M | re.S)
        page = Page()
        page.names, page.modules = imports(text)
        reading.take_text(re.sub(r"//.*", "", head[0]), page, "")
    return reading
