"""The public items of the libraries, as a caller sees them: each with the first sentence of its doc comment (an enum with all
of it), its signature and its premises."""

import re
import textwrap
from dataclasses import dataclass
from functools import lru_cache
from pathlib import Path

TOP = Path(__file__).resolve().parent.parent
CRATES = TOP / "crates"
WIDTH = 110
ITEM = re.compile(r"^pub (fn|struct|enum|trait|const|type|static) (\w+)", re.M)
REEXPORT = re.compile(r"^pub use ([\w:]+?)(?:::\{([^}]*)\}|::(\w+));", re.M | re.S)
IMPL = re.compile(r"^impl\b.*?\{$", re.M | re.S)
# What the block of a crate begins with.
NOTES = {
    "consolidate": """
Names of the toolchain: `Global` is the allocator, which `rt.alloc()` returns for the `rt: HostRuntime` that `main`
receives. For `files: R` pass `&rt`: a `&HostRuntime` meets the bounds `Files` (of `std::fs`), `FileExt` (of
`std::os::unix::fs`) and `AllocGlobal` (of the prelude).

Contracts: `requires` is what the caller has to prove, `ensures` what holds when the call has returned. In a clause
`x.now` is the value behind the reference `x`. `ghost` marks what only contracts and proofs see, not the program. In a
`ghost` member `Files` is a definition: the bytes of each stored file, by its name.

Two types have the name `Fault`: this crate's has that of `opening` in its variant `Project`. Two have the name
`Written`: this crate's adds the notices to that of `consolidation`, which is the outcome of a plan. Two have the name
`CompareFault`: `compare` returns that of `comparing`.
""",
}
# Items of crates without a block of their own, by the crate in whose block they are: each with its crate.
LOWER = {
    "consolidate": (("mediaset", "RunFault"), ("relink", "RelinkFault")),
    "rendering": (("renderplan", "Plan"),),
    "consolidation": (
        ("silence", "run"), ("relink", "relink"), ("relink", "relink_homed"), ("mediaset", "runs"), ("mediaset", "Runs"),
        ("mediacopy", "lay_out"), ("mediacopy", "lay_out_in"), ("mediacopy", "copy_piece"), ("mediacopy", "fetch_piece"),
        ("mediacopy", "place_piece"), ("mediacopy", "CopyJob"), ("mediacopy", "CopyFault"), ("mediacopy", "LayoutFault"),
    ),
}
CLAUSE = re.compile(r"\b(requires|ensures)\b\*?(?: (\w+))? (?=\{)")


@lru_cache(None)
def sources(crate: str) -> dict:
    """The text of each file of a crate, by its path from `src` on."""
    folder = CRATES / crate / "src"
    return {str(path.relative_to(folder)): path.read_text() for path in sorted(folder.rglob("*.rt"))}


@lru_cache(None)
def files_of(crate: str, module: str) -> list:
    """The texts of a module and of those below it, by its name."""
    return [text for path, text in sources(crate).items()
            if f"{module}.rt" in path.split("/") or module in path.split("/")[:-1]]


def comment_above(text: str, start: int) -> list:
    """The paragraphs of the doc comment that ends right above a place."""
    found = []
    for line in reversed(text[:start].splitlines()):
        line = line.strip()
        if line.startswith("///"):
            found.insert(0, line[3:].strip())
        elif not line.startswith("#["):
            break
    return [" ".join(paragraph.split("\n")).strip() for paragraph in "\n".join(found).split("\n\n")]


def doc_above(text: str, start: int) -> str:
    """The first sentence of the doc comment that ends right above a place."""
    paragraph = comment_above(text, start)[0]
    sentence = re.match(r"(.*?\.)(?: (?=[A-Z`0-9])|$)", paragraph)
    return sentence[1] if sentence else paragraph


def documented(doc: str, indent: str = "") -> list:
    return [f"{indent}/// {line}" for line in textwrap.wrap(doc, WIDTH - len(indent) - 4)]


def closing(text: str, start: int) -> int:
    """Where the braces that open at a place close."""
    depth = 0
    for place in range(start, len(text)):
        depth += {"{": 1, "}": -1}.get(text[place], 0)
        if not depth and text[place] == "}":
            return place + 1
    raise ValueError(text[start:start + 80])


@dataclass
class Function:
    """A function as callers see it: up to its body, with its premises and the names of its other clauses."""

    head: str
    premises: list
    clauses: list
    end: int

    def lines(self, indent: str) -> list:
        tail = "".join(f"\n    {premise}" for premise in self.premises)
        named = ", ".join(filter(None, self.clauses))
        shown = wrapped(f"{self.head}{tail};", indent)
        return [*shown, *wrapped(f"    // ensures {named}", indent)] if named else shown


def wrapped(text: str, indent: str) -> list:
    """Lines of code that are cut at spaces."""
    found = []
    for line in text.split("\n"):
        own = indent + re.match(" *", line)[0]
        found += textwrap.wrap(line.strip(), WIDTH, initial_indent=own, subsequent_indent=own + "    ",
                               break_long_words=False, break_on_hyphens=False)
    return found


def joined(text: str) -> str:
    """Code in one line."""
    return re.sub(r",? ?\)", ")", re.sub(r"\(\s+", "(", re.sub(r"\s+", " ", text))).strip().rstrip(",")


def function_at(text: str, start: int) -> Function:
    """The function whose head begins at a place."""
    place, premises, clauses = start, [], []
    ends = re.compile(r"\s*(?:(?=requires|ensures|ghost )|[{;])")
    depth = 0
    while True:
        if text[place] in "(<[":
            depth += 1
        elif text[place] in ")]" or text[place] == ">" and text[place - 1] not in "-=":
            depth -= 1
        elif not depth and ends.match(text, place):
            break
        place += 1
    head = joined(text[start:place])
    while True:
        place += len(re.match(r"(?:\s|//.*|ghost use [^;]*;)*", text[place:])[0])
        clause = CLAUSE.match(text, place)
        if not clause:
            break
        end = closing(text, clause.end())
        if clause[1] == "requires":
            premises.append(re.sub(r"\s+", " ", text[place:end]))
        else:
            clauses.append(clause[2])
        place = end
    return Function(head, premises, clauses, place)


def members(block: str) -> list:
    """The public functions of an `impl`, or all of a trait with its ghost members."""
    is_trait = not block.startswith("impl")
    found = []
    for start in re.finditer(r"^    (ghost|pub const|(?:pub )?fn) (?!use )\w+", block, re.M):
        if is_trait and start[1] == "ghost" or start[1] == "pub const":
            found += documented(doc_above(block, start.start()), "    ")
            found += wrapped(joined(block[start.start():block.index(";", start.start()) + 1]), "    ")
        elif start[1] == "pub fn" or is_trait and start[1] == "fn":
            found += documented(doc_above(block, start.start()), "    ")
            found += function_at(block, start.start() + 4).lines("    ")
    return found


def parts(body: str) -> list:
    """The public fields of a struct, or the variants of an enum, with their docs."""
    found, doc = [], []
    for line in body.splitlines()[1:-1]:
        if line.strip().startswith("///"):
            doc.append(line)
        elif re.match(r"^    (pub \w+: |[A-Z])", line):
            found += [*doc, line.rstrip()]
            doc = []
        elif line.strip().startswith(("#[", "ghost ")):
            continue
        else:
            if found and re.match(r"^ {8}|^    \}", line):
                found.append(line)
            doc = []
    return found


def derived(text: str, start: int) -> list:
    """What is derived for a type, without what each has."""
    found = re.search(r"#\[derive\(([^)]*)\)\]\n(?:#\[.*\n)*\Z", text[:start])
    return [f"#[derive({found[1]})]"] if found else []


def type_lines(crate: str, text: str, found: re.Match) -> list:
    """A struct or an enum, with what it implements and its functions."""
    name = found[2]
    whole = re.match(r"pub \w+ \w+[^{;(]*", text[found.start():])[0]
    head, opened = joined(whole), text[found.start() + len(whole)]
    paragraphs = [documented(paragraph) for paragraph in comment_above(text, found.start())]
    doc = documented(doc_above(text, found.start()))
    if found[1] == "enum":
        doc = sum(([*lines, "///"] for lines in paragraphs), [])[:-1]
    lines = [*doc, *derived(text, found.start())]
    if opened == "{":
        brace = text.index("{", found.start())
        body = parts(text[brace:closing(text, brace)])
        lines += [*wrapped(f"{head} {{", ""), *body, "}"] if body else wrapped(f"{head} {{ .. }}", "")
    elif opened == "(":
        shown = text[found.start():text.index(";", found.start()) + 1]
        lines += wrapped(re.sub(r"\((?!pub)[^)]*\)", "(..)", shown), "")
    else:
        lines += wrapped(f"{head};", "")
    for file in sources(crate).values():
        for block in IMPL.finditer(file):
            words = joined(block[0][:-1])
            owner = re.match(rf"impl(?:<.*?>(?= [A-Z]))? (?:(.*) for )?{name}\b", words)
            if not owner or re.search(r"\b(Drop|Model|fmt::\w+|From<.*>) for ", words):
                continue
            own = members(file[block.start():closing(file, block.end() - 1)]) if not owner[1] else []
            if own:
                lines += ["", *wrapped(f"{words} {{", ""), *own, "}"]
            elif owner[1]:
                lines += ["", *wrapped(f"{words};", "")]
    return lines


def item_lines(crate: str, name: str, texts: list) -> list:
    """A public item of a crate by its name; nothing where these texts don't have it."""
    for text in texts:
        for found in ITEM.finditer(text):
            if found[2] != name:
                continue
            if found[1] == "fn":
                return [*documented(doc_above(text, found.start())), *function_at(text, found.start()).lines("")]
            if found[1] in ("struct", "enum"):
                return type_lines(crate, text, found)
            if found[1] == "trait":
                brace = text.index("{", found.start())
                block = text[found.start():closing(text, brace)]
                head = joined(block[:brace - found.start()])
                return [*documented(doc_above(text, found.start())), *wrapped(f"{head} {{", ""), *members(block), "}"]
            shown = joined(text[found.start():text.index(";", found.start()) + 1])
            return [*documented(doc_above(text, found.start())), *wrapped(shown, "")]
    return []


def is_variant(lines: list) -> bool:
    """Whether an item is documented as a variant of another one, which is shown before it."""
    return lines[0].startswith("/// The same")


def function_name(lines: list) -> str:
    """The name of an item that is a function, else nothing."""
    return "".join(re.findall(r"^pub fn (\w+)", "\n".join(lines), re.M)[:1])


def in_order(items: list) -> list:
    """Functions before types. A function comes before those whose names continue its own."""
    names = [name for name in map(function_name, items) if name]
    plain = {name: min((other for other in names if f"{name}_".startswith(f"{other}_")), key=len) for name in names}
    first = {}
    for place, name in enumerate(names):
        first.setdefault(plain[name], place)

    def rank(lines: list) -> tuple:
        name = function_name(lines)
        return (0, first[plain[name]], name != plain[name]) if name else (1, 0, False)

    return sorted(items, key=rank)


def note_on(crate: str) -> list:
    """The remark that the block of a crate begins with, as an item."""
    paragraphs = [textwrap.wrap(" ".join(paragraph.split()), WIDTH - 3)
                  for paragraph in NOTES.get(crate, "").strip().split("\n\n")]
    lines = sum(([*(f"// {line}" for line in wrapped_lines), "//"] for wrapped_lines in paragraphs if wrapped_lines), [])
    return [lines[:-1]] if lines else []


def lower_items(crate: str) -> list:
    """The items of lower crates that are in the block of a crate, each with the name of its own."""
    return [[f"// In the crate {lower}:", *item_lines(lower, name, list(sources(lower).values()))]
            for lower, name in LOWER.get(crate, ())]


def exports(crate: str) -> tuple:
    """What the root of a crate exports: its own items, each by its lines, and names of other crates."""
    root = sources(crate)["lib.rt"]
    own = [item_lines(crate, found[2], [root]) for found in ITEM.finditer(root)]
    others = {}
    for path, listed, single in REEXPORT.findall(root):
        found = []
        for name in filter(None, (word.strip() for word in (listed or single).split(","))):
            lines = item_lines(crate, name.split(" as ")[0], files_of(crate, path.split("::")[0]))
            if lines:
                found.append(lines)
            else:
                others.setdefault(path.split("::")[0], []).append(name)
        own += sorted(found, key=is_variant)
    return [*note_on(crate), *in_order(own), *lower_items(crate)], others


def head_of(crate: str) -> str:
    """The head of a crate's root file."""
    root = next(text for path, text in sources(crate).items() if path in ("lib.rt", "main.rt"))
    return "\n".join(line[3:].strip() for line in re.match(r"(//!.*\n)*", root)[0].splitlines())
