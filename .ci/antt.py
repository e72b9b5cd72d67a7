"""Reads definitions (crates/*/specs) and promises (crates/*/src) as far as the gate's scripts need them: which names a text has, where they
are declared, and the types of fields and statements. It knows the layout of `rt fmt`, by which every top-level item starts in column 0."""

from __future__ import annotations

import re
from collections.abc import Iterable, Iterator
from dataclasses import dataclass, field
from functools import cache
from pathlib import Path

TOP = Path(__file__).resolve().parent.parent
CRATES = TOP / "crates"

# What separates the words of antt; each of these is a token of its own.
TOKEN = re.compile(r"[(){};,]|[^\s(){};,]+")
HEAD = re.compile(r"(?:pub |abbrev |unfoldable )*(?P<name>\S+) : (?P<type>.*)", re.DOTALL)
BLOCK = re.compile(r"(?:pub )?(?P<kind>record|data) (?P<name>\S+)(?P<rest>.*)", re.DOTALL)
MEMBER = re.compile(r"\s+(?:pub )?(?P<names>[^\s:]+(?: [^\s:]+)*) : (?P<type>.*)", re.DOTALL)
USE = re.compile(r"(?:ghost )?use (?P<module>[^\s{;]+?)(?:\.\{(?P<names>[^}]*)\})?(?: as (?P<alias>[^\s;]+))?;?$")


@dataclass
class Declaration:
    """A definition: `kind` is record, data or definition; `members` are fields or constructors with their types."""

    file: Path
    name: str
    kind: str
    type: str
    body: str = ""
    members: dict[str, str] = field(default_factory=dict)

    def text(self) -> str:
        return " ; ".join([self.type, self.body, *self.members.values()])

    def is_statement(self) -> bool:
        """A definition whose values are types: `.. → Type 0`."""
        return self.kind == "definition" and re.search(r"Type( \d+)?$", self.type.strip()) is not None


@dataclass
class Module:
    """A file's declarations and what it uses: by name, and whole modules under another name."""

    file: Path
    declared: dict[str, Declaration] = field(default_factory=dict)
    used: dict[str, tuple[str, str]] = field(default_factory=dict)
    aliases: dict[str, str] = field(default_factory=dict)

    def find(self, word: str) -> tuple[str, str] | Declaration | None:
        """What a word names: a declaration of this file, or a name of another module."""
        for name in (word, f"◌{word}◌"):
            if name in self.declared:
                return self.declared[name]
            if name in self.used:
                return self.used[name]
        head, dot, rest = word.partition(".")
        if not dot or not rest:
            return None
        if head in self.aliases:
            return self.aliases[head], rest.split(".")[0]
        if head in self.declared or head in self.used:
            return self.find(head)
        module, _, name = word.rpartition(".")
        return (module, name) if file_of(module) else None


def uncommented(text: str) -> str:
    return "\n".join(line.split("--")[0].rstrip() for line in text.splitlines())


def tokens(text: str) -> list[str]:
    return TOKEN.findall(text)


def words(text: str) -> Iterator[str]:
    """The words of a text that may name a definition: no projection, no label of a record's value, no name that a `let` gives."""
    seen = ["", *tokens(text), ""]
    for before, word, after in zip(seen, seen[1:], seen[2:]):
        if word.startswith(".") or (after == "=" and before in ("{", ";", "let")):
            continue
        yield word.rstrip(".")


def file_of(module: str) -> Path | None:
    """The file of a module of this repository's specs/; none for the toolchain's modules and for types that src/ declares."""
    match = re.fullmatch(r"Rattle\.(\w+)\.specs\.(.+)", module)
    if not match or match[2].startswith("declared."):
        return None
    path = CRATES / match[1] / "specs" / (match[2].replace(".", "/") + ".antt")
    return path if path.is_file() else None


def chunks(text: str, top: bool = True) -> Iterator[str]:
    """The top-level items, or those of a block: a line of the first one's indentation and those below it that are indented more."""
    item: list[str] = []
    depth = 0 if top else None
    for line in text.splitlines():
        if not line.strip():
            continue
        indent = len(line) - len(line.lstrip())
        depth = indent if depth is None else depth
        if indent <= depth and item:
            yield "\n".join(item)
            item = []
        item.append(line)
    if item:
        yield "\n".join(item)


def uses(line: str) -> tuple[str, list[tuple[str, str]], str | None] | None:
    """A line of `use`: the module, the names (here and there), and the alias."""
    match = USE.match(line.strip())
    if not match:
        return None
    names = []
    for part in (match["names"] or "").split(","):
        there, _, here = part.strip().partition(" as ")
        if there:
            names.append((here.strip() or there, there))
    return match["module"], names, match["alias"]


def take_use(module: Module, line: str) -> bool:
    found = uses(line)
    if not found:
        return False
    path, names, alias = found
    if alias:
        module.aliases[alias] = path
    for here, there in names:
        module.used[here] = (path, there)
    return True


def block_of(file: Path, match: re.Match[str]) -> Declaration:
    head, _, rest = match["rest"].partition(" where")
    declaration = Declaration(file, match["name"], match["kind"], head)
    for item in chunks(rest.lstrip("\n"), top=False):
        member = MEMBER.match(item)
        if member:
            declaration.members.update({name: member["type"] for name in member["names"].split()})
    return declaration


@cache
def load(file: Path) -> Module:
    """A file of specs/."""
    module = Module(file)
    last: Declaration | None = None
    for item in chunks(uncommented(file.read_text(encoding="utf-8"))):
        if take_use(module, item) or item.startswith(("unfolding ", "infix", "pub mod ", "mod ")):
            continue
        block = BLOCK.match(item)
        head = HEAD.match(item)
        if item.startswith("module "):
            last = Declaration(file, "", "definition", "", item)
            for inner in chunks(item.partition(" where")[2].lstrip("\n"), top=False):
                inner_head = HEAD.match(inner.strip())
                if inner_head:
                    module.declared[inner_head["name"]] = last
        elif block:
            last = block_of(file, block)
            module.declared[last.name] = last
            if last.kind == "data":
                module.declared.update({name: last for name in last.members})
        elif head and " = " not in item.split(" : ")[0]:
            last = Declaration(file, head["name"], "definition", head["type"])
            module.declared[last.name] = last
        elif last:
            last.body += " ; " + item.partition("=")[2]
    return module


def resolve(module: Module, word: str) -> Declaration | None:
    """The declaration that a word names, in this repository's specs/."""
    found = module.find(word)
    if not isinstance(found, tuple):
        return found
    file = file_of(found[0])
    return load(file).declared.get(found[1]) if file else None


def named(module: Module, text: str) -> list[Declaration]:
    """The declarations that a text names, each once, in order."""
    found: dict[tuple[Path, str], Declaration] = {}
    for word in words(text):
        declaration = resolve(module, word)
        if declaration:
            found.setdefault((declaration.file, declaration.name), declaration)
    return list(found.values())


def reached(starts: Iterable[Declaration]) -> list[Declaration]:
    """The declarations that these rest on, themselves among them."""
    found: dict[tuple[Path, str], Declaration] = {}
    todo = list(starts)
    while todo:
        declaration = todo.pop()
        key = (declaration.file, declaration.name)
        if key not in found:
            found[key] = declaration
            todo += named(load(declaration.file), declaration.text())
    return [found[key] for key in sorted(found)]


# ---- promises of src/


@dataclass
class Function:
    """A function of src/ with its clauses: `kind` is c, public or private; `module` has what its file uses."""

    crate: str
    file: Path
    kind: str
    name: str
    head: str
    clauses: list[str]
    module: Module


FUNCTION = re.compile(r'\s*(?P<public>pub )?(?:pub\(crate\) )?(?P<c>extern "C" )?fn (?P<name>\w+)')
CLAUSE = ("requires ", "ensures ")


def functions(file: Path) -> Iterator[Function]:
    """The functions of a file of src/, in order, each with its `requires` and `ensures`."""
    module = Module(file)
    lines = file.read_text(encoding="utf-8").splitlines()
    for line in lines:
        take_use(module, line)
    owner = ""
    in_trait = False
    for number, line in enumerate(lines):
        owner = line.split()[1] + "::" if line.startswith("impl ") else "" if line.startswith("}") else owner
        in_trait = line.startswith("pub trait ") or (in_trait and not line.startswith("}"))
        match = FUNCTION.match(line)
        if match:
            head, clauses = contract(lines[number:])
            kind = "c" if match["c"] else "public" if match["public"] or in_trait else "private"
            yield Function(file.relative_to(CRATES).parts[0], file, kind, owner + match["name"], head, clauses, module)


def contract(lines: list[str]) -> tuple[str, list[str]]:
    """A function's head and its clauses, each on one line, from its first line on."""
    parts: list[str] = []
    for line in lines:
        text = line.strip()
        if parts and text.startswith(("{", "}")):
            break
        if not parts or text.startswith(CLAUSE):
            parts.append(text)
        else:
            parts[-1] += " " + text
        if text.endswith("{") and not text.startswith(CLAUSE):
            break
        if text.endswith(";"):
            break
    head, *clauses = (re.sub(r"\s+", " ", part).removesuffix(";") for part in parts)
    return head.removesuffix("{").replace("( ", "(").replace(", )", ")").strip(), clauses


GHOST = re.compile(r"    ghost \w+(?:: | = )\{")


def members(file: Path) -> Iterator[tuple[Module, str]]:
    """The ghost members of a file's traits and of their impls, each on one line: what a function promises through a bound goes by them."""
    module = Module(file)
    lines = file.read_text(encoding="utf-8").splitlines()
    for line in lines:
        take_use(module, line)
    for number, line in enumerate(lines):
        if GHOST.match(line):
            text = line.strip()
            for more in lines[number + 1 :]:
                if text.endswith("};"):
                    break
                text += " " + more.strip()
            yield module, text


def sources() -> list[Path]:
    return sorted(CRATES.glob("*/src/**/*.rt"))


# ---- what a reader must believe

# The entries, by crate; C functions, programs and `theorems` need not be named.
ENTRIES = {
    "complexify": "lower",
    "player": "play",
    "look": "look",
    "thin_lower": "lower",
    "peak": "peak",
    "nearest": "nearest_point",
    "figures": "shelf",
    "pages": "pages",
}


def is_program(crate: str) -> bool:
    return (CRATES / crate / "src" / "main.rt").is_file()


def promises_to_a_user(function: Function) -> bool:
    """An entry, a C function, the theorems, or any function of a program: its text is what a program's user has."""
    return (
        function.kind == "c"
        or function.crate == "theorems"
        or is_program(function.crate)
        or (function.kind == "public" and ENTRIES.get(function.crate) == function.name)
    )


def believed() -> list[Declaration]:
    """The definitions that these promises rest on."""
    starts: list[Declaration] = []
    for file in sources():
        for function in functions(file):
            if promises_to_a_user(function):
                ensured = [clause.partition("{")[2] for clause in function.clauses if clause.startswith("ensures ")]
                starts += named(function.module, " ; ".join(ensured))
        if is_program(file.relative_to(CRATES).parts[0]):
            for module, text in members(file):
                starts += named(module, text.partition("{")[2])
    return reached(starts)


def is_ours(module: str) -> bool:
    """Whether a module is of a crate of this repository."""
    match = re.match(r"Rattle\.(\w+)\.", module)
    return match is not None and (CRATES / match[1]).is_dir()


def toolchain(declarations: Iterable[Declaration]) -> list[str]:
    """The toolchain's modules whose names these definitions use."""
    found: set[str] = set()
    for declaration in declarations:
        module = load(declaration.file)
        for word in words(declaration.text()):
            name = module.find(word)
            if isinstance(name, tuple) and not is_ours(name[0]):
                found.add(name[0])
    return sorted(found)
