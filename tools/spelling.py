"""Brings the repository's own names to the spelling of today's Rattle: words in snake case, types in camel case.

usage: python3 tools/spelling.py [FOLDER]

tools/names.tsv has a row for each name: the old one, a tab, the new one, and behind a tab the crate where that holds, if not in all. The script goes over crates/ below FOLDER (here, if none is
given): definitions, lemmas, the clauses of source files and must-fail edits. A name with a dash is left where it follows a dot behind a
word in small letters, since Rattle makes such names for the steps of a proof; a string and a comment keep dashes. Edits get besides what
port.py gives every other file: a projection without a space, and the library's words.
"""

import pathlib
import re
import sys

HERE = pathlib.Path(__file__).resolve().parent
TOKEN = re.compile(r"[A-Za-z_\u0370-\u03ff][\w'₀-₉-]*")
OLDER = {"getD": "get_or", "mathlib.Core.Bool.cond": "cond"}


def table(crate: str) -> dict[str, str]:
    """The rows for a crate: those of all crates, and those that name it."""
    names = {}
    for row in (HERE / "names.tsv").read_text(encoding="utf-8").splitlines():
        old, new, *only = row.split("\t")
        if not only or crate in only:
            names[old] = new
    return names


def renamed(text: str, names: dict[str, str], dashes: bool) -> str:
    """The text with each name of the table in its new spelling."""

    def one(found: re.Match[str]) -> str:
        name = found.group(0)
        if name not in names:
            return name
        if "-" in name:
            before = text[max(0, found.start() - 60) : found.start()]
            if not dashes or re.search(r"(?:[\w')]|\A)\.$", before) and not re.search(r"(?<![\w'.])[A-Z][\w']*\.$|Rattle\.[\w.+-]*\.$", before):
                return name
        return names[name]

    return TOKEN.sub(one, text)


def by_parts(text: str, names: dict[str, str], comment: str) -> str:
    """Comments and strings keep their dashes; strings keep every name."""
    parts = re.split(r'("(?:[^"\\\n]|\\.)*"|' + re.escape(comment) + r"[^\n]*)", text)
    out = []
    for i, part in enumerate(parts):
        if i % 2 == 0:
            out.append(renamed(part, names, True))
        elif part.startswith('"'):
            out.append(part)
        else:
            out.append(renamed(part, names, False))
    return "".join(out)


def edit(text: str, names: dict[str, str]) -> str:
    """An edit's lines of text, in the form that port.py gives the files that they stand in."""
    lines = []
    for line in text.split("\n"):
        if line.startswith(("old: ", "new: ")):
            head, rest = line[:5], line[5:]
            lead = rest[: len(rest) - len(rest.lstrip(" "))]
            rest = rest[len(lead) :]
            rest = re.sub(r"(?<=[\w')\]]) \.([^\W\d])", r".\1", rest)
            again = None
            while again != rest:
                again = rest
                rest = re.sub(r"(?<![\w'])(?<=[ (])\(([^\W\d][\w']*(?:\.[^\W\d][\w'-]*)+)\)(?!\.)", r"\1", rest)
            for old, new in OLDER.items():
                rest = re.sub(rf"(?<![\w'-]){re.escape(old)}(?![\w'-])", new, rest)
            line = head + lead + renamed(rest, names, True)
        elif line.startswith("#"):
            line = renamed(line, names, False)
        lines.append(line)
    return "\n".join(lines)


def main() -> None:
    top = pathlib.Path(sys.argv[1] if len(sys.argv) > 1 else ".")
    changed = 0
    for path in sorted((top / "crates").rglob("*")):
        if not path.is_file() or "out" in path.relative_to(top / "crates").parts[1:2]:
            continue
        if path.suffix not in (".antt", ".rt", ".edit"):
            continue
        names = table(path.relative_to(top / "crates").parts[0])
        old = path.read_text(encoding="utf-8")
        if path.suffix == ".edit":
            new = edit(old, names)
        else:
            new = by_parts(old, names, "--" if path.suffix == ".antt" else "//")
        if new != old:
            path.write_text(new, encoding="utf-8")
            changed += 1
    print(f"spelling: {changed} files changed")


if __name__ == "__main__":
    main()
