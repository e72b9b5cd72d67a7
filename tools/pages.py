"""Brings the names that pages cite to the spelling of today's Rattle: what stands in backticks in README.md, docs/ and the notes of edits.

usage: python3 tools/pages.py

It goes by tools/names.tsv, and takes from it only names that have a capital behind a small letter, a dash or a prime: such a word in backticks
is no ordinary word, and no identifier of the C, Rust or Python files. A name that the table spells in more than one way is left and told.
docs/PORT.md, which sets old and new side by side, stays.
"""

import pathlib
import re

HERE = pathlib.Path(__file__).resolve().parent
TOP = HERE.parent
TOKEN = re.compile(r"[A-Za-z_\u0370-\u03ff][\w'′₀-₉]*(?:-[\w'′₀-₉]+)*")
PATHS = re.compile(r"Rattle·(\w+)(?:·(?:specs|proofs))?\.")


def table() -> tuple[dict[str, str], set[str]]:
    """What each name is today, and the names that have two answers."""
    found: dict[str, set[str]] = {}
    for row in (HERE / "names.tsv").read_text(encoding="utf-8").splitlines():
        old, new, *_ = row.split("\t")
        found.setdefault(old, set()).add(new)
    sure = {old: min(news) for old, news in found.items() if len(news) == 1 and re.search(r"[a-zα-ω][A-Z]|-|′", old) and old[0].islower()}
    return sure, {old for old, news in found.items() if len(news) > 1}


def main() -> None:
    """Goes over the pages."""
    names, doubtful = table()
    told: set[str] = set()

    def one(found: re.Match[str]) -> str:
        if found[0] in doubtful:
            told.add(found[0])
        return names.get(found[0], found[0])

    pages = [TOP / "README.md", TOP / "NEWS.md", *sorted((TOP / "docs").glob("*.md"))]
    for page in pages:
        if page.name == "PORT.md":
            continue
        text = page.read_text(encoding="utf-8")
        new = re.sub(r"`[^`\n]+`", lambda span: TOKEN.sub(one, PATHS.sub(r"Rattle.\1.", span[0])), text)
        if new != text:
            page.write_text(new, encoding="utf-8")
            print(page.relative_to(TOP))
    for name in sorted(told):
        print(f"left, since the table spells it in more than one way: {name}")


main()
