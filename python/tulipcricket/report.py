"""A report: one HTML file without scripts or outside links, for a browser and for A4 paper."""

from __future__ import annotations

import dataclasses
import datetime
import html
import re
import zlib
from typing import List, Optional, Sequence, Tuple

from . import plots, provenance
from .formula import Formula, Run
from .meaning import evaluate
from .syntax import Binary, Call, Choice, Inverse, J, Name, Negative, Node, Number, Pi, Power, spine
from .words import hexadecimal, written

MOST_ROWS = 1000
STYLE = """
@page { size: A4; margin: 16mm 15mm; }
body { font: 10.5pt/1.45 "DejaVu Sans", Verdana, sans-serif; color: #1b1b1b; max-width: 180mm; margin: 8mm auto; padding: 0 4mm; }
h1 { font-size: 17pt; margin: 0 0 2mm; } h2 { font-size: 12.5pt; margin: 8mm 0 2mm; border-bottom: 0.3mm solid #999; break-after: avoid; }
p { margin: 1.5mm 0; }
pre, code, td.n { font-family: "DejaVu Sans Mono", Menlo, monospace; }
pre { background: #f5f5f2; border: 0.2mm solid #ddd; padding: 2mm 3mm; font-size: 8.5pt; white-space: pre-wrap; margin: 1mm 0; }
table { border-collapse: collapse; font-size: 8.5pt; } thead { display: table-header-group; } tr { break-inside: avoid; }
th { text-align: right; border-bottom: 0.3mm solid #999; padding: 0.6mm 4mm 0.6mm 0; }
td { padding: 0.3mm 4mm 0.3mm 0; border-bottom: 0.1mm solid #e3e3e3; } td.n { text-align: right; }
td.n:first-child, th:first-child { text-align: left; }
.operations { columns: 3; font-size: 7.5pt; border: none; background: none; padding: 0; }
figure { margin: 2mm 0; break-inside: avoid; } figure svg { width: 100%; height: auto; max-height: 118mm; }
.quiet { color: #666; } .good { color: #1d6b37; }
@media print { body { margin: 0; padding: 0; max-width: none; } }
"""


def parenthesised(node: Node) -> str:
    """A tree as text, with every operation in parentheses."""
    if isinstance(node, Number):
        return node.text
    if isinstance(node, Pi):
        return "pi"
    if isinstance(node, J):
        return "j"
    if isinstance(node, Name):
        return node.name
    if isinstance(node, Negative):
        return f"(-{parenthesised(node.of)})"
    if isinstance(node, Inverse):
        return f"(not {parenthesised(node.of)})"
    if isinstance(node, Call):
        return f"{node.function}({parenthesised(node.of)})"
    if isinstance(node, Power):
        return f"({parenthesised(node.base)}^{parenthesised(node.exponent)})"
    if isinstance(node, Choice):
        return f"({parenthesised(node.then)} if {parenthesised(node.condition)} else {parenthesised(node.other)})"
    return chain(node)


def chain(node: Binary) -> str:
    """A long sum, from its first operand on."""
    first, operations = spine(node)
    text = parenthesised(first)
    for operation in operations:
        sign = operation.op if operation.op in "*/" else f" {operation.op} "
        text = f"({text}{sign}{parenthesised(operation.right)})"
    return text


def table(names: Sequence[str], rows: Sequence[Sequence[str]]) -> str:
    """An HTML table of texts."""
    head = "".join(f"<th>{html.escape(name)}</th>" for name in names)
    body = "\n".join("<tr>" + "".join(f'<td class="n">{html.escape(cell)}</td>' for cell in row) + "</tr>" for row in rows)
    return f"<table><thead><tr>{head}</tr></thead><tbody>\n{body}\n</tbody></table>"


def values(formula: Formula) -> str:
    """The names that are the same at every point, with their words."""
    varying = set(formula.givens)
    for let in formula.program.lets:
        if any(name in varying for name in names_in(let.value)):
            varying.add(let.name)
    lets = [let for let in formula.program.lets if let.name not in varying]
    meant = evaluate(dataclasses.replace(formula.program, lets=tuple(lets)), {})
    rows = [(let.name, " ".join(written(word) for word in meant[let.name]), " ".join(hexadecimal(word) for word in meant[let.name]))
            for let in lets]
    return table(("name", "value", "bits"), rows) if rows else "<p>No name has the same value at every point.</p>"


def names_in(node: Node) -> List[str]:
    """The names that a tree uses."""
    if isinstance(node, Name):
        return [node.name]
    if isinstance(node, Binary):
        first, operations = spine(node)
        return names_in(first) + [name for operation in operations for name in names_in(operation.right)]
    if isinstance(node, Choice):
        return names_in(node.then) + names_in(node.condition) + names_in(node.other)
    if isinstance(node, Power):
        return names_in(node.base)
    return names_in(node.of) if isinstance(node, (Negative, Inverse, Call)) else []


def answers(columns: Sequence[Tuple[str, List[str]]]) -> str:
    """The table of the answers; of a long one its beginning and its end."""
    rows = list(zip(*[cells for _, cells in columns]))
    note = ""
    if len(rows) > MOST_ROWS:
        note = f"<p>The first and the last {MOST_ROWS // 2} of {len(rows):,} points.</p>"
        rows = rows[: MOST_ROWS // 2] + rows[-MOST_ROWS // 2:]
    return note + table([name for name, _ in columns], rows)


def drawing(curves: Optional[Sequence[plots.Curve]], missing: str, kind: str) -> str:
    """A plot inside the page, or why there is none."""
    if curves is None:
        return f"<p>{html.escape(missing)}</p>"
    svg = plots.saved(plots.figure(curves, kind), "svg").decode()
    svg = re.sub(r"<metadata>.*?</metadata>", "", svg[svg.index("<svg"):], flags=re.S)
    svg = re.sub(r'(id="|url\(#|href="#)', rf"\g<1>{kind}-", svg)
    return f"<figure>{svg}</figure>"


def operations(formula: Formula) -> str:
    """Every instruction in its order, with the line and column of its operation."""
    lines = [f"{i:>4} {one.at.line:>3}:{one.at.column:<3} {one.text}" for i, one in enumerate(formula.compiled.instructions)]
    return f'<pre class="operations">{html.escape(chr(10).join(lines))}</pre>'


def made(formula: Formula, run: Run, points: int) -> str:
    """What was validated, and what the sheet takes."""
    figures = formula.sheet.shelf()
    data, listing = formula.sheet.data, formula.listing
    rows = [
        ("sheet", f"{len(data)}", f"{zlib.adler32(data):08x}", f"{figures.instructions} instructions"),
        ("listing", f"{len(listing.data)}", f"{zlib.adler32(listing.data):08x}", f"a play runs {figures.records} records at most"),
        ("constants", f"{len(listing.constants)}", f"{zlib.adler32(listing.constants):08x}", f"{figures.constants} words"),
    ]
    said = (f'<p class="good">Validated at {run.validated:,} of {points:,} points: every name has the words that exact evaluation of the '
            "formula gives, by whole numbers alone and apart from the compiler.</p>")
    return said + table(("", "bytes", "Adler-32", ""), rows)


def page(formula: Formula, run: Run, columns: Sequence[Tuple[str, List[str]]], curves: Optional[Sequence[plots.Curve]],
         missing: str, source: str) -> str:
    """The whole file."""
    now = datetime.datetime.now(datetime.timezone.utc).strftime("%Y-%m-%d %H:%M UTC")
    points = len(columns[0][1])
    title = html.escape(formula.program.name)
    parsed = "\n".join(f"{let.name} = {parenthesised(let.value)}" for let in formula.program.lets)
    mode = "stable" if formula.program.stable else "plain"
    rounded = f"<p>Each pair of parentheses is one operation, in single steps that round once; {mode} mode.</p>"
    legend = '<p class="quiet">Index, line and column of the formula, instruction.</p>'
    parts = [
        f"<h1>{title}</h1>",
        f'<p>{points:,} points of {html.escape(source)}, played on {now} by Tulipcricket, commit <code>{provenance.commit()}</code>.</p>',
        f"<h2>Formula as written</h2>\n<pre>{html.escape(formula.text)}</pre>",
        f"<h2>Formula as parsed</h2>\n{rounded}\n<pre>{html.escape(parsed)}</pre>",
        f"<h2>Values</h2>\n{values(formula)}",
        f"<h2>Nyquist</h2>\n{drawing(curves, missing, 'nyquist')}",
        f"<h2>Bode</h2>\n{drawing(curves, missing, 'bode')}",
        f"<h2>Validated</h2>\n{made(formula, run, points)}",
        f"<h2>Answers</h2>\n{answers(columns)}",
        f"<h2>Operations in their order</h2>\n{legend}\n{operations(formula)}",
    ]
    body = "\n".join(parts)
    return (f'<!DOCTYPE html>\n<html lang="en">\n<head>\n<meta charset="utf-8">\n<title>{title}</title>\n<style>{STYLE}</style>\n</head>\n'
            f"<body>\n{body}\n</body>\n</html>\n")
