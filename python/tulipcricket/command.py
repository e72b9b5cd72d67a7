"""The commands of `python -m tulipcricket`, and `run`: a formula and a table in, answers out, with a plot and a report where they are asked
for.

Exit status: 0 answers given; 1 the formula, the table or the sheet is refused, or validation failed; 2 wrong usage, or a file that cannot
be read or made.
"""

from __future__ import annotations

import argparse
import sys
from typing import Any, Dict, List, Mapping, NoReturn, Optional, Sequence, Tuple

from . import plots, provenance, readings, report, shelf, stepping
from . import table as tables
from .circuits import formula_text
from .errors import FormulaError, LibraryMissing, TulipcricketError
from .files import Commands, Unusable, add_bits, add_output, add_table, may_be_made, read_file, table_from, write_file
from .formula import Formula, Run
from .meaning import Value
from .progress import Bar
from .words import double_of

PICTURES = (".svg", ".png", ".pdf")


class Version(argparse.Action):
    """Prints the commit; git is asked only then."""

    def __init__(self, option_strings: Sequence[str], dest: str, **words: Any) -> None:
        super().__init__(option_strings, dest, nargs=0, **words)

    def __call__(self, top: argparse.ArgumentParser, *_: object) -> NoReturn:
        """Ends the command."""
        print(f"tulipcricket {provenance.release()}, commit {provenance.commit()}")
        top.exit()


def parser() -> argparse.ArgumentParser:
    """The words of the command line."""
    top = argparse.ArgumentParser(prog="tulipcricket", description="Answers of a formula, every bit by the proved library.")
    top.add_argument("--version", action=Version, help="print the commit, and stop")
    commands = top.add_subparsers(dest="command", required=True)
    add_run(commands)
    readings.add(commands)
    stepping.add(commands)
    shelf.add(commands)
    return top


def add_run(commands: Commands) -> None:
    """The words of `run`."""
    run = commands.add_parser("run", help="play a formula at every line of a table", description=run_text())
    run.add_argument("files", nargs="*", metavar="FILE", help="FORMULA TABLE, or TABLE with --circuit; - is standard input")
    add_output(run)
    add_bits(run)
    add_table(run)
    run.add_argument("--column", action="append", default=[], metavar="NAME=HEADER", help="the table's column for a given name")
    run.add_argument("--circuit", metavar="CIRCUIT", help="a circuit as R0-p(R1,CPE1) in place of a formula file")
    run.add_argument("--values", metavar="LIST", help="the circuit's values in its order, parted by commas")
    run.add_argument("--formula", action="store_true", help="print the formula of --circuit, and stop")
    run.add_argument("--validate", default="three", choices=["three", "every"], help="points compared with exact evaluation")
    run.add_argument("--sheet", metavar="FILE", help="write the formula's sheet, for the shelf; every point is then validated")
    run.add_argument("--plot", action="append", default=[], metavar="FILE", help="Nyquist and Bode plot: .svg, .png or .pdf")
    run.add_argument("--report", metavar="FILE", help="one HTML file: formula, operations, answers, plots")
    run.add_argument("-x", "--over", metavar="NAME", help="the given name that plots are drawn over (the first real one)")
    run.set_defaults(call=run_command)


def run_text() -> str:
    """What run does, for --help."""
    return "Plays a formula at every line of a table. Exit status: 0 answered, 1 refused, 2 wrong usage or a file."


# the run


def formula_of(words: argparse.Namespace) -> Tuple[Formula, Optional[str]]:
    """The formula, and the name of the table's file if one is said."""
    files: List[str] = list(words.files)
    if files.count("-") > 1:
        raise Unusable("formula and table cannot both be standard input")
    if words.circuit is not None:
        if words.values is None:
            raise Unusable("--circuit needs --values")
        formula = Formula(formula_text(words.circuit, words.values.split(",")), "circuit")
    else:
        if words.values is not None:
            raise Unusable("--values needs --circuit")
        if not files:
            raise Unusable("no formula file is said")
        name = files.pop(0)
        formula = Formula.read(read_file(name), name if name != "-" else "standard input")
    if len(files) > 1:
        raise Unusable(f"{files[1]}: one table is enough")
    return formula, files[0] if files else None


def table_of(words: argparse.Namespace, formula: Formula, name: Optional[str]) -> Optional[tables.Table]:
    """The table, None where the formula takes nothing and none is said."""
    if name is None:
        if formula.givens:
            raise Unusable(f"no table is said, and the formula is given {', '.join(formula.givens)}")
        return None
    table = table_from(words, name)
    tables.use_names(table, tables.renamed(words.column))
    return table


def given_columns(formula: Formula, table: Optional[tables.Table]) -> List[Tuple[str, List[str]]]:
    """The columns of the table that the formula uses, as they stand."""
    if table is None:
        return []
    halves = [half for given in formula.program.givens
              for half in ([f"{given.name}_re", f"{given.name}_im"] if given.is_complex else [given.name])]
    return [(half, table.texts(half)) for half in halves]


def answers_of(formula: Formula, table: Optional[tables.Table], run: Run, bits: bool) -> List[Tuple[str, List[str]]]:
    """The columns of the answers' table."""
    columns = given_columns(formula, table)
    decimal = table.decimal if table else "."
    for name in formula.shows:
        columns += tables.columns_of(name, run.words[name], formula.is_real(name), bits, decimal)
    return columns


def run_command(words: argparse.Namespace) -> None:
    """tulipcricket run."""
    if words.formula:
        if words.circuit is None or words.values is None:
            raise Unusable("--formula needs --circuit and --values")
        write_file("-", formula_text(words.circuit, words.values.split(",")).encode())
        return
    made = [words.output, *words.plot] + [name for name in (words.report, words.sheet) if name]
    for name in made:
        may_be_made(name, words.force)
        if name != "-" and made.count(name) > 1:
            raise Unusable(f"{name} is to be made twice")
    for name in words.plot:
        if not name.lower().endswith(PICTURES):
            raise Unusable(f"{name}: a plot ends with {', '.join(PICTURES)}")
    formula, table_name = formula_of(words)
    table = table_of(words, formula, table_name)
    given: Dict[str, List[Value]] = {}
    for one in formula.program.givens:
        assert table is not None
        given[one.name] = table.values(one.name, one.is_complex)
    every = words.validate == "every" or words.sheet is not None
    run = formula.play(given, every=every, progress=Bar())
    columns = answers_of(formula, table, run, words.bits)
    write_file(words.output, tables.write(columns, table.separator if table else ",").encode())
    if words.sheet:
        write_file(words.sheet, formula.sheet.data)
    missing = draw(words, formula, given, run, columns, table.name if table else "no table")
    if missing:
        raise Unusable(missing)


def draw(words: argparse.Namespace, formula: Formula, given: Mapping[str, List[Value]], run: Run,
         columns: Sequence[Tuple[str, List[str]]], source: str) -> str:
    """The plots and the report that are asked for; a report is written without plots too. Says what could not be drawn."""
    if not words.plot and not words.report:
        return ""
    curves, missing = None, ""
    try:
        curves = plots.curves(formula, doubles(given), run, words.over)
        plots.matplotlib()
    except plots.NoPlots as why:
        curves, missing = None, str(why)
    if curves is not None:
        for name in words.plot:
            write_file(name, plots.picture(curves, name))
    if words.report:
        write_file(words.report, report.page(formula, run, columns, curves, missing, source).encode())
        if missing:
            print(f"tulipcricket: the report has no plots: {missing}", file=sys.stderr)
    return missing if words.plot else ""


def doubles(given: Mapping[str, List[Value]]) -> Dict[str, List[float]]:
    """Real columns as numbers."""
    return {name: [double_of(value[0]) for value in values] for name, values in given.items()}


def parsed(top: argparse.ArgumentParser, arguments: Optional[Sequence[str]]) -> argparse.Namespace:
    """The words of a call; files may stand after options too."""
    words, rest = top.parse_known_args(arguments)
    takes = isinstance(getattr(words, "files", None), list)
    if rest and (not takes or any(one.startswith("-") and one != "-" for one in rest)):
        top.error(f"unrecognized arguments: {' '.join(rest)}")
    if takes:
        words.files += rest
    return words


def main(arguments: Optional[Sequence[str]] = None) -> int:
    """The command; its exit status."""
    words = parsed(parser(), arguments)
    try:
        return words.call(words) or 0
    except FormulaError as refused:
        print(refused.shown(), file=sys.stderr)
        return 1
    except (Unusable, LibraryMissing) as wrong:
        print(f"tulipcricket: {wrong}", file=sys.stderr)
        return 2
    except TulipcricketError as refused:
        print(refused, file=sys.stderr)
        return 1
    except BrokenPipeError:
        return 2
    except KeyboardInterrupt:
        return 130
