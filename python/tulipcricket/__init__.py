"""Formulas over complex numbers, played by Tulipcricket's proved library: every bit of an answer comes from it.

    import tulipcricket as tc
    f = tc.Formula.open("cell.formula")
    z = f(f=[0.1, 1, 10])
"""

from .circuits import circuit
from .errors import FormulaError, LibraryMissing, Refused, TableError, TulipcricketError, ValidationError
from .formula import Formula, Run
from .library import Shelf, nearest, peak
from .sheet import Listing, Sheet, Store
from .words import double_of, lost, word_of

__all__ = [
    "Formula", "FormulaError", "LibraryMissing", "Listing", "Refused", "Run", "Sheet", "Shelf", "Store", "TableError",
    "TulipcricketError", "ValidationError", "circuit", "double_of", "lost", "nearest", "peak", "word_of",
]
__version__ = "0.1.0"
