"""Circuits as impedance.py writes them, as formulas: R0-p(R1-W1,CPE1). Elements R, C, L, W, CPE and G."""

from __future__ import annotations

import re
from typing import Dict, List, NamedTuple, NoReturn, Sequence, Union

from .errors import FormulaError
from .formula import Formula

_ELEMENT = re.compile(r"([A-Za-z]+?)_?([0-9]+)")


class Kind(NamedTuple):
    """An element: how many values it has, its impedance, and its admittance where that is the shorter one."""

    values: int
    impedance: str
    admittance: str


KINDS: Dict[str, Kind] = {
    "R": Kind(1, "{0}", ""),
    "C": Kind(1, "1/(j*w*{0})", "j*w*{0}"),
    "L": Kind(1, "j*w*{0}", ""),
    "W": Kind(1, "{0}*(1 - j)/sqrt(w)", ""),
    "CPE": Kind(2, "1/({0}*(j*w)^{1})", "{0}*(j*w)^{1}"),
    "G": Kind(2, "{0}/sqrt(1 + j*w*{1})", ""),
}


class Term(NamedTuple):
    """A part of the circuit as text: its impedance, its admittance or nothing, and whether it is a sum or a quotient."""

    impedance: str
    admittance: str
    loose: bool


class Reader:
    """A circuit's text, read from left to right."""

    def __init__(self, text: str, values: Sequence[Union[str, float]]) -> None:
        self.text = text
        self.values = [repr(float(value)) if not isinstance(value, str) else value.strip() for value in values]
        self.at = 0
        self.names: List[str] = []
        self.depth = 0

    def fail(self, why: str, at: int = -1) -> NoReturn:
        """Refuses what stands there."""
        column = (self.at if at < 0 else at) + 1
        raise FormulaError(1, column, why, name="circuit", text=self.text)

    def sees(self, sign: str) -> bool:
        """Whether this stands next; blanks are passed over."""
        while self.text[self.at: self.at + 1] in (" ", "\t"):
            self.at += 1
        return self.text.startswith(sign, self.at)

    def series(self) -> Term:
        """Parts joined by -."""
        terms = [self.part()]
        while self.sees("-"):
            self.at += 1
            terms.append(self.part())
        if len(terms) == 1:
            return terms[0]
        return Term(" + ".join(term.impedance for term in terms), "", True)

    def part(self) -> Term:
        """An element, or p(a,b)."""
        if self.sees("p("):
            return self.parallel()
        match = _ELEMENT.match(self.text, self.at)
        if match is None:
            self.fail("expected an element as R0, or p(")
        kind = match.group(1)
        if kind not in KINDS:
            self.fail(f"{kind} is no element that is known; there are {', '.join(KINDS)}")
        return self.element(kind, match)

    def element(self, kind: str, match: "re.Match[str]") -> Term:
        """One element; its values get its name, and a number where it has two."""
        own = match.group()
        names = [own] if KINDS[kind].values == 1 else [f"{own}_{i}" for i in range(KINDS[kind].values)]
        if names[0] in self.names:
            self.fail(f"{own} stands twice")
        self.names += names
        self.at = match.end()
        shape = KINDS[kind]
        return Term(shape.impedance.format(*names), shape.admittance.format(*names), "/" in shape.impedance)

    def parallel(self) -> Term:
        """p(a,b): one over the sum of the admittances."""
        opened = self.at
        self.depth += 1
        if self.depth > 40:
            self.fail("nested too deep")
        self.at += 2
        terms = [self.series()]
        while self.sees(","):
            self.at += 1
            terms.append(self.series())
        if not self.sees(")"):
            self.fail("expected , or )")
        self.at += 1
        self.depth -= 1
        if len(terms) == 1:
            self.fail("p() needs two parts or more", opened)
        return Term(f"1/({' + '.join(map(admittance, terms))})", "", True)

    def formula(self) -> str:
        """The whole circuit as a formula file."""
        z = self.series()
        if self.sees("") and self.at < len(self.text):
            self.fail("expected - or the end")
        if len(self.values) != len(self.names):
            self.fail(f"there are {len(self.values)} values, and the circuit has {len(self.names)}: {', '.join(self.names)}", 0)
        lines = [f"# {self.text.strip()}", "given f", "w = 2*pi*f"]
        lines += [f"{name} = {value}" for name, value in zip(self.names, self.values)]
        return "\n".join(lines + [f"Z = {z.impedance}", "show Z", ""])


def admittance(term: Term) -> str:
    """One over a part."""
    if term.admittance:
        return term.admittance
    return f"1/({term.impedance})" if term.loose or "*" in term.impedance else f"1/{term.impedance}"


def formula_text(text: str, values: Sequence[Union[str, float]]) -> str:
    """The formula of a circuit and its values, in the order of the circuit. Raises FormulaError."""
    return Reader(text, values).formula()


def circuit(text: str, values: Sequence[Union[str, float]]) -> Formula:
    """The formula of a circuit, compiled: circuit("R0-p(R1,C1)", [20, 250, 1e-5])."""
    return Formula(formula_text(text, values), "circuit")
