"""A formula file as a tree: docs/FORMULA.md says what stands in one. Every node knows its line and column."""

from __future__ import annotations

import re
import unicodedata
from dataclasses import dataclass
from typing import Dict, List, NamedTuple, NoReturn, Optional, Tuple, Union

from .errors import FormulaError
from .words import INFINITY, SIGN, word_of

FUNCTIONS = ("sqrt", "abs", "conj", "re", "im", "round", "floor", "ceil", "trunc")
ARITHMETIC = ("+", "-", "*", "/")
COMPARISONS = ("<", "<=", ">", ">=", "==", "!=")
KEYWORDS = ("given", "show", "mode", "complex", "if", "else", "and", "or", "not", "j", "pi") + FUNCTIONS
DEEPEST = 50
"""How many parentheses, minus signs and the like may stand inside each other."""


class At(NamedTuple):
    """Where something stands, counted from 1; the column in characters."""

    line: int
    column: int


@dataclass(frozen=True)
class Number:
    """A decimal: the word nearest to it."""

    at: At
    text: str
    word: int


@dataclass(frozen=True)
class Pi:
    """The double nearest to pi."""

    at: At


@dataclass(frozen=True)
class J:
    """The imaginary unit."""

    at: At


@dataclass(frozen=True)
class Name:
    """The value of a name."""

    at: At
    name: str


@dataclass(frozen=True)
class Negative:
    """-x."""

    at: At
    of: "Node"


@dataclass(frozen=True)
class Inverse:
    """not c."""

    at: At
    of: "Node"


@dataclass(frozen=True)
class Binary:
    """+ - * /, a comparison, and, or."""

    at: At
    op: str
    left: "Node"
    right: "Node"


@dataclass(frozen=True)
class Power:
    """x^n; `exponent` is the tree of n, `value` the double that it stands for."""

    at: At
    base: "Node"
    exponent: "Node"
    value: float


@dataclass(frozen=True)
class Call:
    """A function of one value."""

    at: At
    function: str
    of: "Node"


@dataclass(frozen=True)
class Choice:
    """a if condition else b."""

    at: At
    then: "Node"
    condition: "Node"
    other: "Node"


Node = Union[Number, Pi, J, Name, Negative, Inverse, Binary, Power, Call, Choice]


@dataclass(frozen=True)
class Given:
    """A column of the table."""

    at: At
    name: str
    is_complex: bool


@dataclass(frozen=True)
class Let:
    """A name and its value."""

    at: At
    name: str
    value: Node


@dataclass(frozen=True)
class Show:
    """A name whose value is an answer."""

    at: At
    name: str


@dataclass(frozen=True)
class Program:
    """A whole formula file."""

    name: str
    text: str
    stable: bool
    givens: Tuple[Given, ...]
    lets: Tuple[Let, ...]
    shows: Tuple[Show, ...]

    def error(self, at: At, why: str) -> FormulaError:
        """The refusal of what stands there."""
        return FormulaError(at.line, at.column, why, name=self.name, text=self.text)


def is_truth(node: Node) -> bool:
    """Whether a tree is a condition, not a number."""
    return isinstance(node, Inverse) or (isinstance(node, Binary) and node.op not in ARITHMETIC)


def spine(node: Node) -> Tuple[Node, List[Binary]]:
    """The first operand of a long sum or product and its operations in the order written, without going deep."""
    operations: List[Binary] = []
    while isinstance(node, Binary):
        operations.append(node)
        node = node.left
    return node, operations[::-1]


class Token(NamedTuple):
    """A piece of text: its kind (number, name, sign, end of a line or of the file)."""

    kind: str
    text: str
    at: At


_TOKEN = re.compile(
    r"(?P<blank>[ \t\r\f\v\u00a0]+|\#[^\n]*)"
    r"|(?P<number>(?:[0-9]+\.?[0-9]*|\.[0-9]+)(?:[eE][+-]?[0-9]+)?)"
    r"|(?P<name>[^\W\d_]\w*)"
    r"|(?P<sign><=|>=|==|!=|\*\*|[-+*/^()<>=,;])"
    r"|(?P<end>\n)"
)
_LOOKALIKES = {"−": "-", "–": "-", "·": "*", "×": "*", "÷": "/", "≤": "<=", "≥": ">=", "≠": "!=", "²": "^2", "³": "^3", "√": "sqrt"}


def decoded(data: bytes, name: str) -> str:
    """The text of a file, without a mark of the byte order. Raises FormulaError where it is not UTF-8."""
    data = data[3:] if data.startswith(b"\xef\xbb\xbf") else data
    try:
        return data.decode("utf-8")
    except UnicodeDecodeError as wrong:
        before = data[: wrong.start].decode("utf-8")
        line = before.count("\n") + 1
        column = len(before) - (before.rfind("\n") + 1) + 1
        text = data.decode("utf-8", errors="replace").replace("\r\n", "\n")
        raise FormulaError(line, column, "this is not UTF-8", name=name, text=text) from None


class Lexer:
    """A text in tokens."""

    def __init__(self, text: str, name: str) -> None:
        self.text, self.name = text, name

    def fail(self, at: At, why: str) -> NoReturn:
        """Refuses what stands there."""
        raise FormulaError(at.line, at.column, why, name=self.name, text=self.text)

    def tokens(self) -> List[Token]:
        """All of them; the last one is the end of the file."""
        found: List[Token] = []
        position, line, start = 0, 1, 0
        while position < len(self.text):
            at = At(line, position - start + 1)
            match = _TOKEN.match(self.text, position)
            if match is None:
                self.unknown(self.text[position], at)
            position = match.end()
            kind, text = str(match.lastgroup), match.group()
            if kind == "number":
                self.no_name_behind(text, position, at)
            if kind == "name":
                self.only_letters(text, at)
            if kind != "blank":
                found.append(Token(kind, unicodedata.normalize("NFKC", text), at))
            if kind == "end":
                line, start = line + 1, position
        at = At(line, position - start + 1)
        return found + [Token("end", "", at)]

    def unknown(self, character: str, at: At) -> NoReturn:
        """Refuses a character."""
        if character in _LOOKALIKES:
            self.fail(at, f"{character} has no meaning here; write {_LOOKALIKES[character]}")
        shown = character if character.isprintable() else f"the character U+{ord(character):04X}"
        self.fail(at, f"{shown} has no meaning here")

    def only_letters(self, name: str, at: At) -> None:
        """Raised figures and the like stand in no name."""
        for i in range(1, len(name)):
            if not name[: i + 1].isidentifier():
                self.unknown(name[i], At(at.line, at.column + i))

    def no_name_behind(self, number: str, position: int, at: At) -> None:
        """2j and 3w are no numbers."""
        name = re.compile(r"\w+").match(self.text, position)
        if name:
            self.fail(at, f"{number}{name.group()} is no number; write {number}*{name.group()} for a product")


class Parser:
    """Tokens in a tree, one token ahead."""

    def __init__(self, text: str, name: str) -> None:
        self.lexer = Lexer(text, name)
        self.fail = self.lexer.fail
        self.tokens = self.lexer.tokens()
        self.at = 0
        self.depth = 0
        self.mode: Optional[Token] = None
        self.givens: List[Given] = []
        self.lets: List[Let] = []
        self.shows: List[Show] = []
        self.known: Dict[str, At] = {}
        self.constants: Dict[str, float] = {}

    # tokens

    @property
    def next(self) -> Token:
        """The next token."""
        return self.tokens[self.at]

    def take(self) -> Token:
        """Takes the next token; the last one stays."""
        token = self.next
        self.at = min(self.at + 1, len(self.tokens) - 1)
        return token

    def takes(self, *texts: str) -> bool:
        """Whether the next token is one of these signs or words."""
        return self.next.kind in ("sign", "name") and self.next.text in texts

    def said(self, token: Token) -> str:
        """A token as a message names it."""
        return "the end of the line" if token.kind == "end" else token.text

    def expect(self, text: str, why: str) -> Token:
        """Takes this sign or word."""
        if not self.takes(text):
            self.fail(self.next.at, f"{why}, not {self.said(self.next)}")
        return self.take()

    # statements

    def program(self) -> Program:
        """The whole file."""
        while self.at < len(self.tokens) - 1:
            if self.next.kind == "end" or self.takes(";"):
                self.take()
                continue
            self.statement()
            if self.next.kind != "end" and not self.takes(";"):
                self.fail(self.next.at, f"expected an operation or the end of the line, not {self.said(self.next)}")
        if not self.shows:
            self.fail(self.next.at, "nothing is shown; end with a line as: show Z")
        text, name = self.lexer.text, self.lexer.name
        stable = self.mode is None or self.mode.text == "stable"
        return Program(name, text, stable, tuple(self.givens), tuple(self.lets), tuple(self.shows))

    def statement(self) -> None:
        """One statement."""
        if self.takes("given"):
            self.given()
        elif self.takes("show"):
            self.show()
        elif self.takes("mode"):
            self.set_mode()
        elif self.next.kind == "name":
            self.let()
        else:
            self.fail(self.next.at, f"expected a name, given, show or mode, not {self.said(self.next)}")

    def new_name(self) -> Token:
        """A name that does not stand yet."""
        token = self.next
        if token.kind != "name":
            self.fail(token.at, f"expected a name, not {self.said(token)}")
        if token.text in KEYWORDS:
            self.fail(token.at, f"{token.text} has a meaning of its own and cannot be a name")
        if token.text in self.known:
            self.fail(token.at, f"{token.text} has its value already, from line {self.known[token.text].line}")
        return self.take()

    def given(self) -> None:
        """given f, g complex."""
        self.take()
        tokens = [self.new_name()]
        self.known[tokens[0].text] = tokens[0].at
        while self.takes(","):
            self.take()
            tokens.append(self.new_name())
            self.known[tokens[-1].text] = tokens[-1].at
        is_complex = self.takes("complex")
        if is_complex:
            self.take()
        self.givens += [Given(token.at, token.text, is_complex) for token in tokens]

    def show(self) -> None:
        """show Z, Y."""
        while True:
            self.take()
            token = self.next
            if token.kind != "name" or token.text in KEYWORDS:
                self.fail(token.at, f"expected a name to show, not {self.said(token)}")
            self.see(token)
            if any(token.text == given.name for given in self.givens):
                self.fail(token.at, f"{token.text} is given; it stands in the table already")
            if any(token.text == shown.name for shown in self.shows):
                self.fail(token.at, f"{token.text} is shown twice")
            self.shows.append(Show(token.at, token.text))
            self.take()
            if not self.takes(","):
                return

    def set_mode(self) -> None:
        """mode plain, mode stable."""
        token = self.take()
        if self.mode is not None:
            self.fail(token.at, f"the mode is said already, in line {self.mode.at.line}")
        if not self.takes("plain", "stable"):
            self.fail(self.next.at, f"a mode is plain or stable, not {self.said(self.next)}")
        self.mode = self.take()

    def let(self) -> None:
        """name = value."""
        token = self.new_name()
        self.expect("=", f"expected = behind {token.text}")
        value = self.number_tree()
        self.known[token.text] = token.at
        self.lets.append(Let(token.at, token.text, value))
        constant = self.constant(value)
        if constant is not None:
            self.constants[token.text] = constant

    # values

    def see(self, token: Token) -> None:
        """Refuses a name that has no value."""
        if token.text not in self.known:
            known = ", ".join(self.known) or "nothing"
            self.fail(token.at, f"{token.text} is not given; known: {known}")

    def constant(self, node: Node) -> Optional[float]:
        """The double that a number, or a name of one, stands for; None of all else."""
        if isinstance(node, Number):
            return float(node.text)
        if isinstance(node, Negative):
            of = self.constant(node.of)
            return None if of is None else -of
        if isinstance(node, Name):
            return self.constants.get(node.name)
        return None

    def number_tree(self) -> Node:
        """A value that is a number."""
        return self.as_number(self.choice())

    def as_number(self, node: Node) -> Node:
        """Refuses a condition where a number must stand."""
        if is_truth(node):
            self.fail(node.at, "a comparison is no number; it stands between if and else")
        return node

    def as_truth(self, node: Node) -> Node:
        """Refuses a number where a condition must stand."""
        if not is_truth(node):
            self.fail(node.at, "a condition is a comparison, as w < 1000")
        return node

    def deeper(self, at: At) -> None:
        """One level further in."""
        self.depth += 1
        if self.depth > DEEPEST:
            self.fail(at, f"nested more than {DEEPEST} deep; give a part of it a name")

    def choice(self) -> Node:
        """a if condition else b."""
        self.deeper(self.next.at)
        node = self.disjunction()
        if self.takes("if"):
            at = self.take().at
            then = self.as_number(node)
            condition = self.as_truth(self.disjunction())
            self.expect("else", "expected else")
            node = Choice(at, then, condition, self.as_number(self.choice()))
        self.depth -= 1
        return node

    def disjunction(self) -> Node:
        """c or d."""
        node = self.conjunction()
        while self.takes("or"):
            at = self.take().at
            node = Binary(at, "or", self.as_truth(node), self.as_truth(self.conjunction()))
        return node

    def conjunction(self) -> Node:
        """c and d."""
        node = self.inversion()
        while self.takes("and"):
            at = self.take().at
            node = Binary(at, "and", self.as_truth(node), self.as_truth(self.inversion()))
        return node

    def inversion(self) -> Node:
        """not c."""
        if not self.takes("not"):
            return self.comparison()
        at = self.take().at
        self.deeper(at)
        node = Inverse(at, self.as_truth(self.inversion()))
        self.depth -= 1
        return node

    def comparison(self) -> Node:
        """a < b, once."""
        node = self.sum()
        if self.takes(*COMPARISONS):
            token = self.take()
            node = Binary(token.at, token.text, self.as_number(node), self.as_number(self.sum()))
            if self.takes(*COMPARISONS):
                self.fail(self.next.at, "one comparison at a time; join two by and")
        return node

    def sum(self) -> Node:
        """a + b - c."""
        node = self.product()
        while self.takes("+", "-"):
            token = self.take()
            node = Binary(token.at, token.text, self.as_number(node), self.as_number(self.product()))
        return node

    def product(self) -> Node:
        """a * b / c."""
        node = self.signed()
        while self.takes("*", "/"):
            token = self.take()
            node = Binary(token.at, token.text, self.as_number(node), self.as_number(self.signed()))
        return node

    def signed(self) -> Node:
        """-x; it binds less than ^ and more than *."""
        if not self.takes("-"):
            return self.power()
        at = self.take().at
        self.deeper(at)
        node = Negative(at, self.as_number(self.signed()))
        self.depth -= 1
        return node

    def power(self) -> Node:
        """x^n."""
        base = self.atom()
        if self.takes("**"):
            self.fail(self.next.at, "a power is written ^")
        if not self.takes("^"):
            return base
        at = self.take().at
        start = self.next.at
        exponent = self.exponent()
        value = self.constant(exponent)
        if value is None:
            self.fail(start, "an exponent must be a number, or a name that is one")
        if self.takes("^", "**"):
            self.fail(self.next.at, "one power at a time; use parentheses")
        return Power(at, self.as_number(base), exponent, value)

    def exponent(self) -> Node:
        """n or -n."""
        if self.takes("-"):
            at = self.take().at
            return Negative(at, self.atom())
        return self.atom()

    def atom(self) -> Node:
        """A number, a name, a function of something, something in parentheses."""
        token = self.next
        if token.kind == "number":
            return self.number()
        if self.takes("("):
            return self.parenthesis()
        if token.kind != "name":
            self.fail(token.at, f"expected a number, a name or (, not {self.said(token)}")
        if token.text in FUNCTIONS:
            self.take()
            if not self.takes("("):
                self.fail(self.next.at, f"expected ( behind {token.text}, not {self.said(self.next)}")
            return Call(token.at, token.text, self.as_number(self.parenthesis()))
        if token.text in ("j", "pi"):
            self.take()
            return J(token.at) if token.text == "j" else Pi(token.at)
        return self.name()

    def parenthesis(self) -> Node:
        """( something )."""
        self.take()
        node = self.choice()
        self.expect(")", "expected )")
        return node

    def number(self) -> Node:
        """A decimal."""
        token = self.take()
        word = word_of(float(token.text))
        if word & ~SIGN == INFINITY:
            self.fail(token.at, f"{token.text} is too large for a double")
        return Number(token.at, token.text, word)

    def name(self) -> Node:
        """A name that has a value."""
        token = self.next
        if token.text in KEYWORDS:
            self.fail(token.at, f"expected a number, a name or (, not {token.text}")
        self.take()
        if self.takes("("):
            self.fail(token.at, f"{token.text} is no function; there are {', '.join(FUNCTIONS)}")
        self.see(token)
        return Name(token.at, token.text)


def parse(text: str, name: str = "formula") -> Program:
    """The tree of a formula's text. Raises FormulaError."""
    return Parser(text.replace("\r\n", "\n").replace("\r", "\n"), name).program()
