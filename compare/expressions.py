"""Random expressions of the grammar that the program reads, over columns of given types, in which each operand has the type that
its operator wants."""

from __future__ import annotations

from collections.abc import Sequence
from dataclasses import dataclass, field
from random import Random

KINDS = ("INT", "TEXT", "BLOB")
WORDS = ("bolt", "nut", "CAP", "", "it''s", "a%b", "B_t", "zz", "\u00e4\u00df", "10", "\U0001f600x")
PATTERNS = ("%", "_", "%t", "b%", "%\u00e4%", "__", "", "B_T", "%a%b%", "n_t%", "''%")
BLOBS = ("x''", "X'00'", "x'0AfF'", "x'6162'", "x'ff'")


# Queries of one column, each with its type.
Queries = Sequence[tuple[str, str]]


@dataclass
class Columns:
    """What an expression may name: each column as it is written, and its type."""

    names: dict[str, str]

    def of(self, kind: str) -> list[str]:
        return [name for name, other in self.names.items() if other == kind]


@dataclass
class Maker:
    """Makes expressions. Those that may leave 64 bits are kept as well, each by itself. `queries` are those that IN
    and EXISTS may ask."""

    rng: Random
    columns: Columns
    risky: list[str] = field(default_factory=list)
    queries: Queries = ()

    def pick(self, *choices: str) -> str:
        return self.rng.choice(choices)

    def keeps(self, text: str) -> str:
        """An operation whose exact result may be out of range."""
        self.risky.append(text)
        return text

    def leaf(self, kind: str) -> str:
        """A column, where there is one of this type, or a literal."""
        columns = self.columns.of(kind)
        if columns and self.rng.random() < 0.7:
            return self.rng.choice(columns)
        if self.rng.random() < 0.08:
            return "NULL"
        if kind == "INT":
            far = (2**63 - 1, 2**62, 2**31, 2**32 + 1)
            return str(self.rng.choice(far) if self.rng.random() < 0.03 else self.rng.randint(0, 12))
        return f"'{self.pick(*WORDS)}'" if kind == "TEXT" else self.pick(*BLOBS)

    def make(self, kind: str, depth: int) -> str:
        """An expression of this type, in parentheses where it has an operator."""
        if depth == 0 or self.rng.random() < 0.2:
            return self.leaf(kind)
        makers = {"INT": self.number, "TEXT": self.text, "BLOB": self.shared}
        made = self.shared(kind, depth - 1) if self.rng.random() < 0.2 else makers[kind](kind, depth - 1)
        return f"({made})" if self.rng.random() < 0.95 else f"( {made}/* c */ )"

    def some(self, kind: str, depth: int, least: int = 0) -> str:
        """Expressions with commas between them."""
        return ", ".join(self.make(kind, depth) for _ in range(self.rng.randint(least, 3)))

    def shared(self, kind: str, depth: int) -> str:
        """An expression that may be of any type."""
        x, y = self.make(kind, depth), self.make(kind, depth)
        test = self.make("INT", depth)
        arms = " ".join(f"WHEN {self.make('INT', depth)} THEN {self.make(kind, depth)}" for _ in range(self.rng.randint(1, 2)))
        other = self.rng.choice(KINDS)
        whens = " ".join(f"WHEN {self.make(other, depth)} THEN {self.make(kind, depth)}" for _ in range(self.rng.randint(1, 2)))
        return self.pick(
            f"coalesce({x}, {y})",
            f"COALESCE({x}, {y}, {self.make(kind, depth)})",
            f"ifnull({x}, {y})",
            f"nullif({x}, {y})",
            f"iif({test}, {x}, {y})",
            f"CASE {arms} ELSE {y} END",
            f"CASE {arms} END",
            f"CASE {self.make(other, depth)} {whens} ELSE {y} END",
        )

    def text(self, kind: str, depth: int) -> str:
        """An expression that is a text."""
        x = self.make(kind, depth)
        other = self.rng.choice(KINDS)
        return self.pick(
            f"{x} || {self.make(kind, depth)}",
            f"lower({x})",
            f"upper({x})",
            f"hex({self.make(self.pick('TEXT', 'BLOB'), depth)})",
            f"typeof({self.make(other, depth)})",
        )

    def number(self, _: str, depth: int) -> str:
        """An expression that is a whole number."""
        form = self.rng.random()
        if form < 0.3:
            return self.arithmetic(depth)
        if form < 0.6:
            return self.comparison(depth)
        x, y = self.make("INT", depth), self.make("INT", depth)
        bytes_of = self.make(self.pick("TEXT", "BLOB"), depth)
        return self.pick(
            f"{x} AND {y}",
            f"{x} OR {y}",
            f"NOT {x}",
            f"{self.make('TEXT', depth)} {self.pick('LIKE', 'NOT LIKE', 'like')} '{self.pick(*PATTERNS)}'",
            f"{self.make('TEXT', depth)} LIKE {self.make('TEXT', depth)}",
            f"length({bytes_of})",
        )

    def arithmetic(self, depth: int) -> str:
        """An operation on whole numbers."""
        x, y = self.make("INT", depth), self.make("INT", depth)
        operator = self.pick("+", "-", "*", "/", "%", "&", "|", "-x", "~x", "+x", "abs")
        if operator in ("-x", "~x", "+x"):
            return self.keeps(f"{operator[0]} {x}")
        return self.keeps(f"abs({x})" if operator == "abs" else f"{x} {operator} {y}")

    def comparison(self, depth: int) -> str:
        """A comparison of values of one type."""
        kind = self.rng.choice(KINDS)
        if self.queries and self.rng.random() < 0.5:
            return self.question(depth)
        x, y, z = (self.make(kind, depth) for _ in range(3))
        operator = self.pick("=", "==", "<>", "!=", "<", "<=", ">", ">=", "IS", "IS NOT")
        # SQLite takes `x IN ()` for the word FALSE, and `7 IS NOT FALSE` asks whether 7 is true.
        if operator.startswith("IS") and y.replace("/* c */ ", "").endswith("IN ())"):
            operator = "="
        return self.pick(
            f"{x} {operator} {y}",
            f"{x} {operator} {y}",
            f"{x} {self.pick('', 'NOT ')}BETWEEN {y} AND {z}",
            f"{x} {self.pick('', 'NOT ')}IN ({self.some(kind, depth)})",
            f"{x} {self.pick('ISNULL', 'NOTNULL', 'IS NULL', 'IS NOT NULL')}",
        )

    def question(self, depth: int) -> str:
        """Whether a query gives a value, or a row."""
        query, kind = self.rng.choice(self.queries)
        word = self.pick("", "NOT ")
        return self.pick(f"{self.make(kind, depth)} {word}IN ({query})", f"{self.make(kind, depth)} {word}IN ({query})", f"{word}EXISTS ({query})")
