"""Comparison of the head of a trace that was read from a file with a graph."""
from __future__ import annotations

import typing
import warnings
from fractions import Fraction

from . import scores
from .arguments import MOST_WEIGHT, TABLE, Words, number, plain_words
from .errors import HeadNotCompared
from .report import HALF_SHARE, MOST_SHARE, Line
from .words import word_of

if typing.TYPE_CHECKING:
    from .traces import Sample, Trace

OF_VOTES: dict[str, typing.Callable[[Sample], int | Fraction]] = {
    "seats": scores.seats, "mean-median": scores.mean_median, "gap": scores.efficiency_gap,
}
# The limits of a call, by their names in the rules of a head.
LIMITS = ("slack", "max_cut", "max_split", "max_splits", "max_split_regions", "group_districts",
          "group_share", "max_length")
# The columns of a call, by their names in the line of the source.
COLUMNS = {
    "pop": "population", "first": "first", "second": "second", "region": "region",
    "group": "group", "group_of": "group_of", "freeze": "freeze",
    "length": "length",
}


def compare_head(trace: Trace, named: Words, words: Words) -> tuple[str, ...]:
    """Refuses a head that is not of the graph, and returns what could not be compared.

    `named` has the columns by the program's words, and `words` the arguments of the call. Warns of
    what could be compared if a column was named.
    """
    head = Head(trace, named, words)
    head.compare_columns()
    head.compare_job()
    head.compare_totals()
    head.compare_rules()
    for ask in trace.head.asks:
        head.compare_start(ask)
    if head.missing:
        warnings.warn(HeadNotCompared("; ".join(head.missing)), stacklevel=4)
    if trace.head.source is not None:
        return tuple(head.missing)
    return (*head.missing, "single units: the text has no line `source`, so only totals are known")


class Head:
    """The head of a trace beside a graph."""

    def __init__(self, trace: Trace, named: Words, words: Words) -> None:
        self.trace, self.named = trace, named
        self.head, self.table = trace.head, trace.table
        self.enacted: Sample = trace.enacted
        self.missing: list[str] = []
        self.given = plain_words("read_trace", words)

    def ask_that(self, what: str, said: object, own: object) -> None:
        """Refuses a head that says another number than the graph has."""
        self.trace.text.ask_that(
            said == own, f"it is of another graph or job: {what} is {said} there and {own} here"
        )

    def has(self, what: str, *columns: str) -> bool:
        """Returns whether these columns are named; if not, notes what cannot be compared."""
        absent = [column for column in columns if not self.named.get(column)]
        shown = ["population" if column == "pop" else column for column in absent]
        if absent:
            self.missing.append(f"{what} not compared: {' and '.join(shown)} not named")
        return not absent

    def compare_columns(self) -> None:
        """Refuses names of columns that are not those that the program read."""
        source = self.head.source
        if source is None:
            return
        for name, field in COLUMNS.items():
            given, read = self.given.get(name), getattr(source, field)
            if given:
                self.trace.text.ask_that(
                    given == read, f"the program read the column {read} as {field}, not {given}"
                )

    def compare_job(self) -> None:
        """Refuses another key, setting or questions than those given."""
        setting = self.head.setting
        for name in ("walks", "steps", "ends", "hub_steps"):
            if name in self.given:
                self.ask_that(name, getattr(setting, name), number(self.given, name))
        if "key" in self.given:
            self.ask_that("the key", self.head.key, word_of(self.given["key"]).lower())
        if "ask" in self.given:
            asks = word_of(self.given["ask"]).split(",")
            self.ask_that("ask", [ask.ask for ask in self.head.asks], asks)

    def compare_totals(self) -> None:
        """Refuses another number of edges or people."""
        edges = sum(map(len, self.table.neighbors)) // 2
        self.ask_that("the number of edges", self.head.edges, edges)
        if self.has("population", "pop"):
            people = sum(self.table.column(str(self.named["pop"])))
            self.ask_that("the population", self.head.population, people)

    def compare_rules(self) -> None:
        """Refuses other limits than those given, and other numbers than the graph has."""
        rules = self.head.rules
        for name in LIMITS:
            if name in self.given:
                said = getattr(rules, name)
                limit = TABLE[name].default if said is None else said
                self.ask_that(name, limit, number(self.given, name))
        if "cut_weight" in self.given:
            given = Fraction(str(self.given["cut_weight"]))
            self.ask_that("cut_weight", rules.cut_weight or Fraction(MOST_WEIGHT), given)
        if rules.regions is not None and self.has("regions", "region"):
            regions = self.table.regions(str(self.named["region"]))
            self.ask_that("the number of regions", rules.regions, len(set(regions)))
        if rules.majorities is not None and self.has("majorities", "group"):
            whole = str(self.named.get("group_of") or self.named.get("pop") or "")
            if whole or self.has("majorities", "group_of"):
                share = HALF_SHARE if rules.group_share is None else rules.group_share
                part = Fraction(share, MOST_SHARE)
                own = scores.majorities(self.enacted, str(self.named["group"]), whole, part)
                self.ask_that("the number of majorities", rules.majorities, own)
        if rules.frozen is not None and self.has("frozen units", "freeze"):
            frozen = sum(map(bool, self.table.values(str(self.named["freeze"]))))
            self.ask_that("the number of frozen units", rules.frozen, frozen)

        if rules.cut_length is not None and self.has("the length of cut edges", "length"):
            own = scores.cut_length(self.enacted, str(self.named["length"]))
            self.ask_that("the length of cut edges", rules.cut_length, own)

    def compare_start(self, ask: Line) -> None:
        """Refuses another value of the enacted plan than the graph gives."""
        if ask.score == "cut-edges":
            self.ask_that("the enacted plan's cut-edges", ask.start.fraction,
                          Fraction(scores.cut_edges(self.enacted)))
        elif ask.score == "cut-length":
            if self.has("cut-length", "length"):
                length = str(self.named["length"])
                self.ask_that("the enacted plan's cut-length", ask.start.fraction,
                              Fraction(scores.cut_length(self.enacted, length)))
        elif all(self.trace.election) or self.has(ask.score, "first", "second"):
            own = OF_VOTES[ask.score](self.enacted)
            self.ask_that(f"the enacted plan's {ask.score}", ask.start.fraction, own)
            if ask.score == "gap":
                votes = sum(first + second for first, second in scores.votes(self.enacted))
                self.ask_that("twice the votes", ask.start.denominator, 2 * votes)
