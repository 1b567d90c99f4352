"""One audit under several limits: does the result hang on the limit?"""
from __future__ import annotations

import dataclasses
import typing
from fractions import Fraction

from .arguments import refuse, tested_elections
from .calls import NO_WORDS, prepare_once, run, words_in
from .elections import each_election
from .errors import AuditError, TypeRefused
from .preparing import Prepared
from .report import Report, join_batch
from .results import NamedReports
from .warnings import read

if typing.TYPE_CHECKING:
    from .custody import PathLike
    from .graphs import Foreign

# The limits that may be varied.
VARIED = ("max_cut", "max_length", "max_split", "max_splits", "max_split_regions", "slack",
          "cut_weight")


class LimitReports(NamedReports):
    """The reports of one plan under several limits, in the order of the limits.

    All have the same key. Each number is a test: announce one limit as the one that decides, or
    multiply the least number by how many there are. `to_frame()` is one table, `plot()` one
    picture, and `exhibit()` one page for a court.
    """

    what = "limit"

    def exhibit(
        self,
        path: PathLike,
        *,
        title: str = "Outlier test of a districting plan under several limits",
        parties: tuple[str, str] | None = None,
        graph: object = None,
        columns: typing.Mapping[str, str] | None = None,
        command: str | None = None,
        notes: typing.Sequence[str] = (),
        decides: str | None = None,
        manifest: PathLike | None = None,
        names: typing.Mapping[str, str] | None = None,
        geometry: object = None,
        ids: str | None = None,
    ) -> None:
        """Writes one page on all limits, with one table and picture, and what may be concluded.

        The options are those of `Report.exhibit`. `decides` names the limit, too, as "max_cut=280
        ends gap:high": its row is marked as announced, and all others as sensitivity. Without it,
        the page multiplies the least of all numbers by how many there are.

        Raises what `Report.exhibit` raises, and ValueError if the reports differ in more than one
        limit.
        """
        # An exhibit reads limits of reports, which are loaded as a study.
        from .exhibit import Options
        from .exhibit_limits import write

        options = Options(
            title, parties, graph, columns, command, notes, None, None, decides, manifest, names,
            geometry, None, ids,
        )
        write(path, self.pairs, options)


def over_limits(graph: object, **words: Foreign) -> LimitReports:
    """Audits a plan under several values of one limit, with the same key, and returns all reports.

    Parameters
    ----------
    graph : object
        As for `run`.
    **words
        The arguments of `run`, of which one limit is a list: `max_cut`, `max_length`, `max_split`,
        `max_splits`, `max_split_regions`, `slack` or `cut_weight`, as `max_cut=[280, 320, 400]`.
        The default of a limit stands for none. `elections` and `folder` are not taken.

    Returns
    -------
    LimitReports
        A list of pairs, as "max_cut=280" and its report.

    Raises
    ------
    TypeRefused
        Not exactly one limit is a list.
    GraphRefused and others, as `run`. The message begins with the limit. The strictest limit is
    audited first, so that one that the plan breaks is refused at once.
    """
    lists = {name: value for name, value in words.items() if isinstance(value, (list, tuple, range))
             and name in VARIED}
    if len(lists) != 1:
        refuse(
            TypeRefused, "over_limits", next(iter(lists), "max_cut"), lists or words.get("max_cut"),
            f"one limit is a list, of {', '.join(VARIED)}",
        )
    elections = words.get("elections")
    if elections is None and isinstance(graph, Prepared) and words.get("first") is None:
        elections = graph.elections or None
    if elections is not None:
        ways = each_election(tested_elections(elections, False, "over_limits"))
        refuse(
            TypeRefused, "over_limits", "elections", elections,
            f"over_limits takes one election: call it for each, with {ways}",
        )
    for name in ("folder", "save", "resume"):
        if words.get(name):
            refuse(TypeRefused, "over_limits", name, words[name], f"over_limits has no {name}")
    (limit, values), = lists.items()
    given = list(dict.fromkeys(values))
    if not given:
        refuse(TypeRefused, "over_limits", limit, values, "the list of limits is empty")
    shared, kept = prepare_once(graph, words_in({**words, limit: None, "unknown": {}}))
    words = {**{name: words[name] for name in words if name in NO_WORDS}, **kept}
    found: dict[object, Report] = {}
    for value in sorted(given, key=lambda one: Fraction(str(one))):
        try:
            found[value] = run(shared, **{**words, limit: value})
        except AuditError as error:
            error.args = (f"{limit}={value}: {error}", *error.args[1:])
            raise
    pairs = name_warnings([(f"{limit}={one}", found[one]) for one in given])
    return LimitReports(join_batch("limit", pairs))


def name_warnings(pairs: list[tuple[str, Report]]) -> list[tuple[str, Report]]:
    """Returns the reports, with the limit before each warning that not all of them have."""
    of_all = set.intersection(*(set(report.warnings) for _, report in pairs))
    return [
        (
            name,
            dataclasses.replace(
                report,
                audited=report.audited and dataclasses.replace(
                    report.audited,
                    warnings=tuple(
                        one if one in of_all else read(one.kind, f"{name}: {one}")
                        for one in report.warnings
                    ),
                ),
            ),
        )
        for name, report in pairs
    ]
