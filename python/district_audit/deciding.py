"""The number of a report that was announced as the one that decides."""
from __future__ import annotations

import typing
from decimal import Decimal

from .arguments import flag, number
from .report import Report

# The name of each test in a text, by the first word of its line.
TESTS = {
    "walk": "the outlier walk", "pair": "the pair of walks", "stop": "the sequential test",
    "ends": "the parallel test", "serial": "the serial test",
}


class Announced(typing.NamedTuple):
    """The number that was announced before the run as the one that counts."""

    words: str
    """Its name, as "ends seats:low"."""
    value: Decimal
    """The bound or p-value."""
    name: str
    """The name of its plan, election or limit; empty for a report by itself."""


def numbers_by_name(report: Report) -> dict[str, Decimal]:
    """Returns each bound and p-value of a report by its name.

    A name is the word of a line, the numbers of its walks and the ask: "walk 0 gap:high" or "ends
    seats:low". The number of the only walk may be left out.
    """
    found = {f"walk {walk.number} {walk.ask}": walk.bound for walk in report.walks}
    if report.setting.walks == 1:
        found.update({f"walk {walk.ask}": walk.bound for walk in report.walks})
    for pair in report.pair_lines:
        found[f"pair {pair.first} {pair.second} {pair.ask}"] = pair.bound
    found.update({f"stop {test.ask}": test.p for test in report.stops})
    found.update({f"ends {test.ask}": test.p for test in report.ends})
    found.update({f"serial {test.ask}": test.p for test in report.serial})
    return found


def find_announced(pairs: typing.Sequence[tuple[str, Report]], words: str) -> Announced:
    """Returns the number of some reports that is named so.

    With several reports the name of the plan, election or limit stands before it. Raises ValueError
    if no number has this name, or if several have it.
    """
    numbers = [numbers_by_name(report) for _, report in pairs]
    place, known = find_number([(name, list(of)) for (name, _), of in zip(pairs, numbers)], words)
    return Announced(known, numbers[place][known], pairs[place][0])


def find_number(reports: typing.Sequence[tuple[str, list[str]]], words: str) -> tuple[int, str]:
    """Returns the place of a report and the name of its number that is meant.

    Each report is given by its name and the names of its numbers. Raises ValueError.
    """
    said = " ".join(words.split()) if isinstance(words, str) else words
    found = [
        (place, known)
        for place, (name, numbers) in enumerate(reports)
        for known in numbers
        if said in (known, f"{' '.join(name.split())} {known}".strip())
    ]
    if len(found) == 1:
        return found[0]
    if found:
        names = ", ".join(f'"{reports[place][0]} {known}"' for place, known in found)
        raise ValueError(f"decides={words!r} is a number of several reports: name one of {names}")
    known = ", ".join(f'"{one}"' for one in reports[0][1])
    raise ValueError(f"decides={words!r} is no number of the report; its numbers are {known}")


def names_of_numbers(named: typing.Mapping[str, object]) -> list[str]:
    """Returns the names of the numbers that a report with some arguments of `run` will have.

    `numbers_by_name` has the same names once the report is there. There are none if an argument is
    wrong, which the call tells.
    """
    walks, ends, found = number(named, "walks"), number(named, "ends"), []
    if walks is None or ends is None:
        return []
    for ask in list_asks(named.get("ask")):
        found += [f"walk {walk} {ask}" for walk in range(walks)]
        found += [f"walk {ask}"] * (walks == 1)
        if flag(named, "pairs"):
            found += [f"pair {walk} {walk + 1} {ask}" for walk in range(0, walks - 1, 2)]
        if ends:
            found.append(f"{'stop' if number(named, 'stop') else 'ends'} {ask}")
        found += [f"serial {ask}"] * flag(named, "serial")
    return found


def list_asks(ask: object) -> list[str]:
    """Returns questions that are given as one text or as a list."""
    asks = ask.split(",") if isinstance(ask, str) else ask
    return [str(one) for one in asks] if isinstance(asks, (list, tuple)) else []


def refuse_other_number(
    decides: str, names: typing.Sequence[str] | None, named: typing.Mapping[str, object]
) -> None:
    """Raises ValueError, before a run, if no number of its reports will have an announced name.

    `names` are the names of the reports, one empty name for a report by itself, or None for the
    plans of a table that is not read yet.
    """
    numbers = names_of_numbers(named)
    if not numbers:
        return
    if names is not None:
        find_number([(name, numbers) for name in names], decides)
        return
    said = " ".join(decides.split()) if isinstance(decides, str) else ""
    if said in numbers:
        raise ValueError(
            f"decides={decides!r} is a number of several reports: put the plan's name before it"
        )
    if not any(said.endswith(f" {number}") for number in numbers):
        find_number([("", numbers)], decides)
