"""How an exhibit counts its numbers: the announced one by itself, or the least times the number of
all.
"""
from __future__ import annotations

import typing
from decimal import Decimal

from .deciding import TESTS, Announced, find_announced
from .report import Ends, Pair, Report, Serial, Stop, Walk

# How the name of a report of `over_limits` begins that differs from the others in its weight.
WEIGHT = "cut_weight="
NO_MANIFEST = (
    "The manifest of this report is not there. This page therefore cannot know whether other"
    " reports were made for the same question: of other elections, plans or limits"
)


def numbers_of(report: Report) -> list[tuple[str, Decimal]]:
    """Returns every bound and p-value of a report, with its ask."""
    bounds: list[Walk | Pair] = [*report.walks, *report.pair_lines]
    tests: list[Stop | Ends | Serial] = [*report.stops, *report.ends, *report.serial]
    return [
        *((one.ask, one.bound) for one in bounds),
        *((test.ask, test.p) for test in tests),
    ]


def is_counted(report: Report) -> bool:
    """Returns whether it is known which reports were made for the question of a report."""
    return report.audited is not None and report.audited.call is not None


def find_announced_for(
    plans: typing.Sequence[tuple[str, Report]], decides: str | None
) -> Announced | None:
    """Returns the number that counts by itself, as the argument or else the manifest names it.

    Raises ValueError if the manifest names another one than the argument, or if there is none of
    this name.
    """
    report = plans[0][1]
    call = None if report.audited is None else report.audited.call
    kept = None if call is None else call.decides
    if kept is not None and decides is not None and kept.split() != decides.split():
        raise ValueError(
            f"decides={decides!r}, but the manifest, which was written with the run, names {kept!r}"
        )
    words = kept if decides is None else decides
    if words is None:
        return None
    batch = report.batch
    if len(plans) == 1 and batch is not None:
        for other in batch.others:
            if " ".join(words.split()).startswith(f"{other} ") and other != batch.name:
                own = [(other, report)]
                return find_announced(own, words)._replace(value=Decimal("NaN"))
        return find_announced([(batch.name, report)], words)
    return find_announced(plans, words)


def tell_announced(
    plans: typing.Sequence[tuple[str, Report]], announced: Announced
) -> str:
    """Returns what a page says of the number that was announced."""
    report = plans[0][1]
    call = None if report.audited is None else report.audited.call
    is_kept = call is not None and call.decides is not None
    what = "bound" if announced.words.split()[0] in ("walk", "pair") else "p-value"
    word, *rest = announced.words.split()
    which = "" if len(rest) == 1 else f" {' and '.join(rest[:-1])}"
    kind = "plan" if report.batch is None else report.batch.kind
    if announced.name.startswith(WEIGHT):
        kind = "weight"
    of = f", {kind} {announced.name}" if announced.name else ""
    named = f"the {what} of {TESTS[word]}{which} on {rest[-1]}{of}"
    said = (
        "The manifest, which was written with the run, names it, too."
        if is_kept
        else "That it was announced is said by the makers of this page, and by no manifest."
    )
    if announced.value.is_nan():
        return (
            f"One number was announced before the run as the one that counts: {named}. It is in"
            " another report, and no number on this page counts by itself."
            f" {said}"
        )
    many = sum(len(numbers_of(one)) for _, one in plans) - 1
    others = (
        ""
        if many == 0
        else " No other number of this page, or of another report on the same question, is evidence"
        " by itself."
    )
    return (
        f"One number was announced before the run as the one that counts: {named}. It is"
        f" {announced.value}, and is not multiplied. {said}{others}"
    )


def multiply(report: Report, plans: int = 1) -> str:
    """Returns the warning about several numbers, with Bonferroni's product.

    `plans` is the number of plans on the page. Where the other reports of the question are not
    known, there is no product.
    """
    numbers = [number for _, number in numbers_of(report)]
    if not is_counted(report):
        return (
            f"{NO_MANIFEST}. It has {count_of_numbers(len(numbers) * plans)} itself; the least is"
            f" {min(numbers):f}. Unless one number was named before the run as the one that counts,"
            " multiply the least by the number of all that were computed for the question"
            " (Bonferroni)."
        )
    whole = number_of_all(report, plans)
    if whole == 1:
        return "The report has one number, and it stands by itself."
    product = min(Decimal(1), min(numbers) * whole)
    said, their = f"The table has {count_of_numbers(len(numbers))}.", "their number"
    if whole > len(numbers):
        what = "plan" if report.batch is None else report.batch.kind
        count = plans if report.batch is None else len(report.batch.names)
        once = (
            " (those on cut edges are the same in each, and count once)"
            if what == "election" and any(ask.startswith("cut-") for ask in report.asks)
            else ""
        )
        said = (
            f"The table has {count_of_numbers(len(numbers))}; for all {count:,} {what}s together"
            f" {whole} were computed{once}."
        )
        their = "the number of all"
    return (
        f"{said} Unless one of them was named before the run as the one that counts, multiply the"
        f" least by {their} (Bonferroni): {min(numbers):f} times {whole} is"
        f" {product:f}{', which is no evidence' if product == 1 else ''}."
    )


def count_of_numbers(count: int) -> str:
    return "1 bound or p-value" if count == 1 else f"{count} bounds and p-values"


def number_of_all(report: Report, plans: int) -> int:
    """Returns the number of bounds and p-values of all plans, elections or limits of a call.

    Cut edges and their length do not depend on votes, so that their tests are the same in each
    election.
    """
    asks = [ask for ask, _ in numbers_of(report)]
    if report.batch is None:
        return plans * len(asks)
    many = max(plans, len(report.batch.names))
    once = sum(ask.startswith("cut-") for ask in asks) if report.batch.kind == "election" else 0
    return many * (len(asks) - once) + once
