"""One page on an audit under several limits, for a court: does the result hang on the limit?"""
from __future__ import annotations

import dataclasses
import hashlib
import typing
from decimal import Decimal

from . import exhibit_figures as figures
from . import exhibit_text as texts
from .custody import write_whole
from .deciding import Announced
from .errors import NotProved
from .exhibit import (
    RESULT_TITLES,
    Named,
    Options,
    PathLike,
    about_preparation,
    add_manifest_to,
    command_of,
    district_maps,
    district_table,
    encode,
    heading,
    items,
    lines,
    list_asks,
    paragraphs,
    parties_of,
    reports_in_full,
    result_rows,
    said_first,
    starts_of,
    table,
    whole_page,
)
from .exhibit_counting import (
    NO_MANIFEST,
    WEIGHT,
    count_of_numbers,
    find_announced_for,
    is_counted,
    numbers_of,
    tell_announced,
)
from .exhibit_custody import custody_of, limits_line, program_rows, raw_rows
from .exhibit_districts import columns_of, districts_of, graph_of
from .exhibit_figures import escape
from .report import Report, join_batch
from .wording import plural

# The rules of a report that one limit changes, by its name.
CHANGED = {
    "slack": ("slack", "low", "high"),
    "max_cut": ("max_cut",),
    "max_length": ("max_length",),
    "max_split": ("max_split",),
    "max_splits": ("max_splits", "max_split_regions"),
    "cut_weight": ("cut_weight", "pieces"),
}
# The plans with which each row compares the enacted plan, by what the audits differ in.
COMPARED = {
    "limit": "the legal plans under its own limit",
    "weight": "all legal plans, drawn with the chances of its own weight",
}


def write(path: PathLike, pairs: Named, options: Options) -> None:
    """Writes the page on all limits, as UTF-8."""
    write_whole(path, page(pairs, options).encode("utf-8"))


def page(pairs: Named, options: Options) -> str:
    """Returns the page.

    Raises ValueError if the reports or the options do not belong together, and NotProved.
    """
    if not pairs:
        raise ValueError("an exhibit needs a report")
    if options.manifest is not None:
        pairs = add_manifest_to(pairs, options.manifest)
    if any(report.batch is None for _, report in pairs):
        pairs = join_batch("limit", pairs)
    reports = [report for _, report in pairs]
    if not all(report.proved for report in reports):
        raise NotProved(
            "a report of a build without a proof is not for a court: audit with a proved program"
        )
    refuse_other_limits(reports)
    announced = find_announced_for(pairs, options.decides)
    name, report = find_shown(pairs, announced)
    columns = columns_of(report, options.graph, options.columns)
    parties = parties_of(options, columns)
    scores = list(dict.fromkeys(ask.split(":")[0] for ask in report.asks))
    parts = [
        f"<h1>{escape(options.title)}</h1>",
        *paragraphs([texts.subject(dataclasses.replace(report, batch=None), parties, [name])]),
        *paragraphs([tell_audits(pairs)]),
        *paragraphs(options.notes),
        *said_first(reports),
        heading("What may be concluded"),
        *paragraphs([tell_count(pairs, announced), *conclude(what_varies(pairs))]),
        heading("What was asked"),
        list_asks(report, parties, scores),
        heading("How it was done"),
        *paragraphs([f"This text is about the audit under {name}."] if len(pairs) > 1 else []),
        *paragraphs(texts.methods(report, options.called)),
        *paragraphs(filter(None, [limits_line(report)])),
        *about_preparation(report),
        heading("Results"),
        *results(pairs, options, parties, announced),
        heading("What the numbers mean"),
        *paragraphs(texts.theorems(report, None)),
        heading("What this exhibit does not say"),
        items(texts.LIMITS),
        heading("How to repeat it"),
        *provenance(pairs, columns, name, options),
    ]
    return whole_page(options.title, parts)


def refuse_other_limits(reports: typing.Sequence[Report]) -> None:
    """Raises ValueError unless the reports are of one question, and differ in one limit alone."""

    def job(report: Report) -> tuple[object, ...]:
        rules = dataclasses.replace(
            report.rules, slack=0, low=0, high=0, max_cut=None, max_length=None, max_split=None,
            max_splits=None, max_split_regions=None, cut_weight=None, pieces=None,
        )
        return (
            report.key, report.units, report.edges, report.population, rules, report.setting,
            report.asks, report.source, report.has_pairs, bool(report.serial), starts_of(report),
        )

    first = reports[0]
    varied = [
        name for name, fields in CHANGED.items()
        if any(getattr(one.rules, field) != getattr(first.rules, field)
               for one in reports for field in fields)
    ]
    if len(varied) > 1 or any(job(one) != job(first) for one in reports):
        raise ValueError(
            "the reports differ in more than one limit: give what over_limits returned"
        )


def find_shown(pairs: Named, announced: Announced | None) -> tuple[str, Report]:
    """Returns the report whose methods and command the page shows: the announced or the first."""
    for name, report in pairs:
        if announced is not None and name == announced.name:
            return name, report
    return pairs[0]


# ---- words


def what_varies(pairs: Named) -> str:
    """Returns what the audits differ in: a limit on plans, or the weight on cut edges."""
    return "weight" if pairs[0][0].startswith(WEIGHT) else "limit"


def conclude(what: str) -> list[str]:
    """Returns what a reader may conclude from audits that differ in one thing."""
    return [
        f"A {what} that was announced before the run decides. The numbers under all other {what}s"
        f" show how far the result hangs on the {what} (sensitivity), and are no evidence by"
        " themselves.",
        f"Each row compares the enacted plan with {COMPARED[what]}, so the assumption below is"
        " another one in each row. All audits have the same plan, key and questions, and are not"
        f" independent: agreement under several {what}s does not multiply evidence.",
        f"If the number of the announced {what} is small and those of other {what}s are not, the"
        f" finding is about the announced {what} alone.",
    ]


def tell_audits(pairs: Named) -> str:
    """Returns what the page compares."""
    names, what = ", ".join(name for name, _ in pairs), what_varies(pairs)
    means = (
        " (64 is no weight; a smaller number makes plans with many cut edges rarer)"
        if what == "weight"
        else ""
    )
    return (
        f"The page has {plural(len(pairs), 'audit')} of this plan, which differ in one {what}"
        f" alone: {names}{means}. In all else, the key of the draws included, they are alike."
    )


def tell_count(pairs: Named, announced: Announced | None) -> str:
    """Returns which number counts: the announced one, or else the least times the number of all."""
    if announced is not None:
        return tell_announced(pairs, announced)
    numbers: list[Decimal] = [number for _, one in pairs for _, number in numbers_of(one)]
    count, least = len(numbers), min(numbers)
    if not is_counted(pairs[0][1]):
        return (
            f"{NO_MANIFEST}. The page has {count_of_numbers(count)}; the least is {least:f}."
            " Unless one of them was named before the run as the one that counts, multiply the"
            " least by the number of all that were computed for the question (Bonferroni)."
        )
    product = min(Decimal(1), least * count)
    return (
        f"The page does not know of a number that was announced before the run. Without one, all"
        f" {count_of_numbers(count)} under all {what_varies(pairs)}s count: the least, {least:f},"
        f" times {count} is {product:f}{', which is no evidence' if product == 1 else ''}"
        " (Bonferroni)."
    )


# ---- sections


def results(
    pairs: Named, options: Options, parties: tuple[str, str], announced: Announced | None
) -> list[str]:
    """Returns the districts, one table of all limits, and its picture."""
    (_, first), what = pairs[0], what_varies(pairs)
    columns = columns_of(first, options.graph, options.columns)
    graph = graph_of(first, options.graph, columns, False)
    parts = [] if options.geometry is None else [district_maps(first, options)]
    if graph is not None:
        found = districts_of(first, graph)
        parts += district_table(first, found, parties, graph.is_exact, options.called)
    enacted = {
        score: texts.show(score, value, options.called)
        for score, value in starts_of(first).items()
    }
    rows: list[tuple[object, ...]] = []
    walks: list[figures.Row] = []
    ranks: list[figures.Rank] = []
    for name, report in pairs:
        role = "" if announced is None else (
            f" (announced {what})" if name == announced.name else " (sensitivity)"
        )
        rows += [(name + role, *row) for row in result_rows(report, options.called)]
        walks += [row._replace(label=f"{name}, {row.label}")
                  for row in figures.walk_rows(report, enacted)]
        ranks += [row._replace(label=f"{name}, {row.label}")
                  for row in figures.rank_rows(report, enacted)]
    parts.append(table((what, *RESULT_TITLES), rows, plain=3, kind="limits"))
    drawn = []
    if walks:
        drawn.append(figures.walks_figure(1, f"Outlier walks under each {what}", walks))
    if ranks:
        title = f"Rank of the enacted plan under each {what}"
        drawn.append(figures.ranks_figure(len(drawn) + 1, title, ranks))
    return parts + drawn


def provenance(
    pairs: Named, columns: typing.Mapping[str, str], name: str, options: Options
) -> list[str]:
    """Returns the hashes, the command of the limit that is shown, and all reports in full."""
    report = dict(pairs)[name]
    hashes = [(f"key of all draws, under each {what_varies(pairs)}", report.key)]
    hashes += [
        (f"SHA-256 of the report under {one}", hashlib.sha256(encode(str(made))).hexdigest())
        for one, made in pairs
    ]
    if report.source is not None:
        size = report.source.size
        hashes.append((f"SHA-256 of the graph, {size} bytes", report.source.sha256))
    elif report.audited is not None:
        hashes.append(("SHA-256 of the graph", report.audited.sha256))
    hashes += [*raw_rows(custody_of(report)), *program_rows(report)]
    cells = "".join(
        f"<tr><td>{escape(what)}</td><td><code>{escape(value)}</code></td></tr>"
        for what, value in hashes
    )
    command = options.command or command_of(report, columns, False)
    return [
        *paragraphs([texts.REPEATED]),
        *paragraphs([] if columns or options.command else [texts.PLACEHOLDERS]),
        f"<pre>{lines(command)}</pre>",
        *paragraphs([other_commands([one for one, _ in pairs], name)] if len(pairs) > 1 else []),
        f"<table><tbody>{cells}</tbody></table>",
        *reports_in_full("".join(f"limit {one}\n{made}" for one, made in pairs)),
    ]


def other_commands(names: typing.Sequence[str], name: str) -> str:
    """Returns what the commands of the other limits have in place of the limit that is shown."""

    def option(one: str) -> str:
        word, _, value = one.partition("=")
        return f"--{word.replace('_', '-')} {value}"

    others = " or ".join(option(one) for one in names if one != name)
    return (
        f"This is the command of the audit under {name}. The other audits have {others} in the"
        f" place of {option(name)}."
    )
