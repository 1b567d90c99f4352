"""An exhibit: one self-contained page that says what a report shows, for a court.

The page is HTML with inline style and inline SVG. It loads nothing, runs no script, and refers to
no other file. It is black, gray and white, and made to be printed.
"""
from __future__ import annotations

import dataclasses
import hashlib
import os
import shlex
import typing
from fractions import Fraction

from . import exhibit_figures as figures
from . import exhibit_text as texts
from .custody import write_whole
from .decimals import ROUNDED_DOWN, percent_down, round_down
from .effect import Effect, Number
from .district_map import maps_of
from .errors import NotProved
from .exhibit_counting import find_announced_for, multiply, tell_announced
from .exhibit_custody import (
    NOT_PROVED,
    custody_of,
    limits_line,
    preparation_lines,
    program_of,
    program_rows,
    raw_rows,
    versions_line,
    warnings_of,
)
from .exhibit_districts import (
    Columns,
    District,
    Graph,
    columns_of,
    districts_of,
    graph_of,
    refuse_missing_columns,
)
from .exhibit_figures import escape
from .map_figures import map_figure
from .report import MOST_REGIONS, MOST_SPLITS, Report, weight_text
from .wording import Names, add_article, read_names

PathLike = typing.Union[str, "os.PathLike[str]"]
# A report with more lines than this is shown in part; its hash is of all of it.
MOST_LINES = 2000
Named = typing.Sequence[tuple[str, Report]]

STYLE = """
@page { size: A4; margin: 18mm 16mm; }
body { font: 15px/1.45 Georgia, 'Times New Roman', serif; color: #000; background: #fff;
  max-width: 60em; margin: 2em auto; padding: 0 1em; }
h1 { font-size: 1.6em; margin-bottom: 0; } h2 { font-size: 1.2em; margin-top: 1.8em;
  border-bottom: 1px solid #000; } h3 { font-size: 1.05em; }
table { border-collapse: collapse; margin: 0.8em 0; font-size: 0.9em; }
th, td { border: 1px solid #888; padding: 0.2em 0.5em; text-align: left; vertical-align: top; }
.results td:nth-child(2), .limits td:nth-child(3) { white-space: nowrap; }
.hashes td:first-child { width: 25%; }
td.n, th.n { text-align: right; font-variant-numeric: tabular-nums; }
thead { display: table-header-group; } tr, figure, pre { break-inside: avoid; }
h2, h3, .title { break-after: avoid; }
figure { margin: 1.2em 0; } figcaption { font-size: 0.9em; }
figure svg { width: 100%; height: auto; }
svg text { font: 13px Arial, Helvetica, sans-serif; fill: #000; }
svg text.at11 { font-size: 11px; } svg text.at9 { font-size: 9px; }
svg text.at7 { font-size: 7px; }
pre, code { font: 12px/1.4 'DejaVu Sans Mono', 'Courier New', monospace; }
pre { white-space: pre-wrap; overflow-wrap: anywhere; border: 1px solid #888; padding: 0.6em; }
code { overflow-wrap: anywhere; }
@media print { body { font-size: 10.5pt; max-width: none; margin: 0; padding: 0; } }
"""


@dataclasses.dataclass(frozen=True)
class Options:
    """The options of an exhibit; `Report.exhibit` documents each."""

    title: str = "Outlier test of a districting plan"
    parties: tuple[str, str] | None = None
    graph: object = None
    columns: Columns | None = None
    command: str | None = None
    notes: typing.Sequence[str] = ()
    epsilon: Number | None = None
    alpha: Number | None = None
    decides: str | None = None
    manifest: PathLike | None = None
    names: typing.Mapping[str, str] | None = None
    geometry: object = None
    plan: object = None
    ids: str | None = None

    @property
    def called(self) -> Names:
        """The names of the group, the regions and lengths on the page."""
        return read_names(self.names)


def write(path: PathLike, plans: Named, options: Options) -> None:
    """Writes the page on one report, or on several plans of one call, as UTF-8."""
    write_whole(path, page(plans, options).encode("utf-8"))


def exhibit_plans(
    path: PathLike,
    plans: Named | typing.Mapping[str, Report],
    *,
    title: str = Options.title,
    parties: tuple[str, str] | None = None,
    graph: object = None,
    columns: Columns | None = None,
    command: str | None = None,
    notes: typing.Sequence[str] = (),
    epsilon: Number | None = None,
    alpha: Number | None = None,
    decides: str | None = None,
    manifest: PathLike | None = None,
    names: typing.Mapping[str, str] | None = None,
    geometry: object = None,
    ids: str | None = None,
) -> None:
    """Writes one page on several plans: what `district_audit.plans` returns, names and reports.

    The options are those of `Report.exhibit`. The district table is of the graph's own plan, the
    first. Raises ValueError if the reports are not of one call, or are those of several elections.
    """
    options = Options(
        title, parties, graph, columns, command, notes, epsilon, alpha, decides, manifest, names,
        geometry, None, ids,
    )
    pairs = list(plans.items()) if isinstance(plans, typing.Mapping) else plans
    write(path, pairs, options)


def page(plans: Named, options: Options) -> str:
    """Returns the page. Raises ValueError if the reports or the options do not belong together."""
    if not plans:
        raise ValueError("an exhibit needs a report")
    if options.manifest is not None:
        plans = add_manifest_to(plans, options.manifest)
    reports = [report for _, report in plans]
    if not all(report.proved for report in reports):
        raise NotProved(
            "a report of a build without a proof is not for a court: audit with a proved program"
        )
    first = reports[0]
    refuse_other_jobs(reports)
    refuse_half_an_effect(options)
    columns = columns_of(first, options.graph, options.columns)
    if columns and not options.command:
        refuse_missing_columns(first, columns)
    graph = graph_of(first, options.graph, columns, is_of_plans(plans))
    parties = parties_of(options, columns)
    scores = list(dict.fromkeys(ask.split(":")[0] for ask in first.asks))
    parts = [
        f"<h1>{escape(options.title)}</h1>",
        f"<p>{escape(texts.subject(first, parties, [name for name, _ in plans]))}</p>",
        *(f"<p>{escape(note)}</p>" for note in options.notes),
        *said_first(reports),
        heading("What was asked"),
        list_asks(first, parties, scores),
        heading("How it was done"),
        *paragraphs(texts.methods(first, options.called)),
        *paragraphs(filter(None, [limits_line(first)])),
        *about_preparation(first),
        heading("Results"),
        *results(plans, options, parties, graph),
        heading("What the numbers mean"),
        *paragraphs(texts.theorems(first, options.alpha)),
        heading("What this exhibit does not say"),
        items(texts.LIMITS),
        heading("How to repeat it"),
        *provenance(plans, options, columns, graph),
    ]
    return whole_page(options.title, parts)


def whole_page(title: str, parts: typing.Iterable[str]) -> str:
    """Returns the page that has these parts."""
    body = "\n".join(parts)
    return (
        '<!DOCTYPE html>\n<html lang="en"><head><meta charset="utf-8">'
        '<meta http-equiv="Content-Security-Policy" content="default-src \'none\'; '
        f"style-src 'unsafe-inline'\"><title>{escape(title)}</title>"
        f"<style>{STYLE}</style></head><body>\n{body}\n</body></html>\n"
    )


def add_manifest_to(plans: Named, path: PathLike) -> Named:
    """Returns the reports with what a manifest says of their calls.

    Raises OSError, and ManifestRefused if the manifest does not name the reports.
    """
    # A study loads reports, and reports make exhibits.
    from .study import add_manifest, add_manifest_to_plans, load_manifest

    manifest = load_manifest(path)
    if manifest.kind == "plan":
        return add_manifest_to_plans(plans, manifest)
    return [(name, add_manifest(report, manifest)) for name, report in plans]


def is_of_plans(plans: Named) -> bool:
    """Returns whether the reports, or the one report, were made by `plans`."""
    batch = plans[0][1].batch
    return len(plans) > 1 or batch is not None and batch.kind == "plan"


def refuse_other_jobs(reports: typing.Sequence[Report]) -> None:
    """Raises ValueError unless the reports are of one call: equal key, map, rules and setting."""
    if len(reports) > 1 and any(one.batch and one.batch.kind != "plan" for one in reports):
        raise ValueError(
            "the reports are those of several elections or limits, and not of several plans: make"
            " an exhibit of each, which names the others; LimitReports.exhibit is one page on all"
            " limits"
        )

    def job(report: Report) -> tuple[object, ...]:
        # Each plan has its own number of majorities and its own length of boundaries.
        rules = dataclasses.replace(report.rules, majorities=None, cut_length=None)
        return (
            report.key, report.units, report.edges, report.population, rules, report.setting,
            report.asks, report.source, report.shift is None, bool(report.serial),
        )

    if any(job(report) != job(reports[0]) for report in reports):
        raise ValueError("the reports are not of one call of `plans`: make an exhibit of each")


def refuse_half_an_effect(options: Options) -> None:
    if (options.epsilon is None) != (options.alpha is None):
        raise ValueError("epsilon and alpha belong together: give both or neither")


def parties_of(options: Options, columns: typing.Mapping[str, str]) -> tuple[str, str]:
    """Returns the names of both parties, or words that stand for them."""
    if options.parties is not None:
        if isinstance(options.parties, str) or len(options.parties) != 2:
            raise ValueError("parties must be two names, those of the first and second column")
        return options.parties[0], options.parties[1]
    if "first" in columns and "second" in columns:
        return (
            f"the first party (column {columns['first']})",
            f"the second party (column {columns['second']})",
        )
    return "the first party", "the second party"


# ---- pieces of HTML


def heading(words: str) -> str:
    return f"<h2>{escape(words)}</h2>"


def paragraphs(found: typing.Iterable[str]) -> list[str]:
    return [f"<p>{escape(words)}</p>" for words in found]


def items(found: typing.Iterable[str]) -> str:
    return f"<ul>{''.join(f'<li>{escape(words)}</li>' for words in found)}</ul>"


def table(
    titles: typing.Sequence[str],
    rows: typing.Iterable[typing.Sequence[object]],
    plain: int = 1,
    kind: str = "",
) -> str:
    """Returns a table; all columns behind the first `plain` ones hold numbers."""

    def cells(tag: str, row: typing.Sequence[object]) -> str:
        marks = ("" if place < plain else ' class="n"' for place in range(len(row)))
        return "".join(f"<{tag}{mark}>{escape(cell)}</{tag}>" for mark, cell in zip(marks, row))

    body = "".join(f"<tr>{cells('td', row)}</tr>" for row in rows)
    mark = f' class="{kind}"' if kind else ""
    head = f"<thead><tr>{cells('th', titles)}</tr></thead>"
    return f"<table{mark}>{head}<tbody>{body}</tbody></table>"


# ---- sections


def said_first(reports: typing.Sequence[Report]) -> list[str]:
    """Returns what a reader must know before all else: no proof, and the warnings."""
    program = program_of(reports[0])
    is_unproved = program is not None and not program.is_proved
    parts = [f"<p><b>{escape(NOT_PROVED)}</b></p>"] if is_unproved else []
    warned = warnings_of(reports)
    if warned:
        parts += ["<p><b>Warnings.</b> The package warned of these when the report was made:</p>"]
        parts += [items(warned)]
    return parts


def about_preparation(report: Report) -> list[str]:
    """Returns the section on what was done to the data before the program read it."""
    custody = custody_of(report)
    if custody is None:
        return []
    said = "The graph was prepared by the package, which no proof is about."
    return [
        heading("What was done to the data"),
        *paragraphs([said]),
        items([*preparation_lines(custody), versions_line(custody)]),
    ]


def list_asks(report: Report, parties: tuple[str, str], scores: typing.Sequence[str]) -> str:
    """Returns the definitions of the scores and the questions."""
    rows = [(ask, texts.question(ask, parties)) for ask in report.asks]
    defined = "".join(
        f"<dt><b>{escape(score)}</b></dt><dd>{escape(texts.definition(score, parties))}</dd>"
        for score in scores
    )
    return f"<dl>{defined}</dl>{table(('ask', 'question'), rows, plain=2)}"


def starts_of(report: Report) -> dict[str, Fraction]:
    """Returns the enacted plan's value of each score that is asked for."""
    lines = (*report.walks, *report.stops, *report.ends, *report.serial)
    return {line.score: line.start.fraction for line in lines}


def results(
    plans: Named, options: Options, parties: tuple[str, str], graph: Graph | None
) -> list[str]:
    """Returns the tables and figures of each plan."""
    announced = find_announced_for(plans, options.decides)
    parts = [] if announced is None else paragraphs([tell_announced(plans, announced)])
    number = 1
    for place, (name, report) in enumerate(plans):
        enacted = {
            score: texts.show(score, value, options.called)
            for score, value in starts_of(report).items()
        }
        parts += [f"<h3>Plan {escape(name)}</h3>"] if len(plans) > 1 else []
        if options.geometry is not None and place == 0:
            parts.append(district_maps(report, options))
        if graph is not None and place == 0:
            found = districts_of(report, graph)
            parts += district_table(report, found, parties, graph.is_exact, options.called)
        parts += paragraphs(texts.findings(report, enacted, parties))
        parts += [result_table(report, options.called)]
        parts += [] if announced is not None else paragraphs([multiply(report, len(plans))])
        if options.epsilon is not None and options.alpha is not None and report.walks:
            parts += effect_table(report.effect(options.epsilon, options.alpha))
        drawn = drawings(report, enacted, parties, number, name if len(plans) > 1 else "")
        number += len(drawn)
        parts += drawn
    return parts


def district_maps(report: Report, options: Options) -> str:
    """Returns the map of the enacted plan and, where given, of other plans beside it."""
    maps = maps_of(
        report, options.geometry, graph=options.graph, columns=options.columns, plan=options.plan,
        ids=options.ids,
    )
    others = maps[1:]
    if len(others) < 2:
        titles = [maps[0].title, *(one.title[0].lower() + one.title[1:] for one in others)]
        names = " and ".join(titles)
    else:
        names = f"{maps[0].title} and {len(others)} other plans"
    looks = [texts.compare_looks(maps[0].cut, [one.cut for one in others])] if others else []
    return map_figure(maps, names) + "".join(paragraphs(looks))


RESULT_TITLES = (
    "test", "ask", "enacted value", "exact fraction", "at least as extreme", "result",
)


def result_table(report: Report, names: Names = Names()) -> str:
    """Returns the table of results of one report."""
    return table(RESULT_TITLES, result_rows(report, names), plain=2, kind="results")


def result_rows(report: Report, names: Names = Names()) -> list[tuple[object, ...]]:
    """Returns a row for each line of a test, with the enacted value as a decimal and as written."""
    rows: list[tuple[object, ...]] = []

    def value(score: str, start: object, fraction: Fraction) -> tuple[str, str]:
        return texts.show(score, fraction, names), str(start)

    is_long = report.setting.walks > figures.MOST_ROWS
    for walk in () if is_long else report.walks:
        rows.append(
            (
                f"outlier walk {walk.number}", walk.ask,
                *value(walk.score, walk.start, walk.start.fraction), f"{walk.count} of {walk.of}",
                f"bound {walk.bound:f}",
            )
        )
    for ask in report.asks if is_long else ():
        walks = sorted((one for one in report.walks if one.ask == ask), key=lambda one: one.count)
        least, most = walks[0], walks[-1]
        rows.append(
            (
                f"{len(walks)} outlier walks", ask,
                *value(least.score, least.start, least.start.fraction),
                f"{least.count} to {most.count} of {least.of}",
                f"bounds {least.bound:f} to {most.bound:f}",
            )
        )
    for pair in () if is_long else report.pair_lines:
        rows.append(
            (
                f"walks {pair.first} and {pair.second}", pair.ask,
                *value(pair.score, pair.start, pair.start.fraction), f"{pair.count} of {pair.of}",
                f"bound {pair.bound:f}",
            )
        )
    for ask in report.asks if is_long and report.has_pairs else ():
        pairs = sorted((one for one in report.pairs if one.ask == ask), key=lambda one: one.count)
        fewest, worst = pairs[0], pairs[-1]
        rows.append(
            (
                f"{len(pairs)} pairs of walks", ask,
                *value(fewest.score, fewest.start, fewest.start.fraction),
                f"{fewest.count} to {worst.count} of {fewest.of}",
                f"bounds {fewest.bound:f} to {worst.bound:f}",
            )
        )
    for stop in report.stops:
        rows.append(
            (
                "sequential test", stop.ask, *value(stop.score, stop.start, stop.start.fraction),
                f"{stop.top} of {stop.of}", f"p {stop.p:f}",
            )
        )
    for test in report.ends:
        rows.append(
            (
                "parallel test", test.ask, *value(test.score, test.start, test.start.fraction),
                f"rank {test.rank} of {test.of}", f"p {test.p:f}",
            )
        )
    for one in report.serial:
        rows.append(
            (
                "serial test", one.ask, *value(one.score, one.start, one.start.fraction),
                f"rank {one.rank} of {one.of}", f"p {one.p:f}",
            )
        )
    return rows


def effect_table(found: typing.Mapping[str, Effect]) -> list[str]:
    rows: list[tuple[object, ...]] = [
        (one.ask, f"{one.outliers} of {one.walks} walks", one.most, one.plans, one.p)
        for one in found.values()
    ]
    rows += [
        (one.ask, f"{one.pair_outliers} of {one.pairs} pairs", one.pair_most, one.pair_plans,
         one.pair_p)
        for one in found.values()
        if one.pair_p is not None
    ]
    any_one = next(iter(found.values()))
    said = (
        f"Effect apart from significance: epsilon {any_one.epsilon}, alpha {any_one.alpha}. The"
        " test counts the walks on which at most the given number of visited plans is at least as"
        " extreme as the enacted plan, or the pairs of walks. Which of the two decides has to be"
        " named before the run."
    )
    return [
        *paragraphs([said]),
        table(("ask", "that show it", "count at most", "of", "p"), rows),
    ]


def drawings(
    report: Report,
    enacted: typing.Mapping[str, str],
    parties: tuple[str, str],
    number: int,
    name: str,
) -> list[str]:
    """Returns the figures of one report, numbered from `number`."""
    of_plan = f", plan {name}" if name else ""
    found: list[str] = []
    walks, ranks, shift = (
        figures.walk_rows(report, enacted), figures.rank_rows(report, enacted), report.shift,
    )
    if walks:
        found.append(
            figures.walks_figure(number, "Outlier walks from the enacted plan" + of_plan, walks)
        )
    if ranks:
        found.append(
            figures.ranks_figure(number + len(found), "Rank of the enacted plan" + of_plan, ranks)
        )
    if shift is not None and max(shift.counts) > 0:
        seats = starts_of(report).get("seats")
        title = f"Districts won by {add_article(parties[0])} in the visited plans{of_plan}"
        found.append(
            figures.seats_figure(
                number + len(found),
                title,
                shift,
                None if seats is None else int(seats),
                report.districts,
            )
        )
    return found


def district_table(
    report: Report,
    districts: typing.Sequence[District],
    parties: tuple[str, str],
    is_exact: bool,
    names: Names = Names(),
) -> list[str]:
    """Returns the table of the districts of the enacted plan, and its total deviation."""
    ideal = Fraction(report.population, len(districts))
    has_group = any(one.group is not None for one in districts)
    titles = [
        "district", "units", "people", "from ideal", "in %", "votes of " + add_article(parties[0]),
        "votes of " + add_article(parties[1]), f"share of {add_article(parties[0])}, %", "won by",
    ]
    titles += [f"{names.group or 'group'}, %"] if has_group else []
    rows = []
    for one in districts:
        off = one.population - ideal
        winner = parties[0] if one.is_won_by_first else parties[1]
        winner += " (tie)" if one.first == one.second else ""
        row = [
            one.label,
            one.units,
            one.population,
            round_down(off, 1, "+"),
            round_down(100 * off / ideal, 3, "+") if ideal else "",
            one.first,
            one.second,
            percent_down(one.first, one.first + one.second),
            winner,
        ]
        rows.append(row + ([percent_down(one.group or 0, one.whole or 0)] if has_group else []))
    people = [one.population for one in districts]
    said = (
        f"Ideal population {round_down(ideal, 1)}. Total deviation"
        f" {max(people) - min(people)} people"
    )
    said += (
        f", {round_down(100 * (max(people) - min(people)) / ideal, 3)} percent of the ideal."
        if ideal
        else "."
    )
    return [
        (
            '<p class="title"><b>Table 1.</b> The districts of the enacted plan, from the graph. '
            "These sums are the package's and not part of the proved report. "
            f"{texts.COMPARED_BYTES if is_exact else texts.COMPARED_COUNTS}</p>"
        ),
        table(titles, rows),
        *paragraphs([f"{said} {ROUNDED_DOWN}"]),
    ]


# ---- how to repeat it


def provenance(
    plans: Named, options: Options, columns: typing.Mapping[str, str], graph: Graph | None
) -> list[str]:
    """Returns the hashes, the command, and the reports in full."""
    report = plans[0][1]
    text = "".join(f"plan {name}\n{one}" if len(plans) > 1 else str(one) for name, one in plans)
    hashes = [
        ("key of all draws", report.key),
        ("SHA-256 of the report", hashlib.sha256(encode(text)).hexdigest()),
    ]
    if report.source is not None:
        what = "graph and table" if is_of_plans(plans) else "graph"
        hashes.append((f"SHA-256 of the {what}, {report.source.size} bytes", report.source.sha256))
    if graph is not None:
        size, digest = len(graph.data), hashlib.sha256(graph.data).hexdigest()
        hashes.append((f"SHA-256 of the graph of Table 1, {size} bytes", digest))
    hashes += [*raw_rows(custody_of(report)), *program_rows(report)]
    command = options.command or command_of(report, columns, is_of_plans(plans))
    rows = [
        f"<tr><td>{escape(what)}</td><td><code>{escape(value)}</code></td></tr>"
        for what, value in hashes
    ]
    return [
        *paragraphs([texts.REPEATED]),
        *paragraphs(about_command(plans, options, columns)),
        f"<pre>{lines(command)}</pre>",
        f'<table class="hashes"><tbody>{"".join(rows)}</tbody></table>',
        *reports_in_full(text),
    ]


def about_command(
    plans: Named, options: Options, columns: typing.Mapping[str, str]
) -> list[str]:
    """Returns the remark on the printed command; nothing if the user gave the command."""
    if options.command:
        return []
    batch = plans[0][1].batch
    names = [name for name, _ in plans] if batch is None else batch.names
    return [
        *([texts.all_plans(names)] if is_of_plans(plans) else []),
        *([] if columns else [texts.PLACEHOLDERS]),
    ]


def reports_in_full(text: str) -> list[str]:
    """Returns the text of the reports, or its first lines if it is very long."""
    found = text.split("\n")
    if len(found) <= MOST_LINES:
        return ["<p>The report in full:</p>", f"<pre>{lines(text)}</pre>"]
    return [
        f"<p>The first {MOST_LINES} of the report's {len(found) - 1} lines:</p>",
        "".join(("<pre>", lines("\n".join(found[:MOST_LINES])), "</pre>")),
    ]


def encode(words: str) -> bytes:
    """Returns the bytes of a text of the program, which may have been read with surrogates."""
    return words.encode("utf-8", "surrogateescape")


def lines(words: str) -> str:
    return "\n".join(escape(line) for line in words.split("\n"))


def command_of(report: Report, columns: typing.Mapping[str, str], is_of_plans: bool) -> str:
    """Returns the command that makes this report; names in capitals stand for unknown columns."""
    rules, setting = report.rules, report.setting
    words: dict[str, object] = {
        name: columns.get(name, "COLUMN_OF_" + name.upper())
        for name in ("pop", "first", "second", "district")
    }
    words.update(
        slack=rules.slack, key=report.key, walks=setting.walks, steps=setting.steps,
        ends=setting.ends, hub_steps=setting.hub_steps, ask=",".join(report.asks),
    )
    if rules.max_cut is not None:
        words["max_cut"] = rules.max_cut
    if rules.cut_weight is not None:
        words["cut_weight"] = weight_text(rules.cut_weight)
    if rules.regions is not None:
        words.update(region=columns.get("region", "COLUMN_OF_REGION"), max_split=rules.max_split)
        words.update(max_splits=MOST_SPLITS if rules.max_splits is None else rules.max_splits)
        words.update(
            max_split_regions=(
                MOST_REGIONS if rules.max_split_regions is None else rules.max_split_regions
            )
        )
    if rules.group_districts is not None:
        words.update(
            group=columns.get("group", "COLUMN_OF_GROUP"), group_districts=rules.group_districts
        )
        words.update({"group_of": columns["group_of"]} if columns.get("group_of") else {})
        words.update({} if rules.group_share is None else {"group_share": rules.group_share})
    if rules.frozen is not None:
        words["freeze"] = columns.get("freeze", "COLUMN_OF_FROZEN_UNITS")
    if rules.cut_length is not None:
        words["length"] = columns.get("length", "COLUMN_OF_LENGTHS")
        words.update({} if rules.max_length is None else {"max_length": rules.max_length})
    words.update({"stop": setting.stop} if setting.stop else {})
    words.update({"shift": "yes"} if report.shift is not None else {})
    words.update({"pairs": "yes"} if report.has_pairs else {})
    words.update({"serial": "yes"} if report.serial else {})
    words.update({"source": "yes"} if report.source is not None else {})
    # One option a line, so that no printed line breaks at a hyphen.
    said = [
        f"--{name.replace('_', '-')} {shlex.quote(str(value))}" for name, value in words.items()
    ]
    return " \\\n  ".join(
        [
            "district-audit plans" if is_of_plans else "district-audit run",
            *said,
            "< graph_and_table" if is_of_plans else "< graph.json",
        ]
    )
