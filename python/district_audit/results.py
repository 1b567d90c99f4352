"""The reports of several plans, or of several elections, by their names."""
from __future__ import annotations

import html
import typing

from .errors import extra
from .report import Report

if typing.TYPE_CHECKING:
    import matplotlib.figure
    import pandas

    from .custody import PathLike

Pair = tuple[str, Report]


class NamedReports(typing.Mapping[str, Report]):
    """A mapping from names to reports, in order.

    Several plans may have one name, that of the graph's own plan and one of a table: `items`,
    `values` and iteration then have each, and a look-up by this name is refused.
    """

    what = "report"
    """The title of the column of names."""

    def __init__(
        self, reports: typing.Mapping[str, Report] | typing.Iterable[Pair] = ()
    ) -> None:
        found = reports.items() if isinstance(reports, typing.Mapping) else reports
        self.pairs: list[Pair] = list(found)
        """The pairs of name and report, in order."""

    @property
    def names(self) -> list[str]:
        """The names, in order."""
        return [name for name, _ in self.pairs]

    def __iter__(self) -> typing.Iterator[str]:
        return iter(self.names)

    def __len__(self) -> int:
        return len(self.pairs)

    def __getitem__(self, name: str) -> Report:
        """Returns the report of a name.

        Raises KeyError if there is no report of this name, or several.
        """
        reports = [report for other, report in self.pairs if other == name]
        if len(reports) != 1:
            many = "several reports have" if reports else "no report has"
            names = ", ".join(map(repr, self.names))
            raise KeyError(f"{many} the name {name!r}; the names are {names}")
        return reports[0]

    def items(self) -> typing.ItemsView[str, Report]:
        """Returns the pairs of name and report."""
        return PairsView(self)

    def values(self) -> typing.ValuesView[Report]:
        """Returns the reports."""
        return ReportsView(self)

    def __eq__(self, other: object) -> bool:
        if isinstance(other, NamedReports):
            return self.pairs == other.pairs
        return isinstance(other, typing.Mapping) and dict(self.pairs) == dict(other)

    def to_frame(self, exact: bool = False) -> pandas.DataFrame:
        """Returns one pandas DataFrame of all reports: the name, and then the columns of
        `Report.to_frame`.

        Raises MissingExtra, an ImportError, if pandas is not installed.
        """
        pandas = extra("pandas")
        frames = []
        for name, report in self.pairs:
            frame = report.to_frame(exact)
            frame.insert(0, self.what, name)
            frames.append(frame)
        return pandas.concat(frames, ignore_index=True) if frames else pandas.DataFrame()

    def to_files(self, path: PathLike, decides: str | None = None) -> None:
        """Writes all reports as a study: the reports, one manifest `PATH.manifest.json`, and the
        graph and the changes of its preparation; see `audit_to_file`. Pages of these reports
        then know the announced number, as those of the files do.

        Raises ValueError if the reports were read from texts, or if no number is named as `decides`
        says; OSError.
        """
        from .study import announce, write_study

        write_study(path, self.pairs, decides)
        self.pairs = [(name, announce(report, decides)) for name, report in self.pairs]

    def plot(
        self,
        name: PathLike | None = None,
        *,
        title: str | None = None,
        scores: typing.Sequence[str] | None = None,
        parties: typing.Sequence[str] | None = None,
        names: typing.Mapping[str, str] | None = None,
    ) -> matplotlib.figure.Figure:
        """Draws the walks and tests of all reports, a row for each; see `Report.plot`."""
        from . import picture

        figure = picture.draw_named(self.pairs, self.what, title, scores, parties, names)
        if name is not None:
            picture.save(figure, name)
        return figure

    def __repr__(self) -> str:
        return f"<{type(self).__name__} of {len(self)}: {', '.join(self.names)}>"

    def _repr_html_(self) -> str:
        parts = [
            f"<h4>{self.what} {html.escape(name)}</h4>{report._repr_html_()}"
            for name, report in self.pairs
        ]
        return "".join(parts)


class PairsView(typing.ItemsView[str, Report]):
    """The pairs of named reports, each of several with one name."""

    def __init__(self, reports: NamedReports) -> None:
        super().__init__(reports)
        self.reports = reports

    def __iter__(self) -> typing.Iterator[Pair]:
        return iter(self.reports.pairs)

    def __len__(self) -> int:
        return len(self.reports.pairs)


class ReportsView(typing.ValuesView[Report]):
    """The reports of named reports."""

    def __init__(self, reports: NamedReports) -> None:
        super().__init__(reports)
        self.reports = reports

    def __iter__(self) -> typing.Iterator[Report]:
        return (report for _, report in self.reports.pairs)

    def __len__(self) -> int:
        return len(self.reports.pairs)


class PlanReports(NamedReports):
    """The reports of several plans on one map, the graph's own plan first.

    All have the same key, so each plan is walked from with the same draws. Plans are judged one by
    one. A report of only the most extreme of m plans had m chances: multiply its bound or p-value
    by m (Bonferroni's rule).
    """

    what = "plan"
