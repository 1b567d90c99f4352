"""Makes jobs by the Python package: python_call.py JOBS, a file of JSON with an array of jobs.

A job has a `command`, the path of a `graph`, the arguments of `prepare` (null: the graph goes to
the program as it is) and of the `call`, and perhaps the path of a `table`. Job I's text is written
to JOBS.I.text, and to JOBS.I.csv the frame of a report, the plans of a trace with a line of labels
for each, or for the commands `warnings`, `changes` and `verify` a line each.
"""
import json
import pathlib
import sys
import typing
import warnings

import district_audit

# JSON from R, or the answer of a call of the package.
Given = typing.Any


def study(job: typing.Dict[str, Given]) -> str:
    """Reads the study of a manifest and writes its exhibits, one for each report or one for several
    limits; returns the pages.
    """
    place = pathlib.Path(job["graph"])
    found = district_audit.load_study(place)
    if isinstance(found, district_audit.LimitReports):
        page = place.with_name("exhibit of limits.html")
        found.exhibit(page, parties=("Blue", "Red"), **job["call"])
        return page.read_text()
    pages = []
    for name, report in found.items():
        page = place.with_name(f"exhibit {name}.html")
        report.exhibit(page, parties=("Blue", "Red"), **job["call"])
        pages.append(page.read_text())
    return "".join(pages)


def lines_on(
    command: str, graph: Given, call: Given
) -> typing.Optional[typing.List[str]]:
    """Returns the lines on a prepared graph, or on the manifest at a path; None for a call."""
    if command == "warnings":
        return [one.kind for one in graph.warnings]
    if command == "changes":
        return [f"{one.what}|{' '.join(map(str, one.units))}|{one.moved}" for one in graph.changes]
    if command == "verify":
        return [f"{one.what} {one.agrees}" for one in district_audit.verify(graph, **call)]
    return None


def answer(job: typing.Dict[str, Given]) -> typing.Tuple[str, str]:
    """Returns the text and the lines of a job."""
    graph, call = job["graph"], job["call"]
    if job["prepare"] is not None:
        graph = district_audit.prepare(graph, **job["prepare"])
    said = lines_on(job["command"], graph, call)
    if said is not None:
        return "", "".join(f"{line}\n" for line in said)
    if job["command"] == "exhibit":
        return study(job), ""
    if job["command"] == "study":
        given = {"table": job["table"]} if job["table"] else {}
        district_audit.audit_to_file(call.pop("path"), graph, **given, **call)
        return "", ""
    if job["command"] == "over_limits":
        limits = district_audit.over_limits(graph, **call)
        text = "".join(f"limit {name}\n{report}" for name, report in limits.items())
        return text, limits.to_frame().to_csv(index=False)
    if job["command"] == "check":
        return str(district_audit.check(graph, **call)), ""
    if job["command"] == "pilot":
        pilot = district_audit.pilot(graph, **call)
        return json.dumps([pilot.units, pilot.moved, pilot.changed]), ""
    if job["command"] == "plans":
        reports = district_audit.plans(graph, job["table"], **call)
        return "".join(f"plan {name}\n{report}" for name, report in reports.items()), ""
    if job["command"] == "trace":
        trace = district_audit.trace(graph, **call)
        lines = (" ".join(str(label) for label in one.assignment.values()) for one in trace)
        return "", "".join(f"{line}\n" for line in lines)
    report = district_audit.run(graph, **call)
    return str(report), report.to_frame().to_csv(index=False)


def main() -> int:
    warnings.simplefilter("ignore")
    jobs = json.loads(pathlib.Path(sys.argv[1]).read_text())
    for place, job in enumerate(jobs, 1):
        text, lines = answer(job)
        pathlib.Path(f"{sys.argv[1]}.{place}.text").write_text(text)
        pathlib.Path(f"{sys.argv[1]}.{place}.csv").write_text(lines)
    return 0


if __name__ == "__main__":
    sys.exit(main())
