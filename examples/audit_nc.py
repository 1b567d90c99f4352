#!/usr/bin/env python3
"""Audits the map of North Carolina in data/nc.json. Usage: python3 audit_nc.py [FOLDER].

Prints the report, and writes report, manifest, exhibit.html, and the picture to the folder, which
is the working folder if none is given. matplotlib draws picture.png and picture.svg; without it
picture-1.svg and so on are the figures of the exhibit. `make audit` calls it with the package and
the programs of the release. It takes some seconds.
"""
import pathlib
import re
import sys

import district_audit


def audit(out: pathlib.Path) -> None:
    """Audits the map, prints the report and writes the files to a folder."""
    data = pathlib.Path(__file__).resolve().parent / "data"
    out.mkdir(parents=True, exist_ok=True)
    prepared = district_audit.prepare(
        str(data / "nc.json"), population="BIR74", first="NWBIR74", second="WBIR74",
        district="PLAN11", slack=1000, numbers="nearest", missing="error",
    )
    key = district_audit.key_of("a text that was announced, with the numbers of a lottery")
    report = district_audit.audit_to_file(
        out / "report", prepared, slack=1000, max_cut=120, key=key, walks=2, steps=100000, ends=99,
        hub_steps=10000, workers=4, ask=["cut-edges:low", "mean-median:high"], progress=True,
    )
    assert isinstance(report, district_audit.Report)  # several only with elections
    print(report, end="")
    report.exhibit(out / "exhibit.html", parties=("non-white births", "white births"))
    print(f"in {out}: report, report.manifest.json, exhibit.html, {draw(report, out)}")


def draw(report: district_audit.Report, out: pathlib.Path) -> str:
    """Draws the picture, or else the exhibit's figures. Returns the names of the files."""
    try:
        report.plot(str(out / "picture"))
        return "picture.png, picture.svg"
    except district_audit.MissingExtra:
        page = (out / "exhibit.html").read_text("utf-8")
    names = []
    style = "".join(re.findall("^svg text.*$", page, re.MULTILINE))
    for number, figure in enumerate(re.findall("<svg(.*?</svg>)", page, re.DOTALL), 1):
        text = f'<svg xmlns="http://www.w3.org/2000/svg"{figure}\n'
        text = text.replace(">", f"><style>{style}</style>", 1)
        names.append(f"picture-{number}.svg")
        (out / names[-1]).write_text(text, "utf-8")
    hint = "matplotlib draws one picture: apt-get install python3-matplotlib"
    return f"{', '.join(names)} ({hint})"


def main() -> int:
    if "--help" in sys.argv:
        print(__doc__)
        return 0
    try:
        audit(pathlib.Path(sys.argv[1] if len(sys.argv) > 1 else "."))
    except (district_audit.AuditError, district_audit.ProgramFailed, OSError) as why:
        print(f"audit_nc: {why}", file=sys.stderr)
        return 1
    return 0


if __name__ == "__main__":
    sys.exit(main())
