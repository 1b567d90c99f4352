"""Builds the package by Python alone, so that `pip install` fetches nothing: the hooks of PEP 517,
and of PEP 660 for `pip install -e`.

What is built is fixed by pyproject.toml and by the files of the package; the same files give the
same bytes. `build_release_wheel` adds the programs, for users who have no toolchain.
"""
import base64
import hashlib
import io
import pathlib
import re
import tarfile
import typing
import zipfile

HERE = pathlib.Path(__file__).resolve().parent.parent
PACKAGE = "district_audit"
STAMP = (1980, 1, 1, 0, 0, 0)
Files = typing.Mapping[str, typing.Union[str, bytes]]
# The settings that a front end passes to a hook; nothing here reads them.
Settings = typing.Optional[typing.Mapping[str, object]]


def section(name: str) -> dict[str, str]:
    """The lines `key = value` of a section of pyproject.toml; Python reads TOML by itself only
    since 3.11.
    """
    text = (HERE / "pyproject.toml").read_text(encoding="utf-8")
    found = re.search(f"^\\[{re.escape(name)}\\]$(.*?)(?=^\\[|\\Z)", text, re.MULTILINE | re.DOTALL)
    rows = re.compile(r"^([\w-]+) = (\[\n.*?^\]|.*?)$", re.MULTILINE | re.DOTALL)
    return dict(rows.findall(found[1])) if found else {}


def texts(value: str) -> list[str]:
    """The texts in quotes of a value."""
    return re.findall(r'"([^"]*)"', value)


PROJECT = {key: texts(value) for key, value in section("project").items()}
VERSION = PROJECT["version"][0]
NAME = f"{PACKAGE}-{VERSION}"
INFO = NAME + ".dist-info"
SCRIPTS = NAME + ".data/scripts/"
# A wheel with programs: static files for Linux, which need no C library of the system. pip takes
# the file where glibc is 2.17 or later.
PLATFORMS = ("manylinux_2_17_x86_64", "manylinux2014_x86_64")


def metadata() -> str:
    lines = [
        "Metadata-Version: 2.1", "Name: " + PROJECT["name"][0], "Version: " + VERSION,
        "Summary: " + PROJECT["description"][0],
        "Requires-Python: " + PROJECT["requires-python"][0], "License: " + PROJECT["license"][0],
        "License-File: LICENSE", "Author: " + PROJECT["authors"][0],
    ]
    lines += ["Classifier: " + text for text in PROJECT["classifiers"]]
    for extra, needs in section("project.optional-dependencies").items():
        lines.append("Provides-Extra: " + extra)
        lines += [f'Requires-Dist: {need}; extra == "{extra}"' for need in texts(needs)]
    lines.append("Description-Content-Type: text/markdown")
    readme = (HERE / str(PROJECT["readme"][0])).read_text(encoding="utf-8")
    return "\n".join(lines) + "\n\n" + readme


def entry_points() -> str:
    return "[console_scripts]\n" + "".join(
        f"{name} = {texts(call)[0]}\n" for name, call in section("project.scripts").items()
    )


def license_bytes() -> bytes:
    """The license, which stands above the package in the repository and beside it in an archive."""
    places = (HERE / "LICENSE", HERE.parent / "LICENSE")
    return next(place for place in places if place.exists()).read_bytes()


def describe_wheel(
    platforms: typing.Sequence[str] = ("any",),
) -> dict[str, typing.Union[str, bytes]]:
    """The files that say what a wheel is."""
    is_pure = str(platforms == ("any",)).lower()
    head = f"Wheel-Version: 1.0\nGenerator: in_tree\nRoot-Is-Purelib: {is_pure}\n"
    return {
        INFO + "/METADATA": metadata(),
        INFO + "/WHEEL": head + "".join(f"Tag: py3-none-{platform}\n" for platform in platforms),
        INFO + "/entry_points.txt": entry_points(),
        INFO + "/licenses/LICENSE": license_bytes(),
    }


def sources() -> dict[str, bytes]:
    """The files of the package, by their paths."""
    found = sorted(
        path
        for path in (HERE / PACKAGE).iterdir()
        if path.suffix == ".py" or path.name == "py.typed"
    )
    return {f"{PACKAGE}/{path.name}": path.read_bytes() for path in found}


def wheel(folder: str, files: Files, platforms: typing.Sequence[str] = ("any",)) -> str:
    """Writes a wheel, and answers its name."""
    name, record = f"{NAME}-py3-none-{'.'.join(platforms)}.whl", []
    with zipfile.ZipFile(pathlib.Path(folder) / name, "w", zipfile.ZIP_DEFLATED) as archive:
        for path, content in files.items():
            data = content.encode("utf-8") if isinstance(content, str) else content
            digest = (
                base64.urlsafe_b64encode(hashlib.sha256(data).digest()).rstrip(b"=").decode("ascii")
            )
            record.append(f"{path},sha256={digest},{len(data)}\n")
            archive.writestr(entry(path), data)
        archive.writestr(entry(INFO + "/RECORD"), "".join(record) + INFO + "/RECORD,,\n")
    return name


def entry(path: str) -> zipfile.ZipInfo:
    one = zipfile.ZipInfo(path, STAMP)
    one.create_system = 3
    is_program = path.startswith(SCRIPTS) and not path.endswith(".origin")
    one.external_attr = (0o100755 if is_program else 0o100644) << 16
    one.compress_type = zipfile.ZIP_DEFLATED
    return one


# ---- the hooks


def get_requires_for_build_wheel(config_settings: Settings = None) -> list[str]:
    return []


def get_requires_for_build_sdist(config_settings: Settings = None) -> list[str]:
    return []


def get_requires_for_build_editable(config_settings: Settings = None) -> list[str]:
    return []


def build_wheel(
    wheel_directory: str,
    config_settings: Settings = None,
    metadata_directory: typing.Optional[str] = None,
) -> str:
    return wheel(wheel_directory, {**sources(), **describe_wheel()})


def build_release_wheel(wheel_directory: str, programs: typing.Mapping[str, bytes]) -> str:
    """Builds a wheel that leaves programs beside Python, with the files that say what they are."""
    scripts = {SCRIPTS + name: data for name, data in sorted(programs.items())}
    return wheel(wheel_directory, {**sources(), **scripts, **describe_wheel(PLATFORMS)}, PLATFORMS)


def build_editable(
    wheel_directory: str,
    config_settings: Settings = None,
    metadata_directory: typing.Optional[str] = None,
) -> str:
    return wheel(wheel_directory, {PACKAGE + "_here.pth": f"{HERE}\n", **describe_wheel()})


def build_sdist(sdist_directory: str, config_settings: Settings = None) -> str:
    name = f"{NAME}.tar.gz"
    files: dict[str, typing.Union[str, bytes]] = {**sources(), "PKG-INFO": metadata()}
    files["LICENSE"] = license_bytes()
    for path in ("pyproject.toml", "README.md", "backend/in_tree.py"):
        files[path] = (HERE / path).read_bytes()
    with tarfile.open(
        pathlib.Path(sdist_directory) / name, "w:gz", format=tarfile.PAX_FORMAT
    ) as archive:
        for path, content in files.items():
            data = content.encode("utf-8") if isinstance(content, str) else content
            one = tarfile.TarInfo(f"{NAME}/{path}")
            one.size = len(data)
            archive.addfile(one, io.BytesIO(data))
    return name
