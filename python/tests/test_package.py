"""The package as it is installed: with nothing fetched, in a fresh virtual environment."""
import ast
import importlib.util
import os
import subprocess
import sys
import typing
import venv
import zipfile

import common
from common import anything
import district_audit

PYTHON = common.TOP / "python"
# The first lines of a script to which every optional module is refused.
HIDDEN = """
import sys
for name in ("networkx", "pandas", "matplotlib", "tqdm", "numpy", "shapely", "gerrychain"):
    sys.modules[name] = None
"""


# Parts of the standard library since Python 3.10 or later: modules, names of modules, methods, and
# arguments by name.
NEWER_MODULES = {"tomllib", "wsgiref.types"}
NEWER_NAMES = {
    "contextlib": {"aclosing", "chdir"},
    "copy": {"replace"},
    "dataclasses": {"KW_ONLY"},
    "datetime": {"UTC"},
    "enum": {
        "StrEnum", "ReprEnum", "EnumCheck", "FlagBoundary", "verify", "member", "nonmember",
        "global_enum",
    },
    "hashlib": {"file_digest"},
    "inspect": {"get_annotations", "getmembers_static"},
    "itertools": {"pairwise", "batched"},
    "math": {"cbrt", "exp2", "sumprod", "fma"},
    "operator": {"call"},
    "os": {"eventfd", "process_cpu_count"},
    "random": {"binomialvariate"},
    "statistics": {"correlation", "covariance", "linear_regression", "kde"},
    "sys": {"exception", "monitoring", "orig_argv", "stdlib_module_names"},
    "threading": {"gettrace", "getprofile", "setprofile_all_threads"},
    "types": {"EllipsisType", "NoneType", "NotImplementedType", "UnionType", "get_original_bases"},
    "typing": {
        "Concatenate", "LiteralString", "Never", "NotRequired", "ParamSpec", "ReadOnly", "Required",
        "Self", "TypeAlias", "TypeAliasType", "TypeGuard", "TypeIs", "TypeVarTuple", "Unpack",
        "assert_never", "assert_type", "clear_overloads", "dataclass_transform", "get_overloads",
        "is_typeddict", "override", "reveal_type",
    },
    "warnings": {"deprecated"},
}
NEWER_BUILTINS = {
    "BaseExceptionGroup", "EncodingWarning", "ExceptionGroup", "PythonFinalizationError", "aiter",
    "anext",
}
NEWER_METHODS = {
    "add_note", "assertNoLogs", "bit_count", "enterContext", "hardlink_to", "is_junction",
    "full_match",
}
NEWER_ARGUMENTS = {
    "zip": {"strict"},
    "dataclass": {"kw_only", "match_args", "slots", "weakref_slot"},
    "field": {"kw_only"},
    "Popen": {"process_group"},
    "run": {"process_group"},
    "glob": {"root_dir", "dir_fd", "include_hidden"},
    "iglob": {"root_dir"},
    "NamedTemporaryFile": {"delete_on_close"},
    "bisect": {"key"},
    "bisect_left": {"key"},
    "bisect_right": {"key"},
    "insort": {"key"},
    "rmtree": {"onexc"},
    "TemporaryDirectory": {"ignore_cleanup_errors", "delete"},
}


def find_type_nodes(tree: ast.Module) -> set[ast.AST]:
    """Returns the parts of a module that no run looks at: annotations, where `from __future__
    import annotations` stands, and what only type checkers read.
    """
    found: set[ast.AST] = set()
    if any(
        isinstance(node, ast.ImportFrom)
        and node.module == "__future__"
        and node.names[0].name == "annotations"
        for node in tree.body
    ):
        for node in ast.walk(tree):
            marks = [getattr(node, "returns", None), getattr(node, "annotation", None)]
            found.update(part for mark in marks if mark is not None for part in ast.walk(mark))
    for node in ast.walk(tree):
        if (
            isinstance(node, ast.If)
            and isinstance(node.test, ast.Attribute)
            and node.test.attr == "TYPE_CHECKING"
        ):
            found.update(part for line in node.body for part in ast.walk(line))
    return found


def newer_than_3_9(tree: ast.Module) -> typing.Iterator[tuple[int, str]]:
    """Yields each use, in a module, of what Python 3.9 does not have, with its line."""
    passed = find_type_nodes(tree)
    for node in ast.walk(tree):
        if node in passed:
            continue
        if isinstance(node, ast.Import):
            names = [name.name for name in node.names if name.name in NEWER_MODULES]
        elif isinstance(node, ast.ImportFrom):
            names = [
                name.name
                for name in node.names
                if node.module in NEWER_MODULES
                or name.name in NEWER_NAMES.get(node.module or "", ())
            ]
        elif isinstance(node, ast.Attribute):
            is_of_module = isinstance(node.value, ast.Name) and node.attr in NEWER_NAMES.get(
                node.value.id, ()
            )
            names = [node.attr] if is_of_module or node.attr in NEWER_METHODS else []
        elif isinstance(node, ast.Name):
            names = [node.id] if node.id in NEWER_BUILTINS else []
        elif isinstance(node, ast.Call):
            called = getattr(node.func, "attr", getattr(node.func, "id", ""))
            names = [
                word.arg or ""
                for word in node.keywords
                if word.arg in NEWER_ARGUMENTS.get(called, ())
            ]
            # A union of types that is made while it runs.
            names += (
                ["|"] if called == "isinstance" and isinstance(node.args[-1], ast.BinOp) else []
            )
        elif isinstance(node, (ast.FunctionDef, ast.AnnAssign)):
            marks = (
                [anything(node.annotation)]
                if isinstance(node, ast.AnnAssign)
                else [
                    node.returns,
                    *(arg.annotation for arg in node.args.args + node.args.kwonlyargs),
                ]
            )
            names = [
                "|"
                for mark in marks
                if mark is not None
                and mark not in passed
                and any(isinstance(part, ast.BinOp) for part in ast.walk(mark))
            ]
        else:
            names = []
        for name in names:
            yield node.lineno, name


class Package(common.FolderCase):
    def test_versions_agree(self) -> None:
        text = (PYTHON / "pyproject.toml").read_text(encoding="utf-8")
        self.assertEqual(
            common.find_in('(?m)^version = "(.*)"$', text)[1], district_audit.__version__
        )
        answer = subprocess.run(
            [sys.executable, "-m", "district_audit", "--version"], cwd=PYTHON,
            stdout=subprocess.PIPE, text=True, check=True,
        ).stdout
        self.assertEqual(answer, f"district_audit {district_audit.__version__}\n")

    def test_a_fresh_environment_installs_it_and_fetches_nothing(self) -> None:
        """pip gets no index and an address that nobody has, so any fetch fails."""
        common.needs("ensurepip")
        venv.create(self.folder / "venv", with_pip=True)
        python = self.folder / "venv" / "bin" / "python"
        alone = {
            "PATH": "/usr/bin:/bin",
            "HOME": str(self.folder),
            "PIP_INDEX_URL": "http://127.0.0.1:9/",
            "PIP_RETRIES": "0",
            "PIP_DISABLE_PIP_VERSION_CHECK": "1",
        }
        answer = subprocess.run(
            [python, "-m", "pip", "install", str(PYTHON)], env=alone, stdout=subprocess.PIPE,
            stderr=subprocess.STDOUT, text=True, check=False,
        )
        self.assertEqual(answer.returncode, 0, answer.stdout)
        made = subprocess.run(
            [python, "-c", "import district_audit; print(district_audit.__file__)"],
            cwd=self.folder,
            env=alone,
            stdout=subprocess.PIPE,
            text=True,
            check=True,
        ).stdout
        self.assertIn("site-packages", made)
        for command in ("prepare", "run", "picture"):
            ran = subprocess.run(
                [self.folder / "venv" / "bin" / ("district-audit-" + command), "--help"],
                env=alone,
                stdout=subprocess.PIPE,
                stderr=subprocess.STDOUT,
                check=False,
            )
            self.assertEqual(ran.returncode, 0, ran.stdout)
        self.assertFalse((PYTHON / "build").exists())

    def test_the_wheel_has_each_module_and_the_same_bytes_each_time(self) -> None:
        place = PYTHON / "backend" / "in_tree.py"
        spec = anything(importlib.util.spec_from_file_location("in_tree", place))
        in_tree = importlib.util.module_from_spec(spec)
        spec.loader.exec_module(in_tree)
        name = in_tree.build_wheel(self.folder)
        first = (self.folder / name).read_bytes()
        with zipfile.ZipFile(self.folder / name) as archive:
            names = set(archive.namelist())
        self.assertLessEqual(
            {"district_audit/" + path.name for path in (PYTHON / "district_audit").glob("*.py")},
            names,
        )
        in_tree.build_wheel(self.folder)
        self.assertEqual((self.folder / name).read_bytes(), first)
        self.assertIn(
            "PKG-INFO",
            subprocess.run(
                ["tar", "tzf", self.folder / in_tree.build_sdist(self.folder)],
                stdout=subprocess.PIPE, text=True, check=True,
            ).stdout,
        )

    def test_it_imports_nothing_but_python(self) -> None:
        """With every optional module refused, all but frames, pictures and files that networkx
        reads works.
        """
        script = (
            HIDDEN
            + """
import district_audit
columns = dict(population="pop", first="a", second="b", district="d")
prepared = district_audit.prepare(sys.argv[1], **columns, slack=5000)
assert prepared.refusals == []
from district_audit.progress import PlainBar, new_bar
assert isinstance(new_bar(), PlainBar)
assert "<table>" in district_audit.Report.parse(sys.argv[2])._repr_html_()
"""
        )
        graph = str(common.EXAMPLES / "data" / "cycle.json")
        subprocess.run(
            [sys.executable, "-c", script, graph, common.readme_report()],
            env={**os.environ, "PYTHONPATH": str(PYTHON)}, check=True,
        )

    def test_missing_modules_are_reported_with_their_extra_and_how_to_install_it(self) -> None:
        script = (
            HIDDEN
            + """
import district_audit
report = district_audit.Report.parse(sys.argv[1])
columns = dict(population="pop", first="a", second="b", district="d")
for call in (report.to_frame, report.plot, lambda: district_audit.prepare("x.gml", **columns)):
    try:
        call()
    except district_audit.MissingExtra as why:
        assert isinstance(why, ImportError) and isinstance(why.__cause__, ImportError)
        print(why.name, why.extra, why, sep="|")
"""
        )
        answer = subprocess.run(
            [sys.executable, "-c", script, common.readme_report()],
            env={**os.environ, "PYTHONPATH": str(PYTHON)}, stdout=subprocess.PIPE, text=True,
            check=True,
        ).stdout
        self.assertEqual(
            answer.splitlines(),
            [
                (
                    "pandas|frames|pandas is missing, which makes tables: it is the extra `frames`"
                    " (Debian: apt-get install python3-pandas; else: pip install pandas)"
                ),
                (
                    "matplotlib|pictures|matplotlib is missing, which draws pictures: it is the"
                    " extra `pictures` (Debian: apt-get install python3-matplotlib; else: pip"
                    " install matplotlib)"
                ),
                (
                    "networkx|graphs|networkx is missing, which reads files of GraphML and GML: it"
                    " is the extra `graphs` (Debian: apt-get install python3-networkx; else: pip"
                    " install networkx)"
                ),
            ],
        )
        extras = (
            (PYTHON / "pyproject.toml")
            .read_text(encoding="utf-8")
            .split("[project.optional-dependencies]\n")[1]
            .split("\n\n")[0]
        )
        for name, extra in (line.split("|")[:2] for line in answer.splitlines()):
            self.assertIn(f'{extra} = ["{name}"]', extras.splitlines())

    def test_the_commands_tell_what_is_missing_in_one_line(self) -> None:
        """The status is 3 for a picture, and 2 for a graph that was not written."""
        (self.folder / "report").write_text(common.readme_report(), encoding="ascii")
        for command, words, status, said in (
            (
                "picture", [str(self.folder / "report"), str(self.folder / "none")], 3,
                "picture: not drawn: matplotlib is missing",
            ),
            (
                "prepare",
                ["x.gml", "--pop", "p", "--first", "a", "--second", "b", "--district", "d"],
                2,
                "prepare: not written: networkx is missing",
            ),
        ):
            script = (
                HIDDEN
                + f"from district_audit import commands\nsys.exit(commands.{command}({words!r}))"
            )
            answer = subprocess.run(
                [sys.executable, "-c", script], env={**os.environ, "PYTHONPATH": str(PYTHON)},
                stderr=subprocess.PIPE, text=True, check=False,
            )
            self.assertEqual(
                (answer.returncode, len(answer.stderr.splitlines()), answer.stderr[: len(said)]),
                (status, 1, said),
            )

    def test_python_3_9_reads_all_of_it(self) -> None:
        """The grammar is that of 3.9, and nothing of the standard library is newer, as far as the
        lists above know it.
        """
        files = [
            *PYTHON.rglob("*.py"), common.EXAMPLES / "audit.py",
            common.TOP / "tests" / "system" / "real_maps.py",
        ]
        self.assertGreater(len(files), 15)
        for path in files:
            with self.subTest(path=path.name):
                tree = ast.parse(
                    path.read_text(encoding="utf-8"), str(path), feature_version=(3, 9)
                )
                self.assertEqual(list(newer_than_3_9(tree)), [])

    def test_what_python_3_9_does_not_have_is_seen(self) -> None:
        for line in ("match 1:\n    case 1: pass", "try: pass\nexcept* ValueError: pass"):
            with self.subTest(line=line), self.assertRaises(SyntaxError):
                ast.parse(line, feature_version=(3, 9))
        for line in (
            "import tomllib", "from typing import Self", "a = itertools.pairwise(b)",
            "b.bit_count()", "zip(a, b, strict=True)", "raise ExceptionGroup",
            "isinstance(a, int | str)", "def f(a: int | None): pass", "a: int | str = 1",
            "@dataclasses.dataclass(slots=True)\nclass A: pass",
        ):
            with self.subTest(line=line):
                self.assertEqual(len(list(newer_than_3_9(ast.parse(line)))), 1)
        for line in (
            "from __future__ import annotations\ndef f(a: int | None) -> int | str: pass",
            "if typing.TYPE_CHECKING:\n    from typing import Self",
            "a = b | c",
            "text.removesuffix(a)",
        ):
            with self.subTest(line=line):
                self.assertEqual(list(newer_than_3_9(ast.parse(line))), [])

    def test_what_is_missing_fails_where_ci_is_set_and_is_skipped_elsewhere(self) -> None:
        script = """
import sys
sys.modules["networkx"] = None
import common
import importlib.util
importlib.util.find_spec = lambda name: None
try:
    common.needs("networkx")
except AssertionError:
    print("fails")
except common.unittest.SkipTest:
    print("skips")
"""
        places = os.pathsep.join((str(PYTHON / "tests"), str(PYTHON)))
        for ci, wanted in (("1", "fails\n"), ("", "skips\n")):
            answer = subprocess.run(
                [sys.executable, "-c", script], env={**os.environ, "CI": ci, "PYTHONPATH": places},
                stdout=subprocess.PIPE, text=True, check=True,
            ).stdout
            self.assertEqual(answer, wanted)


if __name__ == "__main__":
    import unittest

    unittest.main()
