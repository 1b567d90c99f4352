"""The example notebook: its form, and its cells run in order by plain Python."""
import ast
import contextlib
import io
import json
import unittest

import common

NOTEBOOK = common.EXAMPLES / "audit.ipynb"


class Notebook(common.ProgramCase):
    def setUp(self) -> None:
        super().setUp()
        self.book = json.loads(NOTEBOOK.read_text(encoding="utf-8"))

    def cells(self) -> list[str]:
        """Returns the text of each cell of code."""
        cells = self.book["cells"]
        return ["".join(cell["source"]) for cell in cells if cell["cell_type"] == "code"]

    def test_its_form(self) -> None:
        """The notebook meets version 4.5 of the format, and has no output of a machine."""
        self.assertEqual((self.book["nbformat"], self.book["nbformat_minor"]), (4, 5))
        names = [cell["id"] for cell in self.book["cells"]]
        self.assertEqual(len(set(names)), len(names))
        for cell in self.book["cells"]:
            self.assertIn(cell["cell_type"], ("code", "markdown"))
            self.assertTrue(all(isinstance(line, str) for line in cell["source"]))
            self.assertTrue(all(line.endswith("\n") for line in cell["source"][:-1]))
            self.assertEqual(cell["metadata"], {})
            if cell["cell_type"] == "code":
                self.assertEqual((cell["execution_count"], cell["outputs"]), (None, []))
        for text in self.cells():
            ast.parse(text, feature_version=(3, 9))

    def test_its_cells_run_in_order(self) -> None:
        for module in ("networkx", "pandas", "matplotlib"):
            common.needs(module)
        space: common.Words = {"__name__": "__main__"}
        said = io.StringIO()
        with common.environment(DISTRICT_AUDIT=self.program), contextlib.redirect_stdout(said):
            for number, text in enumerate(self.cells()):
                with self.subTest(cell=number):
                    exec(compile(text, f"audit.ipynb, cell {number}", "exec"), space)
        self.assertEqual(len(space["plan"].table), 6)
        self.assertIn(
            'district 6 is in several parts; 1 of its 51 units lie apart: "[0, 0]"',
            space["faults"][0],
        )
        self.assertEqual(space["reports"].names, ["GOV18", "SEN20"])
        self.assertIn("plan stripes has 5 districts, and the enacted plan has 6", space["why"])
        self.assertEqual(said.getvalue(), f"{space['plans']['blocks']}\n")
        self.assertEqual(space["plans"].names, ["assignment", "blocks"])


if __name__ == "__main__":
    unittest.main()
