"""The cells of lecture.ipynb, run in order, print what the notebook shows."""
import contextlib
import io
import json
import unittest
from pathlib import Path

LECTURE = Path(__file__).resolve().parents[1] / "lecture.ipynb"


def shown(cell):
    """What the notebook shows below a cell of code."""
    return "".join("".join(output["text"]) for output in cell["outputs"])


class Lecture(unittest.TestCase):
    def setUp(self):
        self.notebook = json.loads(LECTURE.read_text())

    def test_cells_print_what_is_shown(self):
        names, ran = {}, 0
        for number, cell in enumerate(self.notebook["cells"]):
            if cell["cell_type"] == "code":
                with self.subTest(cell=number), contextlib.redirect_stdout(io.StringIO()) as printed:
                    exec("".join(cell["source"]), names)
                self.assertEqual(printed.getvalue(), shown(cell), f"cell {number}")
                ran += 1
        self.assertGreater(ran, 10)

    def test_the_form_of_the_notebook(self):
        self.assertEqual(self.notebook["nbformat"], 4)
        self.assertGreaterEqual(self.notebook["nbformat_minor"], 5)
        ids = [cell["id"] for cell in self.notebook["cells"]]
        self.assertEqual(len(set(ids)), len(ids))
        for cell in self.notebook["cells"]:
            wanted = {"cell_type", "id", "metadata", "source"}
            if cell["cell_type"] == "code":
                wanted |= {"execution_count", "outputs"}
                for output in cell["outputs"]:
                    self.assertEqual(set(output), {"output_type", "name", "text"})
            self.assertEqual(set(cell), wanted)
            self.assertIn(cell["cell_type"], ("code", "markdown"))


if __name__ == "__main__":
    unittest.main()
