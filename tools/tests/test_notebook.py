"""The notebook of the examples: its cells print and show what is stored in it."""
import json
import unittest

from tests import notebook, stored

NOTEBOOK = stored.EXAMPLES / "library" / "lab.ipynb"


class Notebook(unittest.TestCase):
    def test_its_cells_show_what_is_stored(self):
        """`python3 -m tests.notebook` writes it anew."""
        kept = json.loads(NOTEBOOK.read_text(encoding="utf-8"))
        for cell, again in zip(kept["cells"], notebook.run(NOTEBOOK)["cells"], strict=True):
            with self.subTest("".join(cell["source"])[:40]):
                self.assertEqual(again.get("outputs"), cell.get("outputs"))

    def test_it_has_what_a_reader_looks_for(self):
        """Each picture has an arrow at least, and each cell an output but for those that build alone."""
        kept = json.loads(NOTEBOOK.read_text(encoding="utf-8"))
        outputs = [output for cell in kept["cells"] for output in cell.get("outputs", [])]
        pictures = ["".join(it["data"]["image/svg+xml"]) for it in outputs if "image/svg+xml" in it.get("data", {})]
        self.assertEqual(len(pictures), 3)
        self.assertTrue(all('class="arrow"' in picture for picture in pictures))
