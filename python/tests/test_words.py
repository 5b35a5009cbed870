"""The words of a sheet from their fields, and the meanings of numbers, which the Rust crate has too."""

import doctest
import inspect
import re
import unittest
from pathlib import Path
from typing import get_type_hints

import backbone
from backbone import Layout, Refusal, Rule, charge, colour, head, site, slot

ROOT = Path(__file__).resolve().parents[2]
RUST = ROOT / "rust" / "backbone" / "src"


def meanings_in_rust(file):
    """The lines `Name = 1, "meaning";` of a file."""
    lines = re.findall(r'^    (\w+) = (\d+), "(.*)";$', (RUST / file).read_text(encoding="utf-8"), re.MULTILINE)
    return [(name, int(number), meaning) for name, number, meaning in lines]


def in_rust(cases):
    names = ("".join(part.capitalize() for part in case.name.split("_")) for case in cases)
    return [(name, case.value, case.meaning) for name, case in zip(names, cases)]


class Words(unittest.TestCase):
    def test_fields(self):
        self.assertEqual(head(gap=2, width=8), 0x10008008)
        self.assertEqual(head(gap=2, width=8, shortest=True), 0x14008008)
        self.assertEqual(head(gap=2, width=8, two_sided=True), 0x18008008)
        self.assertEqual((charge(0), charge(3)), (0x50000000, 0x50000003))
        self.assertEqual((slot(5), colour(), colour(0), site(6, 6)), (0x20000005, 0x300000FF, 0x30000000, 0x40018006))

    def test_ranges(self):
        self.assertEqual((head(4095, 16383), slot(16383), colour(254)), (0x13FFFFFF, 0x20003FFF, 0x300000FE))
        self.assertEqual((site(16383, 16383), charge(16383)), (0x4FFFFFFF, 0x50003FFF))
        for make, numbers in (
            (head, (0, 8)),
            (head, (4096, 8)),
            (head, (2, 0)),
            (head, (2, 16384)),
            (charge, (-1,)),
            (charge, (16384,)),
            (slot, (-1,)),
            (slot, (16384,)),
            (colour, (255,)),
            (colour, (-1,)),
            (site, (16384, 0)),
            (site, (0, 16384)),
        ):
            with self.subTest(word=make.__name__, numbers=numbers), self.assertRaises(ValueError):
                make(*numbers)

    def test_layouts(self):
        words = (0x80400013, 0x90000000, 0x90000002)
        self.assertEqual(Layout.from_words(words), (2, 19, (0, 2)))
        self.assertEqual(Layout(2, 19, (0, 2)).words(), words)
        for no_layout in ([], [0x90000000], [0x80400013, 0x20000001]):
            self.assertRaises(ValueError, Layout.from_words, no_layout)

    def test_meanings_are_those_of_rust(self):
        self.assertEqual(in_rust(Refusal), meanings_in_rust("refusal.rs"))
        self.assertEqual(in_rust(Rule), meanings_in_rust("rule.rs"))

    def test_every_open_function_is_typed(self):
        tools = (backbone.twin, backbone.stroke_at, backbone.strokes, backbone.page)
        operations = (backbone.read, backbone.make, backbone.judge) + tools
        for function in operations + (head, charge, slot, colour, site, Layout.from_words, Layout.words):
            with self.subTest(function=function.__name__):
                names = [name for name in inspect.signature(function).parameters if name != "self"]
                self.assertEqual(sorted(get_type_hints(function)), sorted(names + ["return"]))

    def test_example(self):
        self.assertEqual(doctest.testmod(backbone)[0], 0)

    def test_lines_of_the_readme(self):
        text = (ROOT / "README.md").read_text(encoding="utf-8")
        names = {}
        for lines in re.findall(r"^```python\n(.*?)^```$", text, re.MULTILINE | re.DOTALL):
            exec(lines, names)
        self.assertEqual((names["layout"], names["lawful"]), ((2, 19, (0, 0, 2)), True))


if __name__ == "__main__":
    unittest.main()
