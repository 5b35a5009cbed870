"""The format's drawn examples: sheet A, its heads, the judge on its layouts, its strokes and its page."""

import unittest
from pathlib import Path

from backbone import Layout, Refusal, Refused, Rule, judge, make, page, read, stroke_at, strokes, twin

ROOT = Path(__file__).resolve().parents[2]
HEAD = 0x10008008
REST = [0x20000002, 0x20000005, 0x20000008, 0x300000FF, 0x40008004, 0x40018006, 0x300000FF, 0x40010005]
SHEET_A = [HEAD] + REST
STORED_A = SHEET_A + list(Layout(2, 19, (0, 0, 2)).words())
BONES_A = [("bone", 0.25, 0.25, 1, 0.25), ("bone", 0.5, 1, 1, 1)]
DROPS_A = [("drop", 0.25, 0.5, 0.25, 0.25), ("drop", 0.75, 0.75, 0.75, 0.25), ("drop", 0.5, 0.625, 0.5, 1)]
# Slot 0 has a backbone of 6 and drops of 2 and 4, slot 2 a backbone of 4 and a drop of 3.
PAGE_A = (ROOT / "examples" / "a.page").read_text(encoding="ascii").splitlines(keepends=True)
LAYOUT_A = STORED_A[9:]
# What every tool over stored sheets refuses.
REFUSED = {
    Refusal.NO_HEAD: LAYOUT_A,
    Refusal.BAD_WORD: SHEET_A + [HEAD] + LAYOUT_A,
    Refusal.TOO_MANY: [HEAD] + [2 << 28 | height for height in range(49)] + LAYOUT_A,
    Refusal.SLOTS_NOT_RISING: [HEAD, REST[1], REST[0]] + LAYOUT_A,
    Refusal.SITE_BEYOND_WIDTH: [0x10008005] + REST + LAYOUT_A,
    Refusal.EQUAL_X: SHEET_A + [0x40010006] + LAYOUT_A,
    Refusal.TOO_MANY_BUDGETS: [HEAD, 0x30000007, 0x30000008] + LAYOUT_A,
    Refusal.BAD_LAYOUT: SHEET_A,
    Refusal.UNLAWFUL: SHEET_A + list(Layout(2, 18, (0, 0, 2)).words()),
}


class Drawn(unittest.TestCase):
    def assert_refused(self, refusal, call, *arguments, **named):
        with self.assertRaises(Refused) as raised:
            call(*arguments, **named)
        self.assertIs(raised.exception.refusal, refusal)

    def test_sizes_of_a(self):
        sizes = read(SHEET_A)
        self.assertEqual((sizes.sites, sizes.slots, sizes.colours, sizes.budgets), (3, 3, 2, 1))
        self.assertEqual((sizes.work_words, sizes.answer_words), (900, 4))
        self.assertEqual(sizes.each_colour, ((255, 2), (255, 1)) + ((0, 0),) * 6)

    def test_a_and_its_heads(self):
        drawn = {
            0x10008008: (2, 19, (0, 0, 2)),
            0x14008008: (3, 18, (0, 1, 2)),
        }
        for head, layout in drawn.items():
            with self.subTest(head=hex(head)):
                self.assertEqual(make([head] + REST), layout)
        self.assertEqual(make(SHEET_A).words()[0], 0x80400013)

    def test_two_sided(self):
        sheet = [0x18008008] + REST
        self.assertEqual(read(sheet).work_words, 15)
        self.assert_refused(Refusal.TWO_SIDED, make, sheet)
        stored = sheet + list(Layout(2, 25, (0, 0, 2)).words())
        self.assertIsNone(judge(stored))
        expected = tuple(SHEET_A) + Layout(2, 19, (0, 0, 2)).words()
        self.assertEqual(twin(stored), expected)
        self.assertEqual(twin(expected), expected)

    def test_refusals_of_twins(self):
        self.assert_refused(Refusal.NO_HEAD, twin, [])
        self.assert_refused(Refusal.BAD_LAYOUT, twin, SHEET_A)
        for head in (HEAD, 0x18008008):
            false_length = [head] + REST + list(Layout(2, 18, (0, 0, 2)).words())
            self.assert_refused(Refusal.UNLAWFUL, twin, false_length)

    def test_strokes_of_a(self):
        expected = BONES_A + DROPS_A
        self.assertEqual(strokes(STORED_A), expected)
        self.assertEqual([stroke_at(STORED_A, place) for place in range(5)], expected)
        first = stroke_at(STORED_A, 0)
        self.assertEqual((first.kind, first.x0, first.y0, first.x1, first.y1), BONES_A[0])
        two_sided = [0x18008008] + REST + list(Layout(2, 25, (0, 0, 2)).words())
        self.assertEqual(strokes(two_sided), [("bone", 0, 0.25, 1, 0.25), ("bone", 0, 1, 1, 1)] + DROPS_A)

    def test_strokes_of_no_length(self):
        one = [HEAD, 0x20000000, 0x300000FF]
        self.assertEqual(strokes(one + [0x40000000, 0x80200008, 0x90000000]), [("bone", 0, 0, 1, 0)])
        self.assertEqual(strokes(one + [0x40020000, 0x80200000, 0x90000000]), [("bone", 1, 0, 1, 0)])
        self.assertEqual(strokes([HEAD, 0x80000000]), [])
        self.assert_refused(Refusal.PAST_LAST_STROKE, stroke_at, [HEAD, 0x80000000], 0)

    def test_refusals_of_strokes(self):
        for refusal, stored in REFUSED.items():
            with self.subTest(refusal=refusal):
                self.assert_refused(refusal, strokes, stored)
                self.assert_refused(refusal, stroke_at, stored, 0)
                self.assert_refused(refusal, stroke_at, stored, 2**64 - 1)
        for place in (5, 6, 2**32, 2**64 - 1):
            self.assert_refused(Refusal.PAST_LAST_STROKE, stroke_at, STORED_A, place)

    def test_what_is_no_place(self):
        for place, error in ((-1, OverflowError), (2**64, OverflowError), (0.0, TypeError), ("0", TypeError)):
            self.assertRaises(error, stroke_at, STORED_A, place)

    def test_page_of_a(self):
        self.assertEqual(page(STORED_A), "".join(PAGE_A))
        # Both backbones have 8 units.
        two_sided = [0x18008008] + REST + list(Layout(2, 25, (0, 0, 2)).words())
        slots = ["  0  0  2        2       14", "  2  1  1        8       11"]
        expected = [line.ljust(40) + "\n" for line in slots] + PAGE_A[2:5] + [PAGE_A[5].replace("19", "25")]
        self.assertEqual(page(two_sided), "".join(expected))

    def test_page_with_zeros(self):
        one = [HEAD, 0x20000000, 0x300000FF, 0x40000000, 0x80200008, 0x90000000]
        lines = ["  0  0  1        0        8", "  drop   0   0        0", "total    1                8"]
        self.assertEqual(page(one).splitlines(), [line.ljust(40) for line in lines])
        self.assertEqual(page([HEAD, 0x80000000]), "total    0                0".ljust(40) + "\n")

    def test_refusals_of_pages(self):
        for refusal, stored in REFUSED.items():
            with self.subTest(refusal=refusal):
                self.assert_refused(refusal, page, stored)
                self.assert_refused(refusal, page, stored, bytearray())
        self.assert_refused(Refusal.NO_HEAD, page, [])

    def test_charges(self):
        # Three sites off their backbones, so a charge adds three times itself; strokes stay, and so do a page's drops.
        for charge in (0, 5, 16383):
            sheet, layout = [HEAD, 5 << 28 | charge] + REST, Layout(2, 19 + 3 * charge, (0, 0, 2))
            stored = sheet + list(layout.words())
            self.assertEqual(read(sheet), read(SHEET_A))
            self.assertEqual(make(sheet), layout)
            self.assertIsNone(judge(stored))
            self.assertEqual(strokes(stored), BONES_A + DROPS_A)
            lines = page(stored).splitlines(keepends=True)
            self.assertEqual([int(line[19:27]) for line in lines[:2]], [12 + 2 * charge, 7 + charge])
            self.assertEqual((lines[2:5], int(lines[5][19:27])), (PAGE_A[2:5], 19 + 3 * charge))
            two_sided = [0x18008008] + sheet[1:] + list(Layout(2, 25 + 3 * charge, (0, 0, 2)).words())
            self.assertEqual(twin(two_sided), tuple(stored))
        self.assertEqual(judge([HEAD, 0x50000005] + STORED_A[1:]), Rule.TRUE_NUMBERS)

    def test_charges_out_of_place(self):
        charge = 0x50000005
        self.assert_refused(Refusal.NO_HEAD, read, [charge] + SHEET_A)
        for words in ([HEAD, charge, charge], [HEAD, REST[0], charge], SHEET_A + [charge], [HEAD, charge | 1 << 14]):
            self.assert_refused(Refusal.BAD_WORD, read, words)
            self.assert_refused(Refusal.BAD_WORD, make, words)
            self.assert_refused(Refusal.BAD_WORD, judge, words + [0x80000000])

    def test_tips(self):
        # Gap 2, slots at 4, 8 and 10: a foreign site beside the tip at (4, 8). Left of it by 1 it counts, by 2 not.
        def beside(x, y):
            return [HEAD, 0x20000004, 0x20000008, 0x2000000A, 0x300000FF, 4 << 28 | x << 14 | y, 0x300000FF, 0x40010008]

        def verdict(x, y):
            return judge(beside(x, y) + list(Layout(2, (8 - x) + (y - 4) + 4, (0, 1)).words()))

        self.assertEqual([verdict(3, y) for y in (6, 7, 8, 9, 10)], [None, 5, 5, 5, None])
        self.assertEqual([verdict(x, 8) for x in (1, 2, 3)], [None, None, Rule.SITES_CLEAR])
        self.assertEqual(make(beside(2, 8)), (2, 12, (2, 1)))
        self.assertEqual(make(beside(3, 8)), (2, 15, (0, 2)))

    def test_no_layout(self):
        for head in (0x1000C008, 0x10010008):
            self.assert_refused(Refusal.NO_LAYOUT, make, [head] + REST)
        no_labels = SHEET_A[:7] + [0x30000000, 0x40010005]
        self.assert_refused(Refusal.NO_LAYOUT, make, no_labels)

    def test_head_alone(self):
        self.assertEqual(make([HEAD]), Layout(0, 0, ()))

    def test_judge_on_a(self):
        verdicts = {
            (2, 19, (0, 0, 2)): None,
            (2, 19, (2, 2, 0)): None,
            (2, 18, (2, 2, 0)): Rule.TRUE_NUMBERS,
            (2, 19, (0, 0, 1)): Rule.NO_CROSSING,
            (1, 19, (0, 0, 0)): Rule.SHARED_SLOT_SHARED_COLOUR,
        }
        for layout, verdict in verdicts.items():
            with self.subTest(layout=layout):
                self.assertEqual(judge(SHEET_A + list(Layout(*layout).words())), verdict)

    def test_edges(self):
        one = [HEAD, 0x20000002, 0x300000FF]
        self.assertEqual(read(one + [4 << 28 | 8 << 14]).sites, 1)
        self.assert_refused(Refusal.SITE_BEYOND_WIDTH, read, one + [4 << 28 | 9 << 14])
        self.assertEqual(read([HEAD, 0x30000007, 0x30000007]).budgets, 64)
        self.assert_refused(Refusal.TOO_MANY_BUDGETS, read, [HEAD, 0x30000007, 0x30000008])

    def test_four_bounded_colours(self):
        self.assertEqual(read([HEAD] + [0x30000000 + bound for bound in (3, 3, 1, 1)]).budgets, 64)
        self.assert_refused(Refusal.TOO_MANY_BUDGETS, read, [HEAD] + [0x30000000 + bound for bound in (3, 3, 3, 1)])

    def test_refusals_of_lists(self):
        self.assert_refused(Refusal.NO_HEAD, read, [])
        self.assert_refused(Refusal.NO_HEAD, judge, [])
        self.assert_refused(Refusal.NO_HEAD, make, [])
        self.assert_refused(Refusal.BAD_WORD, read, [HEAD, HEAD])
        self.assert_refused(Refusal.TOO_MANY, read, [HEAD] + [0x300000FF] * 9)
        self.assert_refused(Refusal.SLOTS_NOT_RISING, read, [HEAD, 0x20000002, 0x20000002])
        self.assert_refused(Refusal.EQUAL_X, read, [HEAD, 0x300000FF, 0x40008004, 0x40008005])
        self.assert_refused(Refusal.BAD_LAYOUT, judge, SHEET_A)


if __name__ == "__main__":
    unittest.main()
