"""Areas of the caller: dirty ones, short ones, and what is no area."""

import ctypes
import unittest
from array import array

from backbone import Layout, Refusal, Refused, make, page, read, strokes, twin
from backbone.library import MOST_PAGE_BYTES, PAGE_LINE_BYTES, _library

from .test_drawn import BONES_A, DROPS_A, PAGE_A, REFUSED, REST, SHEET_A, STORED_A

WORK, ANSWER, SPARE = 900, 4, 3
DIRT = 0xDEADBEEF
BEST = Layout(2, 19, (0, 0, 2))


def dirty(count):
    return array("I", [DIRT] * count)


class Areas(unittest.TestCase):
    def assert_refused(self, refusal, sheet, work, answer):
        with self.assertRaises(Refused) as raised:
            make(sheet, work, answer)
        self.assertIs(raised.exception.refusal, refusal)

    def test_layout_in_dirty_areas(self):
        for spare in (0, SPARE):
            work, answer = dirty(WORK + spare), dirty(ANSWER + spare)
            self.assertEqual(make(SHEET_A, work, answer), BEST)
            self.assertEqual(work, array("I", [0] * WORK) + dirty(spare))
            self.assertEqual(answer, array("I", BEST.words()) + dirty(spare))

    def test_no_layout_in_dirty_areas(self):
        work, answer = dirty(WORK + SPARE), dirty(ANSWER)
        self.assert_refused(Refusal.NO_LAYOUT, [0x10010008] + REST, work, answer)
        self.assertEqual(work, array("I", [0] * WORK) + dirty(SPARE))
        self.assertEqual(answer, dirty(ANSWER))

    def test_short_areas_are_left(self):
        for refusal, work_words, answer_words in (
            (Refusal.WORK_TOO_SHORT, WORK - 1, ANSWER),
            (Refusal.WORK_TOO_SHORT, 0, 0),
            (Refusal.ANSWER_TOO_SHORT, WORK, ANSWER - 1),
            (Refusal.ANSWER_TOO_SHORT, WORK, 0),
        ):
            work, answer = dirty(work_words), dirty(answer_words)
            self.assert_refused(refusal, SHEET_A, work, answer)
            self.assertEqual((work, answer), (dirty(work_words), dirty(answer_words)))

    def test_two_sided_sheets_leave_the_areas(self):
        for work_words, answer_words in ((0, 0), (15, ANSWER), (WORK, ANSWER)):
            work, answer = dirty(work_words), dirty(answer_words)
            self.assert_refused(Refusal.TWO_SIDED, [0x18008008] + REST, work, answer)
            self.assertEqual((work, answer), (dirty(work_words), dirty(answer_words)))

    def test_twin_in_dirty_areas(self):
        stored = [0x18008008] + REST + list(Layout(2, 25, (0, 0, 2)).words())
        expected = tuple(SHEET_A) + BEST.words()
        for spare in (0, SPARE):
            area = dirty(len(stored) + spare)
            self.assertEqual(twin(stored, area), expected)
            self.assertEqual(area, array("I", expected) + dirty(spare))
        for words, refusal, lent in ((stored, Refusal.ANSWER_TOO_SHORT, 12), (stored[:-1], Refusal.BAD_LAYOUT, 13)):
            area = dirty(lent)
            with self.assertRaises(Refused) as raised:
                twin(words, area)
            self.assertIs(raised.exception.refusal, refusal)
            self.assertEqual(area, dirty(lent))

    def test_page_in_dirty_areas(self):
        expected = "".join(PAGE_A)
        needed = len(expected)
        self.assertEqual((needed, MOST_PAGE_BYTES), (6 * PAGE_LINE_BYTES, 2665))
        for spare in (0, 1, MOST_PAGE_BYTES):
            area = bytearray(b"?" * (needed + spare))
            self.assertEqual(page(STORED_A, area), expected)
            self.assertEqual(area, expected.encode("ascii") + b"?" * spare)
        short = [(STORED_A, Refusal.ANSWER_TOO_SHORT, lent) for lent in (0, 1, PAGE_LINE_BYTES, needed - 1)]
        for words, refusal, lent in short + [(words, refusal, needed) for refusal, words in REFUSED.items()]:
            area = bytearray(b"?" * lent)
            with self.assertRaises(Refused) as raised:
                page(words, area)
            self.assertIs(raised.exception.refusal, refusal)
            self.assertEqual(area, b"?" * lent)

    def test_other_buffers_of_bytes(self):
        expected = "".join(PAGE_A)
        whole = bytearray(b"?" * (len(expected) + 2))
        for area in (array("B", whole), (ctypes.c_uint8 * len(whole))(), memoryview(whole)[1:-1]):
            self.assertEqual(page(STORED_A, area), expected)
        self.assertEqual(whole, b"?" + expected.encode("ascii") + b"?")
        every_other = memoryview(bytearray(600))[::2]
        for area in (bytes(300), array("I", [0] * 300), array("b", [0] * 300), every_other, "page", [0] * 300):
            with self.subTest(area=type(area)), self.assertRaises(TypeError):
                page(STORED_A, area)

    def test_null_pointers(self):
        library, words = _library(), (ctypes.c_uint32 * len(SHEET_A))(*SHEET_A)
        self.assertEqual(library.backbone_read(None, 0).refusal, Refusal.NO_HEAD)
        self.assertEqual(library.backbone_judge(None, 0).refusal, Refusal.NO_HEAD)
        self.assertEqual(library.backbone_make(words, len(words), None, 0, None, 0), Refusal.WORK_TOO_SHORT)
        self.assertEqual(library.backbone_twin(None, 0, None, 0).refusal, Refusal.NO_HEAD)
        self.assertEqual(library.backbone_stroke_at(None, 0, 0).refusal, Refusal.NO_HEAD)
        self.assertEqual(library.backbone_page(None, 0, None, 0).refusal, Refusal.NO_HEAD)
        stored = (ctypes.c_uint32 * len(STORED_A))(*STORED_A)
        self.assertEqual(library.backbone_page(stored, len(stored), None, 0).refusal, Refusal.ANSWER_TOO_SHORT)

    def test_strokes_leave_the_words(self):
        library, words = _library(), (ctypes.c_uint32 * len(STORED_A))(*STORED_A)
        for place in range(6):
            raw = library.backbone_stroke_at(words, len(words), place)
            self.assertEqual(raw.refusal, 0 if place < 5 else Refusal.PAST_LAST_STROKE)
            self.assertEqual(list(words), STORED_A)
        self.assertEqual((raw.kind, raw.x0, raw.y0, raw.x1, raw.y1), (0, 0, 0, 0, 0))
        stored = array("I", STORED_A)
        self.assertEqual(strokes(stored), BONES_A + DROPS_A)
        self.assertEqual(stored, array("I", STORED_A))

    def test_one_area_given(self):
        self.assertEqual(make(SHEET_A, work=dirty(WORK)), BEST)
        self.assertEqual(make(SHEET_A, answer=dirty(ANSWER)), BEST)

    def test_other_buffers(self):
        self.assertEqual(make(SHEET_A, work=(ctypes.c_uint32 * WORK)()), BEST)
        whole = dirty(WORK + 2 * SPARE)
        self.assertEqual(make(SHEET_A, work=memoryview(whole)[SPARE:-SPARE]), BEST)
        self.assertEqual(whole, dirty(SPARE) + array("I", [0] * WORK) + dirty(SPARE))

    def test_what_is_no_area(self):
        for area in ([0] * WORK, bytes(4 * WORK), array("B", [0] * WORK), array("Q", [0] * WORK), "words"):
            with self.subTest(area=type(area)), self.assertRaises(TypeError):
                make(SHEET_A, work=area)
        every_other = memoryview(array("I", [0] * 2 * WORK))[::2]
        self.assertRaises(TypeError, make, SHEET_A, work=every_other)

    def test_areas_that_overlap_or_are_not_aligned(self):
        whole = array("I", [0] * (WORK + ANSWER))
        view = memoryview(whole)
        self.assertRaises(ValueError, make, SHEET_A, view[:WORK], view[WORK - 1 :])
        self.assertEqual(make(SHEET_A, view[:WORK], view[WORK:]), BEST)
        odd = memoryview(bytearray(4 * WORK + 8))[1 : 4 * WORK + 1].cast("I")
        self.assertRaises(ValueError, make, SHEET_A, odd)

    def test_words_of_any_list(self):
        as_bytes = b"".join(word.to_bytes(4, "little") for word in SHEET_A)
        for sheet in (tuple(SHEET_A), iter(SHEET_A), array("I", SHEET_A), as_bytes, bytearray(as_bytes)):
            self.assertEqual(make(sheet), BEST)
        for words, error in (([-1], OverflowError), ([2**32], OverflowError), (["1"], TypeError), (b"123", ValueError)):
            self.assertRaises(error, read, words)


if __name__ == "__main__":
    unittest.main()
