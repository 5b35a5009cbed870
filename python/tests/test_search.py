"""Random tiny sheets: the maker beside a search over all layouts, the judge beside the rules, twins, strokes and pages."""

import unittest
from collections import Counter
from random import Random

from backbone import Layout, Refusal, Refused, judge, make, page, strokes, twin

from . import plain_search
from .plain_search import RULES_BUT_AT_TIPS, UNBOUNDED, Sheet, Site, best, broken_rule, count_and_length

SHEETS = 6000
STORED = 20000


def tiny_sheet(random):
    """At most 4 slots, 3 colours and 5 sites, near each other, so that every rule matters."""
    width = random.randint(5, 12)
    slots = tuple(sorted(random.sample(range(12), random.randint(1, 4))))
    bounds = tuple(random.choice((UNBOUNDED, UNBOUNDED, 0, 1, 1, 2)) for _ in range(random.randint(1, 3)))
    xs = random.sample(range(width + 1), random.randint(0, 5))
    sites = sorted((Site(x, random.randint(0, 12), random.randrange(len(bounds))) for x in xs), key=lambda site: site.colour)
    two_sided, shortest, gap = random.random() < 0.4, random.random() < 0.5, random.randint(1, 3)
    charge = random.choice((None, None, 0, 1, 2, random.randint(0, 12), 16383))
    return Sheet(two_sided, shortest, gap, width, charge, slots, bounds, tuple(sites))


class Search(unittest.TestCase):
    def test_maker(self):
        random, met = Random(16), Counter()
        for _ in range(SHEETS):
            sheet = tiny_sheet(random)
            try:
                made = tuple(make(sheet.words()))
            except Refused as refused:
                self.assertIs(refused.refusal, Refusal.TWO_SIDED if sheet.two_sided else Refusal.NO_LAYOUT, sheet)
                made = None
            if not sheet.two_sided:
                self.assertEqual(made, best(sheet), sheet)
                # what the charge alters
                met["charge"] += made is not None and made[2] != best(sheet._replace(charge=None))[2]
                # what the clearance at the tip alters
                met["tip"] += sheet.gap > 1 and made != best(sheet, RULES_BUT_AT_TIPS)
            met[sheet.two_sided, made is None] += 1
        self.assertEqual(met[True, False], 0, met)
        self.assertGreater(min(met["charge"], met["tip"]), SHEETS // 200, met)
        self.assertGreater(min(met[False, False], met[False, True], met[True, True]), SHEETS // 50, met)

    def test_twin(self):
        random, met = Random(18), Counter()
        for _ in range(SHEETS // 2):
            sheet = tiny_sheet(random)._replace(two_sided=True)
            found = best(sheet)
            met[found is None] += 1
            if found is None:
                continue
            one_sided, ties = sheet._replace(two_sided=False), found[2]
            made = twin(sheet.words() + list(Layout(*found).words()))
            expected = Layout(*count_and_length(one_sided, ties), ties)
            self.assertEqual(made, (*one_sided.words(), *expected.words()), sheet)
            self.assertIsNone(judge(made), sheet)
            self.assertEqual(expected.labels, found[0])
            self.assertLessEqual(expected.length, found[1])
        self.assertGreater(min(met.values()), SHEETS // 50, met)

    def lawful(self, seed, tool):
        """Sheets with lawful ties, and their words; those with other ties are refused by the tool."""
        random, met = Random(seed), Counter()
        for _ in range(STORED):
            sheet = tiny_sheet(random)
            ties = tuple(random.randrange(len(sheet.slots)) for _ in sheet.sites)
            numbers = count_and_length(sheet, ties)
            stored = sheet.words() + list(Layout(*numbers, ties).words())
            rule = broken_rule(sheet, ties, numbers)
            met[sheet.two_sided, rule is None] += 1
            if rule is None:
                yield sheet, ties, stored
                continue
            with self.assertRaises(Refused) as raised:
                tool(stored)
            self.assertIs(raised.exception.refusal, Refusal.UNLAWFUL)
        self.assertGreater(min(met.values()), STORED // 300, met)

    def test_strokes(self):
        for sheet, ties, stored in self.lawful(19, strokes):
            found = strokes(stored)
            self.assertEqual(found, plain_search.strokes(sheet, ties), sheet)
            lengths = (abs(stroke.x1 - stroke.x0) + abs(stroke.y1 - stroke.y0) for stroke in found)
            drops = sum(stroke.kind == "drop" for stroke in found)
            length = 8 * sum(lengths) + (sheet.charge or 0) * drops
            self.assertEqual((len(found) - drops, length), count_and_length(sheet, ties), sheet)

    def test_page(self):
        for sheet, ties, stored in self.lawful(20, page):
            found = page(stored)
            self.assertEqual(found, plain_search.page(sheet, ties), sheet)
            count, length = count_and_length(sheet, ties)
            slots = found.splitlines()[:count]
            self.assertEqual(sum(int(line[19:27]) for line in slots), length, sheet)
            self.assertEqual(sum(int(line[7:9]) for line in slots), len(sheet.sites), sheet)

    def test_judge(self):
        random, met = Random(17), Counter()
        for _ in range(STORED):
            sheet = tiny_sheet(random)
            ties = tuple(random.randrange(len(sheet.slots)) for _ in sheet.sites)
            count, length = count_and_length(sheet, ties)
            stated = (count, length + random.choice((0, 0, 0, 1)))
            verdict = judge(sheet.words() + list(Layout(*stated, ties).words()))
            self.assertEqual(verdict, broken_rule(sheet, ties, stated), (sheet, ties))
            met[verdict] += 1
            # broken at tips alone
            met["tip"] += verdict == 5 and all(rule(sheet, ties) for rule in RULES_BUT_AT_TIPS)
        self.assertGreater(min(met[verdict] for verdict in (None, 1, 2, 3, 4, 5, 6)), STORED // 300, met)
        self.assertGreater(met["tip"], STORED // 1000, met)


if __name__ == "__main__":
    unittest.main()
