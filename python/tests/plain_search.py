"""The rules of a lawful layout, and the best layout of a tiny sheet by a search over all of them.

Written from the rules alone; nothing of the module under test is used.
"""

from __future__ import annotations

from itertools import combinations, product
from typing import Callable, List, NamedTuple, Optional, Sequence, Tuple

Ties = Tuple[int, ...]
UNBOUNDED = 255


class Site(NamedTuple):
    x: int
    y: int
    colour: int


class Sheet(NamedTuple):
    two_sided: bool
    shortest: bool
    gap: int
    width: int
    charge: Optional[int]
    slots: Tuple[int, ...]
    bounds: Tuple[int, ...]
    sites: Tuple[Site, ...]

    def words(self) -> List[int]:
        words = [1 << 28 | self.two_sided << 27 | self.shortest << 26 | self.gap << 14 | self.width]
        words += [] if self.charge is None else [5 << 28 | self.charge]
        words += [2 << 28 | height for height in self.slots]
        for colour, bound in enumerate(self.bounds):
            words.append(3 << 28 | bound)
            words += [4 << 28 | site.x << 14 | site.y for site in self.sites if site.colour == colour]
        return words


def left_end(sheet: Sheet, ties: Ties, slot: int) -> int:
    if sheet.two_sided:
        return 0
    return min(site.x for site, own in zip(sheet.sites, ties) if own == slot)


def shares_colour(sheet: Sheet, ties: Ties) -> bool:
    """Rule 1."""
    tied = list(zip(sheet.sites, ties))
    return all(one.colour == other.colour for (one, a), (other, b) in combinations(tied, 2) if a == b)


def keeps_bounds(sheet: Sheet, ties: Ties) -> bool:
    """Rule 2."""
    used = {(site.colour, slot) for site, slot in zip(sheet.sites, ties)}
    counts = [sum(1 for own, _ in used if own == colour) for colour in range(len(sheet.bounds))]
    return all(count <= bound or bound == UNBOUNDED for count, bound in zip(counts, sheet.bounds))


def keeps_apart(sheet: Sheet, ties: Ties) -> bool:
    """Rule 3."""
    heights = [sheet.slots[slot] for slot in set(ties)]
    return all(abs(one - other) >= sheet.gap for one, other in combinations(heights, 2))


def crosses_none(sheet: Sheet, ties: Ties) -> bool:
    """Rule 4."""
    for site, own in zip(sheet.sites, ties):
        top, bottom = sorted((site.y, sheet.slots[own]))
        for slot in set(ties) - {own}:
            if left_end(sheet, ties, slot) <= site.x <= sheet.width and top <= sheet.slots[slot] <= bottom:
                return False
    return True


def clears(sheet: Sheet, ties: Ties, reach: int) -> bool:
    """Whether each backbone lies at least the gap from every foreign site but those left of its left end by `reach` or more."""
    for slot in set(ties):
        left = left_end(sheet, ties, slot)
        others = (site for site, own in zip(sheet.sites, ties) if own != slot and left - site.x < reach)
        if any(abs(sheet.slots[slot] - site.y) < sheet.gap for site in others):
            return False
    return True


def clears_sites(sheet: Sheet, ties: Ties) -> bool:
    """Rule 5."""
    return clears(sheet, ties, sheet.gap)


def clears_sites_but_at_tips(sheet: Sheet, ties: Ties) -> bool:
    """Rule 5 for what is not left of a left end: no x is left of it by less than 1."""
    return clears(sheet, ties, 1)


def share(sheet: Sheet, site: Site, slot: int) -> int:
    """A site's part of the length: its drop, and the charge unless that is zero."""
    drop = abs(sheet.slots[slot] - site.y)
    return drop + (sheet.charge or 0) if drop else 0


def count_and_length(sheet: Sheet, ties: Ties) -> Tuple[int, int]:
    """The true numbers of rule 6."""
    used = set(ties)
    backbones = sum(sheet.width - left_end(sheet, ties, slot) for slot in used)
    return len(used), backbones + sum(share(sheet, site, slot) for site, slot in zip(sheet.sites, ties))


def strokes(sheet: Sheet, ties: Ties) -> List[Tuple[str, float, float, float, float]]:
    """Backbones by slot, then drops by site, in points of eight units; a drop of zero gives none."""
    used = [(left_end(sheet, ties, slot), sheet.slots[slot]) for slot in sorted(set(ties))]
    bones = [("bone", left, height, sheet.width, height) for left, height in used]
    tied = [(site, sheet.slots[slot]) for site, slot in zip(sheet.sites, ties)]
    drops = [("drop", site.x, site.y, site.x, height) for site, height in tied if site.y != height]
    return [(kind, x0 / 8, y0 / 8, x1 / 8, y1 / 8) for kind, x0, y0, x1, y1 in bones + drops]


def in_columns(*cells: Tuple[int, object]) -> str:
    """A line of 40 columns with each text or number ending in its column."""
    line = ""
    for column, cell in cells:
        line += str(cell).rjust(column - len(line))
    return line.ljust(40) + "\n"


def page(sheet: Sheet, ties: Ties) -> str:
    """A line a used slot, a line a site with its drop, and the total."""
    lines = []
    for slot in sorted(set(ties)):
        own = [site for site, tied in zip(sheet.sites, ties) if tied == slot]
        length = sheet.width - left_end(sheet, ties, slot) + sum(share(sheet, site, slot) for site in own)
        numbers = (slot, own[0].colour, len(own), sheet.slots[slot], length)
        lines.append(in_columns(*zip((3, 6, 9, 18, 27), numbers)))
    for number, (site, slot) in enumerate(zip(sheet.sites, ties)):
        drop = sheet.slots[slot] - site.y
        signed = f"{drop:+}" if drop else "0"
        lines.append(in_columns((6, "  drop"), (10, number), (14, slot), (23, signed)))
    count, length = count_and_length(sheet, ties)
    return "".join(lines) + in_columns((5, "total"), (10, count), (27, length))


RULES = (shares_colour, keeps_bounds, keeps_apart, crosses_none, clears_sites)
RULES_BUT_AT_TIPS = RULES[:4] + (clears_sites_but_at_tips,)


def broken_rule(sheet: Sheet, ties: Ties, stated: Tuple[int, int]) -> Optional[int]:
    """The number of the least broken rule."""
    for number, rule in enumerate(RULES, start=1):
        if not rule(sheet, ties):
            return number
    return None if stated == count_and_length(sheet, ties) else 6


def best(sheet: Sheet, rules: Sequence[Callable[[Sheet, Ties], bool]] = RULES) -> Optional[Tuple[int, int, Ties]]:
    """The count, the length and the ties of the best layout by these rules, if there is one."""
    by_x = sorted(range(len(sheet.sites)), key=lambda site: sheet.sites[site].x)

    def order(ties: Ties) -> Tuple[int, ...]:
        count, length = count_and_length(sheet, ties)
        cost = (length, count) if sheet.shortest else (count, length)
        return cost + tuple(ties[site] for site in by_x)

    every = product(range(len(sheet.slots)), repeat=len(sheet.sites))
    lawful = [ties for ties in every if all(rule(sheet, ties) for rule in rules)]
    if not lawful:
        return None
    first = min(lawful, key=order)
    return (*count_and_length(sheet, first), first)
