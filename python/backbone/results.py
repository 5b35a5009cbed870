"""What the library answers: sizes, layouts, refusals and rules."""

from __future__ import annotations

from enum import IntEnum
from typing import NamedTuple, Sequence, Tuple


class _Numbered(IntEnum):
    """A number with its meaning in words."""

    meaning: str

    def __new__(cls, number: int, meaning: str) -> "_Numbered":
        case = int.__new__(cls, number)
        case._value_ = number
        case.meaning = meaning
        return case


class Refusal(_Numbered):
    """Why a list of words or an area is refused: the first that applies, by rising number, but 18 is looked for right
    after 7, and twin and page look for 9 last."""

    NO_HEAD = 1, "the list is empty, or its first word is no head, or its width or gap is 0"
    BAD_WORD = 2, "a word of another kind, out of its order, or with a spare bit set"
    TOO_MANY = 3, "more than 48 slots, 8 colours or 32 sites"
    SLOTS_NOT_RISING = 4, "slot heights are not strictly rising"
    SITE_BEYOND_WIDTH = 5, "a site's x is above the width"
    EQUAL_X = 6, "two sites have equal x"
    TOO_MANY_BUDGETS = 7, "the product of bound plus one over the bounded colours is above 64"
    WORK_TOO_SHORT = 8, "the work area is shorter than needed"
    ANSWER_TOO_SHORT = 9, "the area for the answer is shorter than needed"
    NO_LAYOUT = 10, "no layout obeys rules 1 to 5"
    BAD_LAYOUT = 11, "there is no layout, or it is not one tie to a slot for each site"
    BAD_INPUT = 12, "more than 1,024 bytes, or not whole words"
    UNLAWFUL = 13, "the layout breaks a rule"
    PAST_LAST_STROKE = 14, "the place is past the last stroke"
    TWO_SIDED = 18, "the sheet is two-sided, and such sheets are no longer laid out"


class Rule(_Numbered):
    """A rule of lawful layouts that a layout breaks. The judge gives the lowest."""

    SHARED_SLOT_SHARED_COLOUR = 1, "sites that share a slot share a colour"
    LABEL_BOUND = 2, "no colour uses more slots than its bound"
    BACKBONES_APART = 3, "any two used slots are at least the gap apart"
    NO_CROSSING = 4, "no vertical shares a point with the backbone of another label"
    SITES_CLEAR = (
        5,
        "a backbone lies at least the gap from every site of another label at or right of its left end, "
        "or left of it by less than the gap",
    )
    TRUE_NUMBERS = 6, "the stated count and length are the layout's own"


class Refused(Exception):
    """The library refused, and changed no area unless the refusal is NO_LAYOUT, which zeroes the needed work words."""

    def __init__(self, refusal: Refusal) -> None:
        super().__init__(f"refused {refusal.value}: {refusal.meaning}")
        self.refusal = refusal


class ColourSizes(NamedTuple):
    """A colour's label bound (255: unbounded) and its number of sites; both 0 for a colour that the sheet doesn't have."""

    bound: int
    sites: int


class Sizes(NamedTuple):
    """What the reader says of a sheet that it accepts."""

    sites: int
    slots: int
    colours: int
    budgets: int
    """The product of bound plus one over the bounded colours."""
    work_words: int
    """The work words that `make` needs. A two-sided sheet has a number too, though it is not laid out."""
    each_colour: Tuple[ColourSizes, ...]

    @property
    def answer_words(self) -> int:
        """The answer words that `make` needs."""
        return self.sites + 1


class Layout(NamedTuple):
    """A layout: the count and the length that it states, and each site's slot in sheet order."""

    labels: int
    length: int
    slots: Tuple[int, ...]

    @classmethod
    def from_words(cls, words: Sequence[int]) -> "Layout":
        """The fields of a layout's words, which are a word of kind 8 and words of kind 9."""
        kinds = [word >> 28 for word in words]
        if kinds != [8] + [9] * (len(words) - 1):
            raise ValueError("these words are no layout")
        first = words[0]
        return cls(first >> 21 & 0x7F, first & 0x1FFFFF, tuple(word & 0xFF for word in words[1:]))

    def words(self) -> Tuple[int, ...]:
        """The words of the layout; a sheet followed by them is a stored sheet."""
        return (8 << 28 | self.labels << 21 | self.length,) + tuple(9 << 28 | slot for slot in self.slots)


class Stroke(NamedTuple):
    """A straight line that a viewer draws: "bone", which is a backbone, or "drop", and its ends in printer's points.

    Nothing is rounded: a point is eight units, and eight times each coordinate is a whole number.
    """

    kind: str
    x0: float
    """The first end: a backbone's left end, a drop's site."""
    y0: float
    x1: float
    """The second end: a backbone's right end, a drop's end on its backbone."""
    y1: float
