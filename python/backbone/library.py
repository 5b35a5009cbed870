"""The library's operations on lists of words, by ctypes. All that touches memory stands here."""

from __future__ import annotations

import ctypes
import os
from array import array
from functools import lru_cache
from operator import index
from pathlib import Path
from typing import Any, Iterable, List, Optional, Tuple, Union

from .results import ColourSizes, Layout, Refusal, Refused, Rule, Sizes, Stroke

MOST_COLOURS = 8
MOST_SITES = 32
PAGE_LINE_BYTES = 41
"""A page's line: 40 columns and a line feed."""
MOST_PAGE_BYTES = PAGE_LINE_BYTES * (2 * MOST_SITES + 1)
"""A line for each used slot, of which there are no more than sites, a line for each site, and the last."""
_MOST_PLACE = ctypes.c_size_t(-1).value
_KINDS = ("bone", "drop")
_NAME = "libbackbone.so.0"
_ITEMS = {ctypes.c_uint32: ("I", "32-bit words"), ctypes.c_uint8: ("B", "bytes")}
"""The letter of each sort of area's format, and its items in words."""

Words = Union[bytes, Iterable[int]]
"""A list of words: numbers from 0 to 2^32 - 1, or bytes with the lowest of each word first."""

_Array = ctypes.Array
"""Words or bytes that the library may be given."""

Area = Any
"""A buffer of unsigned 32-bit words that can be written to: array("I"), a ctypes or a NumPy array, a memoryview."""

ByteArea = Any
"""A buffer of unsigned bytes that can be written to: bytearray, array("B"), a ctypes or a NumPy array, a memoryview."""


class _Colour(ctypes.Structure):
    _fields_ = [("bound", ctypes.c_uint8), ("sites", ctypes.c_uint8)]


class _Sizes(ctypes.Structure):
    _fields_ = [
        ("refusal", ctypes.c_uint8),
        ("n", ctypes.c_uint8),
        ("m", ctypes.c_uint8),
        ("c", ctypes.c_uint8),
        ("p", ctypes.c_uint8),
        ("work", ctypes.c_uint32),
        ("colours", _Colour * MOST_COLOURS),
    ]


class _Verdict(ctypes.Structure):
    _fields_ = [("refusal", ctypes.c_uint8), ("rule", ctypes.c_uint8)]


class _Written(ctypes.Structure):
    _fields_ = [("refusal", ctypes.c_uint8), ("written", ctypes.c_uint32)]


class _Stroke(ctypes.Structure):
    _fields_ = [("refusal", ctypes.c_uint8), ("kind", ctypes.c_uint8)] + [
        (coordinate, ctypes.c_float) for coordinate in ("x0", "y0", "x1", "y1")
    ]


def _path() -> str:
    """The library in the folder that BACKBONE_LIBRARY names, or in that of ./install, or where the system has it."""
    named = os.environ.get("BACKBONE_LIBRARY")
    if named:
        return str(Path(named) / _NAME)
    # ./install puts this file at PREFIX/share/backbone/python/backbone/library.py
    above = Path(__file__).resolve().parents
    installed = above[min(4, len(above) - 1)] / "lib" / _NAME
    return str(installed) if installed.exists() else _NAME


@lru_cache(maxsize=None)
def _library() -> ctypes.CDLL:
    try:
        library = ctypes.CDLL(_path())
    except OSError as error:
        hint = "./install PREFIX makes it, and BACKBONE_LIBRARY names the folder that has it"
        raise ImportError(f"the proved library can't be loaded: {error} ({hint})") from error
    words, count = ctypes.POINTER(ctypes.c_uint32), ctypes.c_size_t
    library.backbone_read.argtypes, library.backbone_read.restype = [words, count], _Sizes
    library.backbone_judge.argtypes, library.backbone_judge.restype = [words, count], _Verdict
    library.backbone_make.argtypes = [words, count, words, count, words, count]
    library.backbone_make.restype = ctypes.c_uint32
    library.backbone_twin.argtypes, library.backbone_twin.restype = [words, count, words, count], _Written
    library.backbone_stroke_at.argtypes, library.backbone_stroke_at.restype = [words, count, count], _Stroke
    library.backbone_page.argtypes = [words, count, ctypes.POINTER(ctypes.c_uint8), count]
    library.backbone_page.restype = _Written
    return library


def _own(count: int, item: Any = ctypes.c_uint32) -> _Array:
    """An area of zeros."""
    return (item * count)()


def _copied(words: Words) -> _Array:
    """A copy of the words, which no caller can change. A number that is no word is an OverflowError or a TypeError."""
    own = array("I", words)
    return (ctypes.c_uint32 * len(own)).from_buffer(own)


def _lent(name: str, area: Area, item: Any = ctypes.c_uint32) -> _Array:
    """The caller's own words or bytes."""
    view, (letter, items) = memoryview(area), _ITEMS[item]
    if view.format not in (letter, "<" + letter, "=" + letter, "@" + letter) or view.readonly or not view.c_contiguous:
        raise TypeError(f"the {name} area is no buffer of unsigned {items} that can be written to")
    if view.nbytes == 0:
        return _own(0, item)
    lent = (item * (view.nbytes // ctypes.sizeof(item))).from_buffer(view)
    if ctypes.addressof(lent) % ctypes.sizeof(item) != 0:
        raise ValueError(f"the {name} area is not aligned to its words")
    return lent


def _overlap(one: _Array, other: _Array) -> bool:
    first, second = ctypes.addressof(one), ctypes.addressof(other)
    return first < second + ctypes.sizeof(other) and second < first + ctypes.sizeof(one)


def _refuse(number: int) -> None:
    if number != 0:
        raise Refused(Refusal(number))


def _read(words: _Array) -> Sizes:
    raw = _library().backbone_read(words, len(words))
    _refuse(raw.refusal)
    colours = tuple(ColourSizes(colour.bound, colour.sites) for colour in raw.colours)
    return Sizes(raw.n, raw.m, raw.c, raw.p, raw.work, colours)


def read(sheet: Words) -> Sizes:
    """Reads a sheet; refusals 1 to 7."""
    return _read(_copied(sheet))


def judge(stored: Words) -> Optional[Rule]:
    """Judges a stored sheet, which is a sheet followed by a layout; refusals 1 to 7 and 11.

    Gives the least broken rule, or None if the layout is lawful.
    """
    words = _copied(stored)
    verdict = _library().backbone_judge(words, len(words))
    _refuse(verdict.refusal)
    return Rule(verdict.rule) if verdict.rule else None


def make(sheet: Words, work: Optional[Area] = None, answer: Optional[Area] = None) -> Layout:
    """Lays out a one-sided sheet: its best layout; refusals 1 to 10, and 18 for a two-sided sheet.

    An area that is not given is allocated here, as long as needed: a MemoryError where that can't be had. In areas of
    the caller, the layout's words are the first of `answer`, and the needed words of `work` are zero afterwards; what
    stood there plays no part.
    """
    words = _copied(sheet)
    work_words = _own(_read(words).work_words) if work is None else _lent("work", work)
    answer_words = _own(MOST_SITES + 1) if answer is None else _lent("answer", answer)
    if _overlap(work_words, answer_words):
        raise ValueError("the areas overlap")
    number = _library().backbone_make(words, len(words), work_words, len(work_words), answer_words, len(answer_words))
    _refuse(number)
    return Layout.from_words(answer_words[: _read(words).answer_words])


def twin(stored: Words, area: Optional[Area] = None) -> Tuple[int, ...]:
    """The words of a stored sheet's one-sided twin; refusals 1 to 7, 11, 13 and 9.

    Of a lawful two-sided sheet only the side and the length differ, and the length is the true one of the same ties; a
    charge word stays. A lawful one-sided sheet comes back as it is. In an area of the caller the twin's words are the
    first, and the others stay.
    """
    words = _copied(stored)
    area_words = _own(len(words)) if area is None else _lent("answer", area)
    written = _library().backbone_twin(words, len(words), area_words, len(area_words))
    _refuse(written.refusal)
    return tuple(area_words[: written.written])


def _stroke_at(words: _Array, place: int) -> Stroke:
    raw = _library().backbone_stroke_at(words, len(words), place)
    _refuse(raw.refusal)
    return Stroke(_KINDS[raw.kind], raw.x0, raw.y0, raw.x1, raw.y1)


def stroke_at(stored: Words, place: int) -> Stroke:
    """The stroke of a stored sheet at a place; refusals 1 to 7, 11, 13 and, past the last stroke, 14.

    Places count from 0. What is no number of 64 bits is an OverflowError or a TypeError.
    """
    if not 0 <= index(place) <= _MOST_PLACE:
        raise OverflowError(f"a place is from 0 to {_MOST_PLACE}, not {place}")
    return _stroke_at(_copied(stored), place)


def strokes(stored: Words) -> List[Stroke]:
    """The strokes of a stored sheet, for a viewer to draw; refusals 1 to 7, 11 and 13.

    Backbones come first, by rising slot, then drops in sheet order. A site on its backbone has no drop. The lengths of all
    strokes, eight units a point, and the sheet's charge for each drop add up to the length that the layout states.
    """
    words = _copied(stored)
    found: List[Stroke] = []
    try:
        while True:
            found.append(_stroke_at(words, len(found)))
    except Refused as refused:
        if refused.refusal is not Refusal.PAST_LAST_STROKE:
            raise
    return found


def page(stored: Words, area: Optional[ByteArea] = None) -> str:
    """The page of a stored sheet, a text for the print room; refusals 1 to 7, 11, 13 and 9.

    Each line has 40 columns, counted from 1, and a line feed. A line for each used slot: slot in columns 1 to 3, colour in 5
    and 6, its number of sites in 8 and 9, height in 11 to 18, the label's own length in 20 to 27. A line for each site that
    begins with "  drop": site in columns 8 to 10, slot in 12 to 14, drop in 16 to 23, with its sign. Last a line that begins
    with "total": the count in columns 8 to 10, the length in 20 to 27. In an area of the caller the page's bytes are the
    first, and the others stay.
    """
    words = _copied(stored)
    byte = ctypes.c_uint8
    area_bytes = _own(MOST_PAGE_BYTES, byte) if area is None else _lent("page", area, byte)
    written = _library().backbone_page(words, len(words), area_bytes, len(area_bytes))
    _refuse(written.refusal)
    return bytes(area_bytes[: written.written]).decode("ascii")
