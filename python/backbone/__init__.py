"""Backbone labelling of parts sheets, over the proved shared library.

A sheet, a layout and a stored sheet are lists of 32-bit words. `read`, `make`, `judge`, `twin`, `stroke_at` and `page` are
the library's operations; `strokes` asks for all strokes; `head`, `charge`, `slot`, `colour` and `site` make the words of a
sheet. A refusal is raised as `Refused`.

>>> from backbone import colour, head, make, site, slot
>>> sheet = [head(gap=2, width=8), slot(2), slot(5), slot(8)]
>>> sheet += [colour(), site(2, 4), site(6, 6), colour(bound=1), site(4, 5)]
>>> make(sheet)
Layout(labels=2, length=19, slots=(0, 0, 2))
"""

from .library import judge, make, page, read, stroke_at, strokes, twin
from .results import ColourSizes, Layout, Refusal, Refused, Rule, Sizes, Stroke
from .words import charge, colour, head, site, slot

__all__ = [
    "ColourSizes",
    "Layout",
    "Refusal",
    "Refused",
    "Rule",
    "Sizes",
    "Stroke",
    "charge",
    "colour",
    "head",
    "judge",
    "make",
    "page",
    "read",
    "site",
    "slot",
    "stroke_at",
    "strokes",
    "twin",
]
