"""The words of a sheet, each made from its fields. A number that its field can't hold is a ValueError."""

from __future__ import annotations

from typing import Optional

UNBOUNDED = 255
_COORDINATE_BITS = 14


def _held(name: str, number: int, least: int, most: int) -> int:
    if not least <= number <= most:
        raise ValueError(f"{name} must be from {least} to {most}, not {number}")
    return number


def head(gap: int, width: int, two_sided: bool = False, shortest: bool = False) -> int:
    """The first word: the gap between backbones, the sheet's width, its side and its aim. Two-sided sheets, whose backbones
    reach from edge to edge, are read and judged, but no longer laid out."""
    flags = int(bool(two_sided)) << 27 | int(bool(shortest)) << 26
    return 1 << 28 | flags | _held("gap", gap, 1, 4095) << _COORDINATE_BITS | _held("width", width, 1, 16383)


def charge(units: int) -> int:
    """What each site that is not on its backbone adds to the length. It stands right after the head; without it the charge
    is 0."""
    return 5 << 28 | _held("charge", units, 0, 16383)


def slot(height: int) -> int:
    """A height at which a backbone may lie. Slots come by rising height."""
    return 2 << 28 | _held("height", height, 0, 16383)


def colour(bound: Optional[int] = None) -> int:
    """A colour, with the most labels that it may have, or None for any number. Its sites follow it."""
    return 3 << 28 | (UNBOUNDED if bound is None else _held("bound", bound, 0, UNBOUNDED - 1))


def site(x: int, y: int) -> int:
    """A site of the colour before it."""
    return 4 << 28 | _held("x", x, 0, 16383) << _COORDINATE_BITS | _held("y", y, 0, 16383)
