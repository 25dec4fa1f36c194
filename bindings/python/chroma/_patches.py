"""Colours of rectangles of RGB pictures, and their readings on charts."""
from typing import NamedTuple

from . import _raw
from ._calls import accepted, call, read, struct


class Rectangle(NamedTuple):
    """Part of a picture, in pixels: its first column and row, and its sides."""

    left: int
    top: int
    width: int
    height: int


class Patch(NamedTuple):
    """The colour of a patch, red, green and blue: the means (the exact sum divided by the number of
    pixels, rounded once), the same as whole numbers, halves up, and how many pixels they are of."""

    mean: tuple
    whole: tuple
    pixels: int


class ChartReading(NamedTuple):
    """Where a patch lies on a chart: the index of the nearest shade and its sum of squared differences
    from ``whole``; the index of the first of the two neighbours whose mix is nearest, how many
    sixteenths of the second are mixed in, and the mix's sum; the patch's whole-number mean, and how many
    pixels it is of."""

    nearest: int
    nearest_off: int
    pair: int
    weight: int
    between_off: int
    whole: tuple
    pixels: int


def _rgb(rgb, w, h):
    """A picture's bytes. An array that says what its pixels are must say three bytes each: one of four
    would be long enough to be accepted."""
    lent = read(rgb, "rgb")
    shape = memoryview(rgb).shape
    if len(shape) > 1 and shape not in ((h, w, 3), (h, 3 * w)):
        raise ValueError(f"rgb is of shape {shape}, and must be {h} by {w} pixels of three bytes")
    return lent


def _shades(chart):
    if isinstance(chart, (list, tuple)):
        if any(len(shade) != 3 for shade in chart):
            raise ValueError("a shade of the chart is not red, green and blue")
        chart = bytes(level for shade in chart for level in shade)
    lent = read(chart, "chart")
    shape = memoryview(chart).shape
    if len(shape) > 1 and shape[1:] != (3,):
        raise ValueError(f"chart is of shape {shape}, and must have three bytes a shade")
    return lent


def patch(rectangle, w, h, rgb):
    """The mean colour of the pixels that a rectangle shares with a picture of ``w`` by ``h`` pixels, three
    bytes each, row by row without gaps, as `fill` leaves it; None where they share no pixel.

    >>> rgb = bytes([0, 0, 254, 1, 10, 255])
    >>> patch(Rectangle(0, 0, 2, 1), 2, 1, rgb)
    Patch(mean=(0.5, 5.0, 254.5), whole=(1, 5, 255), pixels=2)
    >>> patch(Rectangle(1, 0, 9, 1), 2, 1, rgb).whole  # what is past the picture doesn't count
    (1, 10, 255)
    >>> patch(Rectangle(2, 0, 1, 1), 2, 1, rgb) is None
    True

    Refusals 2, 19 (an end past 65,535) and 10, in this order.
    """
    found = call("chroma_patch", struct(_raw.ChromaRectangle, rectangle), w, h, _rgb(rgb, w, h))
    accepted(found.refusal)
    return Patch(tuple(found.mean), tuple(found.whole), found.pixels) if found.given else None


def chart_reading(chart, rectangle, w, h, rgb):
    """Reads a `patch` on a chart of 2 to 24 shades, three bytes each and no byte over, or as many triples:
    the nearest shade, and the nearest mix of two neighbours, the first pair and then the least weight on
    a tie; None where the rectangle and the picture share no pixel.

    >>> chart = [(255, 255, 255), (200, 100, 200), (100, 0, 100)]
    >>> found = chart_reading(chart, Rectangle(0, 0, 1, 1), 1, 1, bytes([150, 50, 150]))
    >>> found.nearest, found.nearest_off
    (1, 7500)
    >>> found.pair, found.weight, found.between_off
    (1, 8, 0)

    Refusals 20 (the chart's length), then 2, 19 and 10.
    """
    raw = struct(_raw.ChromaRectangle, rectangle)
    found = call("chroma_chart_reading", _shades(chart), raw, w, h, _rgb(rgb, w, h))
    accepted(found.refusal)
    if not found.given:
        return None
    return ChartReading(**{name: getattr(found, name) for name in ChartReading._fields[:5]},
                        whole=tuple(found.whole), pixels=found.pixels)
