"""Chroma reconstruction and colour conversion: from Y, Cb and Cr planes to RGB, by a library whose every
function is proved to meet its contract. This package is a thin wrapper over its C interface
(include/chroma.h), by ctypes and without dependencies.

`fill` gives a whole picture as RGB, and `refill` brings one up to date where a few cells of chroma were
replaced; a `Reader` gives rows of chroma or of RGB, `blend` the picture between two photographs,
`linear_plane` and the like one plane of chroma. `patch` reads the colour of a rectangle from a picture of
RGB rows, and `chart_reading` finds that colour on a chart. A call that is turned down raises `Refused`, and
has changed nothing.

Planes are any objects with a buffer of bytes: bytes, bytearray, memoryview, mmap, arrays, those of numpy
too; samples of two bytes are bytes, the low one first, or 16-bit numbers. Without strides, rows have no
gaps; an array of two dimensions brings its own.

>>> layout = Layout(4, 2, 2, 2)  # 4 by 2 pixels, 4:2:0
>>> y, cb, cr = bytes([10, 12, 14, 200, 10, 12, 198, 200]), bytes([90, 110]), bytes([200, 180])
>>> rgb = fill(layout, y, cb, cr)
>>> list(rgb[:3])
[111, 0, 0]
>>> patch(Rectangle(2, 0, 2, 2), layout.w, layout.h, rgb).whole
(220, 126, 126)

What a caller must keep, since no proof can see it: no other thread changes a buffer while a call is
lent it (the interpreter's lock is given up for the time of a call), and floats are rounded to nearest,
subnormal ones kept, as a program starts: a module that was compiled by -ffast-math may change that.
"""
from ._patches import ChartReading, Patch, Rectangle, chart_reading, patch
from ._pictures import (
    Kernel,
    Layout,
    Range,
    Siting,
    Strides,
    Upsampling,
    exact_pixel,
    fill,
    fixed_pixel,
    guided_plane,
    linear_plane,
    ppm,
    refill,
    triangular_plane,
)
from ._raw import VERSION, scratch_need
from ._reader import Reader, blend, blend_row
from ._refusals import Refusal, Refused

__version__ = f"{VERSION >> 16}.{VERSION >> 8 & 255}.{VERSION & 255}"
__all__ = [
    "ChartReading",
    "Kernel",
    "Layout",
    "Patch",
    "Range",
    "Reader",
    "Rectangle",
    "Refusal",
    "Refused",
    "Siting",
    "Strides",
    "Upsampling",
    "VERSION",
    "blend",
    "blend_row",
    "chart_reading",
    "exact_pixel",
    "fill",
    "fixed_pixel",
    "guided_plane",
    "linear_plane",
    "patch",
    "ppm",
    "refill",
    "scratch_need",
    "triangular_plane",
]
