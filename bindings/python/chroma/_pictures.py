"""Layouts and strides, whole pictures, whole planes and single pixels."""
import operator
from dataclasses import dataclass, fields
from enum import IntEnum
from typing import NamedTuple

from . import _raw
from ._calls import accepted, call, floats, lent_plane, read, struct, words, write, zeros


class Siting(IntEnum):
    """Where a chroma sample sits along an axis of its cell: in the middle of the cell's pixels, as JPEG
    has it, or on the first of them, as BT.601 has it across. The linear calls take both."""

    CENTRED = 0
    CO_SITED = 1


class Range(IntEnum):
    """Which samples stand for black and white: all that there are, as JPEG has it, or 16 to 235 for luma and
    16 to 240 for chroma, as video has it, for maxval 255 and the exact kernel."""

    FULL = 0
    STUDIO = 1


class Upsampling(IntEnum):
    """How chroma is reconstructed: between cells in a straight line, or guided by luma."""

    LINEAR = 0
    GUIDED = 1


class Kernel(IntEnum):
    """Which kernel makes the colour: T.871's equations on chroma in 256ths, each colour rounded once, or
    16-bit fixed point on chroma rounded to whole samples, for maxval 255."""

    EXACT = 0
    FIXED = 1


@dataclass(frozen=True)
class Layout:
    """A picture's numbers: ``w`` by ``h`` pixels, ``rh`` by ``rv`` of them to a chroma cell, ``cw`` by
    ``ch`` cells (``w * num_across / rh`` rounded up, and so down, where they aren't given), bytes of a
    sample, the largest sample, where chroma sits, how many cells lie to ``rh`` and ``rv`` pixels, and the
    range of the samples.
    4:2:0 is 2 by 2, 4:2:2 is 2 by 1, 4:4:4 is 1 by 1. Any numbers may stand here; the calls look at
    them.

    >>> Layout(5, 4, 2, 2).cw
    3
    >>> Layout(6, 1, 3, 1, num_across=2).cw  # two cells to three pixels
    4
    >>> deep = Layout(640, 480, 2, 2, sample_bytes=2, maxval=4095)
    >>> video = Layout(720, 576, 2, 1, siting_across=Siting.CO_SITED, range=Range.STUDIO)
    """

    w: int
    h: int
    rh: int
    rv: int
    cw: int = None
    ch: int = None
    sample_bytes: int = 1
    maxval: int = 255
    siting_across: int = Siting.CENTRED
    siting_down: int = Siting.CENTRED
    num_across: int = 1
    num_down: int = 1
    range: int = Range.FULL

    def __post_init__(self):
        for field in fields(self):
            value = getattr(self, field.name)
            if value is not None and not isinstance(value, int):  # numpy's numbers would wrap
                object.__setattr__(self, field.name, operator.index(value))
        for name, pixels, num, ratio in (
            ("cw", self.w, self.num_across, self.rh),
            ("ch", self.h, self.num_down, self.rv),
        ):
            if getattr(self, name) is None:
                object.__setattr__(self, name, -(-pixels * num // ratio) if ratio else 0)


class Strides(NamedTuple):
    """How many bytes apart the rows of each plane begin."""

    y: int
    cb: int
    cr: int


def three_planes(layout, y, cb, cr, strides):
    """The three planes, and their strides."""
    y_stride, cb_stride, cr_stride = (None, None, None) if strides is None else strides
    y, y_stride = lent_plane(y, y_stride, layout.w, layout.sample_bytes, "y")
    cb, cb_stride = lent_plane(cb, cb_stride, layout.cw, layout.sample_bytes, "cb")
    cr, cr_stride = lent_plane(cr, cr_stride, layout.cw, layout.sample_bytes, "cr")
    return [y, cb, cr], Strides(y_stride, cb_stride, cr_stride)


def scratch_of(layout):
    """Scratch for a layout; none where its sides are refused anyway."""
    fits = 0 <= layout.w <= _raw.SIDE and 0 <= layout.cw <= _raw.SIDE
    return zeros("f", _raw.scratch_need(layout.cw, layout.w) if fits else 0)


def _pixels(layout):
    """How many pixels to make room for; none where the sides are refused anyway."""
    fits = 0 <= layout.w <= _raw.SIDE and 0 <= layout.h <= _raw.SIDE
    return layout.w * layout.h if fits else 0


def fill(layout, y, cb, cr, strides=None, upsampling=Upsampling.GUIDED, kernel=Kernel.EXACT, size=3, out=None):
    """The picture's pixels, row by row, ``size`` bytes each (3 or 4): red, green, blue; a fourth byte
    keeps what it held, 0 in memory that is made here. Colour is T.871's (JFIF: BT.601's coefficients), in
    8 bits whatever maxval is, by the layout's range. Gives ``out``, or a bytearray where there is none.

    >>> list(fill(Layout(1, 1, 1, 1), bytes([230]), bytes([3]), bytes([128])))
    [230, 255, 9]

    Two pixels to a cell across, into four bytes each:

    >>> rgba = bytearray([77] * 8)
    >>> planes = bytes([230, 230]), bytes([3]), bytes([128])
    >>> list(fill(Layout(2, 1, 2, 1), *planes, kernel=Kernel.FIXED, size=4, out=rgba))
    [230, 255, 8, 77, 230, 255, 8, 77]

    Refusals 2, 3, 4, 18 (studio range), 5, 16 (guided, chroma co-sited), 7, 17, 8 and 10.
    """
    planes, strides = three_planes(layout, y, cb, cr, strides)
    if out is None:
        out = zeros("B", _pixels(layout) * (size if size in (3, 4) else 0))
    accepted(
        call(
            "chroma_fill",
            struct(_raw.ChromaLayout, layout),
            *planes,
            struct(_raw.ChromaStrides, strides),
            upsampling,
            kernel,
            size,
            floats(scratch_of(layout), "scratch"),
            write(out, "out"),
        )
    )
    return out


def refill(layout, old, new, cells, out, old_strides=None, strides=None, kernel=Kernel.EXACT, size=3):
    """Converts again, guided, where a rectangle of chroma cells was replaced: ``out`` holds the picture of
    the planes ``old``, as `fill` leaves it, and becomes that of the planes ``new``. Only the rows whose
    cell row is within two of the rectangle are written. Gives ``out``.

    One pixel of four shines, and its cell gets its neighbours' colour:

    >>> layout, y, cr = Layout(4, 1, 1, 1), bytes([90] * 4), bytes([128] * 4)
    >>> old, new = (y, bytes([128, 255, 128, 128]), cr), (y, bytes([128] * 4), cr)
    >>> rgb = fill(layout, *old)
    >>> set(refill(layout, old, new, Rectangle(1, 0, 1, 1), rgb))
    {90}

    Refusals 2, 3, 4, 18, 5, 16, 7, 17, 8, 19 (a cell outside the chroma plane), 10, and 21 where luma, or
    chroma outside the rectangle, differs.
    """
    before, old_strides = three_planes(layout, *old, old_strides)
    after, strides = three_planes(layout, *new, strides)
    accepted(
        call(
            "chroma_refill",
            struct(_raw.ChromaLayout, layout),
            *before,
            struct(_raw.ChromaStrides, old_strides),
            *after,
            struct(_raw.ChromaStrides, strides),
            struct(_raw.ChromaRectangle, cells),
            kernel,
            size,
            floats(scratch_of(layout), "scratch"),
            write(out, "out"),
        )
    )
    return out


def _plane_into(out, layout):
    return zeros("H", _pixels(layout)) if out is None else out


def linear_plane(layout, plane, stride=None, out=None):
    """One whole chroma plane, Cb or Cr, interpolated linearly: ``w * h`` 16-bit values, row by row,
    rounded halves up and limited to 0 to maxval, by either siting and any numerators. Gives ``out``, or
    an array where there is none.

    >>> list(linear_plane(Layout(4, 1, 2, 1), bytes([0, 100])))
    [0, 25, 75, 100]
    >>> list(linear_plane(Layout(4, 1, 2, 1, siting_across=Siting.CO_SITED), bytes([0, 100])))
    [0, 50, 100, 100]

    Refusals 2, 3, 4, 18, 5, 7, 17 and 10.
    """
    lent, stride = lent_plane(plane, stride, layout.cw, layout.sample_bytes, "the plane")
    out = _plane_into(out, layout)
    raw = struct(_raw.ChromaLayout, layout)
    scratch = floats(scratch_of(layout), "scratch")
    accepted(call("chroma_linear_plane", raw, lent, stride, scratch, words(out, "out")))
    return out


def guided_plane(layout, y, plane, y_stride=None, stride=None, out=None):
    """One whole chroma plane, guided by the luma plane ``y``: laid out, rounded and limited as that of
    `linear_plane`.

    >>> y = bytes([0, 16, 160, 176, 192, 255])
    >>> list(guided_plane(Layout(6, 1, 2, 1), y, bytes([77, 77, 77])))
    [77, 77, 77, 77, 77, 77]

    Refusals 2, 3, 4, 18, 5, 16, 7, 17 and 10.
    """
    luma, y_stride = lent_plane(y, y_stride, layout.w, layout.sample_bytes, "y")
    lent, stride = lent_plane(plane, stride, layout.cw, layout.sample_bytes, "the plane")
    out = _plane_into(out, layout)
    raw = struct(_raw.ChromaLayout, layout)
    scratch = floats(scratch_of(layout), "scratch")
    accepted(call("chroma_guided_plane", raw, luma, y_stride, lent, stride, scratch, words(out, "out")))
    return out


def triangular_plane(layout, plane, stride=None, out=None):
    """One whole chroma plane, triangular, in whole numbers: laid out as that of `linear_plane`.

    >>> list(triangular_plane(Layout(6, 1, 2, 1), bytes([0, 100, 200])))
    [0, 25, 75, 125, 175, 200]
    >>> triangular_plane(Layout(4, 1, 2, 1), bytes([0, 100]))
    Traceback (most recent call last):
    chroma.Refused: refused 6: ratios or width that triangular doesn't take

    Refusals 2, 3, 4, 18, 5, 6, 16, 7, 17 and 10.
    """
    lent, stride = lent_plane(plane, stride, layout.cw, layout.sample_bytes, "the plane")
    out = _plane_into(out, layout)
    raw = struct(_raw.ChromaLayout, layout)
    accepted(call("chroma_triangular_plane", raw, lent, stride, words(out, "out")))
    return out


def _colour(pixel):
    accepted(pixel.refusal)
    return pixel.r, pixel.g, pixel.b


def exact_pixel(y, cb256, cr256, maxval=255, range=Range.FULL):
    """The colour of one pixel by the exact kernel: chroma in 256ths, samples in 0 to maxval, or in studio
    range with maxval 255. Refusals 18 and 13.

    >>> exact_pixel(230, 3 * 256, 128 * 256)
    (230, 255, 9)
    >>> exact_pixel(235, 128 * 256, 128 * 256, range=Range.STUDIO)
    (255, 255, 255)
    """
    return _colour(call("chroma_exact_pixel", y, cb256, cr256, maxval, range))


def fixed_pixel(y, cb, cr):
    """The colour of one pixel by the fixed kernel, for maxval 255: whole chroma. Refusal 13.

    >>> fixed_pixel(230, 3, 128)
    (230, 255, 8)
    """
    return _colour(call("chroma_fixed_pixel", y, cb, cr))


def ppm(images):
    """Three PGM images one after another (Y, Cb, Cr; at most 128 wide, 49,152 bytes in all) as the bytes
    of a PPM of 8 bits, guided and exact: what the program ycbcrtoppm does. Refusals 14 and 15 as they
    are met, then 2, 5 and 17.

    >>> ppm(b"P5 1 1 255\\n\\xe6P5 1 1 255\\n\\x03P5 1 1 255\\n\\x80")
    b'P6\\n1 1\\n255\\n\\xe6\\xff\\t'
    """
    out = bytearray(_raw.PICTURE_OUTPUT)
    scratch = floats(zeros("f", _raw.PICTURE_SCRATCH), "scratch")
    written = call("chroma_picture", read(images, "images"), scratch, write(out, "out"))
    accepted(written.refusal)
    return bytes(memoryview(out)[: written.len])
