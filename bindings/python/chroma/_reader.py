"""The reader of guided rows."""
import threading
from typing import NamedTuple

from . import _raw
from ._calls import accepted, call, floats, of_bytes, struct, write, zeros
from ._pictures import Layout, scratch_of, three_planes


class _Held(NamedTuple):
    """What belongs together, so that it is exchanged at once."""

    layout: Layout
    planes: list
    strides: _raw.ChromaStrides
    scratch: object
    state: _raw.ChromaReader


class Reader:
    """Reads rows of Cb and Cr, guided by luma, from a picture, at row 0 first.

    It keeps its state and its scratch to itself, and its planes as bytes, so that nobody else can change
    them (a plane that isn't of type bytes is copied once); threads take turns. So the premise of the
    library's theorem about lists of calls holds: every row it gives is that of its picture and the row
    number alone, whatever was read, sought, refused or cut off before.

    >>> y = bytes(range(0, 240, 20))
    >>> reader = Reader(Layout(4, 3, 2, 3), y, cb=bytes([90, 90]), cr=bytes([200, 200]))
    >>> cb, cr = reader.row(2)
    >>> list(cb), list(cr)
    ([90.0, 90.0, 90.0, 90.0], [200.0, 200.0, 200.0, 200.0])

    Back only by a seek:

    >>> reader.row(1)
    Traceback (most recent call last):
    chroma.Refused: refused 12: row before the reader's place
    >>> reader.seek(0)
    >>> cb, cr = reader.row(1)
    >>> reader.place
    1

    Refusals of opening: 2, 3, 4, 5, 16 (chroma co-sited) and 7.
    """

    __slots__ = ("_lock", "_held", "_joined")

    def __init__(self, layout, y, cb, cr, strides=None):
        self._lock = threading.Lock()
        self._held = None
        self.open(layout, y, cb, cr, strides)

    def __reduce__(self):
        raise TypeError("a Reader can't be copied: two of them would share their scratch")

    def open(self, layout, y, cb, cr, strides=None):
        """Goes on to another picture, at its row 0. Where that is refused, the reader stays where it is."""
        planes, strides = three_planes(layout, y, cb, cr, strides)
        for i, lent in enumerate(planes):
            if not isinstance(lent.keeper, bytes):
                planes[i] = of_bytes(lent.keeper.tobytes())
        strides = struct(_raw.ChromaStrides, strides)
        with self._lock:
            scratch = scratch_of(layout)
            if self._held is not None and len(scratch) <= len(self._held.scratch):
                scratch = self._held.scratch
            picture = _Held(layout, planes, strides, scratch, _raw.ChromaReader())
            self._held = picture._replace(state=_opened(picture))
            self._joined = True

    def _join(self):
        """A row call that was cut off, by Ctrl-C, between the library's work on scratch and the keeping of
        its state has left the two apart. The picture is opened anew, at the place that was kept: from an
        open on, what scratch holds doesn't count."""
        if not self._joined:
            reply = call("chroma_seek", _opened(self._held), self._held.state.place)
            accepted(reply.refusal)
            self._held = self._held._replace(state=reply.reader)
            self._joined = True

    @property
    def layout(self):
        """The picture's numbers."""
        return self._held.layout

    @property
    def place(self):
        """The row that it is at: the last one sought or given, 0 at first."""
        return self._held.state.place

    def seek(self, row):
        """Moves to any row, back as well. Refusal 11."""
        with self._lock:
            self._join()
            reply = call("chroma_seek", self._held.state, row)
            accepted(reply.refusal)
            self._held = self._held._replace(state=reply.reader)

    def row(self, row, out_cb=None, out_cr=None):
        """Row ``row`` of Cb and of Cr, ``w`` floats each, in the samples' units, not rounded, each within
        the extremes of the 3 by 3 cells round its own. The row may be the place or any after it. Gives
        ``out_cb`` and ``out_cr``, or arrays where there are none. Refusals 10, 11 and 12, after which
        everything is as it was."""
        with self._lock:
            self._join()
            w = self._held.layout.w
            out_cb = zeros("f", w) if out_cb is None else out_cb
            out_cr = zeros("f", w) if out_cr is None else out_cr
            self._given("chroma_row", row, floats(out_cb, "out_cb"), floats(out_cr, "out_cr"))
        return out_cb, out_cr

    def rgb_row(self, row, out=None):
        """Row ``row`` as RGB, guided and exact: ``w`` pixels of three bytes, as `fill` gives that row. The
        reader moves as by `row`. Gives ``out``, or a bytearray where there is none. Refusals 10, 11 and 12.

        >>> list(Reader(Layout(1, 2, 1, 1), bytes([0, 230]), bytes([3, 3]), bytes([128, 128])).rgb_row(1))
        [230, 255, 9]
        """
        with self._lock:
            self._join()
            out = zeros("B", 3 * self._held.layout.w) if out is None else out
            self._given("chroma_rgb_row", row, write(out, "out"))
        return out

    def _given(self, name, row, *outputs):
        """Makes a row call and keeps the state that it gives."""
        held = self._held
        scratch = floats(held.scratch, "scratch")
        self._joined = False
        reply = call(name, held.state, *held.planes, held.strides, row, scratch, *outputs)
        if not reply.refusal:
            self._held = held._replace(state=reply.reader)
        self._joined = True
        accepted(reply.refusal)


def _opened(held):
    """The state that opening a picture gives."""
    layout, scratch = struct(_raw.ChromaLayout, held.layout), floats(held.scratch, "scratch")
    reply = call("chroma_open", layout, *held.planes, held.strides, scratch, held.state)
    accepted(reply.refusal)
    return reply.reader


def blend_row(early, late, row, weight, out=None):
    """A row between two pictures of equal geometry, each with its own `Reader`: ``w`` pixels of three bytes,
    ``(16 - weight)`` sixteenths of the early picture's and ``weight`` of the late one's, rounded halves up.
    Both readers move as by their `row`. Gives ``out``, or a bytearray where there is none. Refusals 22
    (unequal geometry, or a weight above 16), 10, 11, and 12 where either reader is past the row; then
    both are as they were.

    >>> grey = bytes([128])
    >>> early, late = (Reader(Layout(1, 1, 1, 1), bytes([level]), grey, grey) for level in (200, 120))
    >>> list(blend_row(early, late, 0, 4))
    [180, 180, 180]
    """
    if early is late:
        raise ValueError("a blend needs two readers, each with its own scratch")
    first, second = sorted((early, late), key=id)
    with first._lock, second._lock:
        early._join()
        late._join()
        sides = early._held, late._held
        out = zeros("B", 3 * sides[0].layout.w) if out is None else out
        handed = []
        for held in sides:
            handed += [held.state, *held.planes, held.strides, floats(held.scratch, "scratch")]
        early._joined = late._joined = False
        reply = call("chroma_blend_row", *handed, row, weight, write(out, "out"))
        if not reply.refusal:
            early._held = sides[0]._replace(state=reply.early)
            late._held = sides[1]._replace(state=reply.late)
        early._joined = late._joined = True
        accepted(reply.refusal)
    return out


def blend(early, late, weight):
    """The whole picture between two, by `blend_row`, for `patch` and `chart_reading`: a bytearray of
    ``w * h`` pixels of three bytes. Both readers start at row 0 and end at the last one."""
    early.seek(0)
    late.seek(0)
    rows = (blend_row(early, late, row, weight) for row in range(early.layout.h))
    return bytearray().join(rows)
