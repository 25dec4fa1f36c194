"""Every kind of buffer gives the same, and what can't be lent is told."""
import array
import ctypes
import mmap
import random
import unittest

import chroma
from chroma import Layout, Rectangle, Refused, Strides
from pictures import Picture

try:
    import numpy
except ImportError:
    numpy = None

Y = bytes([10, 12, 14, 200, 10, 12, 198, 200])
CB, CR = bytes([90, 110]), bytes([200, 180])
LAYOUT = Layout(4, 2, 2, 2)
RGB = bytes(chroma.fill(LAYOUT, Y, CB, CR))


def mapped(data):
    memory = mmap.mmap(-1, len(data))
    memory[:] = data
    return memory


class Buffers(unittest.TestCase):
    def test_kinds(self):
        kinds = [bytes, bytearray, memoryview, mapped, lambda data: array.array("B", data),
                 lambda data: memoryview(bytearray(data)), lambda data: (ctypes.c_ubyte * len(data))(*data),
                 lambda data: memoryview(bytearray(b"x" + data + b"x"))[1:-1],
                 lambda data: memoryview(bytes(n for pair in zip(data, data) for n in pair))[::2]]
        for kind in kinds:
            y, cb, cr = map(kind, (Y, CB, CR))
            self.assertEqual(chroma.fill(LAYOUT, y, cb, cr), RGB)
            reader = chroma.Reader(LAYOUT, y, cb, cr)
            self.assertEqual(list(reader.row(0)[0])[::3], [90, 110])
            out = bytearray(len(RGB))
            self.assertIs(chroma.fill(LAYOUT, y, cb, cr, out=out), out)
            self.assertEqual(out, RGB)
            rgb = kind(RGB)
            self.assertEqual(chroma.patch(Rectangle(2, 0, 2, 2), 4, 2, rgb).whole, (220, 126, 126))

    def test_two_dimensions_bring_strides(self):
        wide = memoryview(bytearray(Y[:4] + b"..." + Y[4:] + b"...")).cast("B", (2, 7))
        self.assertEqual(chroma.fill(LAYOUT, wide, CB, CR), RGB)
        self.assertEqual(chroma.fill(LAYOUT, bytes(wide), CB, CR, Strides(7, 2, 2)), RGB)
        narrow = memoryview(bytearray(8)).cast("B", (4, 2))
        with self.assertRaises(Refused) as caught:
            chroma.fill(LAYOUT, narrow, CB, CR)
        self.assertEqual(caught.exception.number, 7)

    def test_words(self):
        deep = Layout(4, 2, 2, 2, sample_bytes=2, maxval=4095)
        words = [array.array("H", (16 * n for n in data)) for data in (Y, CB, CR)]
        wanted = chroma.fill(deep, *(data.tobytes() for data in words))
        self.assertEqual(chroma.fill(deep, *words), wanted)
        self.assertEqual(chroma.fill(deep, *words, Strides(8, 4, 4)), wanted)
        with self.assertRaisesRegex(TypeError, "format 'H', and must have bytes"):
            chroma.fill(LAYOUT, words[0], CB, CR)

    def test_what_cannot_be_lent(self):
        for y, words in ((list(Y), "list, which has no buffer"), (array.array("b", Y[:3]), "format 'b'"),
                         (array.array("f", 8 * [0]), "format 'f'"), ("text", "str, which has no buffer"),
                         (memoryview(Y * 1).cast("B", (2, 2, 2)), "3 dimensions")):
            with self.assertRaisesRegex(TypeError, words):
                chroma.fill(LAYOUT, y, CB, CR)
        big = ctypes.c_uint16.__ctype_be__ * 8
        with self.assertRaisesRegex(TypeError, "format '>H'"):
            chroma.fill(Layout(4, 2, 2, 2, sample_bytes=2, maxval=4095), big(), CB * 2, CR * 2)
        for out, words in ((bytes(24), "read-only"), (memoryview(bytearray(48))[::2], "gaps"),
                           (array.array("H", bytes(48)), "format 'H'")):
            with self.assertRaisesRegex(TypeError, words):
                chroma.fill(LAYOUT, Y, CB, CR, out=out)
        with self.assertRaisesRegex(TypeError, "must have numbers of 16 bits"):
            chroma.linear_plane(LAYOUT, CB, out=bytearray(16))

    def test_memory_lent_twice(self):
        both = bytearray(Y + bytes(24))
        lent = memoryview(both)
        for out in (lent[7:31], lent[:24], lent):
            before = bytes(both)
            with self.assertRaisesRegex(ValueError, "lent twice"):
                chroma.fill(LAYOUT, lent[:8], CB, CR, out=out)
            self.assertEqual(both, before)
        chroma.fill(LAYOUT, lent[:8], CB, CR, out=lent[8:])
        self.assertEqual(both, Y + RGB)
        self.assertEqual(chroma.fill(LAYOUT, Y, CB, CB), chroma.fill(LAYOUT, Y, CB, bytes(bytearray(CB))))

    def test_memory_is_given_back(self):
        y, out = bytearray(Y), bytearray(24)
        chroma.fill(LAYOUT, y, CB, CR, out=out)
        y.append(0)  # a buffer that is still lent can't grow
        out.append(0)

    def test_numbers_that_do_not_fit(self):
        for call in (lambda: chroma.fixed_pixel(2**32 + 230, 3, 128), lambda: chroma.exact_pixel(-1, 0, 0),
                     lambda: chroma.fill(Layout(4, 2, 2, 2, maxval=2**32 + 255), Y, CB, CR),
                     lambda: chroma.fill(Layout(4, 2, 2, 2, cw=2**64 + 2), Y, CB, CR),
                     lambda: chroma.fill(LAYOUT, Y, CB, CR, strides=(-4, 2, 2)),
                     lambda: chroma.fill(LAYOUT, Y, CB, CR, upsampling=2**32),
                     lambda: chroma.fill(LAYOUT, Y, CB, CR, size=2**64 + 3),
                     lambda: chroma.fill(Layout(-4, 2, 2, 2), Y, CB, CR),
                     lambda: chroma.patch(Rectangle(-1, 0, 2, 2), 4, 2, RGB),
                     lambda: chroma.Reader(LAYOUT, Y, CB, CR).row(-1)):
            with self.assertRaises(OverflowError):
                call()
        for call in (lambda: chroma.fixed_pixel(230.0, 3, 128), lambda: chroma.patch(Rectangle(0.5, 0, 2, 2), 4, 2, RGB),
                     lambda: chroma.fill(Layout(4, 2, 2.0, 2), Y, CB, CR)):
            with self.assertRaises(TypeError):
                call()

    def test_shapes(self):
        pixels = memoryview(bytearray(RGB)).cast("B", (2, 4, 3))
        self.assertEqual(chroma.patch(Rectangle(2, 0, 2, 2), 4, 2, pixels).whole, (220, 126, 126))
        four = memoryview(bytearray(32)).cast("B", (2, 4, 4))
        with self.assertRaisesRegex(ValueError, "three bytes"):
            chroma.patch(Rectangle(2, 0, 2, 2), 4, 2, four)
        chart = memoryview(bytearray(12)).cast("B", (3, 4))
        with self.assertRaisesRegex(ValueError, "three bytes a shade"):
            chroma.chart_reading(chart, Rectangle(0, 0, 1, 1), 4, 2, RGB)
        with self.assertRaises(ValueError):
            chroma.chart_reading([(1, 2, 3), (4, 5)], Rectangle(0, 0, 1, 1), 4, 2, RGB)

    @unittest.skipIf(numpy is None, "numpy isn't there")
    def test_numpy(self):
        chance = random.Random(self.id())
        for _ in range(40):
            picture = Picture(chance)
            layout = picture.layout
            kind = "<u2" if layout.sample_bytes == 2 else "u1"
            wanted = chroma.fill(layout, *picture.planes, picture.strides)
            arrays = []
            for k, (data, stride) in enumerate(zip(picture.planes, picture.strides)):
                w, h = (layout.cw, layout.ch) if k else (layout.w, layout.h)
                rows = [numpy.frombuffer(data, kind, w, y * stride) for y in range(h)]
                arrays.append(numpy.stack(rows))
            self.assertEqual(chroma.fill(layout, *arrays), wanted)
            flipped = [numpy.asfortranarray(each) for each in arrays]
            self.assertEqual(chroma.fill(layout, *flipped), wanted)
            wider = [numpy.pad(each, ((0, 0), (0, 3))) for each in arrays]
            self.assertEqual(chroma.fill(layout, *wider), wanted)
            views = [each[:, :-3] for each in wider]
            self.assertEqual(chroma.fill(layout, *views), wanted)
            out = numpy.zeros((layout.h, layout.w, 3), numpy.uint8)
            self.assertIs(chroma.fill(layout, *arrays, out=out), out)
            self.assertEqual(out.tobytes(), wanted)
            plane = chroma.linear_plane(layout, arrays[1], out=numpy.zeros((layout.h, layout.w), numpy.uint16))
            self.assertEqual(list(plane.ravel()), list(chroma.linear_plane(layout, picture.planes[1], picture.strides.cb)))
            whole = Rectangle(0, 0, layout.w, layout.h)
            mean = chroma.patch(whole, layout.w, layout.h, out).mean
            self.assertEqual(mean, tuple(out.reshape(-1, 3).astype(numpy.float64).mean(0)))
        small = [numpy.uint8(n) for n in (4, 2, 2, 2)]
        self.assertEqual(chroma.fill(Layout(*small), Y, CB, CR, strides=[numpy.uint8(n) for n in (4, 2, 2)]), RGB)
        self.assertEqual(Layout(numpy.uint8(255), 1, 2, 1, sample_bytes=numpy.uint8(2)), Layout(255, 1, 2, 1, sample_bytes=2))
        self.assertEqual(chroma.fixed_pixel(numpy.int64(230), numpy.uint8(3), 128), (230, 255, 8))
        self.assertEqual(list(chroma.Reader(LAYOUT, Y, CB, CR).row(numpy.int64(0))[0])[::3], [90, 110])
        found = chroma.patch(Rectangle(*(numpy.int16(n) for n in (2, 0, 2, 2))), numpy.uint8(4), numpy.uint8(2), RGB)
        self.assertEqual(found.whole, (220, 126, 126))
        with self.assertRaisesRegex(TypeError, "read-only"):
            chroma.fill(LAYOUT, Y, CB, CR, out=numpy.frombuffer(bytes(24), numpy.uint8))
