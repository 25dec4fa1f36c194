"""Random calls against the references of oracle/, against each other, and against the original where it
is built; and refusals."""
import os
import random
import struct
import unittest
from fractions import Fraction

import chroma
import reference
from chroma import Kernel, Layout, Range, Rectangle, Refused, Siting, Upsampling
from pictures import Picture


def single(bits):
    return struct.unpack(">f", bytes.fromhex(bits))[0]


def in_256ths(value, maxval):
    """Chroma in 256ths, halves up, as the exact kernel takes it."""
    return max(0, min(256 * maxval, (Fraction(value) * 256 + Fraction(1, 2)).__floor__()))


class Against(unittest.TestCase):
    def setUp(self):
        self.random = random.Random(self.id())

    def refused(self, number, function, *arguments, **named):
        with self.assertRaises(Refused) as caught:
            function(*arguments, **named)
        self.assertEqual(caught.exception.number, number)

    def filled(self, picture, rows, kernel):
        """The pixels of a picture by its rows of Cb and of Cr, floats, and document 01's formula."""
        layout = picture.layout
        luma = reference.samples(picture.planes[0], picture.strides.y, layout.sample_bytes, layout.w, layout.h)
        for y in range(layout.h):
            for x in range(layout.w):
                pair = [plane[y][x] for plane in rows]
                if kernel == Kernel.EXACT:
                    pair = [in_256ths(value, layout.maxval) for value in pair]
                else:
                    pair = [reference.sited.halves_up(value, layout.maxval) for value in pair]
                yield reference.pixel("ef"[kernel], luma[y][x], *pair, layout.maxval, layout.range)

    def test_linear_planes(self):
        for _ in range(150):
            picture = Picture(self.random, sitings=True, numerators=True)
            layout = picture.layout
            for data, stride in list(zip(picture.planes, picture.strides))[1:]:
                rows = reference.linear(layout, data, stride)
                wanted = [reference.sited.halves_up(v, layout.maxval) for row in rows for v in row]
                self.assertEqual(list(chroma.linear_plane(layout, data, stride)), wanted)

    def test_linear_fills(self):
        for turn in range(60):
            kernel = Kernel(turn % 2)
            picture = Picture(self.random, 20, sitings=True, numerators=True, maxvals=(255,) if kernel else None,
                              ranges=not kernel)
            pairs = list(zip(picture.planes, picture.strides))[1:]
            rows = [reference.linear(picture.layout, *pair) for pair in pairs]
            size = 3 + turn % 3 % 2
            rgb = chroma.fill(picture.layout, *picture.planes, picture.strides, Upsampling.LINEAR, kernel, size)
            for at, wanted in enumerate(self.filled(picture, rows, kernel)):
                self.assertEqual(list(rgb[size * at : size * at + 3]), wanted)

    def test_guided_fills_are_of_guided_rows(self):
        for turn in range(60):
            kernel = Kernel(turn % 2)
            picture = Picture(self.random, maxvals=(255,) if kernel else None, ranges=not kernel)
            layout = picture.layout
            reader = chroma.Reader(layout, *picture.planes, picture.strides)
            given = [reader.row(y) for y in range(layout.h)]
            rows = [[cb for cb, _ in given], [cr for _, cr in given]]
            rgb = chroma.fill(layout, *picture.planes, picture.strides, kernel=kernel)
            for at, wanted in enumerate(self.filled(picture, rows, kernel)):
                self.assertEqual(list(rgb[3 * at : 3 * at + 3]), wanted)
            for plane, stride, found in zip(picture.planes[1:], picture.strides[1:], rows):
                wanted = [reference.sited.halves_up(v, layout.maxval) for row in found for v in row]
                made = chroma.guided_plane(layout, picture.planes[0], plane, picture.strides.y, stride)
                self.assertEqual(list(made), wanted)

    def test_pixels(self):
        for _ in range(2000):
            maxval = self.random.choice((1, 2, 254, 255, 256, 4095, 65535))
            y, cb, cr = (self.random.randint(0, maxval) for _ in "ybr")
            cb, cr = (256 * n + self.random.randrange(256) * (n < maxval) for n in (cb, cr))
            self.assertEqual(list(chroma.exact_pixel(y, cb, cr, maxval)), reference.pixel("e", y, cb, cr, maxval))
            y, cb, cr = (self.random.randint(0, most) for most in (255, 65280, 65280))
            found = chroma.exact_pixel(y, cb, cr, range=Range.STUDIO)
            self.assertEqual(list(found), reference.pixel("e", y, cb, cr, 255, Range.STUDIO))
            y, cb, cr = (self.random.randint(0, 255) for _ in "ybr")
            self.assertEqual(list(chroma.fixed_pixel(y, cb, cr)), reference.pixel("f", y, cb, cr, 255))

    def test_refills(self):
        for _ in range(150):
            picture = Picture(self.random, 30)
            layout, (y, *chromas) = picture.layout, picture.planes
            left, top = self.random.randrange(layout.cw), self.random.randrange(layout.ch)
            cells = Rectangle(left, top, self.random.randint(0, layout.cw - left), self.random.randint(0, layout.ch - top))
            changed = []
            for data, stride in zip(chromas, picture.strides[1:]):
                data = bytearray(data)
                for row in range(cells.top, cells.top + cells.height):
                    for column in range(cells.left, cells.left + cells.width):
                        at = row * stride + column * layout.sample_bytes
                        sample = self.random.randint(0, layout.maxval)
                        data[at : at + layout.sample_bytes] = sample.to_bytes(layout.sample_bytes, "little")
                changed.append(data)
            old, new, strides = picture.planes, (y, *changed), picture.strides
            rgb, wanted = (chroma.fill(layout, *planes, strides) for planes in (old, new))
            self.assertEqual(chroma.refill(layout, old, new, cells, rgb, strides, strides), wanted)
            before = bytes(rgb)
            outside = Rectangle(cells.left, layout.ch, 1, 1)
            self.refused(19, chroma.refill, layout, old, new, outside, rgb, strides, strides)
            if new != old:
                self.refused(21, chroma.refill, layout, old, new, Rectangle(0, 0, 0, 0), rgb, strides, strides)
            self.assertEqual(rgb, before)

    def test_patches_and_readings(self):
        for _ in range(300):
            w, h = self.random.randint(1, 12), self.random.randint(1, 12)
            data = bytes(self.random.randrange(256) for _ in range(3 * w * h))
            rectangle = Rectangle(*(self.random.randint(0, 14) for _ in "ltwh"))
            chart = bytes(self.random.randrange(256) for _ in range(3 * self.random.randint(2, 24)))
            case = dict(rectangle._asdict(), w=w, h=h, len=len(data), data=data, chart=chart, chart_len=len(chart))
            _, pixels, means, whole = reference.patches.patch(case)
            found = chroma.patch(rectangle, w, h, data)
            read = chroma.chart_reading(chart, rectangle, w, h, data)
            if means is None:
                self.assertIsNone(found)
                self.assertIsNone(read)
                continue
            self.assertEqual(found, (tuple(map(reference.patches.double, means)), whole, pixels))
            wanted = reference.patches.reading(case)[2]
            self.assertEqual(read, (*wanted, whole, pixels))
            shades = [tuple(chart[i : i + 3]) for i in range(0, len(chart), 3)]
            self.assertEqual(chroma.chart_reading(shades, rectangle, w, h, data), read)

    def test_pictures(self):
        for turn in range(60):
            picture = Picture(self.random, 20, maxvals=(255, 7, 4095))
            layout, images, planes = picture.layout, b"", []
            for k, (data, stride) in enumerate(zip(picture.planes, picture.strides)):
                w, h = (layout.cw, layout.ch) if k else (layout.w, layout.h)
                rows = reference.samples(data, stride, layout.sample_bytes, w, h)
                planes.append(b"".join(n.to_bytes(layout.sample_bytes, "little") for row in rows for n in row))
                body = b"".join(n.to_bytes(layout.sample_bytes, "big") for row in rows for n in row)
                images += b"P5\n# a comment\n%d %d\n%d\n" % (w, h, layout.maxval) + body
            if turn % 3 == 0:
                images = images[: self.random.randrange(len(images))]
            answer = reference.netpbm.answer(images)
            if answer.startswith("refused"):
                self.refused(int(answer.split()[1]), chroma.ppm, images)
                continue
            w, h, rh, rv = map(int, answer.split()[:4])
            read = Layout(w, h, rh, rv, sample_bytes=layout.sample_bytes, maxval=layout.maxval)
            header = b"P6\n%d %d\n255\n" % (w, h)
            self.assertEqual(chroma.ppm(images), header + bytes(chroma.fill(read, *planes)))

    @unittest.skipUnless(os.path.exists(reference.ORIGINAL), "oracle/build hasn't built the original")
    def test_original(self):
        for turn in range(150):
            ratios = self.random.choice(((2, 1), (1, 2), (2, 2))) if turn % 2 else None
            picture = Picture(self.random, 40, ratios)
            layout, kernel = picture.layout, self.random.choice(["exact", "fixed"])
            if layout.maxval != 255:
                kernel = "exact"
            how = self.random.choice(["linear", "guided"])
            size = self.random.choice((3, 4))
            row = self.random.randrange(layout.h)
            answers = iter(reference.original(
                picture.request(), "linear 1", "guided 2", "triangular 1", "open", f"row {row}",
                f"fill {size} {how} {kernel}"))
            self.assertEqual(next(answers), "ok")
            y, cb, cr = picture.planes
            strides = picture.strides
            self.assertEqual(" ".join(map(str, chroma.linear_plane(layout, cb, strides.cb))), next(answers))
            self.assertEqual(
                " ".join(map(str, chroma.guided_plane(layout, y, cr, strides.y, strides.cr))), next(answers))
            answer = next(answers)
            if answer == "none":
                self.refused(6, chroma.triangular_plane, layout, cb, strides.cb)
            else:
                self.assertEqual(" ".join(map(str, chroma.triangular_plane(layout, cb, strides.cb))), answer)
            self.assertEqual(next(answers), "ok")
            given = chroma.Reader(layout, y, cb, cr, strides).row(row)
            for found, bits in zip(given, next(answers).split()):
                self.assertEqual(list(found), [single(bits[i : i + 8]) for i in range(0, len(bits), 8)])
            out = bytearray([0xA0]) * (layout.w * layout.h * size)
            chroma.fill(layout, y, cb, cr, strides, Upsampling[how.upper()], Kernel[kernel.upper()], size, out)
            self.assertEqual(out.hex(), next(answers))

    def test_refusals(self):
        """Each number with the call that gives it, and the first of two."""
        y, c = bytes(36), bytes(9)
        good = Layout(6, 6, 2, 2)
        fills = [
            (2, Layout(0, 6, 2, 2), {}),
            (2, Layout(8193, 6, 2, 2), {}),
            (2, Layout(10**9, 10**9, 2, 2), {}),
            (3, Layout(6, 6, 5, 2), {}),
            (3, Layout(6, 6, 0, 2), {}),
            (3, Layout(6, 6, 3, 2, num_across=2), {}),
            (4, Layout(6, 6, 2, 2, maxval=256), {}),
            (4, Layout(6, 6, 2, 2, sample_bytes=3), {}),
            (4, Layout(6, 6, 2, 2, maxval=254), dict(kernel=Kernel.FIXED)),
            (5, Layout(6, 6, 2, 2, cw=4), {}),
            (5, Layout(6, 6, 2, 2, ch=2**64 - 1), {}),
            (7, Layout(7, 6, 2, 2), {}),
            (7, good, dict(strides=(5, 3, 3))),
            (8, good, dict(size=5)),
            (8, good, dict(size=2**64 - 1)),
            (10, good, dict(out=bytearray(107))),
            (16, Layout(6, 6, 2, 2, siting_down=Siting.CO_SITED), {}),
            (18, Layout(6, 6, 2, 2, maxval=254, range=Range.STUDIO), {}),
            (18, Layout(6, 6, 2, 2, range=Range.STUDIO), dict(kernel=Kernel.FIXED)),
            (255, Layout(0, 6, 2, 2, range=2), {}),
            (255, good, dict(upsampling=2)),
            (255, good, dict(kernel=7)),
            (255, Layout(0, 6, 2, 2, siting_across=2), {}),
        ]
        for number, layout, more in fills:
            held = bytes(more["out"]) if "out" in more else None
            self.refused(number, chroma.fill, layout, y, c, c, **more)
            if held is not None:
                self.assertEqual(bytes(more["out"]), held)
        self.refused(17, chroma.fill, Layout(6, 6, 2, 2, maxval=1), bytes(35) + b"\2", c, c)
        self.refused(18, chroma.exact_pixel, 0, 0, 0, 100, Range.STUDIO)
        self.refused(6, chroma.triangular_plane, Layout(4, 4, 2, 2), y)
        self.refused(10, chroma.linear_plane, good, c, out=chroma.linear_plane(Layout(5, 7, 1, 1), y))
        self.refused(13, chroma.exact_pixel, 0, 0, 0, 0)
        self.refused(13, chroma.exact_pixel, 2**32 - 1, 0, 0)
        self.refused(13, chroma.fixed_pixel, 0, 65536, 0)
        self.refused(14, chroma.ppm, b"P4")
        self.refused(15, chroma.ppm, bytes(49153))
        self.refused(16, chroma.Reader, Layout(6, 6, 2, 2, siting_across=1), y, c, c)
        pixel = Rectangle(0, 0, 1, 1)
        self.refused(2, chroma.patch, pixel, 0, 1, b"")
        self.refused(10, chroma.patch, pixel, 1, 1, b"xx")
        self.refused(19, chroma.patch, Rectangle(65535, 0, 1, 1), 1, 1, b"xxx")
        self.refused(19, chroma.patch, Rectangle(2**64 - 1, 0, 2, 1), 1, 1, b"xxx")
        self.refused(20, chroma.chart_reading, b"xxxx", pixel, 0, 1, b"xxx")
        self.refused(20, chroma.chart_reading, [(1, 2, 3)], pixel, 1, 1, b"xxx")
