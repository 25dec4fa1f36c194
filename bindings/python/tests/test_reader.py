"""The reader gives the rows of its picture, whatever happened before."""
import copy
import pickle
import random
import threading
import unittest
from unittest import mock

import chroma
from chroma import Layout, Reader, Refused, _calls, _raw, _reader
from pictures import Picture


def rows_of(picture):
    """Every row of a picture, each by a reader of its own."""
    given = []
    for row in range(picture.layout.h):
        reader = Reader(picture.layout, *picture.planes, picture.strides)
        given.append(tuple(map(list, reader.row(row))))
    return given


class Rows(unittest.TestCase):
    def setUp(self):
        self.random = random.Random(self.id())

    def row(self, reader, row):
        return tuple(map(list, reader.row(row)))

    def test_jumps_between_pictures(self):
        """One reader over two pictures: opened, sought, read and refused in random order."""
        for _ in range(40):
            pictures = [Picture(self.random, 16) for _ in range(2)]
            rows = [rows_of(picture) for picture in pictures]
            now, place = 0, 0
            reader = Reader(pictures[0].layout, *pictures[0].planes, pictures[0].strides)
            for _ in range(60):
                height = pictures[now].layout.h
                row = self.random.randrange(height + 2)
                what = self.random.choice("oosrrrrrx")
                if what == "o":
                    now, place = self.random.randrange(2), 0
                    reader.open(pictures[now].layout, *pictures[now].planes, pictures[now].strides)
                elif what == "x":
                    with self.assertRaises(Refused):
                        reader.open(Layout(0, 0, 1, 1), b"", b"", b"")
                elif row >= height or what == "r" and row < place:
                    with self.assertRaises(Refused) as caught:
                        (reader.seek if what == "s" else reader.row)(row)
                    self.assertEqual(caught.exception.number, 11 if row >= height else 12)
                elif what == "s":
                    reader.seek(row)
                    place = row
                else:
                    self.assertEqual(self.row(reader, row), rows[now][row])
                    place = row
                self.assertEqual((reader.place, reader.layout), (place, pictures[now].layout))

    def test_planes_are_its_own(self):
        picture = Picture(self.random)
        rows, planes = rows_of(picture), [bytearray(plane) for plane in picture.planes]
        reader = Reader(picture.layout, *planes, picture.strides)
        for plane in planes:
            plane[:] = bytes(len(plane))
        self.assertEqual([self.row(reader, row) for row in range(picture.layout.h)], rows)

    def test_cut_off(self):
        """Ctrl-C after the library's work and before its state is kept, at any row: scratch is ahead."""
        for _ in range(60):
            picture = Picture(self.random, 16)
            rows, height = rows_of(picture), picture.layout.h
            reader = Reader(picture.layout, *picture.planes, picture.strides)
            first = self.random.randrange(height)
            self.row(reader, first)

            with mock.patch.object(_reader, "call", self.cut), self.assertRaises(KeyboardInterrupt):
                reader.row(self.random.randrange(first, height))
            self.assertEqual(reader.place, first)
            if self.random.random() < 0.5:
                first = self.random.randrange(height)
                reader.seek(first)
            for row in range(first, height):
                self.assertEqual(self.row(reader, row), rows[row])

    def test_rgb_rows(self):
        """Rows of chroma and of RGB in turn, forward and back."""
        for _ in range(40):
            picture = Picture(self.random, ranges=True)
            layout = picture.layout
            rgb = chroma.fill(layout, *picture.planes, picture.strides)
            rows, reader = rows_of(picture), Reader(layout, *picture.planes, picture.strides)
            for _ in range(20):
                row = self.random.randrange(layout.h)
                if row < reader.place:
                    reader.seek(self.random.randrange(row + 1))
                if self.random.random() < 0.5:
                    self.assertEqual(self.row(reader, row), rows[row])
                else:
                    self.assertEqual(reader.rgb_row(row), rgb[3 * layout.w * row :][: 3 * layout.w])

    def pair(self):
        """Two pictures of one geometry, and their fills."""
        early = Picture(self.random, 16, maxvals=(255,))
        late = Picture(self.random, 16, maxvals=(255,))
        late.layout = early.layout
        late.planes = [bytes(self.random.randrange(256) for _ in plane) for plane in early.planes]
        late.strides = early.strides
        return [(Reader(each.layout, *each.planes, each.strides), chroma.fill(each.layout, *each.planes, each.strides))
                for each in (early, late)]

    def test_blends(self):
        for _ in range(30):
            (early, first), (late, second) = self.pair()
            w, h = early.layout.w, early.layout.h
            for weight in (0, 16, self.random.randint(1, 15)):
                wanted = bytes(((16 - weight) * a + weight * b + 8) // 16 for a, b in zip(first, second))
                self.assertEqual(chroma.blend(early, late, weight), wanted)
                row = self.random.randrange(h)
                early.seek(self.random.randrange(row + 1))
                late.seek(row)
                self.assertEqual(chroma.blend_row(early, late, row, weight), wanted[3 * w * row :][: 3 * w])
                with mock.patch.object(_reader, "call", self.cut), self.assertRaises(KeyboardInterrupt):
                    chroma.blend_row(early, late, self.random.randrange(row, h), weight)
                self.assertEqual(chroma.blend_row(early, late, row, weight), wanted[3 * w * row :][: 3 * w])
            with self.assertRaises(Refused) as caught:
                chroma.blend_row(early, late, h - 1, 17)
            self.assertEqual(caught.exception.number, 22)
            with self.assertRaisesRegex(ValueError, "two readers"):
                chroma.blend_row(early, early, 0, 3)

    @staticmethod
    def cut(name, *arguments):
        """A call that Ctrl-C cuts off once the library has done its part."""
        _calls.call(name, *arguments)
        raise KeyboardInterrupt

    def test_no_copies(self):
        reader = Reader(Layout(1, 1, 1, 1), b"a", b"b", b"c")
        for make in (copy.copy, copy.deepcopy, pickle.dumps):
            with self.assertRaises(TypeError):
                make(reader)

    def test_outputs(self):
        picture = Picture(self.random)
        w = picture.layout.w
        reader = Reader(picture.layout, *picture.planes, picture.strides)
        wanted = self.row(reader, 0)
        cb, cr = _calls.zeros("f", w + 2), _calls.zeros("f", w)
        self.assertIs(reader.row(0, cb, cr)[0], cb)
        self.assertEqual((list(cb), list(cr)), (wanted[0] + [0, 0], wanted[1]))
        with self.assertRaises(ValueError):
            reader.row(0, cb, cb)
        with self.assertRaises(Refused) as caught:
            reader.row(0, cb, _calls.zeros("f", w - 1))
        self.assertEqual(caught.exception.number, 10)

    def test_threads(self):
        """Threads that seek and read at once: each row is a row of the picture. It is wide, so that the
        library's part of a call is long."""
        layout = Layout(4000, 24, 2, 2)
        planes = [self.random.getrandbits(8 * n).to_bytes(n, "little") for n in (96000, 24000, 24000)]
        rows = [tuple(map(list, Reader(layout, *planes).row(row))) for row in range(layout.h)]
        reader, wrong = Reader(layout, *planes), []

        def work(seed):
            chance = random.Random(seed)
            for _ in range(60):
                row = chance.randrange(layout.h)
                try:
                    reader.seek(chance.randrange(row + 1))
                    if self.row(reader, row) != rows[row]:
                        wrong.append(row)
                except Refused as refused:  # another thread had gone on
                    if refused.number != 12:
                        wrong.append(refused)

        threads = [threading.Thread(target=work, args=(seed,)) for seed in range(4)]
        for thread in threads:
            thread.start()
        for thread in threads:
            thread.join()
        self.assertEqual(wrong, [])

    def test_state_is_refused_if_strange(self):
        """What the package can't hand over is refused by the library all the same."""
        reply = _calls.call("chroma_seek", _raw.ChromaReader(), 0)
        self.assertEqual(reply.refusal, chroma.Refusal.BAD_STATE)
