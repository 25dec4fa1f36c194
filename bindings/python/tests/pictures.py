"""Random pictures for the tests."""
from chroma import Layout, Range, Siting, Strides


class Picture:
    """A layout with planes of random samples, their rows padded by random bytes."""

    def __init__(self, random, most=24, ratios=None, sitings=False, numerators=False, maxvals=None, ranges=False):
        w, h = random.randint(1, most), random.randint(1, most)
        rh, rv = ratios or (random.randint(1, 4), random.randint(1, 4))
        maxval = random.choice(maxvals or (255, 255, 1, 100, 256, 4095, 65535))
        more = {}
        if sitings:
            more.update(siting_across=random.choice(list(Siting)), siting_down=random.choice(list(Siting)))
        if numerators:
            more.update(num_across=random.randint(1, rh), num_down=random.randint(1, rv))
        if ranges and maxval == 255:
            more.update(range=random.choice(list(Range)))
        self.layout = Layout(w, h, rh, rv, sample_bytes=1 + (maxval > 255), maxval=maxval, **more)
        made = [self._plane(random, w, h)] + [self._plane(random, self.layout.cw, self.layout.ch) for _ in "br"]
        self.planes, strides = zip(*made)
        self.strides = Strides(*strides)

    def _plane(self, random, columns, rows):
        size, maxval = self.layout.sample_bytes, self.layout.maxval
        pad = random.choice((0, 0, 1, 5))
        calm = random.random() < 0.3
        base = random.randint(0, maxval)
        data = bytearray()
        for _ in range(rows):
            for _ in range(columns):
                sample = min(maxval, base + random.randint(0, 3)) if calm else random.randint(0, maxval)
                data += sample.to_bytes(size, "little")
            data += bytes(random.randrange(256) for _ in range(pad))
        return bytes(data), columns * size + pad

    def request(self):
        """The picture as a request to the original (oracle/README.md)."""
        l = self.layout
        words = ["picture", l.w, l.h, l.rh, l.rv, l.sample_bytes, l.maxval]
        for data, stride in zip(self.planes, self.strides):
            words += [stride, data.hex()]
        return " ".join(map(str, words))
