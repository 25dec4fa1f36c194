"""Colour in studio range in exact fractions: not the original's, which knows full
range alone. BT.601 has luma 16 to 235 and chroma 16 to 240, and T.871's equations
are taken on 255·(Y−16)/219 and 255·(C−128)/224; chroma is in 256ths, its offset
limited to 32,768 of them first. Each colour is one fraction, rounded once, halves
up, and limited to 0..255.

Run by itself it holds a few pixels to what a pencil gives.
"""
from fractions import Fraction

FULL, STUDIO = 0, 1


def thousandths(n):
    return Fraction(n, 1000)


def colour(y, cb256, cr256):
    luma = Fraction(255 * (y - 16), 219)
    cb, cr = (Fraction(255 * max(-32768, min(32768, c - 32768)), 224 * 256)
              for c in (cb256, cr256))
    red = luma + thousandths(1402) * cr
    green = luma - (thousandths(114) * thousandths(1772) * cb
                    + thousandths(299) * thousandths(1402) * cr) / thousandths(587)
    blue = luma + thousandths(1772) * cb
    return [max(0, min(255, (v + Fraction(1, 2)).__floor__()))
            for v in (red, green, blue)]


# Whole samples and their colours: black, white and grey, the ends, the bars of a
# test card, and the corners of what a byte holds.
WHOLE = {
    (16, 128, 128): (0, 0, 0), (235, 128, 128): (255, 255, 255),
    (126, 128, 128): (128, 128, 128), (17, 128, 128): (1, 1, 1),
    (180, 128, 128): (191, 191, 191), (0, 128, 128): (0, 0, 0),
    (15, 128, 128): (0, 0, 0), (236, 128, 128): (255, 255, 255),
    (255, 128, 128): (255, 255, 255), (65535, 128, 128): (255, 255, 255),
    (81, 90, 240): (254, 0, 0), (145, 54, 34): (0, 255, 1),
    (41, 240, 110): (0, 0, 255), (16, 16, 16): (0, 135, 0),
    (16, 240, 240): (179, 0, 226), (235, 240, 240): (255, 120, 255),
    (235, 16, 16): (76, 255, 29), (128, 16, 240): (255, 83, 0),
    (128, 240, 16): (0, 178, 255), (0, 0, 0): (0, 136, 0),
    (255, 255, 255): (255, 125, 255), (100, 0, 255): (255, 45, 0),
    (100, 255, 0): (0, 152, 255),
}
# In 256ths: the limit, and steps of one about the centre.
IN_256THS = {
    (100, 65536, 65536): (255, 0, 255), (100, 16776960, 16776960): (255, 0, 255),
    (100, 65537, 0): (0, 152, 255), (100, 32769, 32767): (98, 98, 98),
    (16, 32768, 33024): (2, 0, 0),
}


def vectors():
    """Luma, chroma in 256ths, and the colour."""
    for (y, cb, cr), found in WHOLE.items():
        yield y, 256 * cb, 256 * cr, list(found)
    for (y, cb, cr), found in IN_256THS.items():
        yield y, cb, cr, list(found)


def main():
    for y, cb, cr, found in vectors():
        if colour(y, cb, cr) != found:
            raise SystemExit("%d %d %d: %s" % (y, cb, cr, colour(y, cb, cr)))
    print("as by hand")


if __name__ == "__main__":
    main()
