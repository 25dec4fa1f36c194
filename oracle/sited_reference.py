"""Linear chroma from its positions in exact fractions: not the original's, which
knows centred chroma alone. BT.601 has co-sited samples on every second luma
sample of a row: at ratio 2 an even column is its cell and an odd one the mean of
its neighbours, which is what a position of o/r gives.

A sample is worked out twice: as an exact bilinear value, a fraction, and by
document 01's steps in single precision (down by the tap, then across, three
roundings each). They must lie within 1/16 of each other, and where both
denominators are 1, 2 or 4 they must be equal.

Run by itself it holds a few rows to what a pencil gives.
"""
import struct
from fractions import Fraction

CENTRED, CO_SITED = 0, 1
# How many cells lie to how many outputs: the pairs that linear calls take.
PAIRS = [(num, den) for den in range(1, 5) for num in range(1, den + 1)]
# The sitings of an axis across and of one down, but for centred both ways.
SITED = ((CO_SITED, CENTRED), (CENTRED, CO_SITED), (CO_SITED, CO_SITED))


def single(x):
    """The float of 32 bits nearest to a double. A sum, difference, product or
    quotient of two such floats, worked out in double precision first, comes out
    as if it had been rounded once."""
    return struct.unpack("f", struct.pack("f", x))[0]


def position(axis, den, o):
    """Where output o lies among the cells. An axis is a siting and a numerator,
    den cells' worth of outputs to num cells."""
    siting, num = axis
    if siting == CO_SITED:
        return Fraction(o * num, den)
    return Fraction((2 * o + 1) * num - den, 2 * den)


def tap(axis, den, cells, o):
    """The two cells of output o and its fraction between them."""
    u = position(axis, den, o)
    if u < 0:
        return 0, 0, Fraction(0)
    if u >= cells - 1:
        return cells - 1, cells - 1, Fraction(0)
    return u.__floor__(), u.__floor__() + 1, u - u.__floor__()


def lerp(a, b, f):
    return single(a + single(f * single(b - a)))


def halves_up(v, most):
    """A float or fraction rounded to a whole number, limited to 0..most."""
    return max(0, min(most, (Fraction(v) + Fraction(1, 2)).__floor__()))


def chroma(cells, w, h, across, down, rh, rv):
    """The floats of a plane, a list for each row; `cells` is a list of rows."""
    rows = []
    columns = [tap(across, rh, len(cells[0]), x) for x in range(w)]
    for y in range(h):
        i0, i1, fd = tap(down, rv, len(cells), y)
        fd32 = single(fd.numerator / fd.denominator)
        row = []
        for j0, j1, fa in columns:
            left, right = (lerp(float(cells[i0][j]), float(cells[i1][j]), fd32)
                           for j in (j0, j1))
            v = lerp(left, right, single(fa.numerator / fa.denominator))
            exact = ((1 - fa) * ((1 - fd) * cells[i0][j0] + fd * cells[i1][j0])
                     + fa * ((1 - fd) * cells[i0][j1] + fd * cells[i1][j1]))
            if abs(Fraction(v) - exact) > Fraction(1, 16):
                raise ValueError("more than a sixteenth: %s, %s" % (v, exact))
            if 3 not in (rh, rv) and Fraction(v) != exact:
                raise ValueError("not exact: %s, %s" % (v, exact))
            row.append(v)
        rows.append(row)
    return rows


def plane(case, data, stride):
    """The floats of a stored plane by a case's layout and sitings."""
    cells = samples(data, stride, case["size"], case["cw"], case["ch"])
    across, down = zip(case["sitings"], case.get("nums", (1, 1)))
    return chroma(cells, case["w"], case["h"], across, down, case["rh"],
                  case["rv"])


def ratio_words(case):
    """The words rh and rv of a stored line whose kind is a capital: the siting
    is their first digit, and the numerator less 1 their second, 15 for 0."""
    return [case[name] + (siting << 12) + ((num - 1) % 16 << 8)
            for name, siting, num in zip(("rh", "rv"), case["sitings"],
                                         case.get("nums", (1, 1)))]


def sample_word(case):
    """The word sample_bytes of a stored line whose kind is a capital: the range,
    0 full and 1 studio, is its first digit."""
    return case["size"] + (case.get("range", 0) << 12)


def samples(data, stride, size, columns, rows):
    """The samples of a plane's bytes, a list for each row."""
    return [[int.from_bytes(data[y * stride + size * x:][:size], "little")
             for x in range(columns)] for y in range(rows)]


def main():
    """Cells 0 and 100 across, co-sited at ratios 2, 3 and 4, as BT.601 has them,
    and centred at ratio 2 as document 01 has them."""
    for siting, r, row in ((CO_SITED, 2, [0, 50, 100, 100]),
                           (CO_SITED, 3, [0, 33, 67, 100, 100, 100]),
                           (CO_SITED, 4, [0, 25, 50, 75, 100, 100, 100, 100]),
                           (CENTRED, 2, [0, 25, 75, 100])):
        found = chroma([[0, 100]], 2 * r, 1, (siting, 1), (CENTRED, 1), r, 1)
        if [halves_up(v, 255) for v in found[0]] != row:
            raise SystemExit("%s at ratio %d: %s" % (siting, r, found[0]))
    two_of_three, three_of_four = [0, 100, 200, 60], [0, 100, 200, 60, 10, 250]
    for cells, siting, num, den, row in (
            (two_of_three, CENTRED, 2, 3, [0, 50, 117, 183, 130, 60]),
            (two_of_three, CO_SITED, 2, 3, [0, 67, 133, 200, 107, 60]),
            (three_of_four, CENTRED, 3, 4, [0, 63, 138, 183, 78, 29, 100, 250]),
            (three_of_four, CO_SITED, 3, 4,
             [0, 75, 150, 165, 60, 23, 130, 250])):
        found = chroma([cells], len(row), 1, (siting, num), (CENTRED, 1), den, 1)
        if [halves_up(v, 255) for v in found[0]] != row:
            raise SystemExit("%d of %d: %s" % (num, den, found[0]))
    print("as by hand")


if __name__ == "__main__":
    main()
