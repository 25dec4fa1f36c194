"""Document 02's W13 by its sentences: what a refill answers, and the picture
that it leaves. The conversions before and after come from the original; nothing
here is shared with the code or its definitions.

A case is a fill's of oracle/fill-cases, whose planes are those after the change,
with `change`: left, top, width and height of the rectangle, stride and length of
each plane before it, and how those planes come from the ones after it (other, at,
by, held, mask), as crates/test_fill/src/refills.rt has it.
"""
from sited_reference import samples

LARGEST = 0xFFFF
PLANES = ("y", "cb", "cr")


def number(word):
    return 2**64 - 1 if word == LARGEST else word


def rectangle(change):
    return [number(change[key]) for key in ("left", "top", "width", "height")]


def holds(change, i, j):
    left, top, width, height = rectangle(change)
    return left <= i < left + width and top <= j < top + height


def sides(case, k):
    return (case["w"], case["h"]) if k == 0 else (case["cw"], case["ch"])


def old_plane(case, new, k):
    """Plane k before the change, from `new`, the one after it."""
    change, (columns, rows) = case["change"], sides(case, k)
    stride, data = change[PLANES[k] + "_stride"], bytearray()
    for at in range(change[PLANES[k] + "_len"]):
        byte = 9
        if stride:
            j, x = divmod(at, stride)
            i = x // 2 if case["size"] == 2 else x
            if j < rows and i < columns:
                place = j * case[PLANES[k] + "_stride"] + x
                byte = new[place] if place < len(new) else 0
                if k and holds(change, i, j):
                    byte ^= change["mask"] % 256
        if change["other"] == k + 1 and change["at"] == at:
            byte ^= change["by"] % 256
        data.append(byte)
    return bytes(data)


def short(case, k, stride, data):
    """7: "a plane's stride below its row, or data ending before its last row's
    end"."""
    columns, rows = sides(case, k)
    row = columns * case["size"]
    return number(stride) < row or len(data) < (rows - 1) * number(stride) + row


def every_sample(case, k, stride, data):
    return samples(data, stride, case["size"], *sides(case, k))


def refusal(case, old, new):
    """The first number of the list that applies, or 0; `old` and `new` are the
    three planes' bytes before and after."""
    change = case["change"]
    w, h, rh, rv, cw, ch, size = (number(case[key]) for key in
                                  ("w", "h", "rh", "rv", "cw", "ch", "size"))
    nums = case.get("nums", (1, 1))
    if not (1 <= w <= 8192 and 1 <= h <= 8192):
        return 2
    if not (1 <= rh <= 4 and 1 <= rv <= 4) or nums != (1, 1):
        return 3
    most = {1: 255, 2: 65535}.get(size, 0)
    if not 1 <= case["maxval"] <= most:
        return 4
    if case["kernel"] == 1 and case["maxval"] != 255:
        return 4
    if (cw, ch) != (-(-w // rh), -(-h // rv)):
        return 5
    if any(case.get("sitings", ())):
        return 16
    sets = [[(k, source[PLANES[k] + "_stride"], data[k]) for k in range(3)]
            for source, data in ((change, old), (case, new))]
    if any(short(case, *plane) for planes in sets for plane in planes):
        return 7
    pictures = [[every_sample(case, *plane) for plane in planes]
                for planes in sets]
    if any(sample > case["maxval"] for picture in pictures
           for plane in picture for row in plane for sample in row):
        return 17
    if number(case["bpp"]) not in (3, 4):
        return 8
    if case["space"] < case["need"]:
        return 9
    left, top, width, height = rectangle(change)
    # A rectangle has width times height cells; its last is in its last column
    # and row.
    if width * height and (left + width - 1 >= cw or top + height - 1 >= ch):
        return 19
    if case["room"] < w * h * case["bpp"]:
        return 10
    before, after = pictures
    if before[0] != after[0]:
        return 21
    if any(before[k][j][i] != after[k][j][i] and not holds(change, i, j)
           for k in (1, 2) for j in range(ch) for i in range(cw)):
        return 21
    return 0


def near(case, y):
    """Whether row y's cell row is within two of the rectangle."""
    _, top, width, height = rectangle(case["change"])
    return width > 0 and any(abs(y // case["rv"] - j) <= 2
                             for j in range(top, top + height))


def left(case, held, after):
    """The picture that an accepted refill leaves: `held` is the one before it,
    `after` the conversion after the change."""
    out, w, size = bytearray(held), case["w"], case["bpp"]
    for y in range(case["h"]):
        if near(case, y):
            for at in range(y * w * size, (y + 1) * w * size):
                if at % size < 3:
                    out[at] = after[at]
    return bytes(out)
