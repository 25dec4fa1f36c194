"""Pictures that tell document 01's D from one without its max(.., 0). Luma is a
checkerboard: the cells' means are all but equal, so that mean yy - my*my comes out
below 0 by its roundings, and every pixel is far from its cell's mean, so that the
slope shows.

PICTURES lists for each w, h, rh, rv, the sample bytes, maxval, and the samples of
Y, Cb and Cr row by row; `planes` gives a picture's three planes without padding.
The first has samples above its maxval and is another picture without the maximum;
in the others no sample is, and single bits of their rows differ. They were found
by random search, with a copy of the original that lacks the maximum; but for the
second, a byte of the guided fill differs there too.
"""


def board(w, h, even, odd, **others):
    """Luma `even` where x + y is even, else `odd`, but for single pixels, whose
    names are r, their row, c and their column."""
    samples = [(even, odd)[(x + y) % 2] for y in range(h) for x in range(w)]
    for name, sample in others.items():
        row, column = name[1:].split("c")
        samples[int(row) * w + int(column)] = sample
    return samples


PICTURES = [
    # Cb of row 0, column 0 is 25, and 239 without the maximum.
    (6, 3, 3, 3, 1, 2, board(6, 3, 203, 204), [25, 239], [25, 239]),
    (4, 4, 2, 2, 2, 1023, board(4, 4, 640, 755),
     [303, 789, 806, 1015], [1015, 806, 789, 303]),
    (8, 4, 4, 4, 1, 255, board(8, 4, 231, 147, r1c4=148), [0, 255], [0, 162]),
    (6, 6, 2, 3, 1, 255, board(6, 6, 191, 161, r5c1=190, r5c3=192),
     [255, 255, 255, 0, 236, 255], [0, 193, 27, 0, 255, 0]),
    (4, 4, 2, 2, 2, 1023, board(4, 4, 877, 368, r1c3=876, r2c0=876),
     [1023, 1023, 1023, 0], [0, 1023, 1023, 1023]),
    (4, 4, 2, 2, 2, 4095, board(4, 4, 2950, 1607, r1c3=2951, r2c2=2949),
     [0, 0, 1589, 4095], [0, 2605, 0, 0]),
]


def planes(size, *samples):
    """Samples of `size` bytes, the low byte first, as planes."""
    return [b"".join(n.to_bytes(size, "little") for n in plane)
            for plane in samples]
