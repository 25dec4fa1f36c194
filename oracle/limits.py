"""Refusal 17 of document 02, "if one exceeds maxval", read plainly, and pictures
that it doesn't apply to. plane-cases, reader-cases, fill-cases and ffi-cases take
both from here; it is no script of its own."""

PLANES = ("y", "cb", "cr")
# The shape of planes whose samples are at most the maxval, and the refusals that
# 17 comes before.
HELD, LATER = 6, (0, 8, 9, 10)


def plane(seed, length, size, maxval):
    """Samples up to the maxval, as test_support's `grown_held` draws them: those
    of two bytes begin at even places."""
    states, state = [], seed
    for _ in range(length + 1):
        state = (state * 1103515245 + 12345) % 2**32
        states.append((state >> 16) % (min(maxval, 65535) + 1))
    if size == 1:
        return bytes(n % 256 for n in states[:length])
    return bytes(states[i + 1] % 256 if i % 2 == 0 else states[i] >> 8
                 for i in range(length))


def above(data, stride, size, columns, rows, maxval):
    """Whether a sample of these exceeds the maxval."""
    return any(int.from_bytes(data[y * stride + size * x:][:size], "little")
               > maxval for y in range(rows) for x in range(columns))


def any_above(case, planes):
    """The same of the three planes of a picture."""
    return any(above(data, case[name + "_stride"], case["size"], *sides,
                     case["maxval"])
               for data, name, sides in zip(
                   planes, PLANES, ((case["w"], case["h"]),
                                    *[(case["cw"], case["ch"])] * 2)))


def held(case):
    """A picture like this one, samples up to the maxval: rows of two-byte samples
    begin at even places."""
    made = dict(case)
    for name, rows in zip(PLANES, (case["h"], case["ch"], case["ch"])):
        if case["size"] == 2 and rows > 1 and case[name + "_stride"] % 2:
            made[name + "_stride"] += 1
            made[name + "_len"] += rows - 1
    return made
