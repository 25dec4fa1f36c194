#!/usr/bin/env python3
"""Document 01's paragraph on the picture program's input, with document 02's on comments and on maxvals, read plainly,
to compare `netpbm::read` with.

Reads standard input and prints `refused N`, or a line of what was read: the sides, the ratios, the chroma sides, the
bytes of a sample, the maxval, and where the rows of Y, Cb and Cr begin. That a sample exceeds the maxval is no matter
of reading, and is not looked at here.
Usage: oracle/netpbm-reference.py < PICTURE
"""
import re
import sys

WHITE = rb'[ \t\r\n]'
COMMENT = rb'#[^\r\n]*[\r\n]'  # it counts as whitespace, but not for the byte after the maxval


class Refused(Exception):
    pass


def side(data, place):
    """Whitespace, comments counted, and a decimal number; the number, and the place behind it."""
    found = re.compile(rb'(?:' + WHITE + rb'|' + COMMENT + rb')+([0-9]+)').match(data, place)
    if not found:
        raise Refused(14)
    number = 0
    for digit in found.group(1):  # int() turns very long numbers away
        number = number * 10 + digit - ord('0')
        if number > 10 ** 12:
            number = 10 ** 12  # past every limit, and still so with more digits
    return number, found.end()


def image(data, place, wanted=None):
    """One image: width, height, maxval, the place of its rows, and the place behind them. `wanted`: the first one's maxval."""
    if data[place:place + 2] != b'P5':
        raise Refused(14)
    width, place = side(data, place + 2)
    if width > 128:
        raise Refused(15)
    height, place = side(data, place)
    maxval, place = side(data, place)
    if not 1 <= maxval <= 65535 or wanted not in (None, maxval):
        raise Refused(14)
    if not re.match(WHITE, data[place:place + 1]):
        raise Refused(14)
    rows = place + 1
    end = rows + width * height * wide(maxval)
    if len(data) < end:
        raise Refused(15)
    return width, height, maxval, rows, end


def wide(maxval):
    """The bytes of a sample: as many as the maxval needs."""
    return (maxval.bit_length() + 7) // 8


def samples(data, place, count, bytes_each):
    """As many samples from a place on, the high byte first."""
    return [int.from_bytes(data[i:i + bytes_each], 'big')
            for i in range(place, place + count * bytes_each, bytes_each)]


def ratio(pixels, one, other):
    for r in (1, 2, 3, 4):
        if one == other == -(-pixels // r):
            return r
    raise Refused(5)


def read(data):
    if len(data) > 49152:
        raise Refused(15)
    y = image(data, 0)
    cb = image(data, y[4], y[2])
    cr = image(data, cb[4], y[2])
    if cr[4] != len(data):
        raise Refused(14)
    if not (1 <= y[0] <= 8192 and 1 <= y[1] <= 8192):
        raise Refused(2)
    across, down = ratio(y[0], cb[0], cr[0]), ratio(y[1], cb[1], cr[1])
    return [y[0], y[1], across, down, cb[0], cb[1], wide(y[2]), y[2], y[3], cb[3], cr[3]]


def above(data, found):
    """Refusal 17, which comes after what is read: whether a sample of what `read` found exceeds the maxval."""
    w, h, _, _, cw, ch, bytes_each, maxval, y, cb, cr = found
    return any(sample > maxval for place, count in ((y, w * h), (cb, cw * ch), (cr, cw * ch))
               for sample in samples(data, place, count, bytes_each))


def answer(data):
    try:
        return ' '.join(map(str, read(data)))
    except Refused as reason:
        return f'refused {reason.args[0]}'


def main():
    if '-h' in sys.argv or '--help' in sys.argv:
        print(__doc__.strip())
    elif sys.argv[1:]:
        print('oracle/netpbm-reference.py: it takes no word; --help says how to call it', file=sys.stderr)
        sys.exit(2)
    else:
        print(answer(sys.stdin.buffer.read()))


if __name__ == '__main__':
    main()
