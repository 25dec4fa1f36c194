"""How a call is made: numbers that fit, slices that are lent for its time, and its answer."""
import ctypes
import operator
from array import array

from . import _raw
from ._refusals import Refused

_MOST = {ctypes.c_size_t: 2 ** (8 * ctypes.sizeof(ctypes.c_size_t)) - 1, ctypes.c_uint32: 2**32 - 1}
# What a buffer's elements are called, without the sign for the byte order, which is the machine's.
_BYTE, _WORD, _FLOAT = frozenset("Bc"), frozenset("H"), frozenset("f")
_NAMES = {_BYTE: "bytes", _WORD: "numbers of 16 bits", _BYTE | _WORD: "bytes or numbers of 16 bits", _FLOAT: "floats of 32 bits"}


def number(value, kind, name):
    """A whole number for C. ctypes would cut off what doesn't fit, and a wrong number would be accepted."""
    whole = operator.index(value)
    if not 0 <= whole <= _MOST[kind]:
        raise OverflowError(f"{name} is {whole}, and must be from 0 to {_MOST[kind]}")
    return whole


def struct(kind, value):
    """The C struct of an object that has its fields."""
    return kind(*(number(getattr(value, name), field, name) for name, field in kind._fields_))


class Slice:
    """An address, how many elements lie there, and what keeps them there."""

    __slots__ = ("address", "length", "bytes", "written", "keeper")

    def __init__(self, address, length, size, written, keeper):
        self.address, self.length, self.bytes = address, length, size
        self.written, self.keeper = written, keeper


def view(data, formats, name):
    """The memoryview of an object whose elements are of such a kind."""
    try:
        seen = memoryview(data)
    except TypeError:
        raise TypeError(f"{name} is of {type(data).__name__}, which has no buffer") from None
    if seen.format.lstrip("@=<") not in formats:
        raise TypeError(f"{name} has elements of format {seen.format!r}, and must have {_NAMES[formats]}")
    return seen


def read(data, name, formats=_BYTE):
    """Bytes to read. A buffer that is read-only, but for bytes, or that has gaps is copied: ctypes can't
    lend it."""
    seen = view(data, formats, name)
    if isinstance(data, bytes):
        return of_bytes(data)
    if seen.readonly or not seen.c_contiguous:
        return of_bytes(seen.tobytes())
    return Slice(*_writable(seen), seen.nbytes, False, seen)


def of_bytes(data):
    keeper = ctypes.c_char_p(data)
    return Slice(ctypes.cast(keeper, ctypes.c_void_p).value, len(data), len(data), False, data)


def write(data, name, formats=_BYTE):
    """Memory to write, of bytes, 16-bit numbers or floats."""
    seen = view(data, formats, name)
    if seen.readonly:
        raise TypeError(f"{name} is read-only")
    if not seen.c_contiguous:
        raise TypeError(f"{name} has gaps between its elements")
    return Slice(*_writable(seen), seen.nbytes, True, seen)


def words(data, name):
    return write(data, name, _WORD)


def floats(data, name):
    return write(data, name, _FLOAT)


def _writable(seen):
    """The address of a writable buffer, and how many elements it has. It stays where it is while the
    view lives."""
    if seen.nbytes == 0:
        return None, 0
    return ctypes.addressof(ctypes.c_char.from_buffer(seen)), seen.nbytes // seen.itemsize


def lent_plane(data, stride, columns, sample_bytes, name):
    """A plane's bytes, and how many apart its rows begin: where no stride is given, a row of a
    two-dimensional array, and rows without gaps of anything else."""
    formats = _BYTE | _WORD if sample_bytes == 2 else _BYTE
    seen = view(data, formats, name)
    if seen.ndim not in (1, 2):
        raise TypeError(f"{name} has {seen.ndim} dimensions, and must have 1 or 2")
    lent = read(data, name, formats)
    lent.length = lent.bytes
    if stride is None:
        stride = seen.shape[1] * seen.itemsize if seen.ndim == 2 else columns * sample_bytes
    return lent, stride


def zeros(kind, count):
    """An array of zeros, or of none where there are more than a picture can have: the call is then
    refused for its sides, before its outputs are looked at."""
    if not 0 <= count <= 4 * _raw.SIDE * _raw.SIDE:
        count = 0
    return bytearray(count) if kind == "B" else array(kind, bytes(count * array(kind).itemsize))


def call(name, *arguments):
    """Calls a function of the header. A slice stands for its pointer and its length, and no slice that
    is written may overlap another one."""
    result, parameters = _raw.FUNCTIONS[name]
    slices = [each for each in arguments if isinstance(each, Slice)]
    handed = []
    for each in arguments:
        handed += (each.address, each.length) if isinstance(each, Slice) else (each,)
    if len(handed) != len(parameters):
        raise TypeError(f"{name} takes {len(parameters)} words, not {len(handed)}")
    for at, kind in enumerate(parameters):
        if kind in _MOST:
            handed[at] = number(handed[at], kind, f"a number of {name}")
    for i, one in enumerate(slices):
        for other in slices[:i]:
            if (one.written or other.written) and one.bytes and other.bytes and (
                one.address < other.address + other.bytes and other.address < one.address + one.bytes
            ):
                raise ValueError(f"{name} is to write memory that it is lent twice")
    return _raw.LIBRARY[name](*handed)


def accepted(refusal):
    """Raises where a call was refused."""
    if refusal:
        raise Refused(refusal)
