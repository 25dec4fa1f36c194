"""include/chroma.h in ctypes: its structs and its functions, under its names and in its order. The
header says what they mean, and tests/test_header.py holds this file to it, name by name and offset by
offset.
"""
import ctypes
import os
from ctypes import c_double, c_float, c_size_t, c_uint8, c_uint16, c_uint32

# CHROMA_VERSION of the header that this file follows, and what suffices for any picture.
VERSION = 0x000a00
PICTURE_SCRATCH = 5120
PICTURE_OUTPUT = 147472
# The longest side that a call takes.
SIDE = 8192


def scratch_need(cw, w):
    """How many floats of scratch a picture needs whose chroma has ``cw`` cells across and whose luma
    has ``w`` pixels. The functions of this package make their own scratch; it is here for whoever
    shares memory with C.

    >>> scratch_need(cw=320, w=640)
    15360
    """
    return 32 * cw + 8 * w


class ChromaLayout(ctypes.Structure):
    _fields_ = [
        ("w", c_size_t),
        ("h", c_size_t),
        ("rh", c_size_t),
        ("rv", c_size_t),
        ("cw", c_size_t),
        ("ch", c_size_t),
        ("sample_bytes", c_size_t),
        ("maxval", c_uint32),
        ("siting_across", c_uint32),
        ("siting_down", c_uint32),
        ("num_across", c_size_t),
        ("num_down", c_size_t),
        ("range", c_uint32),
    ]


class ChromaStrides(ctypes.Structure):
    _fields_ = [("y", c_size_t), ("cb", c_size_t), ("cr", c_size_t)]


class ChromaPhase(ctypes.Structure):
    _fields_ = [("left", c_uint32), ("f", c_float)]


class ChromaReader(ctypes.Structure):
    _fields_ = [
        ("w", c_size_t),
        ("h", c_size_t),
        ("rh", c_size_t),
        ("rv", c_size_t),
        ("cw", c_size_t),
        ("ch", c_size_t),
        ("phases", ChromaPhase * 4),
        ("sample_bytes", c_size_t),
        ("maxval", c_uint32),
        ("range", c_uint32),
        ("place", c_size_t),
        ("h_next", c_size_t),
        ("f_next", c_size_t),
    ]


class ChromaReply(ctypes.Structure):
    _fields_ = [("refusal", c_uint32), ("reader", ChromaReader)]


class ChromaPixel(ctypes.Structure):
    _fields_ = [("refusal", c_uint32), ("r", c_uint8), ("g", c_uint8), ("b", c_uint8)]


class ChromaWritten(ctypes.Structure):
    _fields_ = [("refusal", c_uint32), ("len", c_size_t)]


class ChromaRectangle(ctypes.Structure):
    _fields_ = [("left", c_size_t), ("top", c_size_t), ("width", c_size_t), ("height", c_size_t)]


class ChromaPatch(ctypes.Structure):
    _fields_ = [
        ("refusal", c_uint32),
        ("given", c_uint32),
        ("pixels", c_size_t),
        ("mean", c_double * 3),
        ("whole", c_uint8 * 3),
    ]


class ChromaChartReading(ctypes.Structure):
    _fields_ = [
        ("refusal", c_uint32),
        ("given", c_uint32),
        ("pixels", c_size_t),
        ("nearest", c_size_t),
        ("pair", c_size_t),
        ("weight", c_size_t),
        ("nearest_off", c_uint32),
        ("between_off", c_uint32),
        ("whole", c_uint8 * 3),
    ]


class ChromaBlendReply(ctypes.Structure):
    _fields_ = [("refusal", c_uint32), ("early", ChromaReader), ("late", ChromaReader)]


# A slice is a pointer and how many elements it has. The pointers are addresses, since a plane may be
# any object with a buffer; the three kinds are told apart for tests/test_header.py.
class _Bytes(ctypes.c_void_p):
    element = c_uint8


class _Words(ctypes.c_void_p):
    element = c_uint16


class _Floats(ctypes.c_void_p):
    element = c_float


BYTES, WORDS, FLOATS = ((kind, c_size_t) for kind in (_Bytes, _Words, _Floats))
PLANES = BYTES * 3 + (ChromaStrides,)

# What each function gives, and its parameters.
FUNCTIONS = {
    "chroma_version": (c_uint32, ()),
    "chroma_open": (ChromaReply, (ChromaLayout, *PLANES, *FLOATS, ChromaReader)),
    "chroma_seek": (ChromaReply, (ChromaReader, c_size_t)),
    "chroma_row": (ChromaReply, (ChromaReader, *PLANES, c_size_t, *FLOATS, *FLOATS, *FLOATS)),
    "chroma_rgb_row": (ChromaReply, (ChromaReader, *PLANES, c_size_t, *FLOATS, *BYTES)),
    "chroma_linear_plane": (c_uint32, (ChromaLayout, *BYTES, c_size_t, *FLOATS, *WORDS)),
    "chroma_guided_plane": (c_uint32, (ChromaLayout, *BYTES, c_size_t, *BYTES, c_size_t, *FLOATS, *WORDS)),
    "chroma_triangular_plane": (c_uint32, (ChromaLayout, *BYTES, c_size_t, *WORDS)),
    "chroma_fill": (c_uint32, (ChromaLayout, *PLANES, c_uint32, c_uint32, c_size_t, *FLOATS, *BYTES)),
    "chroma_refill": (
        c_uint32,
        (ChromaLayout, *PLANES, *PLANES, ChromaRectangle, c_uint32, c_size_t, *FLOATS, *BYTES),
    ),
    "chroma_exact_pixel": (ChromaPixel, (c_uint32, c_uint32, c_uint32, c_uint32, c_uint32)),
    "chroma_fixed_pixel": (ChromaPixel, (c_uint32, c_uint32, c_uint32)),
    "chroma_picture": (ChromaWritten, (*BYTES, *FLOATS, *BYTES)),
    "chroma_patch": (ChromaPatch, (ChromaRectangle, c_size_t, c_size_t, *BYTES)),
    "chroma_chart_reading": (ChromaChartReading, (*BYTES, ChromaRectangle, c_size_t, c_size_t, *BYTES)),
    "chroma_blend_row": (
        ChromaBlendReply,
        (*(ChromaReader, *PLANES, *FLOATS) * 2, c_size_t, c_size_t, *BYTES),
    ),
}


def _load():
    """The library that CHROMA_LIBRARY names, or the one beside this file, with its functions declared."""
    path = os.environ.get("CHROMA_LIBRARY")
    if not path:
        path = os.path.join(os.path.dirname(os.path.abspath(__file__)), "libchroma.so")
    try:
        library = ctypes.CDLL(path)
        functions = {name: getattr(library, name) for name in FUNCTIONS}
    except (OSError, AttributeError) as why:
        raise ImportError(
            f"chroma: {why}: `pip install` puts the library beside the package, and"
            " CHROMA_LIBRARY names one that bindings/python/link has made"
        ) from why
    for name, function in functions.items():
        function.restype, function.argtypes = FUNCTIONS[name]
    found = functions["chroma_version"]()
    if found != VERSION:
        raise ImportError(f"chroma: {path} is of version {found:#08x}, and the package of {VERSION:#08x}")
    return functions


LIBRARY = _load()
