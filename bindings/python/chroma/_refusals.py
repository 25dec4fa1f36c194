"""The reasons for turning a call down, by the numbers of docs/REFUSALS.md."""
from enum import IntEnum

_TABLE = (
    (1, "BAD_STATE", "a state that no call leaves"),
    (2, "BAD_SIZE", "width or height 0 or over 8192"),
    (3, "BAD_RATIO", "ratio outside 1 to 4, or a numerator that the call doesn't take"),
    (4, "BAD_SAMPLES", "sample bytes or maxval out of range"),
    (5, "BAD_CHROMA", "chroma size not the rounded-up quotient"),
    (6, "NO_TRIANGULAR", "ratios or width that triangular doesn't take"),
    (7, "BAD_PLANE", "a plane's stride or data too short"),
    (8, "BAD_PIXEL_SIZE", "pixel size not 3 or 4"),
    (9, "SHORT_SCRATCH", "scratch too short"),
    (10, "SHORT_OUTPUT", "output too short"),
    (11, "BAD_ROW", "row at or past the height"),
    (12, "ROW_PASSED", "row before the reader's place"),
    (13, "BAD_PIXEL", "single-pixel argument out of range"),
    (14, "BAD_HEADER", "header not as it should be, or bytes left over"),
    (15, "TOO_LARGE", "size limits passed, or rows missing"),
    (16, "NOT_CENTRED", "co-sited chroma, which guided and triangular calls don't take"),
    (17, "ABOVE_MAXVAL", "a sample that exceeds maxval"),
    (18, "BAD_RANGE", "studio range with another maxval than 255, or the fixed kernel"),
    (19, "BAD_RECTANGLE", "a rectangle whose end passes what the call takes"),
    (20, "BAD_CHART", "a chart that is not 2 to 24 shades of three bytes"),
    (21, "OTHER_CHANGE", "samples that differ where no change was announced"),
    (22, "UNLIKE", "two pictures of unequal geometry, or a weight above 16"),
    (255, "NO_SUCH_WAY", "a siting, a range or a switch that is neither 0 nor 1"),
)

Refusal = IntEnum("Refusal", [(name, number) for number, name, _ in _TABLE], module="chroma")
Refusal.__doc__ = "The numbers by name, as include/chroma.h has them without their CHROMA_."
_WORDS = {number: words for number, _, words in _TABLE}


class Refused(ValueError):
    """A call was turned down: ``number`` is the first reason of its list that applies, ``words`` say
    what that is. Such a call has changed nothing.

    >>> try:
    ...     fixed_pixel(65536, 128, 128)
    ... except Refused as refused:
    ...     print(refused)
    ...     print(refused.number == Refusal.BAD_PIXEL, refused.words)
    refused 13: single-pixel argument out of range
    True single-pixel argument out of range
    """

    __module__ = "chroma"

    def __init__(self, number):
        super().__init__(number)
        self.number = number
        self.words = _WORDS.get(number, "a reason that this package has no name for")

    def __str__(self):
        return f"refused {self.number}: {self.words}"
