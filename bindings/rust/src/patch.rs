//! Colours of rectangles of RGB pictures.

use crate::{ffi, Refusal};

/// Part of a picture: its first column and row, and its sides. In pixels for [`patch`] and
/// [`chart_reading`](crate::chart_reading), in chroma cells for [`refill`](crate::refill).
#[derive(Clone, Copy, Debug, PartialEq, Eq, Hash)]
pub struct Rectangle {
    /// The first column.
    pub left: usize,
    /// The first row.
    pub top: usize,
    /// How many columns.
    pub width: usize,
    /// How many rows.
    pub height: usize,
}

/// The colour of a patch: red, green, blue.
#[derive(Clone, Copy, Debug, PartialEq)]
pub struct Patch {
    /// The mean of each channel: the exact sum divided by the number of pixels, rounded once.
    pub mean: [f64; 3],
    /// The same means as whole numbers, halves up.
    pub whole: [u8; 3],
    /// How many pixels they are of.
    pub pixels: usize,
}

/// The mean colour of the pixels that a rectangle shares with a picture of `w` by `h` pixels, three
/// bytes each, row by row without gaps, as [`fill`](crate::fill) leaves it at size 3; `None` where
/// they share no pixel. Refusals 2, 19 (an end past 65,535) and 10, in this order.
///
/// ```
/// use chroma::{patch, Rectangle, Refusal};
///
/// // Two pixels side by side, of which the rectangle has the second and what is past it.
/// let rgb = [0, 0, 254, 1, 10, 255];
/// let both = Rectangle { left: 0, top: 0, width: 2, height: 1 };
/// let read = patch(both, 2, 1, &rgb)?.unwrap();
/// assert_eq!(read.mean, [0.5, 5.0, 254.5]);
/// assert_eq!(read.whole, [1, 5, 255]);
/// let second = patch(Rectangle { left: 1, width: 9, ..both }, 2, 1, &rgb)?.unwrap();
/// assert_eq!((second.whole, second.pixels), ([1, 10, 255], 1));
/// assert_eq!(patch(Rectangle { left: 2, ..both }, 2, 1, &rgb)?, None);
/// assert_eq!(patch(Rectangle { left: 65_534, ..both }, 2, 1, &rgb), Err(Refusal::BadRectangle));
/// # Ok::<(), Refusal>(())
/// ```
pub fn patch(
    rectangle: Rectangle,
    w: usize,
    h: usize,
    rgb: &[u8],
) -> Result<Option<Patch>, Refusal> {
    ffi::patch(rectangle, w, h, rgb)
}
