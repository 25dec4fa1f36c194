//! Readings on charts of shades.

use crate::{ffi, Rectangle, Refusal};

/// Where a patch lies on a chart.
#[derive(Clone, Copy, Debug, PartialEq, Eq)]
pub struct ChartReading {
    /// The index of the nearest shade, from 0; the first of those that are equally near.
    pub nearest: usize,
    /// Its sum of squared differences from `whole`.
    pub nearest_off: u32,
    /// The nearest mix of two neighbours: the index of the first of them.
    pub pair: usize,
    /// How many sixteenths of the second are mixed in, 0 to 16.
    pub weight: usize,
    /// The mix's sum of squared differences from `whole`.
    pub between_off: u32,
    /// The patch's whole-number mean.
    pub whole: [u8; 3],
    /// How many pixels it is of.
    pub pixels: usize,
}

/// Reads a [`patch`](crate::patch()) on a chart of 2 to 24 shades, three bytes each and no byte
/// over: the nearest shade, and the nearest mix of two neighbours, the first pair and then the least
/// weight on a tie; `None` where the rectangle and the picture share no pixel. Refusals 20 (the
/// chart's length), then 2, 19 and 10.
///
/// ```
/// use chroma::{chart_reading, Rectangle, Refusal};
///
/// let chart = [255, 255, 255, 200, 100, 200, 100, 0, 100];
/// let pixel = Rectangle { left: 0, top: 0, width: 1, height: 1 };
/// let read = chart_reading(&chart, pixel, 1, 1, &[150, 50, 150])?.unwrap();
/// assert_eq!((read.nearest, read.nearest_off), (1, 7_500));
/// assert_eq!((read.pair, read.weight, read.between_off), (1, 8, 0));
/// assert_eq!(chart_reading(&chart[1..], pixel, 1, 1, &[0; 3]), Err(Refusal::BadChart));
/// # Ok::<(), Refusal>(())
/// ```
pub fn chart_reading(
    chart: &[u8],
    rectangle: Rectangle,
    w: usize,
    h: usize,
    rgb: &[u8],
) -> Result<Option<ChartReading>, Refusal> {
    ffi::chart_reading(chart, rectangle, w, h, rgb)
}
