//! Chroma reconstruction and colour conversion: from Y, Cb and Cr planes to RGB, by a library
//! whose every function is proved to meet its contract. This crate is a thin safe wrapper over
//! its C interface (include/chroma.h); slices and lifetimes keep what C callers must.
//!
//! The library is linked from the repository's target/staticlib, where `tools/build staticlib ffi` writes
//! it, or from the folder that CHROMA_LIB_DIR names when cargo runs. A crate of your own needs
//! `chroma = { path = "…/bindings/rust" }` among its dependencies and nothing else.
//!
//! [`fill`] gives a whole picture as RGB and [`refill`] brings one up to date where a few cells of
//! chroma were replaced, a [`Reader`] gives rows of chroma, [`linear_plane`] and the
//! like one plane of chroma. [`patch`] reads the colour of a rectangle from a picture of RGB rows,
//! and [`chart_reading`] finds that colour on a chart. A [`Blend`] gives the rows between two
//! photographs, to be read in the same way.
//!
//! ```
//! use chroma::{fill, Kernel, Layout, Picture, Plane, Scratch, Upsampling};
//!
//! let (y, cb, cr) = ([230], [3], [128]);
//! let picture = Picture::new(
//!     Layout::new(1, 1, 1, 1),
//!     Plane::new(&y, 1),
//!     Plane::new(&cb, 1),
//!     Plane::new(&cr, 1),
//! )?;
//! let mut rgb = [0; 3];
//! fill(&picture, Upsampling::LumaGuided, Kernel::Exact, 3, &mut Scratch::new(), &mut rgb)?;
//! assert_eq!(rgb, [230, 255, 9]);
//! # Ok::<(), chroma::Refusal>(())
//! ```
#![deny(missing_docs)]
#![deny(unsafe_code)]

mod blend;
mod chart;
#[allow(unsafe_code)]
mod ffi;
mod patch;
mod picture;
mod reader;
mod refusal;

pub use blend::Blend;
pub use chart::{chart_reading, ChartReading};
pub use patch::{patch, Patch, Rectangle};
pub use picture::{Layout, Picture, Plane, Range, Scratch, Siting};
pub use reader::Reader;
pub use refusal::Refusal;

/// How chroma is reconstructed.
#[derive(Clone, Copy, Debug, PartialEq, Eq)]
pub enum Upsampling {
    /// Between cells, in a straight line.
    Linear = 0,
    /// Guided by luma.
    LumaGuided = 1,
}

/// Which kernel makes the colour.
#[derive(Clone, Copy, Debug, PartialEq, Eq)]
pub enum Kernel {
    /// T.871's equations, each colour rounded once, on chroma in 256ths.
    Exact = 0,
    /// 16-bit fixed point on chroma rounded to whole samples, for maxval 255.
    FixedPoint16 = 1,
}

/// The picture's pixels into `out`, row by row, `size` bytes each (3 or 4): red, green, blue; a
/// fourth byte keeps what it held. Colour is T.871's (JFIF: BT.601's coefficients), in 8 bits
/// whatever maxval is, by the layout's range. Refusals 4 (fixed kernel, maxval not 255), 18 (fixed
/// kernel, studio range), 16 (guided, chroma co-sited), 8 and 10.
///
/// ```
/// use chroma::{fill, Kernel, Layout, Picture, Plane, Refusal, Scratch, Upsampling};
///
/// let (y, cb, cr) = ([230; 2], [3; 2], [128; 2]);
/// let picture = Picture::new(
///     Layout::new(2, 1, 1, 1),
///     Plane::new(&y, 2),
///     Plane::new(&cb, 2),
///     Plane::new(&cr, 2),
/// )?;
/// let mut scratch = Scratch::new();
/// let mut rgba = [77; 8];
/// fill(&picture, Upsampling::Linear, Kernel::FixedPoint16, 4, &mut scratch, &mut rgba)?;
/// assert_eq!(rgba, [230, 255, 8, 77, 230, 255, 8, 77]);
///
/// let short = fill(&picture, Upsampling::Linear, Kernel::Exact, 4, &mut scratch, &mut rgba[..7]);
/// assert_eq!(short, Err(Refusal::ShortOutput));
/// # Ok::<(), Refusal>(())
/// ```
pub fn fill(
    picture: &Picture,
    upsampling: Upsampling,
    kernel: Kernel,
    size: usize,
    scratch: &mut Scratch,
    out: &mut [u8],
) -> Result<(), Refusal> {
    let layout = *picture.layout();
    ffi::fill(
        layout,
        picture.planes(),
        (upsampling as u32, kernel as u32),
        size,
        scratch.of(&layout),
        out,
    )
}

/// Brings `out` up to date where a rectangle of chroma cells was replaced: `old` are the planes before
/// the change (Y, Cb, Cr), `picture` is the one after it, and `out` the picture before it, as a guided
/// [`fill`] with the same kernel and size leaves it. Only the rows whose cell row, `y / rv`, is within
/// two of the rectangle are written, as that fill would write them now; then `out` is the guided fill
/// of `picture`. An empty rectangle writes nothing. Luma may not differ, nor chroma outside the
/// rectangle. Refusals 4 (fixed kernel, maxval not 255), 16 (chroma co-sited), 7 and 17 (`old`), 8,
/// 19 (a cell outside the chroma plane), 10 and 21, in this order.
///
/// ```
/// use chroma::{fill, refill, Kernel, Layout, Picture, Plane, Rectangle, Refusal, Scratch, Upsampling};
///
/// // One pixel in a row of 4 shines; its cell gets the colour of its neighbour.
/// let layout = Layout::new(4, 1, 1, 1);
/// let (y, cb, cr) = ([90; 4], [128, 255, 128, 128], [128; 4]);
/// let old = [Plane::new(&y, 4), Plane::new(&cb, 4), Plane::new(&cr, 4)];
/// let (kernel, mut scratch, mut rgb) = (Kernel::Exact, Scratch::new(), [0; 12]);
/// let picture = Picture::new(layout, old[0], old[1], old[2])?;
/// fill(&picture, Upsampling::LumaGuided, kernel, 3, &mut scratch, &mut rgb)?;
/// assert_ne!(rgb, [90; 12]);
///
/// let mended = [128; 4];
/// let picture = Picture::new(layout, old[0], Plane::new(&mended, 4), old[2])?;
/// let cells = Rectangle { left: 1, top: 0, width: 1, height: 1 };
/// refill(old, &picture, cells, kernel, 3, &mut scratch, &mut rgb)?;
/// assert_eq!(rgb, [90; 12]);
///
/// let beside = Rectangle { left: 2, ..cells };
/// let other = refill(old, &picture, beside, kernel, 3, &mut scratch, &mut rgb);
/// assert_eq!(other, Err(Refusal::OtherChange));
/// # Ok::<(), Refusal>(())
/// ```
pub fn refill(
    old: [Plane; 3],
    picture: &Picture,
    cells: Rectangle,
    kernel: Kernel,
    size: usize,
    scratch: &mut Scratch,
    out: &mut [u8],
) -> Result<(), Refusal> {
    let layout = *picture.layout();
    ffi::refill(
        layout,
        (&old, picture.planes()),
        cells,
        kernel as u32,
        size,
        scratch.of(&layout),
        out,
    )
}

/// One whole chroma plane (Cb or Cr), interpolated linearly: `w * h` values into `out`, row by row,
/// rounded halves up and limited to `0..=maxval`, by either siting. Refusals 2, 3, 4, 18, 5, 7,
/// 17 and 10.
///
/// ```
/// use chroma::{linear_plane, Layout, Plane, Scratch, Siting};
///
/// let mut out = [0; 4];
/// let layout = Layout::new(4, 1, 2, 1);
/// linear_plane(layout, Plane::new(&[0, 100], 2), &mut Scratch::new(), &mut out)?;
/// assert_eq!(out, [0, 25, 75, 100]);
///
/// let video = Layout { siting_across: Siting::CoSited, ..layout };
/// linear_plane(video, Plane::new(&[0, 100], 2), &mut Scratch::new(), &mut out)?;
/// assert_eq!(out, [0, 50, 100, 100]);
/// # Ok::<(), chroma::Refusal>(())
/// ```
pub fn linear_plane(
    layout: Layout,
    plane: Plane,
    scratch: &mut Scratch,
    out: &mut [u16],
) -> Result<(), Refusal> {
    ffi::linear_plane(layout, plane, scratch.of(&layout), out)
}

/// One whole chroma plane, guided by the luma plane `y`: `w * h` values into `out`, laid out,
/// rounded and limited as those of [`linear_plane`]. Refusals 2, 3, 4, 18, 5, 16, 7, 17 and
/// 10.
///
/// ```
/// use chroma::{guided_plane, Layout, Plane, Scratch};
///
/// let (y, cells) = ([10, 200, 30, 90], [77, 77]);
/// let mut out = [0; 4];
/// let layout = Layout::new(4, 1, 2, 1);
/// guided_plane(layout, Plane::new(&y, 4), Plane::new(&cells, 2), &mut Scratch::new(), &mut out)?;
/// assert_eq!(out, [77; 4]);
/// # Ok::<(), chroma::Refusal>(())
/// ```
pub fn guided_plane(
    layout: Layout,
    y: Plane,
    plane: Plane,
    scratch: &mut Scratch,
    out: &mut [u16],
) -> Result<(), Refusal> {
    ffi::guided_plane(layout, y, plane, scratch.of(&layout), out)
}

/// One whole chroma plane, triangular, in whole numbers: `w * h` values into `out`, row by row.
/// Refusals 2, 3, 4, 18, 5, 6, 16, 7, 17 and 10.
///
/// ```
/// use chroma::{triangular_plane, Layout, Plane, Refusal};
///
/// let mut out = [0; 6];
/// triangular_plane(Layout::new(6, 1, 2, 1), Plane::new(&[0, 100, 200], 3), &mut out)?;
/// assert_eq!(out, [0, 25, 75, 125, 175, 200]);
///
/// let narrow = triangular_plane(Layout::new(4, 1, 2, 1), Plane::new(&[0, 100], 2), &mut out);
/// assert_eq!(narrow, Err(Refusal::NoTriangular));
/// # Ok::<(), Refusal>(())
/// ```
pub fn triangular_plane(layout: Layout, plane: Plane, out: &mut [u16]) -> Result<(), Refusal> {
    ffi::triangular_plane(layout, plane, out)
}

/// The colour of one pixel by the exact kernel: chroma in 256ths, samples in `0..=maxval`, or in
/// studio range with maxval 255. Refusals 18 and 13.
///
/// ```
/// use chroma::{exact_pixel, Range};
///
/// assert_eq!(exact_pixel(230, 3 * 256, 128 * 256, 255, Range::Full), Ok([230, 255, 9]));
/// assert_eq!(exact_pixel(235, 128 * 256, 128 * 256, 255, Range::Studio), Ok([255, 255, 255]));
/// ```
pub fn exact_pixel(
    y: u32,
    cb256: u32,
    cr256: u32,
    maxval: u32,
    range: Range,
) -> Result<[u8; 3], Refusal> {
    ffi::exact_pixel(y, cb256, cr256, maxval, range)
}

/// The colour of one pixel by the fixed kernel, for maxval 255: whole chroma. Refusal 13.
///
/// ```
/// assert_eq!(chroma::fixed_pixel(230, 3, 128), Ok([230, 255, 8]));
/// ```
pub fn fixed_pixel(y: u32, cb: u32, cr: u32) -> Result<[u8; 3], Refusal> {
    ffi::fixed_pixel(y, cb, cr)
}

/// Three PGM images one after another (Y, Cb, Cr; width at most 128, 49,152 bytes in all) as a PPM of
/// 8 bits, guided and exact. The maxval is any from 1 to 65,535, the same in all three; above 255 a
/// sample is two bytes, the high byte first (in planes it is the low one). Between `P5` and the maxval a
/// comment, from `#` through the next CR or LF, counts as whitespace. Refusals 14 and 15 as they are
/// met, then 2, 5 and 17.
///
/// ```
/// let input = b"P5 1 1 255\n\xe6P5 1 1 255\n\x03P5 1 1 255\n\x80";
/// assert_eq!(chroma::ppm(input).unwrap(), b"P6\n1 1\n255\n\xe6\xff\x09");
/// let scanned = b"P5\n# flatbed\n1 1 255\n\xe6P5 1 1 255\n\x03P5 1 1 255\n\x80";
/// assert_eq!(chroma::ppm(scanned), chroma::ppm(input));
/// let deep = b"P5 1 1 4095\n\x08\0P5 1 1 4095\n\x08\0P5 1 1 4095\n\x08\0";
/// assert_eq!(chroma::ppm(deep).unwrap(), b"P6\n1 1\n255\n\x80\x80\x80");
/// assert_eq!(chroma::ppm(b"P4"), Err(chroma::Refusal::BadHeader));
/// ```
pub fn ppm(input: &[u8]) -> Result<Vec<u8>, Refusal> {
    // Enough for any input that is accepted: include/chroma.h.
    const SCRATCH: usize = 5_120;
    const OUTPUT: usize = 147_472;
    let mut out = vec![0; OUTPUT];
    let written = ffi::picture(input, &mut vec![0.0; SCRATCH], &mut out)?;
    out.truncate(written);
    Ok(out)
}

#[cfg(test)]
mod tests {
    #[test]
    fn the_library_is_of_the_header() {
        let (header, library) = crate::ffi::versions();
        assert_eq!(header, library);
    }
}
