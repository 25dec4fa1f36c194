//! What the calls are lent: layouts, planes, pictures and scratch.

use crate::ffi::{self, Planes};
use crate::{Reader, Refusal};

/// Where a chroma sample sits along one axis of its cell.
#[derive(Clone, Copy, Debug, PartialEq, Eq)]
pub enum Siting {
    /// In the middle of the cell's pixels, as JPEG has it.
    Centred = 0,
    /// On the first of them, as BT.601 has it across. The linear calls take it; the guided and
    /// triangular ones refuse it with [`Refusal::NotCentred`].
    CoSited = 1,
}

/// What samples span. Colour depends on it; reconstructed chroma doesn't.
#[derive(Clone, Copy, Debug, PartialEq, Eq)]
pub enum Range {
    /// 0 to maxval, as JPEG has it.
    Full = 0,
    /// Luma 16 to 235 and chroma 16 to 240, as BT.601 has it. It is for maxval 255 and the exact
    /// kernel; with others it is refused, by [`Refusal::BadRange`].
    Studio = 1,
}

/// A picture's numbers. Any numbers may stand here; the calls look at them. Ratios of 2 by 2 are
/// 4:2:0, 2 by 1 is 4:2:2, 1 by 1 is 4:4:4.
#[derive(Clone, Copy, Debug, PartialEq, Eq)]
pub struct Layout {
    /// Width in pixels.
    pub w: usize,
    /// Height in pixels.
    pub h: usize,
    /// Pixels to a chroma cell across, 1 to 4.
    pub rh: usize,
    /// Pixels to a chroma cell down, 1 to 4.
    pub rv: usize,
    /// Chroma cells across: `w * num_across / rh` rounded up.
    pub cw: usize,
    /// Chroma cells down: `h * num_down / rv` rounded up.
    pub ch: usize,
    /// Bytes of a sample, 1 or 2; two are little-endian.
    pub sample_bytes: usize,
    /// The largest sample.
    pub maxval: u32,
    /// Where chroma sits across.
    pub siting_across: Siting,
    /// Where chroma sits down.
    pub siting_down: Siting,
    /// Chroma cells to `rh` pixels across: 1 for whole ratios, which all calls take; the linear
    /// calls take 1 to `rh`.
    pub num_across: usize,
    /// Chroma cells to `rv` pixels down.
    pub num_down: usize,
    /// What samples span.
    pub range: Range,
}

impl Layout {
    /// `w` by `h` pixels, `rh` by `rv` of them to a cell, the chroma size that belongs to that,
    /// and samples of one byte with maxval 255 and full range, chroma centred. (A ratio of 0 gives no
    /// cell, and is refused.)
    ///
    /// ```
    /// use chroma::Layout;
    ///
    /// let l = Layout::new(5, 4, 2, 2);
    /// assert_eq!((l.cw, l.ch), (3, 2));
    ///
    /// // Samples of two bytes:
    /// let deep = Layout { sample_bytes: 2, maxval: 4_095, ..l };
    /// assert_eq!(deep.cw, 3);
    ///
    /// // Video, whose chroma sits on every second pixel of a row, in studio range:
    /// let video = Layout {
    ///     siting_across: chroma::Siting::CoSited,
    ///     range: chroma::Range::Studio,
    ///     ..Layout::new(720, 576, 2, 1)
    /// };
    /// assert_eq!(video.cw, 360);
    /// ```
    pub fn new(w: usize, h: usize, rh: usize, rv: usize) -> Layout {
        let cells = |n: usize, r: usize| if r == 0 { 0 } else { n.div_ceil(r) };
        Layout {
            w,
            h,
            rh,
            rv,
            cw: cells(w, rh),
            ch: cells(h, rv),
            sample_bytes: 1,
            maxval: 255,
            siting_across: Siting::Centred,
            siting_down: Siting::Centred,
            num_across: 1,
            num_down: 1,
            range: Range::Full,
        }
    }

    /// The same picture with `across` chroma cells to `rh` pixels and `down` to `rv`, and the chroma
    /// size that belongs to that. (Sides that no call takes keep their chroma size.)
    ///
    /// ```
    /// use chroma::{linear_plane, Layout, Plane, Scratch};
    ///
    /// // Two cells to three pixels.
    /// let layout = Layout::new(6, 1, 3, 1).with_numerators(2, 1);
    /// assert_eq!(layout.cw, 4);
    /// let mut out = [0; 6];
    /// linear_plane(layout, Plane::new(&[0, 100, 200, 60], 4), &mut Scratch::new(), &mut out)?;
    /// assert_eq!(out, [0, 50, 117, 183, 130, 60]);
    /// # Ok::<(), chroma::Refusal>(())
    /// ```
    pub fn with_numerators(self, across: usize, down: usize) -> Layout {
        let cells = |n: usize, num: usize, r: usize, cells: usize| match n.checked_mul(num) {
            Some(product) if r != 0 => product.div_ceil(r),
            _ => cells,
        };
        Layout {
            cw: cells(self.w, across, self.rh, self.cw),
            ch: cells(self.h, down, self.rv, self.ch),
            num_across: across,
            num_down: down,
            ..self
        }
    }

    /// How many values scratch must hold; 0 where the sides are refused anyway.
    fn scratch_need(&self) -> usize {
        const SIDE: usize = 8_192;
        if self.w <= SIDE && self.cw <= SIDE {
            32 * self.cw + 8 * self.w
        } else {
            0
        }
    }
}

/// A plane's bytes, and how many bytes apart its rows begin.
#[derive(Clone, Copy, Debug)]
pub struct Plane<'a> {
    /// The bytes; there may be more than the last row needs.
    pub data: &'a [u8],
    /// From one row's first byte to the next one's.
    pub stride: usize,
}

impl<'a> Plane<'a> {
    /// A plane of these bytes and this stride.
    pub fn new(data: &'a [u8], stride: usize) -> Plane<'a> {
        Plane { data, stride }
    }
}

/// Working memory that calls share. Its content never shows in a result.
#[derive(Clone, Debug, Default)]
pub struct Scratch(Vec<f32>);

impl Scratch {
    /// Empty scratch; the calls enlarge it as they need.
    pub fn new() -> Scratch {
        Scratch::default()
    }

    /// As much as the layout needs, at least.
    pub(crate) fn of(&mut self, layout: &Layout) -> &mut [f32] {
        let need = layout.scratch_need();
        if self.0.len() < need {
            self.0.resize(need, 0.0);
        }
        &mut self.0
    }
}

/// Three borrowed planes with sizes and samples that were checked: no call on it is refused 2, 3, 5, 7, 17 or 9. Chroma
/// may be co-sited: then linear calls take it, and a reader or a guided fill is refused 16.
///
/// ```
/// use chroma::{Layout, Picture, Plane, Refusal};
///
/// let layout = Layout::new(2, 2, 2, 2);
/// let (y, c) = ([10, 20, 30, 40], [128]);
/// assert!(Picture::new(layout, Plane::new(&y, 2), Plane::new(&c, 1), Plane::new(&c, 1)).is_ok());
///
/// let short = Picture::new(layout, Plane::new(&y[..3], 2), Plane::new(&c, 1), Plane::new(&c, 1));
/// assert_eq!(short.unwrap_err(), Refusal::BadPlane);
///
/// // Every sample is looked at, padding and surplus are not.
/// let grey = Layout { maxval: 39, ..layout };
/// let bright = Picture::new(grey, Plane::new(&y, 2), Plane::new(&[9], 1), Plane::new(&[9], 1));
/// assert_eq!(bright.unwrap_err(), Refusal::AboveMaxval);
/// ```
#[derive(Clone, Copy, Debug)]
pub struct Picture<'a> {
    layout: Layout,
    planes: Planes<'a>,
}

impl<'a> Picture<'a> {
    /// The picture of these numbers and planes. Refusals 2, 3, 4, 18, 5, 7 and 17.
    pub fn new(
        layout: Layout,
        y: Plane<'a>,
        cb: Plane<'a>,
        cr: Plane<'a>,
    ) -> Result<Picture<'a>, Refusal> {
        let planes = [y, cb, cr];
        // With no scratch a linear fill is always refused: 9 where nothing else is wrong.
        let (linear, exact) = (
            crate::Upsampling::Linear as u32,
            crate::Kernel::Exact as u32,
        );
        match ffi::fill(layout, &planes, (linear, exact), 3, &mut [], &mut []) {
            Err(Refusal::ShortScratch) => Ok(Picture { layout, planes }),
            Err(refusal) => Err(refusal),
            Ok(()) => unreachable!("a fill with no scratch is refused"),
        }
    }

    /// The picture's numbers.
    pub fn layout(&self) -> &Layout {
        &self.layout
    }

    pub(crate) fn planes(&self) -> &Planes<'a> {
        &self.planes
    }

    /// A reader of this picture's guided rows, at row 0. Refusal 16, where chroma is co-sited.
    pub fn reader(&self) -> Result<Reader<'a>, Refusal> {
        Reader::open(*self, Scratch::new())
    }
}
