//! The original's rounding, chroma reconstruction and colour kernels
//! behind safe functions with plain arguments, to compare a port with.
//!
//! Every number comes from the original's functions, except where a
//! comment says that the harness computes it. One thread only.

#[cfg(not(target_arch = "x86_64"))]
compile_error!("the original takes other rounding and fmin/fmax forms off x86-64");

pub mod error;
// The originals are built as they are: their warnings are not ours.
#[allow(warnings)]
pub mod convert;
#[allow(warnings)]
pub mod image;
#[allow(warnings)]
pub mod jpeg {
    pub mod fround;
    pub mod resample;
    pub mod upsample;
}

use image::{ChromaUpsampling, ConvertOptions, JpegImage, MjpegPixelFormat, Plane, YcbcrKernel};
use jpeg::resample::{GuidedGeom, GuidedRows, GuidedSource};

/// Greatest width and height of a [`Picture`].
pub const MAX_SIDE: usize = 8_192;
/// Greatest limit of [`round_clamped_by_grid`].
pub const MAX_GRID: u32 = 4_194_304;

// ---------------------------------------------------------------------------
// Rounding, samples, taps
// ---------------------------------------------------------------------------

/// The original's `round_clamped_by_grid`; `max` is at most [`MAX_GRID`].
#[inline]
pub fn round_clamped_by_grid(x: f32, max: u32) -> u32 {
    jpeg::fround::round_clamped_by_grid(x, max as f32) as u32
}

/// `x.round()` limited to `0..=max`, 0 for not-a-number. The harness's
/// own: the original writes `(v * 256.0).round() as i64` in its fill,
/// where the value is never outside the limits.
#[inline]
pub fn round_wide(x: f32, max: u32) -> u32 {
    (x.round() as i64).clamp(0, max as i64) as u32
}

/// The original's `fmin`.
#[inline]
pub fn fmin(a: f32, b: f32) -> f32 {
    jpeg::fround::fmin(a, b)
}

/// The original's `fmax`.
#[inline]
pub fn fmax(a: f32, b: f32) -> f32 {
    jpeg::fround::fmax(a, b)
}

/// Sample `index` of row `y`; 0 past the end of `data`. `bps` is 1 or 2.
pub fn sample(data: &[u8], stride: usize, bps: usize, index: usize, y: usize) -> u32 {
    convert::sample(&Plane::new(stride, data.to_vec()), bps, index, y)
}

/// The taps of `out` outputs over `len` cells at `num / den` cells per
/// output: two cells and the fraction between them.
pub fn taps(out: usize, len: usize, num: usize, den: usize) -> Vec<(u32, u32, f32)> {
    let taps = jpeg::resample::taps(out, len, num, den);
    taps.iter().map(|t| (t.i0, t.i1, t.f)).collect()
}

/// The phases of ratio `r`: whether from the left neighbour, and the
/// fraction.
pub fn phases(r: usize) -> Vec<(bool, f32)> {
    let phases = jpeg::resample::phases(r);
    phases.iter().map(|p| (p.left, p.f)).collect()
}

// ---------------------------------------------------------------------------
// Pictures and whole planes
// ---------------------------------------------------------------------------

/// One plane as it is handed in: bytes and bytes per row.
#[derive(Clone, Copy)]
pub struct Bytes<'a> {
    pub data: &'a [u8],
    pub stride: usize,
}

/// Width and height of the picture, `rh` luma samples to `nh` chroma samples
/// across and `rv` to `nv` down, bytes per sample, greatest sample value. Only
/// linear calls look at numerators other than 1.
#[derive(Clone, Copy, Debug, PartialEq, Eq)]
pub struct Numbers {
    pub w: usize,
    pub h: usize,
    pub nh: usize,
    pub nv: usize,
    pub rh: usize,
    pub rv: usize,
    pub bps: usize,
    pub maxval: u32,
}

/// Which chroma plane.
#[derive(Clone, Copy, Debug, PartialEq, Eq)]
pub enum Chroma {
    Cb = 1,
    Cr = 2,
}

/// A picture whose planes are whole, as [`Picture::new`] makes sure.
#[derive(Clone)]
pub struct Picture {
    numbers: Numbers,
    /// Holds the planes. Its pixel format is never looked at.
    img: JpegImage,
}

fn chroma_size(n: &Numbers) -> (usize, usize) {
    ((n.w * n.nh).div_ceil(n.rh), (n.h * n.nv).div_ceil(n.rv))
}

impl Picture {
    /// A picture of Y, Cb and Cr, or what is wrong with it.
    pub fn new(n: Numbers, planes: [Bytes<'_>; 3]) -> Result<Self, &'static str> {
        if n.w == 0 || n.h == 0 || n.w > MAX_SIDE || n.h > MAX_SIDE {
            return Err("width or height outside 1..8192");
        }
        if !(1..=4).contains(&n.rh) || !(1..=4).contains(&n.rv) {
            return Err("ratio outside 1..4");
        }
        if !(1..=n.rh).contains(&n.nh) || !(1..=n.rv).contains(&n.nv) {
            return Err("numerator outside 1 to the ratio");
        }
        let greatest = match n.bps {
            1 => 255,
            2 => 65_535,
            _ => return Err("sample bytes not 1 or 2"),
        };
        if n.maxval == 0 || n.maxval > greatest {
            return Err("maxval outside 1..255 or 1..65535");
        }
        let (cw, ch) = chroma_size(&n);
        for (p, (w, h)) in planes.iter().zip([(n.w, n.h), (cw, ch), (cw, ch)]) {
            let row = w * n.bps;
            let end = (h - 1)
                .checked_mul(p.stride)
                .and_then(|v| v.checked_add(row));
            if p.stride < row || end.is_none_or(|end| p.data.len() < end) {
                return Err("plane's stride below its row or its data too short");
            }
        }
        let planes = planes.map(|p| Plane::new(p.stride, p.data.to_vec()));
        let format = MjpegPixelFormat::Yuv444P;
        let img = JpegImage::new_unchecked(n.w as u32, n.h as u32, format, planes.into());
        Ok(Self { numbers: n, img })
    }

    pub fn numbers(&self) -> Numbers {
        self.numbers
    }

    /// Width and height of the chroma planes, the rounded-up quotients.
    pub fn chroma_size(&self) -> (usize, usize) {
        chroma_size(&self.numbers)
    }

    fn get(&self, plane: usize, x: usize, y: usize) -> u32 {
        convert::sample(&self.img.planes[plane], self.numbers.bps, x, y)
    }

    fn read_row(&self, plane: usize, y: usize, row: &mut [f32]) {
        for (x, v) in row.iter_mut().enumerate() {
            *v = self.get(plane, x, y) as f32;
        }
    }

    fn geom(&self) -> GuidedGeom {
        let n = &self.numbers;
        let (cw, ch) = self.chroma_size();
        GuidedGeom::new(cw, ch, n.rh, n.rv, n.w, n.h, n.maxval)
    }

    fn reconstruct(&self, plane: Chroma, guided: bool) -> Vec<u32> {
        let n = &self.numbers;
        let (cw, ch) = self.chroma_size();
        let get = |x: usize, y: usize| self.get(plane as usize, x, y);
        let luma = |x: usize, y: usize| self.get(0, x, y);
        let (hr, vr) = ((n.nh, n.rh), (n.nv, n.rv));
        let guide: Option<(&dyn Fn(usize, usize) -> u32, (usize, usize))> = if guided {
            Some((&luma, (n.rh, n.rv)))
        } else {
            None
        };
        jpeg::resample::reconstruct(&get, cw, ch, hr, vr, n.w, n.h, n.maxval, guide)
    }
}

/// One chroma plane by the original's `reconstruct` without luma.
pub fn linear_plane(picture: &Picture, plane: Chroma) -> Vec<u32> {
    picture.reconstruct(plane, false)
}

/// One chroma plane by the original's `reconstruct` with luma.
pub fn guided_plane(picture: &Picture, plane: Chroma) -> Vec<u32> {
    picture.reconstruct(plane, true)
}

/// One chroma plane by the original's `triangular`.
pub fn triangular_plane(picture: &Picture, plane: Chroma) -> Option<Vec<u32>> {
    let n = &picture.numbers;
    let (width, height) = picture.chroma_size();
    let get = |x: usize, y: usize| picture.get(plane as usize, x, y);
    let get = &get;
    let component = jpeg::upsample::Component { width, height, get };
    jpeg::upsample::triangular(&component, n.rh, n.rv, n.w, n.h)
}

// ---------------------------------------------------------------------------
// Reader
// ---------------------------------------------------------------------------

/// Why a reader gives nothing. The harness's own tests: the original
/// panics past the height and only debug-asserts a row before the place.
#[derive(Clone, Copy, Debug, PartialEq, Eq)]
pub enum Turned {
    /// No picture is open.
    Closed,
    /// At or past the height.
    Past,
    /// Before the place.
    Back,
}

struct Opened {
    picture: Picture,
    geom: GuidedGeom,
    rows: GuidedRows,
    place: usize,
}

/// The original's `GuidedRows` of two components, set up as
/// `fill_ycbcr_interp` sets it up.
#[derive(Default)]
pub struct GuidedReader {
    opened: Option<Opened>,
}

impl GuidedReader {
    pub fn new() -> Self {
        Self::default()
    }

    /// Starts at row 0 of `picture`, with a new `GuidedRows`.
    pub fn open(&mut self, picture: &Picture) {
        let picture = picture.clone();
        let geom = picture.geom();
        let mut rows = GuidedRows::new(&geom, 2);
        rows.seek(&geom, 0);
        let place = 0;
        self.opened = Some(Opened {
            picture,
            geom,
            rows,
            place,
        });
    }

    /// Goes to row `y`, back as well.
    pub fn seek(&mut self, y: usize) -> Result<(), Turned> {
        let o = self.opened.as_mut().ok_or(Turned::Closed)?;
        if y >= o.picture.numbers.h {
            return Err(Turned::Past);
        }
        o.rows.seek(&o.geom, y);
        o.place = y;
        Ok(())
    }

    /// Cb and Cr of row `y`, which is at the place or after it.
    pub fn row(&mut self, y: usize) -> Result<(Vec<f32>, Vec<f32>), Turned> {
        let o = self.opened.as_mut().ok_or(Turned::Closed)?;
        let picture = &o.picture;
        let n = picture.numbers;
        if y >= n.h {
            return Err(Turned::Past);
        }
        if y < o.place {
            return Err(Turned::Back);
        }
        let luma_plane = &picture.img.planes[0];
        let luma_row = |y: usize, row: &mut [f32]| picture.read_row(0, y, row);
        let chroma_row = |k: usize, j: usize, row: &mut [f32]| picture.read_row(1 + k, j, row);
        // A picture's planes are whole, so nothing more is asked of luma.
        let bytes = n.bps == 1 && n.maxval == 255;
        let source = GuidedSource {
            luma: &luma_row,
            luma_u8: bytes.then_some((&luma_plane.data[..], luma_plane.stride)),
            chroma: &chroma_row,
        };
        let mut luma = vec![0f32; n.w];
        picture.read_row(0, y, &mut luma);
        let mut out = [vec![0f32; n.w], vec![0f32; n.w]];
        o.rows.row(&o.geom, &source, y, &luma, &mut out);
        o.place = y;
        let [cb, cr] = out;
        Ok((cb, cr))
    }
}

// ---------------------------------------------------------------------------
// Fill
// ---------------------------------------------------------------------------

/// How [`fill`] brings chroma to the luma grid.
#[derive(Clone, Copy, Debug, PartialEq, Eq)]
pub enum Upsampling {
    Linear,
    Guided,
}

/// How [`fill`] computes colour.
#[derive(Clone, Copy, Debug, PartialEq, Eq)]
pub enum Kernel {
    Exact,
    Fixed,
}

/// The original's `fill_ycbcr_interp` on one thread, for every ratio
/// (1 by 1 too, which the original's callers keep away from it).
pub fn fill(
    picture: &Picture,
    bpp: usize,
    upsampling: Upsampling,
    kernel: Kernel,
    out: &mut [u8],
) -> Result<(), &'static str> {
    let n = picture.numbers;
    // The original falls back to the exact kernel here, unsaid.
    if kernel == Kernel::Fixed && n.maxval != 255 {
        return Err("fixed kernel with maxval not 255");
    }
    if bpp != 3 && bpp != 4 {
        return Err("pixel size not 3 or 4");
    }
    if out.len() < n.w * n.h * bpp {
        return Err("output too short");
    }
    let opts = ConvertOptions::new()
        .with_upsampling(match upsampling {
            Upsampling::Linear => ChromaUpsampling::Linear,
            Upsampling::Guided => ChromaUpsampling::LumaGuided,
        })
        .with_ycbcr(match kernel {
            Kernel::Exact => YcbcrKernel::Exact,
            Kernel::Fixed => YcbcrKernel::FixedPoint16,
        })
        .with_threads(1);
    convert::fill_ycbcr_interp(&picture.img, out, bpp, &opts, n.maxval, n.bps, (n.nh, n.nv), (n.rh, n.rv));
    Ok(())
}

// ---------------------------------------------------------------------------
// Kernels of one pixel and of one block
// ---------------------------------------------------------------------------

/// Exact kernel for any `maxval`, chroma in 256ths.
pub fn ycbcr_frac_to_rgb8(y: u32, cb256: u32, cr256: u32, maxval: u32) -> [u8; 3] {
    let (r, g, b) = convert::ycbcr_frac_to_rgb8(y, cb256.into(), cr256.into(), maxval);
    [r, g, b]
}

/// Exact kernel for maxval 255, chroma in 256ths. Arguments stay below
/// 2^31.
pub fn ycbcr_frac_to_rgb8_8bit(y: u32, cb256: u32, cr256: u32) -> [u8; 3] {
    convert::ycbcr_frac_to_rgb8_8bit(y as i32, cb256 as i32, cr256 as i32)
}

/// Fixed kernel for maxval 255, whole chroma.
pub fn ycbcr_to_rgb8_fixed16(y: u32, cb: u32, cr: u32) -> [u8; 3] {
    let (r, g, b) = convert::ycbcr_to_rgb8_fixed16(y, cb, cr);
    [r, g, b]
}

/// Exact kernel for any `maxval`, whole chroma.
pub fn ycbcr_to_rgb8(y: u32, cb: u32, cr: u32, maxval: u32) -> [u8; 3] {
    let (r, g, b) = convert::ycbcr_to_rgb8(y, cb, cr, maxval);
    [r, g, b]
}

/// Red offset of a Cr offset within ±32,768.
#[inline]
pub fn red_offset(cr: i32) -> i32 {
    convert::chroma_offset::<1402, 180>(cr)
}

/// Blue offset of a Cb offset within ±32,768.
#[inline]
pub fn blue_offset(cb: i32) -> i32 {
    convert::chroma_offset::<1772, 227>(cb)
}

/// Green offset of chroma offsets within ±32,768.
#[inline]
pub fn green_offset(cb: i32, cr: i32) -> i32 {
    convert::green_offset(cb, cr)
}

/// Red, green and blue of sixteen pixels: luma and chroma offsets within
/// ±32,768.
pub fn rgb_chunk(y: &[i32; 16], cb: &[i32; 16], cr: &[i32; 16]) -> [[u8; 16]; 3] {
    convert::rgb_chunk(y, cb, cr)
}
