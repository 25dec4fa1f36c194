//! Random pictures and call lists, the crates' sources beside the original; pairs that aren't whole
//! beside it too, co-sited pictures beside sited.rs, studio range beside studio.rs, refills beside
//! refills.rs, and rows as RGB and blends of two pictures beside the original's fill, in studio range
//! beside studio.rs. No sample of theirs exceeds its maxval, and one does in pictures of their own,
//! which must be turned down.
//! Usage: compare PICTURES LISTS PIXELS FILLS SITED STUDIO REFILLS BLENDS; it ends with status 1 where anything differs.
mod refills;
mod sited;
mod studio;

use oracle::{Bytes, Chroma, GuidedReader, Numbers};
// The paths into what is compared: the public crates, which through-c.rs has under the same names.
use sources::colorimetry::blend_row;
use sources::reconstruction::{
    self as ours, Axis, ChromaUpsampling, Geometry, Layout, Phase, Planes, Range, Reader, Refusal,
    Rgb, Siting, YcbcrKernel,
};

/// Marsaglia's 64-bit xorshift with the shifts 13, 7, 17.
struct Random(u64);

impl Random {
    fn next(&mut self) -> u64 {
        self.0 ^= self.0 << 13;
        self.0 ^= self.0 >> 7;
        self.0 ^= self.0 << 17;
        self.0
    }

    fn below(&mut self, n: usize) -> usize {
        (self.next() % n as u64) as usize
    }
}

struct Plane {
    data: Vec<u8>,
    stride: usize,
}

struct Picture {
    layout: Layout,
    y: Plane,
    cb: Plane,
    cr: Plane,
}

impl Plane {
    fn lent(&self) -> ours::Plane<'_> {
        ours::Plane { bytes: &self.data, stride: self.stride }
    }
}

impl Picture {
    fn lent(&self) -> Planes<'_> {
        Planes { y: self.y.lent(), cb: self.cb.lent(), cr: self.cr.lent() }
    }
}

/// An answer's number: 0 where the call was accepted.
fn number(answer: Result<(), Refusal>) -> u8 {
    answer.map_or_else(|why| why.number(), |()| 0)
}

/// Noise, flat noise with peaks, or a slope; with padding and surplus.
fn plane(r: &mut Random, kind: usize, row: usize, h: usize) -> Plane {
    let stride = row + r.below(5);
    let len = (h - 1) * stride + row + r.below(4);
    let byte = |i: usize| match kind {
        0 => r.next() as u8,
        1 if r.below(4) == 0 => 255,
        1 => r.below(16) as u8,
        _ => ((i * 3) as u8).wrapping_add(r.below(7) as u8),
    };
    Plane { data: (0..len).map(byte).collect(), stride }
}

/// Bytes `at` and on as a sample.
fn sample(data: &[u8], at: usize, bytes: usize) -> u32 {
    (0..bytes).rev().fold(0, |v, k| v * 256 + data[at + k] as u32)
}

fn put_sample(data: &mut [u8], at: usize, bytes: usize, v: u32) {
    (0..bytes).for_each(|k| data[at + k] = (v >> (8 * k)) as u8);
}

/// Brings the samples inside the planes to at most the maxval, one in eight of those above to the
/// maxval itself; padding and surplus are left.
fn hold(r: &mut Random, p: &mut Picture) {
    let (l, bytes) = (p.layout, p.layout.sample_bytes);
    for (plane, w, h) in [(&mut p.y, l.w, l.h), (&mut p.cb, l.cw, l.ch), (&mut p.cr, l.cw, l.ch)] {
        for at in (0..h).flat_map(|y| (0..w).map(move |x| (x, y))).map(|(x, y)| y * plane.stride + x * bytes) {
            let v = sample(&plane.data, at, bytes);
            if v > l.maxval {
                let held = if r.below(8) == 0 { l.maxval } else { v % (l.maxval + 1) };
                put_sample(&mut plane.data, at, bytes, held);
            }
        }
    }
}

/// Picture t: the ratio pairs in turn, sides to 40 by 30, at times 1 by 1.
fn picture(r: &mut Random, t: usize) -> Picture {
    picture_by(r, t, (1, 1 + t % 4), (1, 1 + t / 4 % 4))
}

/// Picture t with `rh` pixels to `nh` cells across and `rv` to `nv` down.
fn picture_by(r: &mut Random, t: usize, (nh, rh): (usize, usize), (nv, rv): (usize, usize)) -> Picture {
    let mut w = 1 + r.below(if t % 2 == 0 { 11 } else { 40 });
    let mut h = 1 + r.below(if t % 5 == 0 { 30 } else { 11 });
    if t % 97 == 0 {
        (w, h) = (1, 1);
    }
    let sample_bytes = 1 + r.below(2);
    let most = if sample_bytes == 1 { 255 } else { 65_535 };
    let maxval = if t % 3 == 0 { most } else { 1 + r.below(most) } as u32;
    let (cw, ch) = ((w * nh).div_ceil(rh), (h * nv).div_ceil(rv));
    let [across, down] = [nh, nv].map(|num| Axis { num, ..Axis::PLAIN });
    let layout = Layout { w, h, rh, rv, cw, ch, across, down, sample_bytes, maxval, range: Range::Full };
    let kind = r.below(3);
    let y = plane(r, kind, w * sample_bytes, h);
    let cb = plane(r, kind, cw * sample_bytes, ch);
    let cr = plane(r, kind, cw * sample_bytes, ch);
    let mut p = Picture { layout, y, cb, cr };
    hold(r, &mut p);
    p
}

fn original(p: &Picture) -> oracle::Picture {
    let l = p.layout;
    let numbers = Numbers {
        w: l.w,
        h: l.h,
        nh: l.across.num,
        nv: l.down.num,
        rh: l.rh,
        rv: l.rv,
        bps: l.sample_bytes,
        maxval: l.maxval,
    };
    let bytes = [&p.y, &p.cb, &p.cr].map(|q| Bytes { data: &q.data, stride: q.stride });
    oracle::Picture::new(numbers, bytes).expect("a picture of the original's")
}

fn scratch_need(l: Layout) -> usize {
    32 * l.cw + 8 * l.w
}

/// Whether the first values are the original's and the rest unwritten.
fn agrees(out: &[u16], want: &[u32]) -> bool {
    let (given, rest) = out.split_at(want.len());
    given.iter().zip(want).all(|(a, b)| *a as u32 == *b) && rest.iter().all(|v| *v == 42_405)
}

/// The planes of one picture by each call; how many differ.
fn planes(p: &Picture, q: &oracle::Picture) -> [usize; 3] {
    let l = p.layout;
    let mut s = vec![f32::NAN; scratch_need(l)];
    let fresh = || vec![42_405u16; l.w * l.h + 3];
    let mut out = fresh();
    let a = number(ours::linear_plane(l, p.cb.lent(), &mut s, &mut out));
    let linear = a == 0 && agrees(&out, &oracle::linear_plane(q, Chroma::Cb));
    out = fresh();
    let a = number(ours::guided_plane(l, p.y.lent(), p.cb.lent(), &mut s, &mut out));
    let guided = a == 0 && agrees(&out, &oracle::guided_plane(q, Chroma::Cb));
    out = fresh();
    let a = number(ours::triangular_plane(l, p.cb.lent(), &mut out));
    let triangular = match oracle::triangular_plane(q, Chroma::Cb) {
        Some(want) => a == 0 && agrees(&out, &want),
        None => a == 6 && agrees(&out, &[]),
    };
    [linear, guided, triangular].map(|same| !same as usize)
}

fn closed() -> Reader {
    let phases = [Phase { left: false, f: 0.0 }; 4];
    let geometry = Geometry { w: 0, h: 0, rh: 0, rv: 0, cw: 0, ch: 0, phases, range: Range::Full };
    Reader { geometry, sample_bytes: 0, maxval: 0, place: 0, h_next: 0, f_next: 0 }
}

/// A reader of each kind over one scratch, and what was counted.
struct Course {
    state: Reader,
    beside: GuidedReader,
    place: usize,
    scratch: Vec<f32>,
    rows: usize,
    refused: usize,
    differ: usize,
}

impl Course {
    fn expect(&mut self, same: bool) {
        self.differ += !same as usize;
    }

    fn open(&mut self, p: &Picture) {
        let a = ours::open(p.layout, p.lent(), &self.scratch, &mut self.state);
        self.expect(a.is_ok());
        self.place = 0;
        self.beside.open(&original(p));
    }

    fn seek(&mut self, p: &Picture, y: usize) {
        let before = self.state;
        let a = number(ours::seek(&mut self.state, y));
        if y < p.layout.h {
            let sought = self.beside.seek(y).is_ok();
            self.expect(sought && a == 0);
            self.place = y;
        } else {
            self.refused += 1;
            self.expect(a == 11 && self.state == before);
        }
    }

    fn row(&mut self, p: &Picture, y: usize) {
        let l = p.layout;
        let (mut cb, mut cr) = (vec![-7.0f32; l.w + 2], vec![-9.0f32; l.w + 1]);
        let before = self.state;
        let a = number(ours::row(&mut self.state, p.lent(), y, &mut self.scratch, &mut cb, &mut cr));
        if l.h <= y || y < self.place {
            let wanted = if l.h <= y { 11 } else { 12 };
            let kept = cb.iter().all(|v| *v == -7.0) && cr.iter().all(|v| *v == -9.0);
            self.refused += 1;
            self.expect(a == wanted && self.state == before && kept);
            return;
        }
        let Ok((want_cb, want_cr)) = self.beside.row(y) else {
            panic!("a row of the original's");
        };
        let same = |a: &[f32], b: &[f32]| a.iter().zip(b).all(|(x, y)| x.to_bits() == y.to_bits());
        let rest = cb[l.w..] == [-7.0, -7.0] && cr[l.w..] == [-9.0];
        let rows = same(&cb[..l.w], &want_cb) && same(&cr[..l.w], &want_cr);
        self.rows += 1;
        self.expect(a == 0 && rest && rows);
        self.place = y;
    }
}

/// 24 calls over two pictures and one scratch, which begins as not-a-numbers.
fn list(r: &mut Random, t: usize) -> Course {
    let pictures = [picture(r, t), picture(r, 7 * t + 3)];
    let need = pictures.iter().map(|p| scratch_need(p.layout)).max().unwrap_or(0);
    let mut course = Course {
        state: closed(),
        beside: GuidedReader::new(),
        place: 0,
        scratch: vec![f32::NAN; need + r.below(3)],
        rows: 0,
        refused: 0,
        differ: 0,
    };
    let mut current = &pictures[0];
    for step in 0..24 {
        let h = current.layout.h;
        match if step == 0 { 0 } else { r.below(8) } {
            0 => {
                current = &pictures[r.below(2)];
                course.open(current);
            }
            1 => course.seek(current, r.below(h + 1)),
            2 | 3 => course.row(current, course.place + r.below(3)),
            7 => course.row(current, course.place),
            _ => course.row(current, r.below(h + 2)),
        }
    }
    course
}

/// n pixels by each kernel; how many differ: exact at 255, exact at another
/// maxval, fixed.
fn pixels(r: &mut Random, n: usize) -> [usize; 3] {
    use ours::{ycbcr_frac_to_rgb8, ycbcr_to_rgb8_fixed16};
    let other = |p: Result<Rgb, Refusal>, [r, g, b]: [u8; 3]| (p != Ok(Rgb { r, g, b })) as usize;
    let mut differ = [0; 3];
    for i in 0..n {
        // Chroma of samples up to 255, and every other time any that is accepted.
        let most = if i % 2 == 0 { 65_281 } else { 16_776_961 };
        let y = r.below(if i % 2 == 0 { 256 } else { 65_536 }) as u32;
        let (cb, cr) = (r.below(most) as u32, r.below(most) as u32);
        let maxval = match 1 + r.below(65_535) as u32 {
            255 => 4_095,
            m => m,
        };
        let plain = oracle::ycbcr_frac_to_rgb8_8bit(y, cb, cr);
        differ[0] += other(ycbcr_frac_to_rgb8(y, cb, cr, 255, Range::Full), plain);
        let any = oracle::ycbcr_frac_to_rgb8(y, cb, cr, maxval);
        differ[1] += other(ycbcr_frac_to_rgb8(y, cb, cr, maxval, Range::Full), any);
        let (cb, cr) = (cb / 256, cr / 256);
        let fixed = oracle::ycbcr_to_rgb8_fixed16(y, cb, cr);
        differ[2] += other(ycbcr_to_rgb8_fixed16(y, cb, cr), fixed);
    }
    differ
}

/// One picture filled by one of the eight ways that its maxval has; whether it differs.
fn fill(r: &mut Random, t: usize) -> usize {
    let mut p = picture(r, t);
    // Maxval 255, half the time, has both kernels.
    if r.below(2) == 0 {
        p.layout.maxval = 255;
        hold(r, &mut p);
    }
    let l = p.layout;
    let size = 3 + r.below(2);
    let linear = r.below(2) == 0;
    let fixed = l.maxval == 255 && r.below(2) == 0;
    let mut s = vec![f32::NAN; scratch_need(l)];
    let mut out: Vec<u8> = (0..l.w * l.h * size + 5).map(|_| r.next() as u8).collect();
    let mut want = out.clone();
    let (up, beside) = match linear {
        true => (ChromaUpsampling::Linear, oracle::Upsampling::Linear),
        false => (ChromaUpsampling::LumaGuided, oracle::Upsampling::Guided),
    };
    let (kernel, other) = match fixed {
        true => (YcbcrKernel::FixedPoint16, oracle::Kernel::Fixed),
        false => (YcbcrKernel::Exact, oracle::Kernel::Exact),
    };
    let a = ours::fill(l, p.lent(), up, kernel, size, &mut s, &mut out);
    let whole = l.w * l.h * size;
    oracle::fill(&original(&p), size, beside, other, &mut want[..whole]).expect("a fill of the original's");
    (a.is_err() || out != want) as usize
}

/// The samples of a plane by row and column.
fn cells(p: &Plane, bytes: usize) -> impl Fn(usize, usize) -> i64 + '_ {
    move |i, j| (0..bytes).rev().fold(0, |v, k| v * 256 + p.data[i * p.stride + j * bytes + k] as i64)
}

/// The pairs that linear calls take, cells and pixels.
const PAIRS: [(usize, usize); 10] =
    [(1, 1), (1, 2), (1, 3), (1, 4), (2, 2), (2, 3), (2, 4), (3, 3), (3, 4), (4, 4)];

/// A linear plane and a linear fill of a picture by any pairs, centred every other time and else
/// co-sited on one axis or on both; how many differ from the original, where centred, and from
/// sited.rs with the original's kernels. Guided calls and triangular turn it down.
fn sited_calls(r: &mut Random, t: usize) -> [usize; 3] {
    let mut p = picture_by(r, t, PAIRS[t / 2 % 10], PAIRS[t / 20 % 10]);
    if r.below(2) == 0 {
        p.layout.maxval = 255;
        hold(r, &mut p);
    }
    let kind = if t % 2 == 0 { 0 } else { 1 + r.below(3) };
    let siting = |bit: usize| if kind & bit != 0 { Siting::CoSited } else { Siting::Centred };
    (p.layout.across.siting, p.layout.down.siting) = (siting(1), siting(2));
    let l = p.layout;
    let axes = (
        sited::Axis { co_sited: kind & 1 != 0, num: l.across.num, ratio: l.rh },
        sited::Axis { co_sited: kind & 2 != 0, num: l.down.num, ratio: l.rv },
    );
    let at = |q: &Plane, x, y| sited::chroma(cells(q, l.sample_bytes), (l.cw, l.ch), axes, x, y);
    let places: Vec<(usize, usize)> = (0..l.h).flat_map(|y| (0..l.w).map(move |x| (x, y))).collect();
    let mut s = vec![f32::NAN; scratch_need(l)];
    let mut out = vec![42_405u16; l.w * l.h + 3];
    let a = number(ours::linear_plane(l, p.cb.lent(), &mut s, &mut out));
    let want: Vec<u32> = places.iter().map(|&(x, y)| sited::halves_up(at(&p.cb, x, y) as f64, l.maxval)).collect();
    let mut plane = a == 0 && agrees(&out, &want);
    if kind == 0 {
        plane &= oracle::linear_plane(&original(&p), Chroma::Cb) == want;
    }

    let size = 3 + r.below(2);
    let fixed = l.maxval == 255 && r.below(2) == 0;
    let mut rgb: Vec<u8> = (0..l.w * l.h * size + 5).map(|_| r.next() as u8).collect();
    let mut colours = rgb.clone();
    let luma = cells(&p.y, l.sample_bytes);
    for (&(x, y), pixel) in places.iter().zip(colours.chunks_mut(size)) {
        let (luma, cb, cr) = (luma(y, x) as u32, at(&p.cb, x, y) as f64, at(&p.cr, x, y) as f64);
        let in_256ths = |v: f64| sited::halves_up(v * 256.0, if l.maxval == 255 { 65_536 } else { 16_776_960 });
        let rgb = match (fixed, l.maxval) {
            (true, _) => oracle::ycbcr_to_rgb8_fixed16(luma, sited::halves_up(cb, 255), sited::halves_up(cr, 255)),
            (false, 255) => oracle::ycbcr_frac_to_rgb8_8bit(luma, in_256ths(cb), in_256ths(cr)),
            (false, d) => oracle::ycbcr_frac_to_rgb8(luma, in_256ths(cb), in_256ths(cr), d),
        };
        pixel[..3].copy_from_slice(&rgb);
    }
    let kernel = if fixed { YcbcrKernel::FixedPoint16 } else { YcbcrKernel::Exact };
    let mut filled = |up, out: &mut [u8]| {
        number(ours::fill(l, p.lent(), up, kernel, size, &mut s, out))
    };
    let a = filled(ChromaUpsampling::Linear, &mut rgb);
    let mut fill = a == 0 && rgb == colours;
    if kind == 0 {
        let other = if fixed { oracle::Kernel::Fixed } else { oracle::Kernel::Exact };
        let mut want = colours.clone();
        let whole = &mut want[..l.w * l.h * size];
        oracle::fill(&original(&p), size, oracle::Upsampling::Linear, other, whole).expect("a fill of the original's");
        fill &= want == colours;
    }

    let whole = l.across.num == 1 && l.down.num == 1;
    if whole && kind == 0 {
        return [plane, fill, true].map(|same| !same as usize);
    }
    let refused = if whole { 16 } else { 3 };
    let mut others = filled(ChromaUpsampling::LumaGuided, &mut rgb) == refused && rgb == colours;
    let before = out.clone();
    let a = number(ours::guided_plane(l, p.y.lent(), p.cb.lent(), &mut s, &mut out));
    others &= a == refused && out == before;
    let a = number(ours::triangular_plane(l, p.cb.lent(), &mut out));
    others &= (a == refused || whole && a == 6) && out == before;
    let mut reader = closed();
    others &= number(ours::open(l, p.lent(), &s, &mut reader)) == refused && reader == closed();
    [plane, fill, others].map(|same| !same as usize)
}

/// Every luma of a byte at n pairs of chroma, in studio range, samples of the range and any that are
/// accepted; how many pixels differ from studio.rs.
fn studio_pixels(r: &mut Random, n: usize) -> usize {
    let mut differ = 0;
    for i in 0..n {
        let mut chroma = || match i % 4 {
            0 => 4_096 + r.below(57_345),
            1 | 2 => r.below(65_537),
            _ => r.below(16_776_961),
        } as u32;
        let (cb, cr) = (chroma(), chroma());
        for y in 0..256 {
            let [r, g, b] = studio::colour(y, cb, cr);
            differ += (ours::ycbcr_frac_to_rgb8(y, cb, cr, 255, Range::Studio) != Ok(Rgb { r, g, b })) as usize;
        }
    }
    differ
}

/// One picture filled in studio range, linear of either siting or guided, beside studio.rs on
/// sited.rs's chroma or on the original's rows; and its guided plane, which is full range's. How many
/// differ.
fn studio_calls(r: &mut Random, t: usize) -> [usize; 2] {
    let mut p = picture(r, t);
    let linear = r.below(2) == 0;
    let kind = if linear { r.below(4) } else { 0 };
    let siting = |bit: usize| if kind & bit != 0 { Siting::CoSited } else { Siting::Centred };
    (p.layout.across.siting, p.layout.down.siting) = (siting(1), siting(2));
    (p.layout.maxval, p.layout.range) = (255, Range::Studio);
    hold(r, &mut p);
    let l = p.layout;
    let axes = (
        sited::Axis { co_sited: kind & 1 != 0, num: 1, ratio: l.rh },
        sited::Axis { co_sited: kind & 2 != 0, num: 1, ratio: l.rv },
    );
    let at = |q: &Plane, x, y| sited::chroma(cells(q, l.sample_bytes), (l.cw, l.ch), axes, x, y);
    let mut beside = GuidedReader::new();
    beside.open(&original(&p));
    let size = 3 + r.below(2);
    let mut rgb: Vec<u8> = (0..l.w * l.h * size + 5).map(|_| r.next() as u8).collect();
    let mut want = rgb.clone();
    let luma = cells(&p.y, l.sample_bytes);
    for y in 0..l.h {
        let (cb, cr) = match linear {
            true => ((0..l.w).map(|x| at(&p.cb, x, y)).collect(), (0..l.w).map(|x| at(&p.cr, x, y)).collect()),
            false => beside.row(y).unwrap_or_else(|_| panic!("a row of the original's")),
        };
        for x in 0..l.w {
            let in_256ths = |v: f32| sited::halves_up(v as f64 * 256.0, 65_536);
            let colour = studio::colour(luma(y, x) as u32, in_256ths(cb[x]), in_256ths(cr[x]));
            want[(y * l.w + x) * size..][..3].copy_from_slice(&colour);
        }
    }
    let mut s = vec![f32::NAN; scratch_need(l)];
    let up = if linear { ChromaUpsampling::Linear } else { ChromaUpsampling::LumaGuided };
    let mut filled = |l: Layout, kernel, out: &mut [u8]| {
        number(ours::fill(l, p.lent(), up, kernel, size, &mut s, out))
    };
    let mut same = filled(l, YcbcrKernel::Exact, &mut rgb) == 0 && rgb == want;
    same &= filled(l, YcbcrKernel::FixedPoint16, &mut rgb) == 18 && rgb == want;
    let deep = Layout { maxval: 1 + r.below(254) as u32, ..l };
    same &= filled(deep, YcbcrKernel::Exact, &mut rgb) == 18 && rgb == want;
    let mut planes = [vec![42_405u16; l.w * l.h], vec![42_405u16; l.w * l.h]];
    let mut given = true;
    for (out, range) in planes.iter_mut().zip([Range::Full, Range::Studio]) {
        let l = Layout { range, across: Axis::PLAIN, down: Axis::PLAIN, ..l };
        given &= ours::guided_plane(l, p.y.lent(), p.cb.lent(), &mut s, out).is_ok();
    }
    [same, given && planes[0] == planes[1]].map(|same| !same as usize)
}

/// Picture t with one sample above the maxval, in one of its planes or in the padding or surplus of
/// one: each call that is lent it inside a plane turns it down by 17 and changes nothing, all others
/// take it. A row call takes it wherever it is, and gives the original's rows of it.
fn above(r: &mut Random, t: usize) -> [usize; 2] {
    let mut p = picture(r, t);
    let most = if p.layout.sample_bytes == 1 { 255 } else { 65_535 };
    p.layout.maxval = p.layout.maxval.min(most - 1);
    hold(r, &mut p);
    let (l, bytes) = (p.layout, p.layout.sample_bytes);
    let mut s = vec![f32::NAN; scratch_need(l)];
    let mut opened = closed();
    let mut same = ours::open(l, p.lent(), &s, &mut opened).is_ok();
    let k = r.below(3);
    let (plane, w, h) = match k {
        0 => (&mut p.y, l.w, l.h),
        1 => (&mut p.cb, l.cw, l.ch),
        _ => (&mut p.cr, l.cw, l.ch),
    };
    let v = l.maxval + 1 + r.below((most - l.maxval) as usize) as u32;
    let at = r.below(plane.data.len() + 1 - bytes);
    // A sample inside the plane, or bytes that no sample of it has.
    let inside = at / plane.stride < h && at % plane.stride < w * bytes;
    let next = (at + bytes - 1) / plane.stride < h && (at + bytes - 1) % plane.stride < w * bytes;
    if inside || next {
        put_sample(&mut plane.data, r.below(h) * plane.stride + r.below(w) * bytes, bytes, v);
    } else {
        put_sample(&mut plane.data, at, bytes, v);
    }
    let turned_down = |lent: &[usize]| (inside || next) && lent.contains(&k);
    let want = |lent: &[usize]| if turned_down(lent) { 17 } else { 0 };

    let mut reader = opened;
    same &= number(ours::open(l, p.lent(), &s, &mut reader)) == want(&[0, 1, 2]);
    same &= reader == opened;
    let mut out = vec![42_405u16; l.w * l.h];
    let untouched = |a: u8, lent: &[usize], out: &mut Vec<u16>| {
        let kept = out.iter().all(|v| *v == 42_405);
        out.fill(42_405);
        let other = lent == [1] && a == 6;
        (a == want(lent) || other) && (kept || a == 0)
    };
    let a = number(ours::linear_plane(l, p.cb.lent(), &mut s, &mut out));
    same &= untouched(a, &[1], &mut out);
    let a = number(ours::triangular_plane(l, p.cb.lent(), &mut out));
    same &= untouched(a, &[1], &mut out);
    let a = number(ours::guided_plane(l, p.y.lent(), p.cb.lent(), &mut s, &mut out));
    same &= untouched(a, &[0, 1], &mut out);
    for up in [ChromaUpsampling::Linear, ChromaUpsampling::LumaGuided] {
        // 8, 9 and 10 come behind 17.
        let (size, room, space) = [(3, l.w * l.h * 3, s.len()), (5, 0, 0), (3, 0, s.len()), (4, 0, 0)][t % 4];
        let mut rgb = vec![160u8; room];
        let a = number(ours::fill(l, p.lent(), up, YcbcrKernel::Exact, size, &mut s[..space], &mut rgb));
        let other = [0, 8, 10, 9][t % 4];
        let answer = if turned_down(&[0, 1, 2]) { 17 } else { other };
        same &= a == answer && (a == 0 || rgb.iter().all(|v| *v == 160));
    }

    let mut beside = GuidedReader::new();
    beside.open(&original(&p));
    let (mut cb, mut cr) = (vec![0f32; l.w], vec![0f32; l.w]);
    let y = r.below(l.h);
    let a = ours::row(&mut opened, p.lent(), y, &mut s, &mut cb, &mut cr);
    let Ok(rows) = beside.row(y) else { panic!("a row of the original's") };
    let bits = |v: &[f32]| v.iter().map(|x| x.to_bits()).collect::<Vec<u32>>();
    let row = a.is_ok() && bits(&cb) == bits(&rows.0) && bits(&cr) == bits(&rows.1);
    [same, row].map(|same| !same as usize)
}

/// One of two readers: the pictures that it may open, each with its rows as RGB, the current one of them, its
/// state, scratch and place.
struct Side {
    pictures: Vec<(Picture, Vec<u8>)>,
    current: Option<usize>,
    state: Reader,
    scratch: Vec<f32>,
    place: usize,
}

/// The picture as RGB, guided and exact: the original's fill, or in studio range studio.rs on the original's rows.
fn as_rgb(p: &Picture) -> Vec<u8> {
    let (l, q) = (p.layout, original(p));
    let mut want = vec![0; 3 * l.w * l.h];
    if l.range == Range::Full {
        oracle::fill(&q, 3, oracle::Upsampling::Guided, oracle::Kernel::Exact, &mut want).expect("a fill of the original's");
        return want;
    }
    let mut beside = GuidedReader::new();
    beside.open(&q);
    let luma = cells(&p.y, l.sample_bytes);
    for y in 0..l.h {
        let (cb, cr) = beside.row(y).unwrap_or_else(|_| panic!("a row of the original's"));
        for x in 0..l.w {
            let in_256ths = |v: f32| sited::halves_up(v as f64 * 256.0, 65_536);
            let colour = studio::colour(luma(y, x) as u32, in_256ths(cb[x]), in_256ths(cr[x]));
            want[3 * (y * l.w + x)..][..3].copy_from_slice(&colour);
        }
    }
    want
}

impl Side {
    /// Two pictures of the geometry of `l` with samples of their own, a third one at times of another geometry.
    fn new(r: &mut Random, t: usize, l: Layout) -> Side {
        let mut pictures: Vec<Picture> = (0..3).map(|_| picture(r, t)).collect();
        let other = r.below(3) == 0;
        for (k, p) in pictures.iter_mut().enumerate() {
            if k == 2 && other {
                continue;
            }
            let sample_bytes = 1 + r.below(2);
            let most = if sample_bytes == 1 { 255 } else { 65_535 };
            let maxval = if l.range == Range::Studio { 255 } else { 1 + r.below(most) as u32 };
            p.layout = Layout { sample_bytes, maxval, ..l };
            let kind = r.below(3);
            p.y = plane(r, kind, l.w * sample_bytes, l.h);
            p.cb = plane(r, kind, l.cw * sample_bytes, l.ch);
            p.cr = plane(r, kind, l.cw * sample_bytes, l.ch);
            hold(r, p);
        }
        let need = pictures.iter().map(|p| scratch_need(p.layout)).max().unwrap_or(0);
        Side {
            pictures: pictures.into_iter().map(|p| { let rgb = as_rgb(&p); (p, rgb) }).collect(),
            current: None,
            state: closed(),
            scratch: vec![f32::NAN; need + r.below(3)],
            place: 0,
        }
    }

    fn open(&mut self, k: usize) -> bool {
        let p = &self.pictures[k].0;
        let a = ours::open(p.layout, p.lent(), &self.scratch, &mut self.state);
        (self.current, self.place) = (Some(k), 0);
        a.is_ok()
    }

    fn seek(&mut self, y: usize) -> bool {
        let before = self.state;
        let a = number(ours::seek(&mut self.state, y));
        let Some(k) = self.current else {
            return a == 1 && self.state == before;
        };
        if self.pictures[k].0.layout.h <= y {
            return a == 11 && self.state == before;
        }
        self.place = y;
        a == 0
    }

    /// What a row call of this reader is refused for, but for its planes and scratch.
    fn refusals(&self, y: usize, room: usize) -> Vec<u8> {
        let Some(k) = self.current else { return vec![1] };
        let l = self.pictures[k].0.layout;
        [(10, room < 3 * l.w), (11, l.h <= y), (12, y < self.place)].iter().filter(|n| n.1).map(|n| n.0).collect()
    }

    fn row(&self, y: usize) -> &[u8] {
        let (p, rgb) = &self.pictures[self.current.expect("a picture")];
        &rgb[3 * p.layout.w * y..3 * p.layout.w * (y + 1)]
    }

    fn rgb_row(&mut self, y: usize, room: usize) -> bool {
        let p = &self.pictures[self.current.unwrap_or(0)].0;
        let (mut out, before, state) = (vec![165; room], self.scratch.clone(), self.state);
        let a = number(ours::rgb_row(&mut self.state, p.lent(), y, &mut self.scratch, &mut out));
        if let Some(&n) = self.refusals(y, room).iter().min() {
            return a == n && self.state == state && out == vec![165; room]
                && same_bits(&self.scratch, &before);
        }
        self.place = y;
        let (given, rest) = out.split_at(self.row(y).len());
        a == 0 && given == self.row(y) && rest.iter().all(|b| *b == 165)
    }
}

fn same_bits(a: &[f32], b: &[f32]) -> bool {
    a.iter().zip(b).all(|(x, y)| x.to_bits() == y.to_bits())
}

/// A blend of two readers; whether it is as it should be.
fn blend(a: &mut Side, b: &mut Side, y: usize, weight: usize, room: usize) -> (bool, bool) {
    let (p, q) = (&a.pictures[a.current.unwrap_or(0)].0, &b.pictures[b.current.unwrap_or(0)].0);
    let (mut out, before) = (vec![165; room], (a.scratch.clone(), b.scratch.clone()));
    let states = (a.state, b.state);
    let g = number(blend_row(
        &mut a.state, p.lent(), &mut a.scratch,
        &mut b.state, q.lent(), &mut b.scratch, y, weight, &mut out,
    ));
    let (l, m) = (p.layout, q.layout);
    let like = (l.w, l.h, l.rh, l.rv, l.cw, l.ch, l.range) == (m.w, m.h, m.rh, m.rv, m.cw, m.ch, m.range);
    let mut found = [a.refusals(y, room), b.refusals(y, room)].concat();
    if !found.contains(&1) && (!like || weight > 16) {
        found = vec![22];
    }
    if let Some(&n) = found.iter().min() {
        let same = g == n && (a.state, b.state) == states && out == vec![165; room]
            && same_bits(&a.scratch, &before.0) && same_bits(&b.scratch, &before.1);
        return (same, false);
    }
    (a.place, b.place) = (y, y);
    let mixed = a.row(y).iter().zip(b.row(y)).map(|(a, b)| ((16 - weight) * *a as usize + weight * *b as usize + 8) / 16);
    let n = a.row(y).len();
    let same = g == 0 && out[..n].iter().map(|b| *b as usize).eq(mixed) && out[n..].iter().all(|b| *b == 165);
    (same, true)
}

/// 24 calls on two readers, each over its own scratch: how many blends were given, how many calls differ.
fn blends(r: &mut Random, t: usize) -> [usize; 2] {
    let mut l = picture(r, t).layout;
    if r.below(3) == 0 {
        (l.range, l.maxval) = (Range::Studio, 255);
    }
    let (mut a, mut b) = (Side::new(r, t, l), Side::new(r, t, l));
    let (mut given, mut differ) = (0, 0);
    for step in 0..24 {
        let y = match r.below(3) {
            0 => r.below(l.h + 2),
            _ => a.place.max(b.place) + r.below(2),
        };
        let room = 3 * l.w + r.below(3) - (r.below(12) == 0) as usize;
        let first = r.below(2) == 0;
        let side = if first { &mut a } else { &mut b };
        let same = match if step == 1 { 0 } else { r.below(10) } {
            0 => side.open(r.below(3)),
            1 => side.seek(r.below(l.h + 1)),
            2 | 3 => side.rgb_row(y, room),
            _ => {
                let (same, gave) = blend(&mut a, &mut b, y, r.below(18), room);
                given += gave as usize;
                same
            }
        };
        differ += !same as usize;
    }
    [given, differ]
}

/// The fixed kernel at every pair of whole chroma, at Y 0 and 255.
fn pairs() -> usize {
    let mut differ = 0;
    for n in 0..131_072u32 {
        let (y, cb, cr) = (255 * (n >> 16), n >> 8 & 255, n & 255);
        let [r, g, b] = oracle::ycbcr_to_rgb8_fixed16(y, cb, cr);
        differ += (ours::ycbcr_to_rgb8_fixed16(y, cb, cr) != Ok(Rgb { r, g, b })) as usize;
    }
    differ
}

fn main() {
    let counts: Vec<usize> = std::env::args().skip(1).map(|n| n.parse().expect("a number")).collect();
    let mut r = Random(88_172_645_463_325_252);
    let mut differ = [0; 3];
    for t in 0..counts[0] {
        let p = picture(&mut r, t);
        let found = planes(&p, &original(&p));
        (0..3).for_each(|i| differ[i] += found[i]);
    }
    let [linear, guided, triangular] = differ;
    println!("{} pictures; differ: linear {linear}, guided {guided}, triangular {triangular}", counts[0]);
    let (mut rows, mut refused, mut lists) = (0, 0, 0);
    for t in 0..counts[1] {
        let course = list(&mut r, t);
        rows += course.rows;
        refused += course.refused;
        lists += course.differ;
    }
    println!("{} lists of 24 calls, {rows} rows, {refused} refused; calls that differ: {lists}", counts[1]);
    let [exact, other, fixed] = pixels(&mut r, counts[2]);
    println!("{} pixels; differ: exact at 255 {exact}, at another maxval {other}, fixed {fixed}", counts[2]);
    let every = pairs();
    println!("131,072 pixels of the fixed kernel, every pair of chroma at Y 0 and 255; differ: {every}");
    let fills: usize = (0..counts[3]).map(|t| fill(&mut r, t)).sum();
    println!("{} fills; differ: {fills}", counts[3]);
    let mut sited = [0; 3];
    for t in 0..counts[4] {
        let found = sited_calls(&mut r, t);
        (0..3).for_each(|i| sited[i] += found[i]);
    }
    let [planes, filled, refused] = sited;
    println!("{} pictures by any pairs, half of them co-sited; differ: planes {planes}, fills {filled}, refusals {refused}", counts[4]);
    let differ = studio_pixels(&mut r, counts[5]);
    println!("{} pairs of chroma in studio range, at Y 0 to 255; pixels that differ: {differ}", counts[5]);
    let mut studio = [0; 2];
    for t in 0..counts[5] / 16 {
        let found = studio_calls(&mut r, t);
        (0..2).for_each(|i| studio[i] += found[i]);
    }
    let [coloured, kept] = studio;
    println!("{} fills in studio range; differ: {coloured}, guided planes {kept}", counts[5] / 16);
    let mut again = refills::Found::default();
    (0..counts[6]).for_each(|t| refills::refill(&mut r, t, &mut again));
    let refills::Found { differ: refilled, converted, refused: turned, whole } = again;
    println!("{} refills, {converted} that convert rows, {turned} refused, {whole} from the conversion before to the one after; differ: {refilled}", counts[6]);
    let mut lent = [0; 2];
    for t in 0..counts[4] {
        let found = above(&mut r, t);
        (0..2).for_each(|i| lent[i] += found[i]);
    }
    let [calls, lone_rows] = lent;
    println!("{} pictures with a sample above the maxval, in a plane or beside it; differ: calls {calls}, rows {lone_rows}", counts[4]);
    let mut found = [0; 2];
    for t in 0..counts[7] {
        let list = blends(&mut r, t);
        (0..2).for_each(|i| found[i] += list[i]);
    }
    let [given, unlike] = found;
    println!("{} lists of 24 calls on two readers, {given} blends given; calls that differ: {unlike}", counts[7]);
    let all = unlike + linear + guided + triangular + lists + exact + other + fixed + every + fills
        + planes + filled + refused + differ + coloured + kept + calls + lone_rows + refilled;
    std::process::exit((all != 0) as i32);
}
