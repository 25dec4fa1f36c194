//! Speed beside the original: the static library through include/chroma.h's calls and the
//! original's functions, same input, one thread, turn by turn in one process; thread CPU time,
//! the best of several turns. A ratio above 1 says that the library is ahead.
//! Usage: bench [TURNS [CELL...]]; a CELL is a part of a cell's name.
#[allow(dead_code)]
#[path = "../bindings/rust/src/raw.rs"]
mod raw;

use oracle::{Bytes, Chroma, GuidedReader, Kernel, Numbers, Picture, Upsampling};
use raw::{ChromaLayout, ChromaReader, ChromaRectangle, ChromaStrides};

#[repr(C)]
struct Timespec {
    sec: i64,
    nsec: i64,
}

extern "C" {
    fn clock_gettime(clock: i32, time: *mut Timespec) -> i32;
}

/// This thread's CPU time in seconds.
fn now() -> f64 {
    let mut t = Timespec { sec: 0, nsec: 0 };
    // SAFETY: clock 3 is Linux's CLOCK_THREAD_CPUTIME_ID, and t outlives the call.
    unsafe { clock_gettime(3, &mut t) };
    t.sec as f64 + t.nsec as f64 * 1e-9
}

struct Input {
    layout: ChromaLayout,
    planes: [Vec<u8>; 3],
    strides: ChromaStrides,
    beside: Picture,
    scratch: Vec<f32>,
}

/// Noise that is the same at every run, without padding.
fn input(w: usize, h: usize, rh: usize, rv: usize, sample_bytes: usize, maxval: u32) -> Input {
    input_by(w, h, (1, rh), (1, rv), sample_bytes, maxval)
}

/// The same with `rh` pixels to `nh` cells across and `rv` to `nv` down.
fn input_by(w: usize, h: usize, (nh, rh): (usize, usize), (nv, rv): (usize, usize), sample_bytes: usize, maxval: u32) -> Input {
    let (cw, ch) = ((w * nh).div_ceil(rh), (h * nv).div_ceil(rv));
    let mut state = 88_172_645_463_325_252u64;
    let mut plane = |w: usize, h: usize| {
        let mut data = Vec::with_capacity(w * h * sample_bytes);
        for _ in 0..w * h {
            state ^= state << 13;
            state ^= state >> 7;
            state ^= state << 17;
            let v = state % (maxval as u64 + 1);
            data.extend_from_slice(&v.to_le_bytes()[..sample_bytes]);
        }
        data
    };
    let planes = [plane(w, h), plane(cw, ch), plane(cw, ch)];
    let strides = ChromaStrides { y: w * sample_bytes, cb: cw * sample_bytes, cr: cw * sample_bytes };
    let all = [strides.y, strides.cb, strides.cr];
    let bytes = [0, 1, 2].map(|k| Bytes { data: &planes[k], stride: all[k] });
    let beside = Picture::new(Numbers { w, h, nh, nv, rh, rv, bps: sample_bytes, maxval }, bytes).expect("a picture");
    let layout = ChromaLayout {
        w, h, rh, rv, cw, ch, sample_bytes, maxval, siting_across: 0, siting_down: 0, num_across: nh, num_down: nv,
        range: 0,
    };
    Input { layout, planes, strides, beside, scratch: vec![0.0; 32 * cw + 8 * w] }
}

/// A reader of the picture at row 0.
fn opened(i: &Input, s: &[f32]) -> ChromaReader {
    let [y, cb, cr] = &i.planes;
    // SAFETY: each pointer and length are one slice's.
    let reply = unsafe {
        raw::chroma_open(
            i.layout, y.as_ptr(), y.len(), cb.as_ptr(), cb.len(), cr.as_ptr(), cr.len(), i.strides,
            s.as_ptr(), s.len(), ChromaReader::default(),
        )
    };
    assert!(reply.refusal == 0);
    reply.reader
}

/// Best times of both, and whether both gave the same.
struct Cell {
    turns: usize,
    wanted: Vec<String>,
}

impl Cell {
    fn run(&self, name: &str, pixels: usize, mut ours: impl FnMut(), mut theirs: impl FnMut(), same: impl Fn() -> bool) {
        if !self.wanted.is_empty() && !self.wanted.iter().any(|w| name.contains(w.as_str())) {
            return;
        }
        let (mut a, mut b) = (f64::MAX, f64::MAX);
        for _ in 0..self.turns {
            let t = now();
            ours();
            a = a.min(now() - t);
            let t = now();
            theirs();
            b = b.min(now() - t);
        }
        let ns = 1e9 / pixels as f64;
        let word = if name.contains("co-sited") { "of another siting" } else if name.contains("studio") { "of another range" } else if name.starts_with("open") { "not a fill" } else if same() { "same" } else { "DIFFERENT" };
        println!("| {name} | {:.2} | {:.2} | {:.2} | {word} |", a * ns, b * ns, b / a);
    }

    fn fill(&self, i: &Input, linear: bool, fixed: bool, size: usize, name: &str) {
        let l = i.layout;
        let mut s = i.scratch.clone();
        let out = std::cell::RefCell::new(vec![7u8; l.w * l.h * size]);
        let want = std::cell::RefCell::new(vec![7u8; l.w * l.h * size]);
        let [y, cb, cr] = &i.planes;
        let up = if linear { Upsampling::Linear } else { Upsampling::Guided };
        let kernel = if fixed { Kernel::Fixed } else { Kernel::Exact };
        self.run(
            name, l.w * l.h,
            || {
                let mut out = out.borrow_mut();
                // SAFETY: each pointer and length are one slice's.
                let n = unsafe {
                    raw::chroma_fill(
                        l, y.as_ptr(), y.len(), cb.as_ptr(), cb.len(), cr.as_ptr(), cr.len(), i.strides,
                        !linear as u32, fixed as u32, size, s.as_mut_ptr(), s.len(), out.as_mut_ptr(), out.len(),
                    )
                };
                assert!(n == 0);
            },
            || oracle::fill(&i.beside, size, up, kernel, &mut want.borrow_mut()).expect("a fill"),
            || *out.borrow() == *want.borrow(),
        );
    }

    /// A refill of a rectangle of `width` by `height` cells in the middle, guided and exact, three bytes a
    /// pixel; the original has no such call, and fills the whole picture.
    fn refill(&self, i: &Input, width: usize, height: usize, name: &str) {
        let l = i.layout;
        let cells = ChromaRectangle { left: (l.cw - width) / 2, top: (l.ch - height) / 2, width, height };
        let [y, cb, cr] = &i.planes;
        let mut old = [cb.clone(), cr.clone()];
        for (plane, stride) in old.iter_mut().zip([i.strides.cb, i.strides.cr]) {
            for row in plane.chunks_mut(stride).skip(cells.top).take(height) {
                row[cells.left..cells.left + width].iter_mut().for_each(|cell| *cell ^= 85);
            }
        }
        let mut s = i.scratch.clone();
        let mut held = vec![7u8; l.w * l.h * 3];
        // SAFETY: each pointer and length are one slice's.
        let n = unsafe {
            raw::chroma_fill(
                l, y.as_ptr(), y.len(), old[0].as_ptr(), old[0].len(), old[1].as_ptr(), old[1].len(), i.strides,
                1, 0, 3, s.as_mut_ptr(), s.len(), held.as_mut_ptr(), held.len(),
            )
        };
        assert!(n == 0);
        let out = std::cell::RefCell::new(held);
        let want = std::cell::RefCell::new(vec![7u8; l.w * l.h * 3]);
        self.run(
            name, l.w * l.h,
            || {
                let mut out = out.borrow_mut();
                // SAFETY: each pointer and length are one slice's.
                let n = unsafe {
                    raw::chroma_refill(
                        l, y.as_ptr(), y.len(), old[0].as_ptr(), old[0].len(), old[1].as_ptr(), old[1].len(), i.strides,
                        y.as_ptr(), y.len(), cb.as_ptr(), cb.len(), cr.as_ptr(), cr.len(), i.strides,
                        cells, 0, 3, s.as_mut_ptr(), s.len(), out.as_mut_ptr(), out.len(),
                    )
                };
                assert!(n == 0);
            },
            || oracle::fill(&i.beside, 3, Upsampling::Guided, Kernel::Exact, &mut want.borrow_mut()).expect("a fill"),
            || *out.borrow() == *want.borrow(),
        );
    }

    /// Rows in the order given; a row before the last one is sought first.
    fn rows(&self, i: &Input, order: &[usize], name: &str) {
        let l = i.layout;
        let [y, cb, cr] = &i.planes;
        let mut s = i.scratch.clone();
        let last = std::cell::RefCell::new((vec![0f32; l.w], vec![0f32; l.w]));
        let want = std::cell::RefCell::new((vec![], vec![]));
        self.run(
            name, l.w * order.len(),
            || {
                let (b, r) = &mut *last.borrow_mut();
                // SAFETY: each pointer and length are one slice's.
                unsafe {
                    let mut at = raw::chroma_open(
                        l, y.as_ptr(), y.len(), cb.as_ptr(), cb.len(), cr.as_ptr(), cr.len(), i.strides,
                        s.as_ptr(), s.len(), ChromaReader::default(),
                    );
                    let mut before = 0;
                    for &row in order {
                        if row < before || before + 8 < row {
                            at = raw::chroma_seek(at.reader, row);
                        }
                        at = raw::chroma_row(
                            at.reader, y.as_ptr(), y.len(), cb.as_ptr(), cb.len(), cr.as_ptr(), cr.len(),
                            i.strides, row, s.as_mut_ptr(), s.len(),
                            b.as_mut_ptr(), b.len(), r.as_mut_ptr(), r.len(),
                        );
                        assert!(at.refusal == 0);
                        before = row;
                    }
                }
            },
            || {
                let mut g = GuidedReader::new();
                g.open(&i.beside);
                let mut before = 0;
                for &row in order {
                    if row < before || before + 8 < row {
                        g.seek(row).ok().expect("a seek");
                    }
                    *want.borrow_mut() = g.row(row).ok().expect("a row");
                    before = row;
                }
            },
            || *last.borrow() == *want.borrow(),
        );
    }

    /// Open, whose time is that of looking at every sample, beside the original's guided fill of the
    /// same picture.
    fn open(&self, i: &Input, name: &str) {
        let l = i.layout;
        let [y, cb, cr] = &i.planes;
        let s = i.scratch.clone();
        let mut want = vec![7u8; l.w * l.h * 3];
        self.run(
            name, l.w * l.h,
            || {
                // SAFETY: each pointer and length are one slice's.
                let at = unsafe {
                    raw::chroma_open(
                        l, y.as_ptr(), y.len(), cb.as_ptr(), cb.len(), cr.as_ptr(), cr.len(), i.strides,
                        s.as_ptr(), s.len(), ChromaReader::default(),
                    )
                };
                assert!(at.refusal == 0);
            },
            || oracle::fill(&i.beside, 3, Upsampling::Guided, Kernel::Exact, &mut want).expect("a fill"),
            || true,
        );
    }

    /// Every row as RGB, top to bottom, beside the original's guided exact fill.
    fn rgb_rows(&self, i: &Input, name: &str) {
        let l = i.layout;
        let [y, cb, cr] = &i.planes;
        let mut s = i.scratch.clone();
        let out = std::cell::RefCell::new(vec![7u8; 3 * l.w * l.h]);
        let want = std::cell::RefCell::new(vec![7u8; 3 * l.w * l.h]);
        self.run(
            name, l.w * l.h,
            || {
                let mut at = opened(i, &s);
                for (row, out) in out.borrow_mut().chunks_mut(3 * l.w).enumerate() {
                    // SAFETY: each pointer and length are one slice's.
                    let reply = unsafe {
                        raw::chroma_rgb_row(
                            at, y.as_ptr(), y.len(), cb.as_ptr(), cb.len(), cr.as_ptr(), cr.len(), i.strides, row,
                            s.as_mut_ptr(), s.len(), out.as_mut_ptr(), out.len(),
                        )
                    };
                    assert!(reply.refusal == 0);
                    at = reply.reader;
                }
            },
            || oracle::fill(&i.beside, 3, Upsampling::Guided, Kernel::Exact, &mut want.borrow_mut()).expect("a fill"),
            || *out.borrow() == *want.borrow(),
        );
    }

    /// Every row of a blend of two pictures, beside two fills of the original that a plain loop mixes.
    fn blend(&self, i: &Input, j: &Input, weight: usize, name: &str) {
        let l = i.layout;
        let ([y, cb, cr], [v, ub, ur]) = (&i.planes, &j.planes);
        let (mut s, mut t) = (i.scratch.clone(), j.scratch.clone());
        let out = std::cell::RefCell::new(vec![7u8; 3 * l.w * l.h]);
        let want = std::cell::RefCell::new(vec![7u8; 3 * l.w * l.h]);
        let mut late = vec![7u8; 3 * l.w * l.h];
        self.run(
            name, l.w * l.h,
            || {
                let (mut a, mut b) = (opened(i, &s), opened(j, &t));
                for (row, out) in out.borrow_mut().chunks_mut(3 * l.w).enumerate() {
                    // SAFETY: each pointer and length are one slice's.
                    let reply = unsafe {
                        raw::chroma_blend_row(
                            a, y.as_ptr(), y.len(), cb.as_ptr(), cb.len(), cr.as_ptr(), cr.len(), i.strides,
                            s.as_mut_ptr(), s.len(),
                            b, v.as_ptr(), v.len(), ub.as_ptr(), ub.len(), ur.as_ptr(), ur.len(), j.strides,
                            t.as_mut_ptr(), t.len(), row, weight, out.as_mut_ptr(), out.len(),
                        )
                    };
                    assert!(reply.refusal == 0);
                    (a, b) = (reply.early, reply.late);
                }
            },
            || {
                let mut want = want.borrow_mut();
                oracle::fill(&i.beside, 3, Upsampling::Guided, Kernel::Exact, &mut want).expect("a fill");
                oracle::fill(&j.beside, 3, Upsampling::Guided, Kernel::Exact, &mut late).expect("a fill");
                let k = weight as u16;
                for (a, b) in want.iter_mut().zip(&late) {
                    *a = (((16 - k) * *a as u16 + k * *b as u16 + 8) / 16) as u8;
                }
            },
            || *out.borrow() == *want.borrow(),
        );
    }

    fn plane(&self, i: &Input, kind: usize, name: &str) {
        let l = i.layout;
        let [y, cb, _] = &i.planes;
        let mut s = i.scratch.clone();
        let out = std::cell::RefCell::new(vec![0u16; l.w * l.h]);
        let want = std::cell::RefCell::new(vec![]);
        self.run(
            name, l.w * l.h,
            || {
                let mut out = out.borrow_mut();
                let (o, n) = (out.as_mut_ptr(), out.len());
                // SAFETY: each pointer and length are one slice's.
                let refusal = unsafe {
                    match kind {
                        0 => raw::chroma_linear_plane(
                            l, cb.as_ptr(), cb.len(), i.strides.cb, s.as_mut_ptr(), s.len(), o, n,
                        ),
                        1 => raw::chroma_guided_plane(
                            l, y.as_ptr(), y.len(), i.strides.y, cb.as_ptr(), cb.len(), i.strides.cb,
                            s.as_mut_ptr(), s.len(), o, n,
                        ),
                        _ => raw::chroma_triangular_plane(l, cb.as_ptr(), cb.len(), i.strides.cb, o, n),
                    }
                };
                assert!(refusal == 0);
            },
            || {
                *want.borrow_mut() = match kind {
                    0 => oracle::linear_plane(&i.beside, Chroma::Cb),
                    1 => oracle::guided_plane(&i.beside, Chroma::Cb),
                    _ => oracle::triangular_plane(&i.beside, Chroma::Cb).expect("a plane"),
                }
            },
            || out.borrow().iter().zip(want.borrow().iter()).all(|(a, b)| *a as u32 == *b),
        );
    }
}

fn main() {
    let mut args = std::env::args().skip(1);
    let turns = args.next().map_or(7, |n| n.parse().expect("a number"));
    let cell = Cell { turns, wanted: args.collect() };
    println!("| cell | ns a pixel | the original's | ratio | output |\n|---|---|---|---|---|");
    for side in [128, 1_024, 4_096] {
        let i = input(side, side, 2, 2, 1, 255);
        for (linear, up) in [(false, "guided"), (true, "linear")] {
            for (fixed, kernel) in [(false, "exact"), (true, "fixed")] {
                for size in [3, 4] {
                    cell.fill(&i, linear, fixed, size, &format!("fill {up} {kernel}, {size} bytes, 2:2, {side} by {side}"));
                }
            }
        }
    }
    for (rh, rv) in (1..5).flat_map(|rh| (1..5).map(move |rv| (rh, rv))).filter(|p| *p != (2, 2)) {
        let i = input(1_024, 1_024, rh, rv, 1, 255);
        cell.fill(&i, false, false, 3, &format!("fill guided exact, 3 bytes, {rh}:{rv}, 1024 by 1024"));
        cell.fill(&i, true, false, 3, &format!("fill linear exact, 3 bytes, {rh}:{rv}, 1024 by 1024"));
    }
    let i = input(1_024, 1_024, 2, 2, 2, 4_095);
    cell.fill(&i, false, false, 3, "fill guided exact, 3 bytes, 2:2, two-byte samples, maxval 4095");
    cell.fill(&i, true, false, 3, "fill linear exact, 3 bytes, 2:2, two-byte samples, maxval 4095");
    // Samples are looked at where maxval isn't the most that a sample holds.
    cell.open(&i, "open, 2:2, two-byte samples, maxval 4095");
    let i = input(1_024, 1_024, 2, 2, 1, 254);
    cell.open(&i, "open, 2:2, maxval 254");
    cell.fill(&i, false, false, 3, "fill guided exact, 3 bytes, 2:2, maxval 254");
    cell.fill(&i, true, false, 3, "fill linear exact, 3 bytes, 2:2, maxval 254");
    let i = input(1_024, 1_024, 2, 2, 1, 255);
    let down: Vec<usize> = (0..1_024).collect();
    cell.rows(&i, &down, "rows, Cb and Cr, top to bottom, 2:2");
    let mixed: Vec<usize> = (0..1_024).map(|k| k * 389 % 1_024).collect();
    cell.rows(&i, &mixed, "rows, Cb and Cr, a seek before each, 2:2");
    cell.rgb_rows(&i, "RGB rows, top to bottom, 2:2, beside the fill");
    let mut late = input(1_024, 1_024, 2, 2, 1, 255);
    for plane in &mut late.planes {
        plane.reverse();
    }
    let [y, cb, cr] = &late.planes;
    let all = [(y, 1_024), (cb, 512), (cr, 512)].map(|(data, stride)| Bytes { data, stride });
    late.beside = Picture::new(Numbers { w: 1_024, h: 1_024, nh: 1, nv: 1, rh: 2, rv: 2, bps: 1, maxval: 255 }, all).expect("a picture");
    cell.blend(&i, &late, 5, "blend rows, weight 5, 2:2, beside two fills and a mix");
    cell.plane(&i, 0, "linear plane, 2:2");
    cell.plane(&i, 1, "guided plane, 2:2");
    cell.plane(&i, 2, "triangular plane, 2:2");
    for (width, height) in [(0, 0), (16, 1), (16, 16), (512, 128), (512, 512)] {
        cell.refill(&i, width, height, &format!("refill of {width} by {height} cells, 2:2, 1024 by 1024, beside a fill of the original's"));
    }
    for (num, den) in [(2, 2), (2, 3), (2, 4), (3, 3), (3, 4), (4, 4)] {
        let i = input_by(1_024, 1_024, (num, den), (num, den), 1, 255);
        cell.plane(&i, 0, &format!("linear plane, {num} of {den} both ways"));
        cell.fill(&i, true, false, 3, &format!("fill linear exact, 3 bytes, {num} of {den} both ways, 1024 by 1024"));
    }
    // Co-sited chroma beside the original's centred rows, which are as much work: the output is another one.
    for (rh, rv) in [(2, 2), (2, 1), (3, 3), (4, 4)] {
        let mut i = input(1_024, 1_024, rh, rv, 1, 255);
        (i.layout.siting_across, i.layout.siting_down) = (1, 1);
        cell.fill(&i, true, false, 3, &format!("fill linear exact, 3 bytes, {rh}:{rv}, co-sited, 1024 by 1024"));
    }
    // Studio range beside the original's full range, which is less work: the output is another one.
    for (linear, size) in [(true, 3), (true, 4), (false, 3), (false, 4)] {
        let mut i = input(1_024, 1_024, 2, 2, 1, 255);
        i.layout.range = 1;
        let how = if linear { "linear" } else { "guided" };
        cell.fill(&i, linear, false, size, &format!("fill {how} exact, {size} bytes, 2:2, studio range, 1024 by 1024"));
    }
    let i = input(8_192, 64, 2, 2, 1, 255);
    cell.fill(&i, false, false, 3, "fill guided exact, 3 bytes, 2:2, 8192 by 64");
}
