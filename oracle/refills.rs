//! Random refills, beside the original's fills of the planes before and after and document 02's W13 by
//! its sentences: which calls are refused, which rows are converted again, and that all others stay.

use crate::{number, original, ours, plane, scratch_need, Picture, Plane, Random};
use ours::{Axis, Layout, Range, Rectangle, YcbcrKernel};

/// What the refills of a run came to.
#[derive(Default)]
pub struct Found {
    pub differ: usize,
    pub converted: usize,
    pub refused: usize,
    /// Those whose picture was the conversion before, and is the one after.
    pub whole: usize,
}

/// The sides of plane k.
fn sides(l: Layout, k: usize) -> (usize, usize) {
    if k == 0 { (l.w, l.h) } else { (l.cw, l.ch) }
}

fn place(l: Layout, p: &Plane, j: usize, i: usize) -> usize {
    j * p.stride + i * l.sample_bytes
}

fn sample(l: Layout, p: &Plane, j: usize, i: usize) -> u32 {
    let at = place(l, p, j, i);
    let high = if l.sample_bytes == 2 { p.data[at + 1] } else { 0 };
    p.data[at] as u32 + 256 * high as u32
}

fn put(l: Layout, p: &mut Plane, j: usize, i: usize, v: u32) {
    let at = place(l, p, j, i);
    p.data[at] = v as u8;
    if l.sample_bytes == 2 {
        p.data[at + 1] = (v >> 8) as u8;
    }
}

/// A plane of these sides, with padding of its own.
fn another(r: &mut Random, l: Layout, k: usize) -> Plane {
    let (columns, rows) = sides(l, k);
    plane(r, 0, columns * l.sample_bytes, rows)
}

fn planes_of(p: &mut Picture) -> [&mut Plane; 3] {
    [&mut p.y, &mut p.cb, &mut p.cr]
}

/// A picture whose samples are within maxval.
fn within(r: &mut Random, t: usize) -> Picture {
    let (rh, rv) = (1 + t % 4, 1 + t / 4 % 4);
    let (w, h) = (1 + r.below(30), 1 + r.below(if t % 3 == 0 { 60 } else { 16 }));
    let sample_bytes = 1 + r.below(2);
    let most = if sample_bytes == 1 { 255 } else { 65_535 };
    let maxval = if r.below(2) == 0 { 255 } else { 1 + r.below(most) } as u32;
    let (cw, ch) = (w.div_ceil(rh), h.div_ceil(rv));
    let (across, down) = (Axis::PLAIN, Axis::PLAIN);
    let layout = Layout { w, h, rh, rv, cw, ch, across, down, sample_bytes, maxval, range: Range::Full };
    let [y, cb, cr] = [0, 1, 2].map(|k| another(r, layout, k));
    let mut p = Picture { layout, y, cb, cr };
    for (k, q) in planes_of(&mut p).into_iter().enumerate() {
        let (columns, rows) = sides(layout, k);
        for j in 0..rows {
            for i in 0..columns {
                let v = sample(layout, q, j, i) % (maxval + 1);
                put(layout, q, j, i, v);
            }
        }
    }
    p
}

/// A rectangle: mostly of the plane, at times of no cell, at times of any numbers.
fn rectangle(r: &mut Random, l: Layout) -> Rectangle {
    let (left, top) = (r.below(l.cw), r.below(l.ch));
    let mut cells =
        Rectangle { left, top, width: 1 + r.below(l.cw - left), height: 1 + r.below(3.min(l.ch - top)) };
    match r.below(20) {
        0 => cells.width = 0,
        1 => (cells.height, cells.top) = (0, r.next() as usize),
        2 => cells.left += 1 + r.below(3),
        3 => cells.height = usize::MAX - r.below(2) * r.below(99),
        4 => (cells.left, cells.width) = (usize::MAX - r.below(4), 1 + r.below(9)),
        5 => (cells.top, cells.height) = (0, l.ch),
        _ => {}
    }
    cells
}

fn holds(c: Rectangle, i: usize, j: usize) -> bool {
    i >= c.left && i - c.left < c.width && j >= c.top && j - c.top < c.height
}

/// The picture before: other padding, other samples in the rectangle, and at times one elsewhere.
fn before(r: &mut Random, new: &Picture, cells: Rectangle) -> Picture {
    let l = new.layout;
    let [y, cb, cr] = [0, 1, 2].map(|k| another(r, l, k));
    let mut old = Picture { layout: l, y, cb, cr };
    for (k, (q, p)) in planes_of(&mut old).into_iter().zip([&new.y, &new.cb, &new.cr]).enumerate() {
        let (columns, rows) = sides(l, k);
        for j in 0..rows {
            for i in 0..columns {
                let mut v = sample(l, p, j, i);
                if k > 0 && holds(cells, i, j) && r.below(4) > 0 {
                    v = r.below(l.maxval as usize + 1) as u32;
                }
                put(l, q, j, i, v);
            }
        }
    }
    if r.below(5) == 0 {
        let k = r.below(3);
        let (columns, rows) = sides(l, k);
        let (i, j) = (r.below(columns), r.below(rows));
        // At times it is above maxval.
        let v = r.below(l.maxval as usize + 2) as u32;
        if v >> (8 * l.sample_bytes) == 0 {
            put(l, planes_of(&mut old)[k], j, i, v);
        }
    }
    old
}

/// 17, then, where size and scratch are right, 19, 10 and 21.
fn wanted(old: &Picture, new: &Picture, cells: Rectangle, room: usize, size: usize) -> u8 {
    let l = new.layout;
    let pairs = [(&old.y, &new.y), (&old.cb, &new.cb), (&old.cr, &new.cr)];
    let each = |k: usize, f: &dyn Fn(usize, usize) -> bool| {
        let (columns, rows) = sides(l, k);
        (0..rows).any(|j| (0..columns).any(|i| f(j, i)))
    };
    let above = |p: &Plane, k: usize| each(k, &|j, i| sample(l, p, j, i) > l.maxval);
    if (0..3).any(|k| above(pairs[k].0, k) || above(pairs[k].1, k)) {
        return 17;
    }
    let end = |start: usize, n: usize| start as u128 + n as u128;
    let some = cells.width > 0 && cells.height > 0;
    if some && (end(cells.left, cells.width) > l.cw as u128 || end(cells.top, cells.height) > l.ch as u128) {
        return 19;
    }
    if room < l.w * l.h * size {
        return 10;
    }
    let differ = |k: usize| {
        let (p, q) = pairs[k];
        each(k, &|j, i| (k == 0 || !holds(cells, i, j)) && sample(l, p, j, i) != sample(l, q, j, i))
    };
    if (0..3).any(differ) {
        return 21;
    }
    0
}

/// Whether the cell row of row y is within two of a row of the rectangle.
fn near(l: Layout, cells: Rectangle, y: usize) -> bool {
    cells.width > 0 && (cells.top..cells.top + cells.height).any(|j| j.abs_diff(y / l.rv) <= 2)
}

/// Refill t.
pub fn refill(r: &mut Random, t: usize, found: &mut Found) {
    let new = within(r, t);
    let l = new.layout;
    let cells = rectangle(r, l);
    let old = before(r, &new, cells);
    let size = 3 + r.below(2);
    let (kernel, other) = match l.maxval == 255 && r.below(2) == 0 {
        true => (YcbcrKernel::FixedPoint16, oracle::Kernel::Fixed),
        false => (YcbcrKernel::Exact, oracle::Kernel::Exact),
    };
    let whole = l.w * l.h * size;
    let room = if r.below(40) == 0 { r.below(whole) } else { whole + r.below(6) };
    let mut out: Vec<u8> = (0..room).map(|_| r.next() as u8).collect();
    let fill = |p: &Picture, out: &mut [u8]| {
        oracle::fill(&original(p), size, oracle::Upsampling::Guided, other, out).expect("a fill of the original's")
    };
    let answer = wanted(&old, &new, cells, room, size);
    // Half of the pictures are the conversion before the change.
    let held = r.below(2) == 0 && room >= whole && answer != 17;
    if held {
        fill(&old, &mut out[..whole]);
    }
    let mut want = out.clone();
    if answer == 0 {
        let mut after = out.clone();
        fill(&new, &mut after[..whole]);
        for y in (0..l.h).filter(|&y| near(l, cells, y)) {
            let row = y * l.w * size..(y + 1) * l.w * size;
            want[row.clone()].copy_from_slice(&after[row]);
        }
        found.differ += (held && want != after) as usize;
        found.whole += held as usize;
        found.converted += (0..l.h).any(|y| near(l, cells, y)) as usize;
    } else {
        found.refused += 1;
    }
    let mut s = vec![-1.25f32; scratch_need(l) + 3];
    let given = number(ours::refill(l, old.lent(), new.lent(), cells, kernel, size, &mut s, &mut out));
    let kept = if answer == 0 && cells.width > 0 && cells.height > 0 { scratch_need(l) } else { 0 };
    let touched = s[kept..].iter().any(|&v| v != -1.25);
    found.differ += (given != answer || out != want || touched) as usize;
}
