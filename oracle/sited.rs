//! Linear chroma from its positions in exact fractions: not the original's, which knows centred
//! chroma alone. BT.601 has a co-sited sample on the first luma sample of its cell, so that output o
//! lies at o·num/ratio where `ratio` outputs lie to `num` cells.

/// An axis: whether its samples are co-sited, and how many outputs lie to how many cells.
#[derive(Clone, Copy)]
pub struct Axis {
    pub co_sited: bool,
    pub num: usize,
    pub ratio: usize,
}

/// Two cells, and how far the output lies between them: `part` of `whole`.
struct Tap {
    cells: [usize; 2],
    part: i64,
    whole: i64,
}

fn tap(axis: Axis, cells: usize, o: usize) -> Tap {
    let (o, num, r, last) = (o as i64, axis.num as i64, axis.ratio as i64, cells as i64 - 1);
    let (n, whole) = if axis.co_sited { (o * num, r) } else { ((2 * o + 1) * num - r, 2 * r) };
    if n < 0 {
        return Tap { cells: [0; 2], part: 0, whole: 1 };
    }
    if n >= last * whole {
        return Tap { cells: [last as usize; 2], part: 0, whole: 1 };
    }
    let first = (n / whole) as usize;
    Tap { cells: [first, first + 1], part: n % whole, whole }
}

/// lerp(a, b, f) = a + f·(b−a), three roundings.
fn lerp(a: f32, b: f32, f: f32) -> f32 {
    a + f * (b - a)
}

/// The float of output (x, y) by document 01's steps. It must lie within a sixteenth of the exact
/// bilinear value, and be that value where no ratio is 3.
pub fn chroma(cell: impl Fn(usize, usize) -> i64, size: (usize, usize), axes: (Axis, Axis), x: usize, y: usize) -> f32 {
    let (a, d) = (tap(axes.0, size.0, x), tap(axes.1, size.1, y));
    let f = d.part as f32 / d.whole as f32;
    let down = |j: usize| lerp(cell(d.cells[0], j) as f32, cell(d.cells[1], j) as f32, f);
    let v = lerp(down(a.cells[0]), down(a.cells[1]), a.part as f32 / a.whole as f32);
    let sum = |j: usize| (d.whole - d.part) * cell(d.cells[0], j) + d.part * cell(d.cells[1], j);
    let exact = (a.whole - a.part) * sum(a.cells[0]) + a.part * sum(a.cells[1]);
    let off = v as f64 * (a.whole * d.whole) as f64 - exact as f64;
    assert!(off.abs() * 16.0 <= (a.whole * d.whole) as f64, "more than a sixteenth: {v}, {exact}");
    assert!(off == 0.0 || axes.0.ratio == 3 || axes.1.ratio == 3, "not exact: {v}, {exact}");
    v
}

/// Rounded halves up, limited to 0..=most.
pub fn halves_up(v: f64, most: u32) -> u32 {
    (v + 0.5).floor().clamp(0.0, most as f64) as u32
}
