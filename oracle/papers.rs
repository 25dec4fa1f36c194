//! Both documents, word by word: what each public call answers and what it gives. It is written
//! from the papers alone, plainly and slowly, and shares no text with the crates, the original or
//! the other references. What the papers leave free, the content of scratch, it doesn't say.

/// A picture's numbers as C has them; a siting or range may be any number.
#[derive(Clone, Copy, Debug, PartialEq)]
pub struct Layout {
    pub w: usize,
    pub h: usize,
    pub rh: usize,
    pub rv: usize,
    pub cw: usize,
    pub ch: usize,
    pub bytes: usize,
    pub maxval: u32,
    pub siting: [u32; 2],
    pub num: [usize; 2],
    pub range: u32,
}

/// A plane as it is lent.
#[derive(Clone, Copy)]
pub struct Plane<'a> {
    pub data: &'a [u8],
    pub stride: usize,
}

/// Y, Cb and Cr.
pub type Planes<'a> = [Plane<'a>; 3];

/// A part of a picture, in pixels or in chroma cells.
#[derive(Clone, Copy, Debug)]
pub struct Rectangle {
    pub left: usize,
    pub top: usize,
    pub width: usize,
    pub height: usize,
}

/// The ways of a whole plane, of fill and of open.
#[derive(Clone, Copy, Debug, PartialEq)]
pub enum Way {
    Linear,
    Guided,
    Triangular,
}

pub const EXACT: u32 = 0;
pub const FIXED: u32 = 1;
pub const STUDIO: u32 = 1;

/// Floor of n / d.
fn floor(n: i128, d: i128) -> i128 {
    n.div_euclid(d)
}

/// "rnd(q) is the floor of q + 1/2", for q = n / d.
fn rnd(n: i128, d: i128) -> i128 {
    floor(2 * n + d, 2 * d)
}

/// "Each is then limited to 0..255".
fn byte(v: i128) -> u8 {
    v.clamp(0, 255) as u8
}

fn rounded_up(n: usize, d: usize) -> usize {
    (n as u128).div_ceil(d as u128) as usize
}

/// "32·cw + 8·w values of scratch".
pub fn need(l: &Layout) -> u128 {
    32 * l.cw as u128 + 8 * l.w as u128
}

/// A sample, the low byte first.
pub fn sample(l: &Layout, p: Plane, x: usize, y: usize) -> u32 {
    let at = y * p.stride + x * l.bytes;
    (0..l.bytes).map(|k| (p.data[at + k] as u32) << (8 * k)).sum()
}

// ---- refusals

/// 255: a siting or range that stands for none.
pub fn strange(l: &Layout) -> bool {
    l.siting[0] > 1 || l.siting[1] > 1 || l.range > 1
}

/// 2, 3, 4, 18 and 5, in this order; 0 where none applies.
pub fn layout_refusal(l: &Layout, way: Way, kernel: u32) -> u32 {
    let most = if l.bytes == 1 { 255 } else { 65_535 };
    let whole = way != Way::Linear;
    let bad_pair = |num: usize, den: usize| den < 1 || den > 4 || num < 1 || num > den || (whole && num != 1);
    if l.w == 0 || l.w > 8192 || l.h == 0 || l.h > 8192 {
        2
    } else if bad_pair(l.num[0], l.rh) || bad_pair(l.num[1], l.rv) {
        3
    } else if !(l.bytes == 1 || l.bytes == 2) || l.maxval < 1 || l.maxval > most || (kernel == FIXED && l.maxval != 255) {
        4
    } else if l.range == STUDIO && (l.maxval != 255 || kernel == FIXED) {
        18
    } else if l.cw != rounded_up(l.w * l.num[0], l.rh) || l.ch != rounded_up(l.h * l.num[1], l.rv) {
        5
    } else {
        0
    }
}

/// 6 and 16.
fn way_refusal(l: &Layout, way: Way) -> u32 {
    let pair = [(2, 1), (1, 2), (2, 2)].contains(&(l.rh, l.rv));
    if way == Way::Triangular && (!pair || (l.rh == 2 && l.cw <= 2)) {
        6
    } else if way != Way::Linear && l.siting != [0, 0] {
        16
    } else {
        0
    }
}

/// 7: "a plane's stride below its row, or data ending before its last row's end".
pub fn bad_plane(l: &Layout, p: Plane, w: usize, h: usize) -> bool {
    let row = w as u128 * l.bytes as u128;
    (p.stride as u128) < row || (p.data.len() as u128) < (h as u128 - 1) * p.stride as u128 + row
}

/// 17: a sample inside the plane that exceeds maxval.
pub fn above(l: &Layout, p: Plane, w: usize, h: usize) -> bool {
    (0..h).any(|y| (0..w).any(|x| sample(l, p, x, y) > l.maxval))
}

/// 7, then 17, over planes with their sides.
fn planes_refusal(l: &Layout, planes: &[(Plane, usize, usize)]) -> u32 {
    if planes.iter().any(|&(p, w, h)| bad_plane(l, p, w, h)) {
        7
    } else if planes.iter().any(|&(p, w, h)| above(l, p, w, h)) {
        17
    } else {
        0
    }
}

fn sides<'a>(l: &Layout, p: &Planes<'a>) -> Vec<(Plane<'a>, usize, usize)> {
    vec![(p[0], l.w, l.h), (p[1], l.cw, l.ch), (p[2], l.cw, l.ch)]
}

/// The first number that isn't 0.
fn first(numbers: &[&dyn Fn() -> u32]) -> u32 {
    numbers.iter().map(|f| f()).find(|&n| n != 0).unwrap_or(0)
}

fn when(bad: bool, number: u32) -> u32 {
    if bad {
        number
    } else {
        0
    }
}

pub fn open_refusal(l: &Layout, p: &Planes, scratch: usize) -> u32 {
    first(&[
        &|| when(strange(l), 255),
        &|| layout_refusal(l, Way::Guided, EXACT),
        &|| way_refusal(l, Way::Guided),
        &|| planes_refusal(l, &sides(l, p)),
        &|| when((scratch as u128) < need(l), 9),
    ])
}

/// A whole plane's list: luma is there for guided alone, and triangular takes no scratch.
pub fn plane_refusal(l: &Layout, way: Way, luma: Plane, p: Plane, scratch: usize, out: usize) -> u32 {
    let mut lent = vec![(p, l.cw, l.ch)];
    if way == Way::Guided {
        lent.push((luma, l.w, l.h));
    }
    first(&[
        &|| when(strange(l), 255),
        &|| layout_refusal(l, way, EXACT),
        &|| way_refusal(l, way),
        &|| planes_refusal(l, &lent),
        &|| when(way != Way::Triangular && (scratch as u128) < need(l), 9),
        &|| when(out < l.w * l.h, 10),
    ])
}

pub struct Fill {
    pub way: u32,
    pub kernel: u32,
    pub size: usize,
    pub scratch: usize,
    pub out: usize,
}

pub fn fill_refusal(l: &Layout, p: &Planes, f: &Fill) -> u32 {
    let way = if f.way == 0 { Way::Linear } else { Way::Guided };
    first(&[
        &|| when(strange(l) || f.way > 1 || f.kernel > 1, 255),
        &|| layout_refusal(l, way, f.kernel),
        &|| way_refusal(l, way),
        &|| planes_refusal(l, &sides(l, p)),
        &|| when(f.size != 3 && f.size != 4, 8),
        &|| when((f.scratch as u128) < need(l), 9),
        &|| when(f.out < l.w * l.h * f.size, 10),
    ])
}

/// "A rectangle with a cell outside the chroma plane".
fn past_cells(l: &Layout, r: &Rectangle) -> bool {
    let end = |start: usize, len: usize| start as u128 + len as u128;
    r.width > 0 && r.height > 0 && (end(r.left, r.width) > l.cw as u128 || end(r.top, r.height) > l.ch as u128)
}

/// "luma samples that differ, or chroma that differs outside the rectangle".
fn other_change(l: &Layout, old: &Planes, new: &Planes, r: &Rectangle) -> bool {
    let inside = |x: usize, y: usize| {
        let within = |v: usize, start: usize, len: usize| v >= start && ((v - start) as u128) < len as u128;
        within(x, r.left, r.width) && within(y, r.top, r.height)
    };
    let differs = |k: usize, x: usize, y: usize| sample(l, old[k], x, y) != sample(l, new[k], x, y);
    (0..l.h).any(|y| (0..l.w).any(|x| differs(0, x, y)))
        || (0..l.ch).any(|y| (0..l.cw).any(|x| !inside(x, y) && (differs(1, x, y) || differs(2, x, y))))
}

pub fn refill_refusal(l: &Layout, old: &Planes, new: &Planes, r: &Rectangle, f: &Fill) -> u32 {
    let mut all = sides(l, old);
    all.extend(sides(l, new));
    first(&[
        &|| when(strange(l) || f.kernel > 1, 255),
        &|| layout_refusal(l, Way::Guided, f.kernel),
        &|| way_refusal(l, Way::Guided),
        &|| planes_refusal(l, &all),
        &|| when(f.size != 3 && f.size != 4, 8),
        &|| when((f.scratch as u128) < need(l), 9),
        &|| when(past_cells(l, r), 19),
        &|| when(f.out < l.w * l.h * f.size, 10),
        &|| when(other_change(l, old, new, r), 21),
    ])
}

// ---- the colour of one pixel

/// The offset in 256ths, "limited to −32,768..32,768".
fn limited(c256: u32) -> i128 {
    (c256 as i128 - 128 * 256).clamp(-32_768, 32_768)
}

/// The exact kernel in full range.
pub fn exact(d: u32, y: u32, cb256: u32, cr256: u32) -> [u8; 3] {
    let y = y as i128;
    if d == 255 {
        let (cb, cr) = (limited(cb256), limited(cr256));
        return [
            byte(y + rnd(1402 * cr, 256_000)),
            byte(y + rnd(-202_008 * cb - 419_198 * cr, 150_272_000)),
            byte(y + rnd(1772 * cb, 256_000)),
        ];
    }
    let d = d as i128;
    let centre = floor(d + 1, 2) * 256;
    let (cb, cr) = (cb256 as i128 - centre, cr256 as i128 - centre);
    let sum = |part: i128, over: i128| byte(rnd(255 * (y * over + part), d * over));
    [sum(1402 * cr, 256_000), sum(-202_008 * cb - 419_198 * cr, 150_272_000), sum(1772 * cb, 256_000)]
}

/// The exact kernel in studio range, at maxval 255: T.871 on 255·(Y−16)/219 and 255·(C−128)/224.
/// Luma is 255·L/219 and a chroma term k/n of it 255·c·k/(224·256·n), so all is over 219·224·256·n.
pub fn studio(y: u32, cb256: u32, cr256: u32) -> [u8; 3] {
    let luma = y as i128 - 16;
    let (cb, cr) = (limited(cb256), limited(cr256));
    let sum = |chroma: i128, n: i128| byte(rnd(255 * (luma * 224 * 256 * n + 219 * chroma), 219 * 224 * 256 * n));
    [sum(1402 * cr, 1000), sum(-(114 * 1772 * cb) - 299 * 1402 * cr, 587 * 1000), sum(1772 * cb, 1000)]
}

/// The fixed kernel on whole chroma.
pub fn fixed(y: u32, cb: u32, cr: u32) -> [u8; 3] {
    let (y, cb, cr) = (y as i128, cb as i128 - 128, cr as i128 - 128);
    [
        byte(y + floor(91_881 * cr + 32_768, 65_536)),
        byte(y + floor(-22_554 * cb - 46_802 * cr + 32_768, 65_536)),
        byte(y + floor(116_130 * cb + 32_768, 65_536)),
    ]
}

/// The exact pixel: 255, 18, 13, or a colour.
pub fn exact_pixel(y: u32, cb256: u32, cr256: u32, maxval: u32, range: u32) -> Result<[u8; 3], u32> {
    if range > 1 {
        Err(255)
    } else if range == STUDIO && maxval != 255 {
        Err(18)
    } else if y > 65_535 || cb256 > 16_776_960 || cr256 > 16_776_960 || maxval < 1 || maxval > 65_535 {
        Err(13)
    } else if range == STUDIO {
        Ok(studio(y, cb256, cr256))
    } else {
        Ok(exact(maxval, y, cb256, cr256))
    }
}

pub fn fixed_pixel(y: u32, cb: u32, cr: u32) -> Result<[u8; 3], u32> {
    if y > 65_535 || cb > 65_535 || cr > 65_535 {
        Err(13)
    } else {
        Ok(fixed(y, cb, cr))
    }
}

/// "not-a-number and anything at or below 0 give 0, anything above the limit gives the limit, the
/// rest goes to the nearest whole number, halves up".
fn rounded(v: f32, limit: u32) -> u32 {
    if v > 0.0 {
        (v as f64 + 0.5).floor().min(limit as f64) as u32
    } else {
        0
    }
}

/// The colour of luma and two chroma values of a fill.
fn colour(l: &Layout, kernel: u32, y: u32, cb: f32, cr: f32) -> [u8; 3] {
    if kernel == FIXED {
        return fixed(y, rounded(cb, 255), rounded(cr, 255));
    }
    let in_256ths = |v: f32| rounded(v * 256.0, 16_776_960);
    if l.range == STUDIO {
        studio(y, in_256ths(cb), in_256ths(cr))
    } else {
        exact(l.maxval, y, in_256ths(cb), in_256ths(cr))
    }
}

// ---- taps and linear chroma

/// "lerp(a,b,f) = a + f·(b−a), three roundings".
fn lerp(a: f32, b: f32, f: f32) -> f32 {
    a + f * (b - a)
}

/// The tap of output o at num of den over len cells: two indices and a fraction. "Ratio 1 gives
/// cell o", and so does any pair of equal numbers.
fn tap(num: usize, den: usize, siting: u32, len: usize, o: usize) -> (usize, usize, f32) {
    let (num, den, at) = (num as i64, den as i64, o as i64);
    let (p, q) = if siting == 0 { ((2 * at + 1) * num - den, 2 * den) } else { (at * num, den) };
    let last = len as i64 - 1;
    if num == den {
        (o, o, 0.0)
    } else if p < 0 {
        (0, 0, 0.0)
    } else if p >= last * q {
        (last as usize, last as usize, 0.0)
    } else {
        ((p / q) as usize, (p / q + 1) as usize, (p % q) as f32 / q as f32)
    }
}

/// Linear chroma at column x of row y: "lerp down by the tap, then across".
fn linear(l: &Layout, p: Plane, x: usize, y: usize) -> f32 {
    let (j0, j1, fy) = tap(l.num[1], l.rv, l.siting[1], l.ch, y);
    let (i0, i1, fx) = tap(l.num[0], l.rh, l.siting[0], l.cw, x);
    let cell = |i: usize, j: usize| sample(l, p, i, j) as f32;
    let down = |i: usize| lerp(cell(i, j0), cell(i, j1), fy);
    lerp(down(i0), down(i1), fx)
}

/// Triangular chroma in whole numbers.
fn triangular(l: &Layout, p: Plane, x: usize, y: usize) -> u32 {
    let far = |o: usize, len: usize| if o % 2 == 0 { (o / 2).saturating_sub(1) } else { (o / 2 + 1).min(len - 1) };
    let cell = |i: usize, j: usize| sample(l, p, i, j);
    match (l.rh, l.rv) {
        (2, 1) => (3 * cell(x / 2, y) + cell(far(x, l.cw), y) + 1 + (x % 2) as u32) >> 2,
        (1, 2) => (3 * cell(x, y / 2) + cell(x, far(y, l.ch)) + 1 + (y % 2) as u32) >> 2,
        _ => {
            let sum = |i: usize| 3 * cell(i, y / 2) + cell(i, far(y, l.ch));
            (3 * sum(x / 2) + sum(far(x, l.cw)) + 8 - (x % 2) as u32) >> 4
        }
    }
}

// ---- guided chroma

/// A picture's cells as guided chroma needs them: cell luma, chroma, slopes and extremes.
pub struct Guided {
    l: Layout,
    luma: Vec<f32>,
    y: Vec<f32>,
    c: Vec<f32>,
    a: Vec<f32>,
    least: Vec<f32>,
    greatest: Vec<f32>,
}

/// A row or column and its neighbours, "edges repeated".
fn round(i: usize, len: usize) -> [usize; 3] {
    [i.saturating_sub(1), i, (i + 1).min(len - 1)]
}

impl Guided {
    pub fn new(l: &Layout, luma: Plane, plane: Plane) -> Guided {
        let cells = |f: &dyn Fn(usize, usize) -> f32| -> Vec<f32> { (0..l.ch * l.cw).map(|n| f(n % l.cw, n / l.cw)).collect() };
        let y = cells(&|i, j| cell_luma(l, luma, i, j));
        let c = cells(&|i, j| sample(l, plane, i, j) as f32);
        let at = |v: &[f32], i: usize, j: usize| v[j * l.cw + i];
        let slope = |i: usize, j: usize| {
            let mean = |f: &dyn Fn(usize, usize) -> f32| mean_round(l, i, j, f);
            let (my, mc) = (mean(&|i, j| at(&y, i, j)), mean(&|i, j| at(&c, i, j)));
            let myy = mean(&|i, j| at(&y, i, j) * at(&y, i, j));
            let myc = mean(&|i, j| at(&y, i, j) * at(&c, i, j));
            let s = l.maxval as f32 / 255.0;
            let eps = (16.0 * s) * s;
            let var = myy - my * my;
            let d = (if var > 0.0 { var } else { 0.0 }) + eps;
            (myc - my * mc) / d
        };
        let over = |i: usize, j: usize, better: &dyn Fn(f32, f32) -> bool| {
            let mut best = at(&c, i, j);
            for r in round(j, l.ch) {
                for k in round(i, l.cw) {
                    best = if better(at(&c, k, r), best) { at(&c, k, r) } else { best };
                }
            }
            best
        };
        let (a, least) = (cells(&slope), cells(&|i, j| over(i, j, &|v, b| v < b)));
        let greatest = cells(&|i, j| over(i, j, &|v, b| v > b));
        let pixels = (0..l.w * l.h).map(|n| sample(l, luma, n % l.w, n / l.w) as f32).collect();
        Guided { l: *l, luma: pixels, y, c, a, least, greatest }
    }

    /// The sample at column x of row y.
    pub fn at(&self, x: usize, y: usize) -> f32 {
        let l = &self.l;
        let (j0, j1, f) = tap(1, l.rv, 0, l.ch, y);
        let down = |v: &[f32], i: usize| lerp(v[j0 * l.cw + i], v[j1 * l.cw + i], f);
        let own = x / l.rh;
        let n = 2 * (x % l.rh) as i32 + 1 - l.rh as i32;
        let r2 = 2 * l.rh as i32;
        let (from, to, n) = if n < 0 { (own.saturating_sub(1), own, n + r2) } else { (own, (own + 1).min(l.cw - 1), n) };
        let across = |v: &[f32]| lerp(down(v, from), down(v, to), n as f32 / r2 as f32);
        let value = across(&self.c) + across(&self.a) * (self.luma[y * l.w + x] - across(&self.y));
        let cell = y / l.rv * l.cw + own;
        let raised = if value < self.least[cell] { self.least[cell] } else { value };
        if raised > self.greatest[cell] {
            self.greatest[cell]
        } else {
            raised
        }
    }
}

/// "the sum over the cell's pixels inside the picture, divided by their number".
fn cell_luma(l: &Layout, luma: Plane, i: usize, j: usize) -> f32 {
    let (mut sum, mut n) = (0u32, 0u32);
    for y in j * l.rv..((j + 1) * l.rv).min(l.h) {
        for x in i * l.rh..((i + 1) * l.rh).min(l.w) {
            sum += sample(l, luma, x, y);
            n += 1;
        }
    }
    sum as f32 / n as f32
}

/// "mean = ((up + middle) + down) · (1/9)" of "(left + middle) + right".
fn mean_round(l: &Layout, i: usize, j: usize, f: &dyn Fn(usize, usize) -> f32) -> f32 {
    let across = |r: usize| {
        let [a, b, c] = round(i, l.cw);
        (f(a, r) + f(b, r)) + f(c, r)
    };
    let [a, b, c] = round(j, l.ch);
    ((across(a) + across(b)) + across(c)) * (1.0f32 / 9.0)
}

/// A whole plane, "rounded and limited to 0..maxval".
pub fn plane(l: &Layout, way: Way, luma: Plane, p: Plane) -> Vec<u16> {
    let guided = (way == Way::Guided).then(|| Guided::new(l, luma, p));
    (0..l.w * l.h)
        .map(|n| {
            let (x, y) = (n % l.w, n / l.w);
            match &guided {
                Some(g) => rounded(g.at(x, y), l.maxval) as u16,
                None if way == Way::Linear => rounded(linear(l, p, x, y), l.maxval) as u16,
                None => triangular(l, p, x, y) as u16,
            }
        })
        .collect()
}

/// The colours of a filled picture, row by row.
pub fn colours(l: &Layout, p: &Planes, way: u32, kernel: u32) -> Vec<[u8; 3]> {
    let guided = (way == 1).then(|| [Guided::new(l, p[0], p[1]), Guided::new(l, p[0], p[2])]);
    (0..l.w * l.h)
        .map(|n| {
            let (x, y) = (n % l.w, n / l.w);
            let [cb, cr] = match &guided {
                Some([cb, cr]) => [cb.at(x, y), cr.at(x, y)],
                None => [linear(l, p[1], x, y), linear(l, p[2], x, y)],
            };
            colour(l, kernel, sample(l, p[0], x, y), cb, cr)
        })
        .collect()
}

/// Stores colours at `size` bytes a pixel; a fourth byte keeps what it held.
pub fn store(colours: &[[u8; 3]], size: usize, out: &mut [u8], rows: impl Fn(usize) -> bool, w: usize) {
    for (n, c) in colours.iter().enumerate() {
        if rows(n / w) {
            out[n * size..n * size + 3].copy_from_slice(c);
        }
    }
}

/// "only the rows whose cell row is within two of it"; none for an empty rectangle.
pub fn near(l: &Layout, r: &Rectangle, y: usize) -> bool {
    let j = (y / l.rv) as u128;
    let (top, height) = (r.top as u128, r.height as u128);
    r.width > 0 && height > 0 && top <= j + 2 && j < top + height + 2
}

// ---- the reader

/// A phase: from the left neighbour or not, and how far.
#[derive(Clone, Copy, Debug)]
pub struct Phase {
    pub left: u32,
    pub f: f32,
}

/// A reader's state as C has it.
#[derive(Clone, Copy, Debug)]
pub struct State {
    pub w: usize,
    pub h: usize,
    pub rh: usize,
    pub rv: usize,
    pub cw: usize,
    pub ch: usize,
    pub phases: [Phase; 4],
    pub bytes: usize,
    pub maxval: u32,
    pub range: u32,
    pub place: usize,
    pub h_next: usize,
    pub f_next: usize,
}

impl State {
    pub fn layout(&self) -> Layout {
        let State { w, h, rh, rv, cw, ch, bytes, maxval, range, .. } = *self;
        Layout { w, h, rh, rv, cw, ch, bytes, maxval, siting: [0, 0], num: [1, 1], range }
    }

    /// The same to the last bit.
    pub fn same(&self, o: &State) -> bool {
        let phases = (0..4).all(|k| self.phases[k].left == o.phases[k].left && self.phases[k].f.to_bits() == o.phases[k].f.to_bits());
        let numbers =
            |s: &State| [s.w, s.h, s.rh, s.rv, s.cw, s.ch, s.bytes, s.maxval as usize, s.range as usize, s.place, s.h_next, s.f_next];
        phases && numbers(self) == numbers(o)
    }
}

/// The phase of pixel k in a cell of r; past the cell a plain 0 from the own cell.
fn phase(r: usize, k: usize) -> Phase {
    let n = 2 * k as i32 + 1 - r as i32;
    let r2 = 2 * r as i32;
    if k >= r {
        Phase { left: 0, f: 0.0 }
    } else if n < 0 {
        Phase { left: 1, f: (n + r2) as f32 / r2 as f32 }
    } else {
        Phase { left: 0, f: n as f32 / r2 as f32 }
    }
}

/// The state at row y: with the counters that open and seek leave, or with those that row leaves.
pub fn state_at(l: &Layout, y: usize, after_row: bool) -> State {
    let (i0, i1, _) = tap(1, l.rv, 0, l.ch, y);
    let last = i1.max(y / l.rv);
    let (h_next, f_next) = if after_row { ((last + 2).min(l.ch), last + 1) } else { (i0.saturating_sub(1), i0) };
    State {
        w: l.w,
        h: l.h,
        rh: l.rh,
        rv: l.rv,
        cw: l.cw,
        ch: l.ch,
        phases: std::array::from_fn(|k| phase(l.rh, k)),
        bytes: l.bytes,
        maxval: l.maxval,
        range: l.range,
        place: y,
        h_next,
        f_next,
    }
}

/// 1: "a state that open, seek or row never leaves".
pub fn bad_state(s: &State) -> bool {
    let l = s.layout();
    strange(&l)
        || layout_refusal(&l, Way::Guided, EXACT) != 0
        || s.place >= s.h
        || !(s.same(&state_at(&l, s.place, false)) || s.same(&state_at(&l, s.place, true)))
}

pub fn seek_refusal(s: &State, y: usize) -> u32 {
    if bad_state(s) {
        1
    } else {
        when(y >= s.h, 11)
    }
}

/// 7, 9, 10, 11, 12: a row's list behind 1, `values` being what the output has to hold.
fn row_list(s: &State, p: &Planes, scratch: usize, short: bool, y: usize) -> u32 {
    let l = s.layout();
    if sides(&l, p).iter().any(|&(p, w, h)| bad_plane(&l, p, w, h)) {
        7
    } else if (scratch as u128) < need(&l) {
        9
    } else if short {
        10
    } else if y >= s.h {
        11
    } else {
        when(y < s.place, 12)
    }
}

pub fn row_refusal(s: &State, p: &Planes, scratch: usize, outs: [usize; 2], y: usize) -> u32 {
    if bad_state(s) {
        1
    } else {
        row_list(s, p, scratch, outs[0] < s.w || outs[1] < s.w, y)
    }
}

pub fn rgb_row_refusal(s: &State, p: &Planes, scratch: usize, out: usize, y: usize) -> u32 {
    if bad_state(s) {
        1
    } else {
        row_list(s, p, scratch, out < 3 * s.w, y)
    }
}

/// One reader of a blend.
pub struct Side<'a> {
    pub state: State,
    pub planes: Planes<'a>,
    pub scratch: usize,
}

/// 1 for either, 22, then the row's list, the number that comes first in it for either.
pub fn blend_refusal(a: &Side, b: &Side, y: usize, weight: usize, out: usize) -> u32 {
    let (s, t) = (&a.state, &b.state);
    let geometry = |s: &State| (s.w, s.h, s.rh, s.rv, s.cw, s.ch, s.range);
    if bad_state(s) || bad_state(t) {
        return 1;
    }
    if geometry(s) != geometry(t) || weight > 16 {
        return 22;
    }
    let numbers = [row_list(s, &a.planes, a.scratch, out < 3 * s.w, y), row_list(t, &b.planes, b.scratch, out < 3 * t.w, y)];
    numbers.into_iter().filter(|&n| n != 0).min().unwrap_or(0)
}

/// "floor(((16−k)·early + k·late + 8)/16)".
pub fn mix(k: usize, early: u8, late: u8) -> u8 {
    (((16 - k) * early as usize + k * late as usize + 8) / 16) as u8
}

// ---- patches and charts

/// 2, 19, 10.
pub fn patch_refusal(r: &Rectangle, w: usize, h: usize, rgb: usize) -> u32 {
    let end = |start: usize, len: usize| start as u128 + len as u128;
    if w == 0 || w > 8192 || h == 0 || h > 8192 {
        2
    } else if end(r.left, r.width) > 65_535 || end(r.top, r.height) > 65_535 {
        19
    } else {
        when(rgb < w * h * 3, 10)
    }
}

/// The shared pixels' number, means and whole-number means, or nothing.
pub fn patch(r: &Rectangle, w: usize, h: usize, rgb: &[u8]) -> Option<(usize, [f64; 3], [u8; 3])> {
    let mut sums = [0u64; 3];
    let mut n = 0u64;
    for y in r.top.min(h)..(r.top + r.height).min(h) {
        for x in r.left.min(w)..(r.left + r.width).min(w) {
            n += 1;
            for k in 0..3 {
                sums[k] += rgb[(y * w + x) * 3 + k] as u64;
            }
        }
    }
    (n > 0).then(|| (n as usize, sums.map(|s| s as f64 / n as f64), sums.map(|s| ((2 * s + n) / (2 * n)) as u8)))
}

/// The nearest shade with its sum, and the nearest mix: pair, weight, sum.
pub fn reading(chart: &[u8], whole: [u8; 3]) -> ((usize, u32), (usize, usize, u32)) {
    let off = |c: [u8; 3]| (0..3).map(|k| (c[k] as i32 - whole[k] as i32).pow(2) as u32).sum::<u32>();
    let shade = |i: usize| [chart[3 * i], chart[3 * i + 1], chart[3 * i + 2]];
    let shades = chart.len() / 3;
    let mut nearest = (0, off(shade(0)));
    for i in 1..shades {
        if off(shade(i)) < nearest.1 {
            nearest = (i, off(shade(i)));
        }
    }
    let mut between = (0, 0, off(shade(0)));
    for i in 0..shades - 1 {
        for k in 0..=16 {
            let (a, b) = (shade(i), shade(i + 1));
            let sum = off([mix(k, a[0], b[0]), mix(k, a[1], b[1]), mix(k, a[2], b[2])]);
            if sum < between.2 {
                between = (i, k, sum);
            }
        }
    }
    (nearest, between)
}

// ---- the picture program

struct Image {
    w: usize,
    h: usize,
    maxval: usize,
    at: usize,
}

fn blank(b: u8) -> bool {
    [b' ', b'\t', b'\r', b'\n'].contains(&b)
}

/// One or more whitespace bytes and comments from `at` on: the place behind them, or 14.
fn space(input: &[u8], mut at: usize) -> Result<usize, u32> {
    let from = at;
    loop {
        match input.get(at) {
            Some(&b) if blank(b) => at += 1,
            Some(b'#') => match input[at..].iter().position(|&b| b == b'\r' || b == b'\n') {
                Some(n) => at += n + 1,
                None => return Err(14),
            },
            _ => return if at > from { Ok(at) } else { Err(14) },
        }
    }
}

/// Decimal digits from `at` on: a number, limited to 10^9 against overflow, and the place behind.
fn number(input: &[u8], mut at: usize) -> Result<(usize, usize), u32> {
    let from = at;
    let mut v = 0usize;
    while let Some(b) = input.get(at).filter(|b| b.is_ascii_digit()) {
        v = (v * 10 + (b - b'0') as usize).min(1_000_000_000);
        at += 1;
    }
    if at > from {
        Ok((v, at))
    } else {
        Err(14)
    }
}

/// One image from `at` on; `first` is the first image's maxval.
fn image(input: &[u8], at: usize, first: Option<usize>) -> Result<(Image, usize), u32> {
    if input.get(at..at + 2) != Some(b"P5") {
        return Err(14);
    }
    let (w, at) = number(input, space(input, at + 2)?)?;
    if w > 128 {
        return Err(15);
    }
    let (h, at) = number(input, space(input, at)?)?;
    let (maxval, at) = number(input, space(input, at)?)?;
    let bad = maxval < 1 || maxval > 65_535 || first.is_some_and(|m| m != maxval);
    if bad || !input.get(at).is_some_and(|&b| blank(b)) {
        return Err(14);
    }
    let len = w as u128 * h as u128 * if maxval > 255 { 2 } else { 1 };
    if ((input.len() - at - 1) as u128) < len {
        return Err(15);
    }
    Ok((Image { w, h, maxval, at: at + 1 }, at + 1 + len as usize))
}

/// The PPM and how much scratch it takes, or a refusal; the number 10 asks for the whole PPM's room.
pub fn picture(input: &[u8], scratch: usize, out: usize) -> Result<(Vec<u8>, usize), u32> {
    if input.len() > 49_152 {
        return Err(15);
    }
    let (y, at) = image(input, 0, None)?;
    let (cb, at) = image(input, at, Some(y.maxval))?;
    let (cr, at) = image(input, at, Some(y.maxval))?;
    if at != input.len() {
        return Err(14);
    }
    if y.w == 0 || y.w > 8192 || y.h == 0 || y.h > 8192 {
        return Err(2);
    }
    let ratio = |len: usize, cells: usize| (1..=4).find(|&r| cells == len.div_ceil(r));
    let (rh, rv) = match (ratio(y.w, cb.w), ratio(y.h, cb.h)) {
        (Some(rh), Some(rv)) if (cb.w, cb.h) == (cr.w, cr.h) => (rh, rv),
        _ => return Err(5),
    };
    let bytes = if y.maxval > 255 { 2 } else { 1 };
    let low_first = |i: &Image| -> Vec<u8> {
        input[i.at..i.at + i.w * i.h * bytes].chunks(bytes).flat_map(|s| s.iter().rev().copied().collect::<Vec<_>>()).collect()
    };
    let (ys, cbs, crs) = (low_first(&y), low_first(&cb), low_first(&cr));
    let l = Layout { w: y.w, h: y.h, rh, rv, cw: cb.w, ch: cb.h, bytes, maxval: y.maxval as u32, siting: [0, 0], num: [1, 1], range: 0 };
    let planes =
        [Plane { data: &ys, stride: l.w * bytes }, Plane { data: &cbs, stride: l.cw * bytes }, Plane { data: &crs, stride: l.cw * bytes }];
    if sides(&l, &planes).iter().any(|&(p, w, h)| above(&l, p, w, h)) {
        return Err(17);
    }
    if (scratch as u128) < need(&l) {
        return Err(9);
    }
    let mut ppm = format!("P6\n{} {}\n255\n", l.w, l.h).into_bytes();
    ppm.extend(colours(&l, &planes, 1, EXACT).concat());
    if out < ppm.len() {
        Err(10)
    } else {
        Ok((ppm, need(&l) as usize))
    }
}
