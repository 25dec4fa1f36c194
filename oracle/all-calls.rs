//! Random calls of every function of include/chroma.h, held to papers.rs: each answer, each state,
//! each slice afterwards. Pictures of every siting, pair, range, sample width and maxval; numbers,
//! planes, scratch, outputs, states and rectangles that are faulty in every way, alone and together.
//!
//! A row that belongs to an opened picture is asked of a reader as demand 3 has it: with the state,
//! the planes and the scratch that the accepted calls left. Calls in between that are refused are
//! handed anything. Every slice that a call may write is lent out of a longer one.

#[path = "papers.rs"]
mod papers;
#[allow(dead_code)]
#[path = "../bindings/rust/src/raw.rs"]
mod raw;

use papers::{Fill, Guided, Layout, Phase, Plane, Planes, Rectangle, Side, State, Way};
use raw::*;
use std::collections::BTreeMap;

const ROUND: usize = 32;

/// Numbers by chance (splitmix64).
struct Chance(u64);

impl Chance {
    fn next(&mut self) -> u64 {
        self.0 = self.0.wrapping_add(0x9e37_79b9_7f4a_7c15);
        let mut z = self.0;
        z = (z ^ (z >> 30)).wrapping_mul(0xbf58_476d_1ce4_e5b9);
        z = (z ^ (z >> 27)).wrapping_mul(0x94d0_49bb_1331_11eb);
        z ^ (z >> 31)
    }
    fn below(&mut self, n: usize) -> usize {
        (self.next() % n as u64) as usize
    }
    fn from_to(&mut self, a: usize, b: usize) -> usize {
        a + self.below(b - a + 1)
    }
    fn one_in(&mut self, n: usize) -> bool {
        self.below(n) == 0
    }
    fn of<T: Copy>(&mut self, list: &[T]) -> T {
        list[self.below(list.len())]
    }
    /// A number that no test takes for granted.
    fn odd(&mut self) -> usize {
        let any = self.next() as usize;
        self.of(&[0, 1, 2, 3, 4, 5, 7, 16, 17, 255, 256, 8192, 8193, 65_535, 65_536, 1 << 31, 1 << 32, 1 << 62, 1 << 63, usize::MAX, any])
    }
}

/// Calls f with a copy of the slice that has canaries round it, and takes over what it wrote.
fn guarded<T: Copy, R>(slice: &mut [T], canary: T, same: impl Fn(T, T) -> bool, f: impl FnOnce(&mut [T]) -> R) -> R {
    let n = slice.len();
    let mut longer = vec![canary; n + 2 * ROUND];
    longer[ROUND..ROUND + n].copy_from_slice(slice);
    let given = f(&mut longer[ROUND..ROUND + n]);
    assert!(longer[..ROUND].iter().chain(&longer[ROUND + n..]).all(|&v| same(v, canary)), "written outside what was lent");
    slice.copy_from_slice(&longer[ROUND..ROUND + n]);
    given
}

fn guarded_bytes<R>(s: &mut [u8], f: impl FnOnce(&mut [u8]) -> R) -> R {
    guarded(s, 0xa5, |a, b| a == b, f)
}

fn guarded_floats<R>(s: &mut [f32], f: impl FnOnce(&mut [f32]) -> R) -> R {
    guarded(s, f32::from_bits(0x7fa0_1234), |a, b| a.to_bits() == b.to_bits(), f)
}

fn bits(s: &[f32]) -> Vec<u32> {
    s.iter().map(|v| v.to_bits()).collect()
}

/// What was found: how often each call gave each number.
#[derive(Default)]
struct Seen(BTreeMap<(&'static str, u32), usize>);

impl Seen {
    fn count(&mut self, call: &'static str, number: u32) {
        *self.0.entry((call, number)).or_default() += 1;
    }
}

// ---- pictures

/// A picture's numbers, its planes and their strides.
#[derive(Clone)]
struct Picture {
    layout: Layout,
    data: [Vec<u8>; 3],
    strides: [usize; 3],
}

impl Picture {
    fn planes(&self) -> Planes<'_> {
        [0, 1, 2].map(|k| Plane { data: &self.data[k], stride: self.strides[k] })
    }
}

fn raw_layout(l: &Layout) -> ChromaLayout {
    ChromaLayout {
        w: l.w,
        h: l.h,
        rh: l.rh,
        rv: l.rv,
        cw: l.cw,
        ch: l.ch,
        sample_bytes: l.bytes,
        maxval: l.maxval,
        siting_across: l.siting[0],
        siting_down: l.siting[1],
        num_across: l.num[0],
        num_down: l.num[1],
        range: l.range,
    }
}

fn raw_strides(s: &[usize; 3]) -> ChromaStrides {
    ChromaStrides { y: s[0], cb: s[1], cr: s[2] }
}

/// A sound layout; `plain` for what guided and triangular calls take.
fn sound_layout(c: &mut Chance, plain: bool) -> Layout {
    let (w, h) = if c.one_in(4) { (c.from_to(14, 40), c.from_to(1, 9)) } else { (c.from_to(1, 13), c.from_to(1, 13)) };
    let (rh, rv) = (c.from_to(1, 4), c.from_to(1, 4));
    let num = if plain || c.one_in(2) { [1, 1] } else { [c.from_to(1, rh), c.from_to(1, rv)] };
    let siting = if plain || c.one_in(2) { [0, 0] } else { [c.below(2) as u32, c.below(2) as u32] };
    let bytes = c.from_to(1, 2);
    let any = c.from_to(1, if bytes == 1 { 255 } else { 65_535 }) as u32;
    let maxval = if c.one_in(2) {
        255
    } else if bytes == 1 {
        c.of(&[1, 2, 100, 254, any])
    } else {
        c.of(&[256, 1023, 4095, 65_534, 65_535, any])
    };
    let range = (maxval == 255 && c.one_in(3)) as u32;
    let (cw, ch) = ((w * num[0]).div_ceil(rh), (h * num[1]).div_ceil(rv));
    Layout { w, h, rh, rv, cw, ch, bytes, maxval, siting, num, range }
}

/// Samples of a plane, rows `stride` apart: within maxval but for `above`; padding holds anything.
fn samples(c: &mut Chance, l: &Layout, w: usize, h: usize, stride: usize, above: bool) -> Vec<u8> {
    let mut data: Vec<u8> = (0..(h - 1) * stride + w * l.bytes + c.of(&[0, 0, 1, 9])).map(|_| c.next() as u8).collect();
    let most = if l.bytes == 1 { 255 } else { 65_535 };
    let (base, spread) = (c.below(l.maxval as usize + 1), c.of(&[0, 1, 3, l.maxval as usize]));
    for y in 0..h {
        for x in 0..w {
            let v = (base + c.below(spread + 1)) % (l.maxval as usize + 1);
            put(&mut data, l, stride, x, y, v);
        }
    }
    if above && (l.maxval as usize) < most {
        let (x, y, v) = (c.below(w), c.below(h), c.from_to(l.maxval as usize + 1, most));
        put(&mut data, l, stride, x, y, v);
    }
    data
}

fn put(data: &mut [u8], l: &Layout, stride: usize, x: usize, y: usize, v: usize) {
    let at = y * stride + x * l.bytes;
    data[at] = v as u8;
    if l.bytes == 2 {
        data[at + 1] = (v >> 8) as u8;
    }
}

fn picture_of(c: &mut Chance, layout: Layout, above: usize) -> Picture {
    let l = &layout;
    let strides = [l.w, l.cw, l.cw].map(|w| w * l.bytes + c.of(&[0, 0, 1, 5]));
    let sides = [(l.w, l.h), (l.cw, l.ch), (l.cw, l.ch)];
    let worst = c.below(3);
    let above = above != 0 && c.one_in(above);
    let data = [0, 1, 2].map(|k| samples(c, l, sides[k].0, sides[k].1, strides[k], above && k == worst));
    Picture { layout, data, strides }
}

/// Makes numbers of a layout faulty: none, one, two or three of them.
fn spoil_layout(c: &mut Chance, l: &mut Layout) {
    for _ in 0..c.of(&[0, 0, 0, 0, 0, 1, 1, 2, 3]) {
        let odd = c.odd();
        match c.below(13) {
            0 => l.w = odd,
            1 => l.h = odd,
            2 => l.rh = odd,
            3 => l.rv = odd,
            4 => l.cw = l.cw.wrapping_add(c.of(&[1, usize::MAX, odd])),
            5 => l.ch = l.ch.wrapping_add(c.of(&[1, usize::MAX, odd])),
            6 => l.bytes = odd,
            7 => l.maxval = odd as u32,
            8 => l.siting[c.below(2)] = c.of(&[0, 1, 2, odd as u32]),
            9 => l.num[c.below(2)] = c.of(&[1, 2, 5, odd]),
            10 => l.range = c.of(&[1, 1, 2, odd as u32]),
            11 => l.cw = 2,
            _ => (l.rh, l.rv) = (c.from_to(1, 5), c.from_to(1, 5)),
        }
    }
}

/// Makes planes faulty: a plane that is cut, a stride that is too small or wild.
fn spoil_planes(c: &mut Chance, p: &mut Picture) {
    for _ in 0..c.of(&[0, 0, 0, 0, 0, 0, 1, 1, 2]) {
        let k = c.below(3);
        if c.one_in(2) {
            let n = p.data[k].len();
            p.data[k].truncate(n.saturating_sub(c.of(&[1, 2, 10, n])));
        } else {
            let odd = c.odd();
            p.strides[k] = c.of(&[0, 1, p.strides[k].wrapping_sub(1), p.strides[k].wrapping_add(1), odd]);
        }
    }
}

/// A scratch for a layout: mostly enough, its content anything.
fn scratch_for(c: &mut Chance, l: &Layout) -> Vec<f32> {
    let need = papers::need(l).min(100_000) as usize;
    let n = c.of(&[need, need, need, need + 70, need + 1, need.saturating_sub(1), 0]);
    (0..n).map(|_| f32::from_bits(c.next() as u32)).collect()
}

// ---- whole planes, fills and refills

fn same_surplus(what: &str, before: &[u32], after: &[f32], need: usize) {
    assert!(before[need..] == bits(after)[need..], "{what}: surplus of scratch");
}

fn a_plane(c: &mut Chance, seen: &mut Seen) {
    let way = c.of(&[Way::Linear, Way::Guided, Way::Triangular]);
    let mut l = sound_layout(c, way != Way::Linear);
    if way == Way::Triangular && !c.one_in(6) {
        (l.rh, l.rv) = c.of(&[(2, 1), (1, 2), (2, 2)]);
        (l.cw, l.ch) = (l.w.div_ceil(l.rh), l.h.div_ceil(l.rv));
    }
    let mut p = picture_of(c, l, 6);
    spoil_layout(c, &mut p.layout);
    spoil_planes(c, &mut p);
    let l = p.layout;
    let planes = p.planes();
    let mut scratch = scratch_for(c, &l);
    let room = (l.w as u128 * l.h as u128).min(4000) as usize;
    let n = c.of(&[room, room, room + 3, room.saturating_sub(1), 0]);
    let mut out: Vec<u16> = (0..n).map(|_| c.next() as u16).collect();
    let (old, old_out) = (bits(&scratch), out.clone());
    let number = papers::plane_refusal(&l, way, planes[0], planes[1], scratch.len(), out.len());
    let (y, cb) = (planes[0], planes[1]);
    let raw = raw_layout(&l);
    let given = guarded(
        &mut out,
        0xa5a5,
        |a, b| a == b,
        |out| {
            guarded_floats(&mut scratch, |s| unsafe {
                match way {
                    Way::Linear => chroma_linear_plane(
                        raw,
                        cb.data.as_ptr(),
                        cb.data.len(),
                        cb.stride,
                        s.as_mut_ptr(),
                        s.len(),
                        out.as_mut_ptr(),
                        out.len(),
                    ),
                    Way::Guided => chroma_guided_plane(
                        raw,
                        y.data.as_ptr(),
                        y.data.len(),
                        y.stride,
                        cb.data.as_ptr(),
                        cb.data.len(),
                        cb.stride,
                        s.as_mut_ptr(),
                        s.len(),
                        out.as_mut_ptr(),
                        out.len(),
                    ),
                    Way::Triangular => {
                        chroma_triangular_plane(raw, cb.data.as_ptr(), cb.data.len(), cb.stride, out.as_mut_ptr(), out.len())
                    }
                }
            })
        },
    );
    let name = match way {
        Way::Linear => "linear_plane",
        Way::Guided => "guided_plane",
        Way::Triangular => "triangular_plane",
    };
    assert_eq!(given, number, "{name} {l:?}");
    seen.count(name, number);
    let mut wanted = old_out;
    if number == 0 {
        wanted[..l.w * l.h].copy_from_slice(&papers::plane(&l, way, y, cb));
    }
    assert!(out == wanted, "{name} {l:?}: out");
    let free = if number == 0 && way != Way::Triangular { papers::need(&l) as usize } else { 0 };
    same_surplus(name, &old, &scratch, free);
}

/// What a fill or refill is asked for, faulty now and then.
fn a_fill_call(c: &mut Chance, l: &Layout) -> (Fill, Vec<f32>, Vec<u8>) {
    let odd = c.odd();
    let size = c.of(&[3, 3, 3, 4, 4, 4, 2, 5, odd]);
    let scratch = scratch_for(c, l);
    let room = (l.w as u128 * l.h as u128).saturating_mul(size as u128).min(16_000) as usize;
    let n = c.of(&[room, room, room, room + 3, room.saturating_sub(1), 0]);
    let out: Vec<u8> = (0..n).map(|_| c.next() as u8).collect();
    let other = c.below(4) as u32;
    let way = c.of(&[0, 1, 1, 1, other]);
    let kernel = if l.maxval == 255 && l.range == 0 { c.below(2) as u32 } else { c.of(&[0, 0, 0, 0, 1, 2]) };
    let kernel = if c.one_in(40) { c.odd() as u32 } else { kernel };
    (Fill { way, kernel, size, scratch: scratch.len(), out: out.len() }, scratch, out)
}

fn a_fill(c: &mut Chance, seen: &mut Seen) {
    let plain = !c.one_in(3);
    let mut p = {
        let l = sound_layout(c, plain);
        picture_of(c, l, 8)
    };
    spoil_layout(c, &mut p.layout);
    spoil_planes(c, &mut p);
    let (l, planes) = (p.layout, p.planes());
    let (f, mut scratch, mut out) = a_fill_call(c, &l);
    let (old, mut wanted) = (bits(&scratch), out.clone());
    let number = papers::fill_refusal(&l, &planes, &f);
    let given = guarded_bytes(&mut out, |out| {
        guarded_floats(&mut scratch, |s| unsafe {
            chroma_fill(
                raw_layout(&l),
                p.data[0].as_ptr(),
                p.data[0].len(),
                p.data[1].as_ptr(),
                p.data[1].len(),
                p.data[2].as_ptr(),
                p.data[2].len(),
                raw_strides(&p.strides),
                f.way,
                f.kernel,
                f.size,
                s.as_mut_ptr(),
                s.len(),
                out.as_mut_ptr(),
                out.len(),
            )
        })
    });
    assert_eq!(given, number, "fill {l:?}");
    seen.count(if f.way == 0 { "fill, linear" } else { "fill, guided" }, number);
    if number == 0 {
        papers::store(&papers::colours(&l, &planes, f.way, f.kernel), f.size, &mut wanted, |_| true, l.w);
    }
    assert!(out == wanted, "fill {l:?} {} {}: out", f.way, f.kernel);
    same_surplus("fill", &old, &scratch, if number == 0 { papers::need(&l) as usize } else { 0 });
}

/// A rectangle of cells, or one that isn't.
fn some_cells(c: &mut Chance, l: &Layout) -> Rectangle {
    let (cw, ch) = (l.cw.clamp(1, 100), l.ch.clamp(1, 100));
    let (left, top) = (c.below(cw), c.below(ch));
    let mut r = Rectangle { left, top, width: c.from_to(0, cw - left), height: c.from_to(1, ch - top) };
    if c.one_in(5) {
        let odd = c.odd();
        match c.below(4) {
            0 => r.left = odd,
            1 => r.top = odd,
            2 => r.width = c.of(&[0, r.width + 1, odd]),
            _ => r.height = c.of(&[0, r.height + 1, odd]),
        }
    }
    r
}

/// The planes after a change of the rectangle's cells, and rarely of something else.
fn changed(c: &mut Chance, old: &Picture, r: &Rectangle) -> Picture {
    let l = old.layout;
    let mut new = old.clone();
    for k in 1..3 {
        for y in r.top.min(l.ch)..r.top.saturating_add(r.height).min(l.ch) {
            for x in r.left.min(l.cw)..r.left.saturating_add(r.width).min(l.cw) {
                let v = c.below(l.maxval as usize + 1);
                put(&mut new.data[k], &l, old.strides[k], x, y, v);
            }
        }
    }
    if c.one_in(5) {
        let k = c.below(3);
        let (w, h) = if k == 0 { (l.w, l.h) } else { (l.cw, l.ch) };
        let (x, y, v) = (c.below(w), c.below(h), c.below(l.maxval as usize + 1));
        put(&mut new.data[k], &l, old.strides[k], x, y, v);
    }
    new
}

fn a_refill(c: &mut Chance, seen: &mut Seen) {
    let mut old = {
        let l = sound_layout(c, true);
        picture_of(c, l, 12)
    };
    let r = some_cells(c, &old.layout);
    let mut new = changed(c, &old, &r);
    spoil_layout(c, &mut old.layout);
    new.layout = old.layout;
    if c.one_in(4) {
        spoil_planes(c, &mut old);
        spoil_planes(c, &mut new);
    }
    let l = old.layout;
    let (f, mut scratch, mut out) = a_fill_call(c, &l);
    let number = papers::refill_refusal(&l, &old.planes(), &new.planes(), &r, &f);
    let was_filled = number == 0 && c.one_in(2);
    if was_filled {
        papers::store(&papers::colours(&l, &old.planes(), 1, f.kernel), f.size, &mut out, |_| true, l.w);
    }
    let (before, mut wanted) = (bits(&scratch), out.clone());
    let given = guarded_bytes(&mut out, |out| {
        guarded_floats(&mut scratch, |s| unsafe {
            chroma_refill(
                raw_layout(&l),
                old.data[0].as_ptr(),
                old.data[0].len(),
                old.data[1].as_ptr(),
                old.data[1].len(),
                old.data[2].as_ptr(),
                old.data[2].len(),
                raw_strides(&old.strides),
                new.data[0].as_ptr(),
                new.data[0].len(),
                new.data[1].as_ptr(),
                new.data[1].len(),
                new.data[2].as_ptr(),
                new.data[2].len(),
                raw_strides(&new.strides),
                ChromaRectangle { left: r.left, top: r.top, width: r.width, height: r.height },
                f.kernel,
                f.size,
                s.as_mut_ptr(),
                s.len(),
                out.as_mut_ptr(),
                out.len(),
            )
        })
    });
    assert_eq!(given, number, "refill {l:?} {r:?}");
    seen.count("refill", number);
    if number == 0 {
        let colours = papers::colours(&l, &new.planes(), 1, f.kernel);
        papers::store(&colours, f.size, &mut wanted, |y| papers::near(&l, &r, y), l.w);
        if was_filled {
            let mut whole = wanted.clone();
            papers::store(&colours, f.size, &mut whole, |_| true, l.w);
            assert!(whole == wanted, "refill {l:?} {r:?}: not the whole picture's conversion");
        }
    }
    assert!(out == wanted, "refill {l:?} {r:?}: out");
    let free = if number == 0 && r.width > 0 && r.height > 0 { papers::need(&l) as usize } else { 0 };
    same_surplus("refill", &before, &scratch, free);
}

// ---- readers

fn raw_state(s: &State) -> ChromaReader {
    ChromaReader {
        w: s.w,
        h: s.h,
        rh: s.rh,
        rv: s.rv,
        cw: s.cw,
        ch: s.ch,
        phases: s.phases.map(|p| ChromaPhase { left: p.left, f: p.f }),
        sample_bytes: s.bytes,
        maxval: s.maxval,
        range: s.range,
        place: s.place,
        h_next: s.h_next,
        f_next: s.f_next,
    }
}

fn state_of(r: &ChromaReader) -> State {
    State {
        w: r.w,
        h: r.h,
        rh: r.rh,
        rv: r.rv,
        cw: r.cw,
        ch: r.ch,
        phases: std::array::from_fn(|k| Phase { left: r.phases[k].left, f: r.phases[k].f }),
        bytes: r.sample_bytes,
        maxval: r.maxval,
        range: r.range,
        place: r.place,
        h_next: r.h_next,
        f_next: r.f_next,
    }
}

/// A reader with what the accepted calls left of it, and its picture's rows by the papers.
struct Tray {
    picture: Picture,
    state: State,
    scratch: Vec<f32>,
    rows: [Guided; 2],
    colours: Vec<[u8; 3]>,
}

/// A state of any content.
fn wild_state(c: &mut Chance) -> State {
    let phases = std::array::from_fn(|_| Phase { left: c.below(3) as u32, f: f32::from_bits(c.next() as u32) });
    State {
        w: c.odd(),
        h: c.odd(),
        rh: c.odd(),
        rv: c.odd(),
        cw: c.odd(),
        ch: c.odd(),
        phases,
        bytes: c.odd(),
        maxval: c.odd() as u32,
        range: c.odd() as u32,
        place: c.odd(),
        h_next: c.odd(),
        f_next: c.odd(),
    }
}

/// One field of a state made another.
fn spoil_state(c: &mut Chance, s: &mut State) {
    let odd = c.odd();
    let near = |v: usize| v.wrapping_add(odd % 5).wrapping_sub(2);
    match c.below(14) {
        0 => s.w = near(s.w),
        1 => s.h = near(s.h),
        2 => s.rh = near(s.rh),
        3 => s.rv = near(s.rv),
        4 => s.cw = near(s.cw),
        5 => s.ch = near(s.ch),
        6 => s.bytes = near(s.bytes),
        7 => s.maxval = odd as u32,
        8 => s.range = c.of(&[0, 1, 2, odd as u32]),
        9 => s.place = near(s.place),
        10 => s.h_next = near(s.h_next),
        11 => s.f_next = near(s.f_next),
        12 => s.phases[c.below(4)].left = c.of(&[0, 1, 2, odd as u32]),
        _ => {
            let p = &mut s.phases[c.below(4)].f;
            *p = f32::from_bits(p.to_bits() ^ c.of(&[1, 1 << 31, 1 << 22]));
        }
    }
}

fn an_open(c: &mut Chance, seen: &mut Seen, like: Option<&Layout>) -> Option<Tray> {
    let plain = !c.one_in(10);
    let mut l = sound_layout(c, plain);
    if let Some(o) = like.filter(|_| !c.one_in(4)) {
        let own = (l.bytes, l.maxval);
        l = *o;
        if c.one_in(2) && o.range == 0 {
            (l.bytes, l.maxval) = own;
        }
    }
    let mut p = picture_of(c, l, 8);
    if c.one_in(3) {
        spoil_layout(c, &mut p.layout);
        spoil_planes(c, &mut p);
    }
    let l = p.layout;
    let scratch = scratch_for(c, &l);
    let handed = wild_state(c);
    let number = papers::open_refusal(&l, &p.planes(), scratch.len());
    let reply = unsafe {
        chroma_open(
            raw_layout(&l),
            p.data[0].as_ptr(),
            p.data[0].len(),
            p.data[1].as_ptr(),
            p.data[1].len(),
            p.data[2].as_ptr(),
            p.data[2].len(),
            raw_strides(&p.strides),
            scratch.as_ptr(),
            scratch.len(),
            raw_state(&handed),
        )
    };
    assert_eq!(reply.refusal, number, "open {l:?}");
    seen.count("open", number);
    let state = state_of(&reply.reader);
    if number != 0 {
        assert!(state.same(&handed), "open {l:?}: a refused one's state");
        return None;
    }
    assert!(state.same(&papers::state_at(&l, 0, false)), "open {l:?}: state");
    let planes = p.planes();
    let rows = [Guided::new(&l, planes[0], planes[1]), Guided::new(&l, planes[0], planes[2])];
    let colours = papers::colours(&l, &planes, 1, papers::EXACT);
    Some(Tray { picture: p, state, scratch, rows, colours })
}

fn a_seek(c: &mut Chance, seen: &mut Seen, tray: &mut Tray) {
    let mut state = tray.state;
    if c.one_in(6) {
        spoil_state(c, &mut state);
    }
    let odd = c.odd();
    let y = if c.one_in(8) { c.of(&[state.h, state.h.wrapping_add(1), odd]) } else { c.below(tray.state.h) };
    let number = papers::seek_refusal(&state, y);
    let reply = unsafe { chroma_seek(raw_state(&state), y) };
    assert_eq!(reply.refusal, number, "seek {state:?} {y}");
    seen.count("seek", number);
    let given = state_of(&reply.reader);
    if number == 0 {
        let l = state.layout();
        assert!(given.same(&papers::state_at(&l, y, false)), "seek {state:?} {y}: state");
        if l == tray.picture.layout {
            tray.state = given;
        }
    } else {
        assert!(given.same(&state), "seek {state:?} {y}: a refused one's state");
    }
}

/// What a row call is handed: the tray's own things, or faulty ones.
struct Handed {
    state: State,
    picture: Picture,
    scratch: Vec<f32>,
    y: usize,
    own: bool,
}

fn handed(c: &mut Chance, tray: &Tray) -> Handed {
    let y = if c.one_in(3) { tray.state.place } else { c.from_to(tray.state.place, tray.state.h - 1) };
    let mut h = Handed { state: tray.state, picture: tray.picture.clone(), scratch: tray.scratch.clone(), y, own: true };
    for _ in 0..c.of(&[0, 0, 0, 0, 1, 1, 2]) {
        match c.below(5) {
            0 => spoil_state(c, &mut h.state),
            1 => spoil_planes(c, &mut h.picture),
            2 => {
                let n = papers::need(&h.picture.layout) as usize;
                h.scratch.truncate(c.of(&[n - 1, n - 1, 0]));
            }
            3 => {
                h.y = {
                    let odd = c.odd();
                    c.of(&[h.state.h, odd])
                }
            }
            _ => h.y = c.below(h.state.h.clamp(1, 9000)),
        }
        h.own = h.y < tray.state.h
            && h.state.same(&tray.state)
            && h.scratch.len() == tray.scratch.len()
            && h.picture.strides == tray.picture.strides
            && h.picture.data == tray.picture.data;
    }
    h
}

fn a_row(c: &mut Chance, seen: &mut Seen, tray: &mut Tray) {
    let mut h = handed(c, tray);
    let w = tray.state.w;
    let lens = if c.one_in(8) { [c.of(&[w, w - 1, w + 2]), c.of(&[w, w - 1, 0])] } else { [w + c.below(3), w + c.below(3)] };
    let number = papers::row_refusal(&h.state, &h.picture.planes(), h.scratch.len(), lens, h.y);
    if number == 0 && !h.own {
        return;
    }
    let mut outs = lens.map(|n| (0..n).map(|_| f32::from_bits(c.next() as u32)).collect::<Vec<f32>>());
    let (before, old) = (bits(&h.scratch), outs.clone().map(|o| bits(&o)));
    let [cb, cr] = &mut outs;
    let p = &h.picture;
    let reply = guarded_floats(cb, |cb| {
        guarded_floats(cr, |cr| {
            guarded_floats(&mut h.scratch, |s| unsafe {
                chroma_row(
                    raw_state(&h.state),
                    p.data[0].as_ptr(),
                    p.data[0].len(),
                    p.data[1].as_ptr(),
                    p.data[1].len(),
                    p.data[2].as_ptr(),
                    p.data[2].len(),
                    raw_strides(&p.strides),
                    h.y,
                    s.as_mut_ptr(),
                    s.len(),
                    cb.as_mut_ptr(),
                    cb.len(),
                    cr.as_mut_ptr(),
                    cr.len(),
                )
            })
        })
    });
    assert_eq!(reply.refusal, number, "row {:?} {}", h.state, h.y);
    seen.count("row", number);
    let mut wanted = old;
    if number == 0 {
        for k in 0..2 {
            (0..w).for_each(|x| wanted[k][x] = tray.rows[k].at(x, h.y).to_bits());
        }
    }
    assert!(outs.map(|o| bits(&o)) == wanted, "row {:?} {}: out", h.state, h.y);
    after_row(tray, &h, &before, number, state_of(&reply.reader));
}

/// The state and the scratch after a row call.
fn after_row(tray: &mut Tray, h: &Handed, before: &[u32], number: u32, given: State) {
    let free = if number == 0 { papers::need(&tray.picture.layout) as usize } else { 0 };
    same_surplus("row", before, &h.scratch, free);
    if number == 0 {
        assert!(given.same(&papers::state_at(&tray.picture.layout, h.y, true)), "row {:?} {}: state", h.state, h.y);
        tray.state = given;
        tray.scratch = h.scratch.clone();
    } else {
        assert!(given.same(&h.state), "row {:?} {}: a refused one's state", h.state, h.y);
    }
}

fn an_rgb_row(c: &mut Chance, seen: &mut Seen, tray: &mut Tray) {
    let mut h = handed(c, tray);
    let w = tray.state.w;
    let n = if c.one_in(8) { c.of(&[3 * w - 1, w, 0]) } else { 3 * w + c.below(5) };
    let number = papers::rgb_row_refusal(&h.state, &h.picture.planes(), h.scratch.len(), n, h.y);
    if number == 0 && !h.own {
        return;
    }
    let mut out: Vec<u8> = (0..n).map(|_| c.next() as u8).collect();
    let (before, mut wanted) = (bits(&h.scratch), out.clone());
    let p = &h.picture;
    let reply = guarded_bytes(&mut out, |out| {
        guarded_floats(&mut h.scratch, |s| unsafe {
            chroma_rgb_row(
                raw_state(&h.state),
                p.data[0].as_ptr(),
                p.data[0].len(),
                p.data[1].as_ptr(),
                p.data[1].len(),
                p.data[2].as_ptr(),
                p.data[2].len(),
                raw_strides(&p.strides),
                h.y,
                s.as_mut_ptr(),
                s.len(),
                out.as_mut_ptr(),
                out.len(),
            )
        })
    });
    assert_eq!(reply.refusal, number, "rgb_row {:?} {}", h.state, h.y);
    seen.count("rgb_row", number);
    if number == 0 {
        wanted[..3 * w].copy_from_slice(&tray.colours[h.y * w..(h.y + 1) * w].concat());
    }
    assert!(out == wanted, "rgb_row {:?} {}: out", h.state, h.y);
    after_row(tray, &h, &before, number, state_of(&reply.reader));
}

fn a_blend(c: &mut Chance, seen: &mut Seen, early: &mut Tray, late: &mut Tray) {
    let (mut a, mut b) = (handed(c, early), handed(c, late));
    let y = if c.one_in(2) { a.y } else { b.y };
    let y = if c.one_in(10) { y } else { y.max(early.state.place).max(late.state.place) };
    (a.y, b.y) = (y, y);
    let w = early.state.w;
    let n = if c.one_in(10) { c.of(&[3 * w - 1, 0]) } else { 3 * w.max(late.state.w) + c.below(5) };
    let odd = c.odd();
    let weight = if c.one_in(12) { c.of(&[17, odd]) } else { c.below(17) };
    let number = {
        let side = |h: &Handed| Side { state: h.state, planes: [Plane { data: &[], stride: 0 }; 3], scratch: h.scratch.len() };
        let (mut s, mut t) = (side(&a), side(&b));
        s.planes = a.picture.planes();
        t.planes = b.picture.planes();
        papers::blend_refusal(&s, &t, y, weight, n)
    };
    if number == 0 && !(a.own && b.own) {
        return;
    }
    let mut out: Vec<u8> = (0..n).map(|_| c.next() as u8).collect();
    let (before, mut wanted) = ([bits(&a.scratch), bits(&b.scratch)], out.clone());
    let (p, q) = (&a.picture, &b.picture);
    let reply = guarded_bytes(&mut out, |out| {
        guarded_floats(&mut a.scratch, |s| {
            guarded_floats(&mut b.scratch, |t| unsafe {
                chroma_blend_row(
                    raw_state(&a.state),
                    p.data[0].as_ptr(),
                    p.data[0].len(),
                    p.data[1].as_ptr(),
                    p.data[1].len(),
                    p.data[2].as_ptr(),
                    p.data[2].len(),
                    raw_strides(&p.strides),
                    s.as_mut_ptr(),
                    s.len(),
                    raw_state(&b.state),
                    q.data[0].as_ptr(),
                    q.data[0].len(),
                    q.data[1].as_ptr(),
                    q.data[1].len(),
                    q.data[2].as_ptr(),
                    q.data[2].len(),
                    raw_strides(&q.strides),
                    t.as_mut_ptr(),
                    t.len(),
                    y,
                    weight,
                    out.as_mut_ptr(),
                    out.len(),
                )
            })
        })
    });
    assert_eq!(reply.refusal, number, "blend_row {:?} {:?} {y} {weight}", a.state, b.state);
    seen.count("blend_row", number);
    if number == 0 {
        let row = |t: &Tray| t.colours[y * w..(y + 1) * w].concat();
        for (k, (e, l)) in row(early).into_iter().zip(row(late)).enumerate() {
            wanted[k] = papers::mix(weight, e, l);
        }
    }
    assert!(out == wanted, "blend_row {:?} {:?} {y} {weight}: out", a.state, b.state);
    after_row(early, &a, &before[0], number, state_of(&reply.early));
    after_row(late, &b, &before[1], number, state_of(&reply.late));
}

// ---- pixels, patches, charts, the picture program

fn pixels(c: &mut Chance, seen: &mut Seen) {
    let chroma = |c: &mut Chance| match c.below(6) {
        0 => c.of(&[0, 32_767, 32_768, 32_769, 65_535, 65_536, 65_537, 16_776_960, 16_776_961, u32::MAX]),
        1 => c.next() as u32 % 16_776_961,
        _ => c.below(65_537) as u32,
    };
    let luma = |c: &mut Chance| if c.one_in(5) { c.of(&[0, 255, 65_535, 65_536, u32::MAX]) } else { c.below(600) as u32 };
    let (y, cb, cr) = (luma(c), chroma(c), chroma(c));
    let (any, odd) = (c.below(70_000) as u32, c.odd() as u32);
    let maxval = if c.one_in(2) { 255 } else { c.of(&[0, 1, 254, 256, 4095, 65_535, 65_536, any]) };
    let range = c.of(&[0, 0, 0, 1, 1, 2, odd]);
    let check = |name: &'static str, wanted: Result<[u8; 3], u32>, p: ChromaPixel, seen: &mut Seen| {
        let (number, colour) = wanted.map_or_else(|n| (n, [0; 3]), |c| (0, c));
        assert_eq!((p.refusal, [p.r, p.g, p.b]), (number, colour), "{name} {y} {cb} {cr} {maxval} {range}");
        seen.count(name, number);
    };
    check("exact_pixel", papers::exact_pixel(y, cb, cr, maxval, range), unsafe { chroma_exact_pixel(y, cb, cr, maxval, range) }, seen);
    let (cb, cr) = (cb % 66_000, cr % 66_000);
    let p = unsafe { chroma_fixed_pixel(y, cb, cr) };
    check("fixed_pixel", papers::fixed_pixel(y, cb, cr), p, seen);
}

fn a_patch(c: &mut Chance, seen: &mut Seen) {
    let (mut w, mut h) = (c.from_to(1, 12), c.from_to(1, 12));
    let spread = c.of(&[1, 20, 256]);
    let base = c.below(256);
    let n = w * h * 3 + c.of(&[0, 0, 0, 7]);
    let mut rgb: Vec<u8> = (0..n).map(|_| (base + c.below(spread)) as u8).collect();
    let mut r = Rectangle { left: c.below(14), top: c.below(14), width: c.below(14), height: c.below(14) };
    for _ in 0..c.of(&[0, 0, 0, 0, 1, 1, 2, 3]) {
        let odd = c.odd();
        match c.below(7) {
            0 => w = odd,
            1 => h = odd,
            2 => r.left = odd,
            3 => r.width = c.of(&[65_535 - r.left.min(65_535), odd]),
            4 => r.top = odd,
            5 => r.height = odd,
            _ => rgb.truncate(n.saturating_sub(c.of(&[8, 1, 400]))),
        }
    }
    let raw = ChromaRectangle { left: r.left, top: r.top, width: r.width, height: r.height };
    let number = papers::patch_refusal(&r, w, h, rgb.len());
    let patch = if number == 0 { papers::patch(&r, w, h, &rgb) } else { None };
    let p = unsafe { chroma_patch(raw, w, h, rgb.as_ptr(), rgb.len()) };
    let (pixels, mean, whole) = patch.unwrap_or((0, [0.0; 3], [0; 3]));
    assert_eq!((p.refusal, p.given, p.pixels, p.whole), (number, patch.is_some() as u32, pixels, whole), "patch {r:?} {w} {h}");
    assert!(p.mean.map(f64::to_bits) == mean.map(f64::to_bits), "patch {r:?} {w} {h}: mean");
    seen.count("patch", number);
    a_reading(c, seen, (r, w, h), &rgb, number, patch.map(|p| (p.0, p.2)));
}

fn a_reading(
    c: &mut Chance,
    seen: &mut Seen,
    (r, w, h): (Rectangle, usize, usize),
    rgb: &[u8],
    number: u32,
    patch: Option<(usize, [u8; 3])>,
) {
    let shades = c.from_to(2, 24);
    let any = c.below(90);
    let n = if c.one_in(8) { c.of(&[0, 3, 5, 75, 3 * shades + 1, any]) } else { 3 * shades };
    let base = c.below(256);
    let spread = c.of(&[2, 30, 256]);
    let chart: Vec<u8> = (0..n).map(|_| (base + c.below(spread)) as u8).collect();
    let number = if n % 3 != 0 || n < 6 || n > 72 { 20 } else { number };
    let raw = ChromaRectangle { left: r.left, top: r.top, width: r.width, height: r.height };
    let g = unsafe { chroma_chart_reading(chart.as_ptr(), chart.len(), raw, w, h, rgb.as_ptr(), rgb.len()) };
    let patch = patch.filter(|_| number == 0);
    let (pixels, whole) = patch.unwrap_or((0, [0; 3]));
    let ((nearest, near_off), (pair, weight, mix_off)) = if patch.is_some() { papers::reading(&chart, whole) } else { Default::default() };
    assert_eq!((g.refusal, g.given, g.pixels, g.whole), (number, patch.is_some() as u32, pixels, whole), "chart {r:?} {w} {h}");
    assert_eq!(
        (g.nearest, g.nearest_off, g.pair, g.weight, g.between_off),
        (nearest, near_off, pair, weight, mix_off),
        "chart {chart:?} {whole:?}"
    );
    seen.count("chart_reading", number);
}

/// Whitespace and comments of a header, faulty now and then.
fn gap(c: &mut Chance) -> Vec<u8> {
    if c.one_in(60) {
        return Vec::new();
    }
    let mut gap = Vec::new();
    for _ in 0..c.from_to(1, 2) {
        gap.push(c.of(b" \t\r\n"));
        if c.one_in(8) {
            gap.extend_from_slice(b"# a scan, 5 5");
            gap.push(c.of(b"\r\n\n"));
        }
    }
    gap
}

fn pgm(c: &mut Chance, w: usize, h: usize, maxval: usize, within: usize) -> Vec<u8> {
    let mut image = if c.one_in(60) { b"P4".to_vec() } else { b"P5".to_vec() };
    for v in [w, h, maxval] {
        image.extend(gap(c));
        image.extend(v.to_string().into_bytes());
    }
    image.push(if c.one_in(60) { b'#' } else { c.of(b" \n\t\r") });
    let missing = (w * h > 0 && c.one_in(80)) as usize;
    for _ in 0..w * h - missing {
        let v = c.below(within + 1);
        if maxval > 255 {
            image.push((v >> 8) as u8);
        }
        image.push(v as u8);
    }
    image
}

fn a_picture(c: &mut Chance, seen: &mut Seen) {
    let (w, h) = if c.one_in(40) { (c.of(&[0, 128, 129, 5]), c.of(&[0, 1, 2])) } else { (c.from_to(1, 12), c.from_to(1, 12)) };
    let (rh, rv) = (c.from_to(1, 4), c.from_to(1, 4));
    let any = c.from_to(1, 65_535);
    let maxval = c.of(&[255, 255, 255, 1, 100, 254, 256, 4095, 65_535, any]);
    let maxval = if c.one_in(50) { c.of(&[0, 65_536, 100_000]) } else { maxval };
    let most = if maxval > 255 { 65_535 } else { 255 };
    let within = if c.one_in(12) { most } else { maxval.min(65_535) };
    let mut input = pgm(c, w, h, maxval, within);
    for _ in 0..2 {
        let (cw, ch) = (w.div_ceil(rh), h.div_ceil(rv));
        let (cw, ch) = if c.one_in(30) { (c.from_to(0, 9), ch) } else { (cw, ch) };
        let m = if c.one_in(40) { c.from_to(1, 65_535) } else { maxval };
        let within = if m == maxval { within } else { m };
        input.extend(pgm(c, cw, ch, m, within));
    }
    match c.below(80) {
        0 => input.push(b'\n'),
        1 => input.truncate(c.below(input.len() + 1)),
        2 => input.resize(c.of(&[49_152, 49_153]), 7),
        3 => {
            let at = c.below(input.len());
            input[at] = c.next() as u8
        }
        _ => {}
    }
    let need = 32 * w.div_ceil(rh) + 8 * w;
    let n = c.of(&[need, need, 5120, 5120, need.saturating_sub(1), 0]);
    let mut scratch: Vec<f32> = (0..n).map(|_| f32::from_bits(c.next() as u32)).collect();
    let room = w * h * 3 + 9 + w.to_string().len() + h.to_string().len();
    let n = c.of(&[room + 2, room + 2, room + 20, room, room - 1, 0]);
    let mut out: Vec<u8> = (0..n).map(|_| c.next() as u8).collect();
    let (before, mut wanted) = (bits(&scratch), out.clone());
    let answer = papers::picture(&input, scratch.len(), out.len());
    let given = guarded_bytes(&mut out, |out| {
        guarded_floats(&mut scratch, |s| unsafe {
            chroma_picture(input.as_ptr(), input.len(), s.as_mut_ptr(), s.len(), out.as_mut_ptr(), out.len())
        })
    });
    let (number, ppm, free) = answer.map_or_else(|n| (n, Vec::new(), 0), |(p, need)| (0, p, need));
    assert_eq!((given.refusal, given.len), (number, ppm.len()), "picture {input:?}");
    seen.count("picture", number);
    wanted[..ppm.len()].copy_from_slice(&ppm);
    assert!(out == wanted, "picture {input:?}: out");
    same_surplus("picture", &before, &scratch, free);
}

// ---- the run

/// Each call's numbers: the run must have met them all.
const LISTS: [(&str, &[u32]); 15] = [
    ("open", &[0, 255, 2, 3, 4, 18, 5, 16, 7, 17, 9]),
    ("seek", &[0, 1, 11]),
    ("row", &[0, 1, 7, 9, 10, 11, 12]),
    ("rgb_row", &[0, 1, 7, 9, 10, 11, 12]),
    ("blend_row", &[0, 1, 22, 7, 9, 10, 11, 12]),
    ("linear_plane", &[0, 255, 2, 3, 4, 18, 5, 7, 17, 9, 10]),
    ("guided_plane", &[0, 255, 2, 3, 4, 18, 5, 16, 7, 17, 9, 10]),
    ("triangular_plane", &[0, 255, 2, 3, 4, 18, 5, 6, 16, 7, 17, 10]),
    ("fill, linear", &[0, 255, 2, 3, 4, 18, 5, 7, 17, 8, 9, 10]),
    ("fill, guided", &[0, 255, 2, 3, 4, 18, 5, 16, 7, 17, 8, 9, 10]),
    ("refill", &[0, 255, 2, 3, 4, 18, 5, 16, 7, 17, 8, 9, 19, 10, 21]),
    ("exact_pixel", &[0, 255, 18, 13]),
    ("patch", &[0, 2, 19, 10]),
    ("chart_reading", &[0, 20, 2, 19, 10]),
    ("picture", &[0, 2, 5, 9, 10, 14, 15, 17]),
];

fn main() {
    let mut words = std::env::args().skip(1);
    let calls: usize = words.next().map_or(100_000, |v| v.parse().expect("a count"));
    let seed: u64 = words.next().map_or(1, |v| v.parse().expect("a seed"));
    let (mut c, mut seen) = (Chance(seed), Seen::default());
    let mut trays: [Option<Tray>; 2] = [None, None];
    while seen.0.values().sum::<usize>() < calls {
        match c.below(20) {
            0..=2 => a_plane(&mut c, &mut seen),
            3..=4 => a_fill(&mut c, &mut seen),
            5..=6 => a_refill(&mut c, &mut seen),
            7 => pixels(&mut c, &mut seen),
            8 => a_patch(&mut c, &mut seen),
            9 => a_picture(&mut c, &mut seen),
            10 => {
                let k = c.below(2);
                let like = trays[1 - k].as_ref().map(|t| t.picture.layout);
                if let Some(t) = an_open(&mut c, &mut seen, like.as_ref()) {
                    trays[k] = Some(t);
                }
            }
            11..=12 => {
                let k = c.below(2);
                if let Some(t) = &mut trays[k] {
                    a_seek(&mut c, &mut seen, t)
                }
            }
            13..=14 => {
                let k = c.below(2);
                if let Some(t) = &mut trays[k] {
                    a_row(&mut c, &mut seen, t)
                }
            }
            15..=16 => {
                let k = c.below(2);
                if let Some(t) = &mut trays[k] {
                    an_rgb_row(&mut c, &mut seen, t)
                }
            }
            _ => {
                let [a, b] = &mut trays;
                if let (Some(a), Some(b)) = (a, b) {
                    a_blend(&mut c, &mut seen, a, b)
                }
            }
        }
    }
    let mut missing = 0;
    for (call, numbers) in LISTS {
        let counts: Vec<String> = numbers.iter().map(|&n| format!("{n}: {}", seen.0.get(&(call, n)).unwrap_or(&0))).collect();
        println!("{call}: {}", counts.join(", "));
        missing += numbers.iter().filter(|&&n| !seen.0.contains_key(&(call, n))).count();
    }
    println!("{} calls by seed {seed}, 0 differ; {missing} numbers of the lists not met", seen.0.values().sum::<usize>());
    std::process::exit((missing > 0) as i32);
}
