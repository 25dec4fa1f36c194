//! The boundary: one safe function for each of include/chroma.h's. All `unsafe` of the crate is
//! here. The library's functions are total: they answer for every number and every content of a
//! slice, so all that is owed is that pointers and lengths belong together and that what is
//! written overlaps nothing.

#[path = "raw.rs"]
mod raw;

use crate::{ChartReading, Layout, Patch, Plane, Range, Rectangle, Refusal};

/// A reader's state.
#[derive(Clone, Copy, Debug)]
pub(crate) struct State(raw::ChromaReader);

impl State {
    /// The row that the reader is at.
    pub(crate) fn place(&self) -> usize {
        self.0.place
    }

    fn of(reply: raw::ChromaReply) -> Result<State, Refusal> {
        Refusal::check(reply.refusal)?;
        Ok(State(reply.reader))
    }
}

impl From<Layout> for raw::ChromaLayout {
    fn from(l: Layout) -> Self {
        raw::ChromaLayout {
            w: l.w,
            h: l.h,
            rh: l.rh,
            rv: l.rv,
            cw: l.cw,
            ch: l.ch,
            sample_bytes: l.sample_bytes,
            maxval: l.maxval,
            siting_across: l.siting_across as u32,
            siting_down: l.siting_down as u32,
            num_across: l.num_across,
            num_down: l.num_down,
            range: l.range as u32,
        }
    }
}

/// The version of the interface that this crate is written for, and that of the library.
#[cfg(test)]
pub(crate) fn versions() -> (u32, u32) {
    // SAFETY: a number out.
    (raw::VERSION, unsafe { raw::chroma_version() })
}

/// Y, Cb and Cr.
pub(crate) type Planes<'a> = [Plane<'a>; 3];

fn strides(p: &Planes) -> raw::ChromaStrides {
    raw::ChromaStrides {
        y: p[0].stride,
        cb: p[1].stride,
        cr: p[2].stride,
    }
}

pub(crate) fn open(layout: Layout, p: &Planes, scratch: &[f32]) -> Result<State, Refusal> {
    // SAFETY: each pointer and length are one slice's, and nothing is written.
    State::of(unsafe {
        raw::chroma_open(
            layout.into(),
            p[0].data.as_ptr(),
            p[0].data.len(),
            p[1].data.as_ptr(),
            p[1].data.len(),
            p[2].data.as_ptr(),
            p[2].data.len(),
            strides(p),
            scratch.as_ptr(),
            scratch.len(),
            raw::ChromaReader::default(),
        )
    })
}

pub(crate) fn seek(state: State, row: usize) -> Result<State, Refusal> {
    // SAFETY: values in, a value out.
    State::of(unsafe { raw::chroma_seek(state.0, row) })
}

pub(crate) fn row(
    state: State,
    p: &Planes,
    row: usize,
    scratch: &mut [f32],
    cb: &mut [f32],
    cr: &mut [f32],
) -> Result<State, Refusal> {
    // SAFETY: each pointer and length are one slice's; the three that are written are `&mut`,
    // so they overlap nothing.
    State::of(unsafe {
        raw::chroma_row(
            state.0,
            p[0].data.as_ptr(),
            p[0].data.len(),
            p[1].data.as_ptr(),
            p[1].data.len(),
            p[2].data.as_ptr(),
            p[2].data.len(),
            strides(p),
            row,
            scratch.as_mut_ptr(),
            scratch.len(),
            cb.as_mut_ptr(),
            cb.len(),
            cr.as_mut_ptr(),
            cr.len(),
        )
    })
}

pub(crate) fn rgb_row(
    state: State,
    p: &Planes,
    row: usize,
    scratch: &mut [f32],
    out: &mut [u8],
) -> Result<State, Refusal> {
    // SAFETY: each pointer and length are one slice's; the two that are written are `&mut`.
    State::of(unsafe {
        raw::chroma_rgb_row(
            state.0,
            p[0].data.as_ptr(),
            p[0].data.len(),
            p[1].data.as_ptr(),
            p[1].data.len(),
            p[2].data.as_ptr(),
            p[2].data.len(),
            strides(p),
            row,
            scratch.as_mut_ptr(),
            scratch.len(),
            out.as_mut_ptr(),
            out.len(),
        )
    })
}

/// What a reader brings to a blend: its state, its picture's planes and its scratch.
pub(crate) type Side<'a, 'b> = (State, &'a Planes<'b>, &'a mut [f32]);

/// Both states afterwards, the early one first.
pub(crate) fn blend_row(
    early: Side,
    late: Side,
    row: usize,
    weight: usize,
    out: &mut [u8],
) -> Result<(State, State), Refusal> {
    let ((first, p, s), (second, q, t)) = (early, late);
    // SAFETY: each pointer and length are one slice's; the three that are written are `&mut`,
    // so they overlap nothing.
    let reply = unsafe {
        raw::chroma_blend_row(
            first.0,
            p[0].data.as_ptr(),
            p[0].data.len(),
            p[1].data.as_ptr(),
            p[1].data.len(),
            p[2].data.as_ptr(),
            p[2].data.len(),
            strides(p),
            s.as_mut_ptr(),
            s.len(),
            second.0,
            q[0].data.as_ptr(),
            q[0].data.len(),
            q[1].data.as_ptr(),
            q[1].data.len(),
            q[2].data.as_ptr(),
            q[2].data.len(),
            strides(q),
            t.as_mut_ptr(),
            t.len(),
            row,
            weight,
            out.as_mut_ptr(),
            out.len(),
        )
    };
    Refusal::check(reply.refusal)?;
    Ok((State(reply.early), State(reply.late)))
}

pub(crate) fn linear_plane(
    layout: Layout,
    plane: Plane,
    scratch: &mut [f32],
    out: &mut [u16],
) -> Result<(), Refusal> {
    // SAFETY: each pointer and length are one slice's; those that are written are `&mut`.
    Refusal::check(unsafe {
        raw::chroma_linear_plane(
            layout.into(),
            plane.data.as_ptr(),
            plane.data.len(),
            plane.stride,
            scratch.as_mut_ptr(),
            scratch.len(),
            out.as_mut_ptr(),
            out.len(),
        )
    })
}

pub(crate) fn guided_plane(
    layout: Layout,
    y: Plane,
    plane: Plane,
    scratch: &mut [f32],
    out: &mut [u16],
) -> Result<(), Refusal> {
    // SAFETY: each pointer and length are one slice's; those that are written are `&mut`.
    Refusal::check(unsafe {
        raw::chroma_guided_plane(
            layout.into(),
            y.data.as_ptr(),
            y.data.len(),
            y.stride,
            plane.data.as_ptr(),
            plane.data.len(),
            plane.stride,
            scratch.as_mut_ptr(),
            scratch.len(),
            out.as_mut_ptr(),
            out.len(),
        )
    })
}

pub(crate) fn triangular_plane(
    layout: Layout,
    plane: Plane,
    out: &mut [u16],
) -> Result<(), Refusal> {
    // SAFETY: each pointer and length are one slice's; the one that is written is `&mut`.
    Refusal::check(unsafe {
        raw::chroma_triangular_plane(
            layout.into(),
            plane.data.as_ptr(),
            plane.data.len(),
            plane.stride,
            out.as_mut_ptr(),
            out.len(),
        )
    })
}

pub(crate) fn fill(
    layout: Layout,
    p: &Planes,
    switches: (u32, u32),
    size: usize,
    scratch: &mut [f32],
    out: &mut [u8],
) -> Result<(), Refusal> {
    // SAFETY: each pointer and length are one slice's; those that are written are `&mut`.
    Refusal::check(unsafe {
        raw::chroma_fill(
            layout.into(),
            p[0].data.as_ptr(),
            p[0].data.len(),
            p[1].data.as_ptr(),
            p[1].data.len(),
            p[2].data.as_ptr(),
            p[2].data.len(),
            strides(p),
            switches.0,
            switches.1,
            size,
            scratch.as_mut_ptr(),
            scratch.len(),
            out.as_mut_ptr(),
            out.len(),
        )
    })
}

pub(crate) fn refill(
    layout: Layout,
    (old, new): (&Planes, &Planes),
    cells: Rectangle,
    kernel: u32,
    size: usize,
    scratch: &mut [f32],
    out: &mut [u8],
) -> Result<(), Refusal> {
    // SAFETY: each pointer and length are one slice's; those that are written are `&mut`.
    Refusal::check(unsafe {
        raw::chroma_refill(
            layout.into(),
            old[0].data.as_ptr(),
            old[0].data.len(),
            old[1].data.as_ptr(),
            old[1].data.len(),
            old[2].data.as_ptr(),
            old[2].data.len(),
            strides(old),
            new[0].data.as_ptr(),
            new[0].data.len(),
            new[1].data.as_ptr(),
            new[1].data.len(),
            new[2].data.as_ptr(),
            new[2].data.len(),
            strides(new),
            cells.into(),
            kernel,
            size,
            scratch.as_mut_ptr(),
            scratch.len(),
            out.as_mut_ptr(),
            out.len(),
        )
    })
}

fn colour(p: raw::ChromaPixel) -> Result<[u8; 3], Refusal> {
    Refusal::check(p.refusal)?;
    Ok([p.r, p.g, p.b])
}

pub(crate) fn exact_pixel(
    y: u32,
    cb256: u32,
    cr256: u32,
    maxval: u32,
    range: Range,
) -> Result<[u8; 3], Refusal> {
    // SAFETY: numbers in, a value out.
    colour(unsafe { raw::chroma_exact_pixel(y, cb256, cr256, maxval, range as u32) })
}

pub(crate) fn fixed_pixel(y: u32, cb: u32, cr: u32) -> Result<[u8; 3], Refusal> {
    // SAFETY: numbers in, a value out.
    colour(unsafe { raw::chroma_fixed_pixel(y, cb, cr) })
}

/// How many bytes of `out` were written.
pub(crate) fn picture(input: &[u8], scratch: &mut [f32], out: &mut [u8]) -> Result<usize, Refusal> {
    // SAFETY: each pointer and length are one slice's; those that are written are `&mut`.
    let written = unsafe {
        raw::chroma_picture(
            input.as_ptr(),
            input.len(),
            scratch.as_mut_ptr(),
            scratch.len(),
            out.as_mut_ptr(),
            out.len(),
        )
    };
    Refusal::check(written.refusal)?;
    Ok(written.len)
}

impl From<Rectangle> for raw::ChromaRectangle {
    fn from(r: Rectangle) -> Self {
        raw::ChromaRectangle {
            left: r.left,
            top: r.top,
            width: r.width,
            height: r.height,
        }
    }
}

pub(crate) fn patch(
    rectangle: Rectangle,
    w: usize,
    h: usize,
    rgb: &[u8],
) -> Result<Option<Patch>, Refusal> {
    // SAFETY: pointer and length are one slice's, and nothing is written.
    let read = unsafe { raw::chroma_patch(rectangle.into(), w, h, rgb.as_ptr(), rgb.len()) };
    Refusal::check(read.refusal)?;
    Ok((read.given != 0).then_some(Patch {
        mean: read.mean,
        whole: read.whole,
        pixels: read.pixels,
    }))
}

pub(crate) fn chart_reading(
    chart: &[u8],
    rectangle: Rectangle,
    w: usize,
    h: usize,
    rgb: &[u8],
) -> Result<Option<ChartReading>, Refusal> {
    // SAFETY: each pointer and length are one slice's, and nothing is written.
    let read = unsafe {
        raw::chroma_chart_reading(
            chart.as_ptr(),
            chart.len(),
            rectangle.into(),
            w,
            h,
            rgb.as_ptr(),
            rgb.len(),
        )
    };
    Refusal::check(read.refusal)?;
    Ok((read.given != 0).then_some(ChartReading {
        nearest: read.nearest,
        nearest_off: read.nearest_off,
        pair: read.pair,
        weight: read.weight,
        between_off: read.between_off,
        whole: read.whole,
        pixels: read.pixels,
    }))
}
