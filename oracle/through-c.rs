//! The calls that compare.rs makes, under the public crate's name, through include/chroma.h: the
//! static library beside the original. Every slice that a call writes is lent out of a longer one,
//! and what stands round it must be as it was afterwards.

#[allow(dead_code)]
#[path = "../bindings/rust/src/raw.rs"]
mod raw;

const ROUND: usize = 64;

/// Calls `f` with a copy of `slice` that has canaries round it, and takes over what it wrote.
fn guarded<T: Copy + PartialEq, R>(slice: &mut [T], canary: T, f: impl FnOnce(&mut [T]) -> R) -> R {
    let n = slice.len();
    let mut longer = vec![canary; n + 2 * ROUND];
    longer[ROUND..ROUND + n].copy_from_slice(slice);
    let given = f(&mut longer[ROUND..ROUND + n]);
    let round = longer[..ROUND].iter().chain(&longer[ROUND + n..]);
    assert!(round.copied().all(|v| v == canary), "written outside what was lent");
    slice.copy_from_slice(&longer[ROUND..ROUND + n]);
    given
}

/// The same of floats.
fn guarded_floats<R>(slice: &mut [f32], f: impl FnOnce(&mut [f32]) -> R) -> R {
    guarded(slice, -7.5e9, f)
}

pub mod reconstruction {
    use crate::raw::{
        chroma_exact_pixel, chroma_fill, chroma_fixed_pixel, chroma_guided_plane, chroma_linear_plane,
        chroma_open, chroma_refill, chroma_rgb_row, chroma_row, chroma_seek, chroma_triangular_plane, ChromaLayout,
        ChromaPhase, ChromaPixel, ChromaReader, ChromaRectangle, ChromaReply, ChromaStrides,
    };
    use crate::{guarded, guarded_floats};

    /// A refusal by its number.
    #[derive(Clone, Copy, Debug, PartialEq)]
    pub struct Refusal(u8);

    impl Refusal {
        pub fn number(self) -> u8 {
            self.0
        }
    }

    #[derive(Clone, Copy, Debug, PartialEq)]
    pub enum Siting {
        Centred = 0,
        CoSited = 1,
    }

    #[derive(Clone, Copy, Debug, PartialEq)]
    pub enum Range {
        Full = 0,
        Studio = 1,
    }

    #[derive(Clone, Copy, Debug, PartialEq)]
    pub struct Axis {
        pub siting: Siting,
        pub num: usize,
    }

    impl Axis {
        pub const PLAIN: Axis = Axis { siting: Siting::Centred, num: 1 };
    }

    #[derive(Clone, Copy, Debug, PartialEq)]
    pub struct Layout {
        pub w: usize,
        pub h: usize,
        pub rh: usize,
        pub rv: usize,
        pub cw: usize,
        pub ch: usize,
        pub across: Axis,
        pub down: Axis,
        pub sample_bytes: usize,
        pub maxval: u32,
        pub range: Range,
    }

    #[derive(Clone, Copy)]
    pub struct Plane<'a> {
        pub bytes: &'a [u8],
        pub stride: usize,
    }

    #[derive(Clone, Copy)]
    pub struct Planes<'a> {
        pub y: Plane<'a>,
        pub cb: Plane<'a>,
        pub cr: Plane<'a>,
    }

    pub(crate) fn raw_strides(p: Planes) -> ChromaStrides {
        ChromaStrides { y: p.y.stride, cb: p.cb.stride, cr: p.cr.stride }
    }

    #[derive(Clone, Copy, Debug, PartialEq)]
    pub struct Rectangle {
        pub left: usize,
        pub top: usize,
        pub width: usize,
        pub height: usize,
    }

    #[derive(Clone, Copy, Debug, PartialEq)]
    pub struct Phase {
        pub left: bool,
        pub f: f32,
    }

    #[derive(Clone, Copy, Debug, PartialEq)]
    pub struct Geometry {
        pub w: usize,
        pub h: usize,
        pub rh: usize,
        pub rv: usize,
        pub cw: usize,
        pub ch: usize,
        pub phases: [Phase; 4],
        pub range: Range,
    }

    #[derive(Clone, Copy, Debug, PartialEq)]
    pub struct Reader {
        pub geometry: Geometry,
        pub sample_bytes: usize,
        pub maxval: u32,
        pub place: usize,
        pub h_next: usize,
        pub f_next: usize,
    }

    #[derive(Clone, Copy, Debug, PartialEq)]
    pub struct Rgb {
        pub r: u8,
        pub g: u8,
        pub b: u8,
    }

    #[derive(Clone, Copy)]
    pub enum ChromaUpsampling {
        Linear = 0,
        LumaGuided = 1,
    }

    #[derive(Clone, Copy)]
    pub enum YcbcrKernel {
        Exact = 0,
        FixedPoint16 = 1,
    }

    pub(crate) fn answer(refusal: u32) -> Result<(), Refusal> {
        match refusal {
            0 => Ok(()),
            n => Err(Refusal(n as u8)),
        }
    }

    fn raw_layout(l: Layout) -> ChromaLayout {
        let Layout { w, h, rh, rv, cw, ch, across, down, sample_bytes, maxval, range } = l;
        let (siting_across, siting_down) = (across.siting as u32, down.siting as u32);
        let (num_across, num_down) = (across.num, down.num);
        let range = range as u32;
        ChromaLayout { w, h, rh, rv, cw, ch, sample_bytes, maxval, siting_across, siting_down, num_across, num_down, range }
    }

    /// The state as C has it.
    pub(crate) fn raw_reader(r: Reader) -> ChromaReader {
        let g = r.geometry;
        ChromaReader {
            w: g.w,
            h: g.h,
            rh: g.rh,
            rv: g.rv,
            cw: g.cw,
            ch: g.ch,
            phases: g.phases.map(|p| ChromaPhase { left: p.left as u32, f: p.f }),
            sample_bytes: r.sample_bytes,
            maxval: r.maxval,
            range: g.range as u32,
            place: r.place,
            h_next: r.h_next,
            f_next: r.f_next,
        }
    }

    /// What a call answered; the reader is as it left it, also where it refused.
    fn reply(r: ChromaReply, reader: &mut Reader) -> Result<(), Refusal> {
        *reader = state(r.reader);
        answer(r.refusal)
    }

    /// The state that C's stands for.
    pub(crate) fn state(s: ChromaReader) -> Reader {
        let phases = s.phases.map(|p| {
            assert!(p.left < 2, "a phase that is neither");
            Phase { left: p.left == 1, f: p.f }
        });
        assert!(s.range < 2, "a range that is neither");
        let range = if s.range == 1 { Range::Studio } else { Range::Full };
        let geometry = Geometry { w: s.w, h: s.h, rh: s.rh, rv: s.rv, cw: s.cw, ch: s.ch, phases, range };
        Reader {
            geometry,
            sample_bytes: s.sample_bytes,
            maxval: s.maxval,
            place: s.place,
            h_next: s.h_next,
            f_next: s.f_next,
        }
    }

    fn pixel(p: ChromaPixel) -> Result<Rgb, Refusal> {
        answer(p.refusal).map(|()| Rgb { r: p.r, g: p.g, b: p.b })
    }

    pub fn linear_plane(layout: Layout, plane: Plane, s: &mut [f32], out: &mut [u16]) -> Result<(), Refusal> {
        guarded_floats(s, |s| {
            guarded(out, 4_660, |out| {
                // SAFETY: each pointer and length are one slice's.
                answer(unsafe {
                    chroma_linear_plane(
                        raw_layout(layout), plane.bytes.as_ptr(), plane.bytes.len(), plane.stride,
                        s.as_mut_ptr(), s.len(), out.as_mut_ptr(), out.len(),
                    )
                })
            })
        })
    }

    pub fn triangular_plane(layout: Layout, plane: Plane, out: &mut [u16]) -> Result<(), Refusal> {
        guarded(out, 4_660, |out| {
            // SAFETY: each pointer and length are one slice's.
            answer(unsafe {
                chroma_triangular_plane(
                    raw_layout(layout), plane.bytes.as_ptr(), plane.bytes.len(), plane.stride, out.as_mut_ptr(), out.len(),
                )
            })
        })
    }

    pub fn guided_plane(
        layout: Layout, y: Plane, c: Plane, s: &mut [f32], out: &mut [u16],
    ) -> Result<(), Refusal> {
        guarded_floats(s, |s| {
            guarded(out, 4_660, |out| {
                // SAFETY: each pointer and length are one slice's.
                answer(unsafe {
                    chroma_guided_plane(
                        raw_layout(layout), y.bytes.as_ptr(), y.bytes.len(), y.stride, c.bytes.as_ptr(), c.bytes.len(), c.stride,
                        s.as_mut_ptr(), s.len(), out.as_mut_ptr(), out.len(),
                    )
                })
            })
        })
    }

    #[allow(clippy::too_many_arguments)]
    pub fn open(
        layout: Layout, planes: Planes, s: &[f32], reader: &mut Reader,
    ) -> Result<(), Refusal> {
        let Planes { y, cb, cr } = planes;
        // SAFETY: each pointer and length are one slice's, and nothing is written.
        reply(unsafe {
            chroma_open(
                raw_layout(layout), y.bytes.as_ptr(), y.bytes.len(), cb.bytes.as_ptr(), cb.bytes.len(),
                cr.bytes.as_ptr(), cr.bytes.len(), raw_strides(planes),
                s.as_ptr(), s.len(), raw_reader(*reader),
            )
        }, reader)
    }

    pub fn seek(reader: &mut Reader, y: usize) -> Result<(), Refusal> {
        // SAFETY: no pointer is passed.
        reply(unsafe { chroma_seek(raw_reader(*reader), y) }, reader)
    }

    #[allow(clippy::too_many_arguments)]
    pub fn row(
        reader: &mut Reader, planes: Planes, row: usize, s: &mut [f32], out_cb: &mut [f32], out_cr: &mut [f32],
    ) -> Result<(), Refusal> {
        let Planes { y, cb, cr } = planes;
        guarded_floats(s, |s| {
            guarded_floats(out_cb, |b| {
                guarded_floats(out_cr, |r| {
                    // SAFETY: each pointer and length are one slice's; the copies overlap nothing.
                    reply(unsafe {
                        chroma_row(
                            raw_reader(*reader), y.bytes.as_ptr(), y.bytes.len(), cb.bytes.as_ptr(), cb.bytes.len(),
                            cr.bytes.as_ptr(), cr.bytes.len(), raw_strides(planes),
                            row, s.as_mut_ptr(), s.len(),
                            b.as_mut_ptr(), b.len(), r.as_mut_ptr(), r.len(),
                        )
                    }, reader)
                })
            })
        })
    }

    #[allow(clippy::too_many_arguments)]
    pub fn rgb_row(
        reader: &mut Reader, planes: Planes, row: usize, s: &mut [f32], out: &mut [u8],
    ) -> Result<(), Refusal> {
        let Planes { y, cb, cr } = planes;
        guarded_floats(s, |s| {
            guarded(out, 165, |out| {
                // SAFETY: each pointer and length are one slice's; the copies overlap nothing.
                reply(unsafe {
                    chroma_rgb_row(
                        raw_reader(*reader), y.bytes.as_ptr(), y.bytes.len(), cb.bytes.as_ptr(), cb.bytes.len(),
                        cr.bytes.as_ptr(), cr.bytes.len(), raw_strides(planes),
                        row, s.as_mut_ptr(), s.len(), out.as_mut_ptr(), out.len(),
                    )
                }, reader)
            })
        })
    }

    pub fn ycbcr_frac_to_rgb8(y: u32, cb256: u32, cr256: u32, maxval: u32, range: Range) -> Result<Rgb, Refusal> {
        // SAFETY: no pointer is passed.
        pixel(unsafe { chroma_exact_pixel(y, cb256, cr256, maxval, range as u32) })
    }

    pub fn ycbcr_to_rgb8_fixed16(y: u32, cb: u32, cr: u32) -> Result<Rgb, Refusal> {
        // SAFETY: no pointer is passed.
        pixel(unsafe { chroma_fixed_pixel(y, cb, cr) })
    }

    #[allow(clippy::too_many_arguments)]
    pub fn fill(
        layout: Layout, planes: Planes, upsampling: ChromaUpsampling, kernel: YcbcrKernel, size: usize, s: &mut [f32], out: &mut [u8],
    ) -> Result<(), Refusal> {
        let Planes { y, cb, cr } = planes;
        guarded_floats(s, |s| {
            guarded(out, 165, |out| {
                // SAFETY: each pointer and length are one slice's; the copies overlap nothing.
                answer(unsafe {
                    chroma_fill(
                        raw_layout(layout), y.bytes.as_ptr(), y.bytes.len(), cb.bytes.as_ptr(), cb.bytes.len(),
                        cr.bytes.as_ptr(), cr.bytes.len(), raw_strides(planes),
                        upsampling as u32, kernel as u32, size,
                        s.as_mut_ptr(), s.len(), out.as_mut_ptr(), out.len(),
                    )
                })
            })
        })
    }

    #[allow(clippy::too_many_arguments)]
    pub fn refill(
        layout: Layout, old: Planes, new: Planes, cells: Rectangle, kernel: YcbcrKernel, size: usize, s: &mut [f32], out: &mut [u8],
    ) -> Result<(), Refusal> {
        let (Planes { y: old_y, cb: old_cb, cr: old_cr }, Planes { y, cb, cr }) = (old, new);
        let Rectangle { left, top, width, height } = cells;
        guarded_floats(s, |s| {
            guarded(out, 165, |out| {
                // SAFETY: each pointer and length are one slice's; the copies overlap nothing.
                answer(unsafe {
                    chroma_refill(
                        raw_layout(layout), old_y.bytes.as_ptr(), old_y.bytes.len(),
                        old_cb.bytes.as_ptr(), old_cb.bytes.len(),
                        old_cr.bytes.as_ptr(), old_cr.bytes.len(), raw_strides(old),
                        y.bytes.as_ptr(), y.bytes.len(), cb.bytes.as_ptr(), cb.bytes.len(),
                        cr.bytes.as_ptr(), cr.bytes.len(), raw_strides(new),
                        ChromaRectangle { left, top, width, height }, kernel as u32, size,
                        s.as_mut_ptr(), s.len(), out.as_mut_ptr(), out.len(),
                    )
                })
            })
        })
    }
}

pub mod colorimetry {
    use crate::raw::chroma_blend_row;
    use crate::reconstruction::{answer, raw_reader, raw_strides, state, Planes, Reader, Refusal};
    use crate::{guarded, guarded_floats};

    #[allow(clippy::too_many_arguments)]
    pub fn blend_row(
        early: &mut Reader, early_planes: Planes, s: &mut [f32], late: &mut Reader, late_planes: Planes, t: &mut [f32],
        row: usize, weight: usize, out: &mut [u8],
    ) -> Result<(), Refusal> {
        let Planes { y, cb, cr } = early_planes;
        let Planes { y: late_y, cb: late_cb, cr: late_cr } = late_planes;
        guarded_floats(s, |s| {
            guarded_floats(t, |t| {
                guarded(out, 165, |out| {
                    // SAFETY: each pointer and length are one slice's; the copies overlap nothing.
                    let r = unsafe {
                        chroma_blend_row(
                            raw_reader(*early), y.bytes.as_ptr(), y.bytes.len(), cb.bytes.as_ptr(), cb.bytes.len(),
                            cr.bytes.as_ptr(), cr.bytes.len(), raw_strides(early_planes), s.as_mut_ptr(), s.len(),
                            raw_reader(*late), late_y.bytes.as_ptr(), late_y.bytes.len(),
                            late_cb.bytes.as_ptr(), late_cb.bytes.len(), late_cr.bytes.as_ptr(), late_cr.bytes.len(),
                            raw_strides(late_planes), t.as_mut_ptr(), t.len(), row, weight, out.as_mut_ptr(), out.len(),
                        )
                    };
                    (*early, *late) = (state(r.early), state(r.late));
                    answer(r.refusal)
                })
            })
        })
    }
}
