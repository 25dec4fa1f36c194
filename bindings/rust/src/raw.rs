//! include/chroma.h in Rust: its structs and its functions, under its names and in its order. The
//! header says what they mean. oracle/ and bench/ take this file too.

use std::mem::{offset_of, size_of};

/// CHROMA_VERSION of the header that this file follows.
#[allow(dead_code)]
pub(super) const VERSION: u32 = 0x00_0a_00;

#[repr(C)]
#[derive(Clone, Copy)]
pub(super) struct ChromaLayout {
    pub(super) w: usize,
    pub(super) h: usize,
    pub(super) rh: usize,
    pub(super) rv: usize,
    pub(super) cw: usize,
    pub(super) ch: usize,
    pub(super) sample_bytes: usize,
    pub(super) maxval: u32,
    pub(super) siting_across: u32,
    pub(super) siting_down: u32,
    pub(super) num_across: usize,
    pub(super) num_down: usize,
    pub(super) range: u32,
}

#[repr(C)]
#[derive(Clone, Copy)]
pub(super) struct ChromaStrides {
    pub(super) y: usize,
    pub(super) cb: usize,
    pub(super) cr: usize,
}

#[repr(C)]
#[derive(Clone, Copy, Debug, Default)]
pub(super) struct ChromaPhase {
    pub(super) left: u32,
    pub(super) f: f32,
}

#[repr(C)]
#[derive(Clone, Copy, Debug, Default)]
pub(super) struct ChromaReader {
    pub(super) w: usize,
    pub(super) h: usize,
    pub(super) rh: usize,
    pub(super) rv: usize,
    pub(super) cw: usize,
    pub(super) ch: usize,
    pub(super) phases: [ChromaPhase; 4],
    pub(super) sample_bytes: usize,
    pub(super) maxval: u32,
    pub(super) range: u32,
    pub(super) place: usize,
    pub(super) h_next: usize,
    pub(super) f_next: usize,
}

#[repr(C)]
pub(super) struct ChromaReply {
    pub(super) refusal: u32,
    pub(super) reader: ChromaReader,
}

#[repr(C)]
pub(super) struct ChromaPixel {
    pub(super) refusal: u32,
    pub(super) r: u8,
    pub(super) g: u8,
    pub(super) b: u8,
}

#[repr(C)]
pub(super) struct ChromaWritten {
    pub(super) refusal: u32,
    pub(super) len: usize,
}

#[repr(C)]
#[derive(Clone, Copy)]
pub(super) struct ChromaRectangle {
    pub(super) left: usize,
    pub(super) top: usize,
    pub(super) width: usize,
    pub(super) height: usize,
}

#[repr(C)]
pub(super) struct ChromaPatch {
    pub(super) refusal: u32,
    pub(super) given: u32,
    pub(super) pixels: usize,
    pub(super) mean: [f64; 3],
    pub(super) whole: [u8; 3],
}

#[repr(C)]
pub(super) struct ChromaChartReading {
    pub(super) refusal: u32,
    pub(super) given: u32,
    pub(super) pixels: usize,
    pub(super) nearest: usize,
    pub(super) pair: usize,
    pub(super) weight: usize,
    pub(super) nearest_off: u32,
    pub(super) between_off: u32,
    pub(super) whole: [u8; 3],
}

#[repr(C)]
pub(super) struct ChromaBlendReply {
    pub(super) refusal: u32,
    pub(super) early: ChromaReader,
    pub(super) late: ChromaReader,
}

// Where each field stands, as tests/c has it of the header.
const _: () = {
    assert!(size_of::<ChromaLayout>() == 96);
    assert!(offset_of!(ChromaLayout, w) == 0);
    assert!(offset_of!(ChromaLayout, h) == 8);
    assert!(offset_of!(ChromaLayout, rh) == 16);
    assert!(offset_of!(ChromaLayout, rv) == 24);
    assert!(offset_of!(ChromaLayout, cw) == 32);
    assert!(offset_of!(ChromaLayout, ch) == 40);
    assert!(offset_of!(ChromaLayout, sample_bytes) == 48);
    assert!(offset_of!(ChromaLayout, maxval) == 56);
    assert!(offset_of!(ChromaLayout, siting_across) == 60);
    assert!(offset_of!(ChromaLayout, siting_down) == 64);
    assert!(offset_of!(ChromaLayout, num_across) == 72);
    assert!(offset_of!(ChromaLayout, num_down) == 80);
    assert!(offset_of!(ChromaLayout, range) == 88);
};
const _: () = {
    assert!(size_of::<ChromaStrides>() == 24);
    assert!(offset_of!(ChromaStrides, y) == 0);
    assert!(offset_of!(ChromaStrides, cb) == 8);
    assert!(offset_of!(ChromaStrides, cr) == 16);
};
const _: () = {
    assert!(size_of::<ChromaPhase>() == 8);
    assert!(offset_of!(ChromaPhase, left) == 0);
    assert!(offset_of!(ChromaPhase, f) == 4);
};
const _: () = {
    assert!(size_of::<ChromaReader>() == 120);
    assert!(offset_of!(ChromaReader, w) == 0);
    assert!(offset_of!(ChromaReader, h) == 8);
    assert!(offset_of!(ChromaReader, rh) == 16);
    assert!(offset_of!(ChromaReader, rv) == 24);
    assert!(offset_of!(ChromaReader, cw) == 32);
    assert!(offset_of!(ChromaReader, ch) == 40);
    assert!(offset_of!(ChromaReader, phases) == 48);
    assert!(offset_of!(ChromaReader, sample_bytes) == 80);
    assert!(offset_of!(ChromaReader, maxval) == 88);
    assert!(offset_of!(ChromaReader, range) == 92);
    assert!(offset_of!(ChromaReader, place) == 96);
    assert!(offset_of!(ChromaReader, h_next) == 104);
    assert!(offset_of!(ChromaReader, f_next) == 112);
};
const _: () = {
    assert!(size_of::<ChromaReply>() == 128);
    assert!(offset_of!(ChromaReply, refusal) == 0);
    assert!(offset_of!(ChromaReply, reader) == 8);
};
const _: () = {
    assert!(size_of::<ChromaPixel>() == 8);
    assert!(offset_of!(ChromaPixel, refusal) == 0);
    assert!(offset_of!(ChromaPixel, r) == 4);
    assert!(offset_of!(ChromaPixel, g) == 5);
    assert!(offset_of!(ChromaPixel, b) == 6);
};
const _: () = {
    assert!(size_of::<ChromaWritten>() == 16);
    assert!(offset_of!(ChromaWritten, refusal) == 0);
    assert!(offset_of!(ChromaWritten, len) == 8);
};

const _: () = {
    assert!(size_of::<ChromaRectangle>() == 32);
    assert!(offset_of!(ChromaRectangle, left) == 0);
    assert!(offset_of!(ChromaRectangle, top) == 8);
    assert!(offset_of!(ChromaRectangle, width) == 16);
    assert!(offset_of!(ChromaRectangle, height) == 24);
};
const _: () = {
    assert!(size_of::<ChromaPatch>() == 48);
    assert!(offset_of!(ChromaPatch, refusal) == 0);
    assert!(offset_of!(ChromaPatch, given) == 4);
    assert!(offset_of!(ChromaPatch, pixels) == 8);
    assert!(offset_of!(ChromaPatch, mean) == 16);
    assert!(offset_of!(ChromaPatch, whole) == 40);
};

const _: () = {
    assert!(size_of::<ChromaChartReading>() == 56);
    assert!(offset_of!(ChromaChartReading, refusal) == 0);
    assert!(offset_of!(ChromaChartReading, given) == 4);
    assert!(offset_of!(ChromaChartReading, pixels) == 8);
    assert!(offset_of!(ChromaChartReading, nearest) == 16);
    assert!(offset_of!(ChromaChartReading, pair) == 24);
    assert!(offset_of!(ChromaChartReading, weight) == 32);
    assert!(offset_of!(ChromaChartReading, nearest_off) == 40);
    assert!(offset_of!(ChromaChartReading, between_off) == 44);
    assert!(offset_of!(ChromaChartReading, whole) == 48);
};

const _: () = {
    assert!(size_of::<ChromaBlendReply>() == 248);
    assert!(offset_of!(ChromaBlendReply, refusal) == 0);
    assert!(offset_of!(ChromaBlendReply, early) == 8);
    assert!(offset_of!(ChromaBlendReply, late) == 128);
};

extern "C" {
    #[allow(dead_code)]
    pub(super) fn chroma_version() -> u32;
    pub(super) fn chroma_open(
        layout: ChromaLayout,
        y: *const u8,
        y_len: usize,
        cb: *const u8,
        cb_len: usize,
        cr: *const u8,
        cr_len: usize,
        strides: ChromaStrides,
        scratch: *const f32,
        scratch_len: usize,
        reader: ChromaReader,
    ) -> ChromaReply;
    pub(super) fn chroma_seek(reader: ChromaReader, row: usize) -> ChromaReply;
    pub(super) fn chroma_row(
        reader: ChromaReader,
        y: *const u8,
        y_len: usize,
        cb: *const u8,
        cb_len: usize,
        cr: *const u8,
        cr_len: usize,
        strides: ChromaStrides,
        row: usize,
        scratch: *mut f32,
        scratch_len: usize,
        out_cb: *mut f32,
        out_cb_len: usize,
        out_cr: *mut f32,
        out_cr_len: usize,
    ) -> ChromaReply;
    pub(super) fn chroma_rgb_row(
        reader: ChromaReader,
        y: *const u8,
        y_len: usize,
        cb: *const u8,
        cb_len: usize,
        cr: *const u8,
        cr_len: usize,
        strides: ChromaStrides,
        row: usize,
        scratch: *mut f32,
        scratch_len: usize,
        out: *mut u8,
        out_len: usize,
    ) -> ChromaReply;
    pub(super) fn chroma_linear_plane(
        layout: ChromaLayout,
        plane: *const u8,
        plane_len: usize,
        stride: usize,
        scratch: *mut f32,
        scratch_len: usize,
        out: *mut u16,
        out_len: usize,
    ) -> u32;
    pub(super) fn chroma_guided_plane(
        layout: ChromaLayout,
        y: *const u8,
        y_len: usize,
        y_stride: usize,
        plane: *const u8,
        plane_len: usize,
        stride: usize,
        scratch: *mut f32,
        scratch_len: usize,
        out: *mut u16,
        out_len: usize,
    ) -> u32;
    pub(super) fn chroma_triangular_plane(
        layout: ChromaLayout,
        plane: *const u8,
        plane_len: usize,
        stride: usize,
        out: *mut u16,
        out_len: usize,
    ) -> u32;
    pub(super) fn chroma_fill(
        layout: ChromaLayout,
        y: *const u8,
        y_len: usize,
        cb: *const u8,
        cb_len: usize,
        cr: *const u8,
        cr_len: usize,
        strides: ChromaStrides,
        upsampling: u32,
        kernel: u32,
        size: usize,
        scratch: *mut f32,
        scratch_len: usize,
        out: *mut u8,
        out_len: usize,
    ) -> u32;
    pub(super) fn chroma_refill(
        layout: ChromaLayout,
        old_y: *const u8,
        old_y_len: usize,
        old_cb: *const u8,
        old_cb_len: usize,
        old_cr: *const u8,
        old_cr_len: usize,
        old_strides: ChromaStrides,
        y: *const u8,
        y_len: usize,
        cb: *const u8,
        cb_len: usize,
        cr: *const u8,
        cr_len: usize,
        strides: ChromaStrides,
        cells: ChromaRectangle,
        kernel: u32,
        size: usize,
        scratch: *mut f32,
        scratch_len: usize,
        out: *mut u8,
        out_len: usize,
    ) -> u32;
    pub(super) fn chroma_exact_pixel(
        y: u32,
        cb256: u32,
        cr256: u32,
        maxval: u32,
        range: u32,
    ) -> ChromaPixel;
    pub(super) fn chroma_fixed_pixel(y: u32, cb: u32, cr: u32) -> ChromaPixel;
    pub(super) fn chroma_picture(
        input: *const u8,
        input_len: usize,
        scratch: *mut f32,
        scratch_len: usize,
        out: *mut u8,
        out_len: usize,
    ) -> ChromaWritten;
    pub(super) fn chroma_patch(
        rectangle: ChromaRectangle,
        w: usize,
        h: usize,
        rgb: *const u8,
        rgb_len: usize,
    ) -> ChromaPatch;
    pub(super) fn chroma_chart_reading(
        chart: *const u8,
        chart_len: usize,
        rectangle: ChromaRectangle,
        w: usize,
        h: usize,
        rgb: *const u8,
        rgb_len: usize,
    ) -> ChromaChartReading;
    pub(super) fn chroma_blend_row(
        early: ChromaReader,
        early_y: *const u8,
        early_y_len: usize,
        early_cb: *const u8,
        early_cb_len: usize,
        early_cr: *const u8,
        early_cr_len: usize,
        early_strides: ChromaStrides,
        early_scratch: *mut f32,
        early_scratch_len: usize,
        late: ChromaReader,
        late_y: *const u8,
        late_y_len: usize,
        late_cb: *const u8,
        late_cb_len: usize,
        late_cr: *const u8,
        late_cr_len: usize,
        late_strides: ChromaStrides,
        late_scratch: *mut f32,
        late_scratch_len: usize,
        row: usize,
        weight: usize,
        out: *mut u8,
        out_len: usize,
    ) -> ChromaBlendReply;
}
