/* Chroma reconstruction and colour conversion: from Y, Cb and Cr planes to RGB.
 * tests/c/example.c is a first program.
 *
 * Every function here is proved to meet a contract (crates/ffi_c, over crates/ffi, crates/reconstruction,
 * crates/colorimetry and crates/picture). It answers for everything it can be handed: any number, any content of
 * a slice or of a state. It reads and writes nothing outside the slices it is lent, keeps
 * nothing between calls (so threads may call at once), allocates nothing, and always returns. A
 * call that is refused changes no slice.
 *
 * Link target/staticlib/libffi.a, which `tools/build staticlib ffi` writes (x86-64-v2), or libchroma.a, as
 * tools/install names it (`pkg-config --cflags --libs chroma`). Of other libraries it needs memcpy
 * and memset alone.
 *
 * What a caller must keep, since no proof can see it:
 *   - A slice is a pointer and, right behind it, how many elements it has (not bytes). The
 *     pointer is aligned as its type asks, and valid for that many elements throughout the call.
 *     Nothing is read or written through the pointer of a slice of length 0; it may be NULL.
 *   - Memory has been written once before it is lent, whatever it then holds: scratch and outputs
 *     too.
 *   - A slice that is written (no `const`) overlaps no other slice of the call, and nothing
 *     else reads or writes it during the call. Slices that are only read may overlap.
 *   - Two-byte samples are little-endian in planes.
 *   - Floats are rounded to nearest, and subnormal ones kept, as a program starts. The proofs are
 *     about that arithmetic: after fesetround(FE_UPWARD), say, other values come out.
 *   - For rows that belong to the opened picture: hand chroma_seek, chroma_row, chroma_rgb_row and
 *     chroma_blend_row the state that the last accepted call gave, and the row calls the planes
 *     that were opened and, from the accepted chroma_open on, the same scratch slice at the same
 *     length, as the accepted calls left it. Each picture has its own state and scratch. Other
 *     states, scratch and planes are safe too; the rows are then not those of the opened picture.
 *
 * A slice may be longer than needed, but for a chart; its surplus is untouched. chroma_open,
 * chroma_fill, the calls for a plane and chroma_picture look at every sample inside the planes that
 * they are lent, and turn a picture down by 17 if one exceeds maxval; padding and surplus are not
 * looked at. chroma_row doesn't look again: it takes samples as they are.
 *
 * A not-a-number has one form in the logic of the proofs. So for a lent float 'unchanged' and
 * 'untouched' mean its value; that a payload stays too is tested (tests/c), not proved.
 */
#ifndef CHROMA_H
#define CHROMA_H

#include <stddef.h>
#include <stdint.h>

#ifdef __cplusplus
extern "C" {
#endif

/* The interface that this header describes, 0xMMmmpp: raised whenever a struct, a number or a call
 * moves. chroma_version gives that of the library that is linked: a program that was compiled
 * against another one should stop. */
#define CHROMA_VERSION 0x000a00
uint32_t chroma_version(void);

/* What a call answers: the first number of its list that applies, where lists follow the order
 * of this table, 22 stands between 1 and 2, 18 between 4 and 5, 16 between 6 and 7, 17 between 7 and 8, 19 between 9
 * and 10, and 20 and 255
 * before all else; chroma_picture has its own order.
 * docs/REFUSALS.md has each number's example and definition, and each call's list. */
enum ChromaRefusal {
    CHROMA_ACCEPTED = 0,
    CHROMA_BAD_STATE = 1,     /* a state that open, seek or row never leaves; one with a range or
                                 a phase's left that is neither 0 nor 1 is such */
    CHROMA_BAD_SIZE = 2,      /* width or height 0 or over 8192 */
    CHROMA_BAD_RATIO = 3,     /* a ratio outside 1..4, or a numerator that isn't 1; for the linear
                                 calls a numerator outside 1 to its ratio */
    CHROMA_BAD_SAMPLES = 4,   /* sample_bytes not 1 or 2, or maxval outside 1..255 (1..65535 for
                                 2 bytes), or the fixed kernel with maxval not 255 */
    CHROMA_BAD_CHROMA = 5,    /* cw not w * num_across / rh rounded up, or ch not
                                 h * num_down / rv rounded up */
    CHROMA_NO_TRIANGULAR = 6, /* triangular with (rh, rv) not (2,1), (1,2) or (2,2), or with rh 2
                                 and cw at most 2 */
    CHROMA_BAD_PLANE = 7,     /* a stride below its row's bytes, or a plane that ends before its
                                 last row does */
    CHROMA_BAD_PIXEL_SIZE = 8, /* pixel size not 3 or 4 */
    CHROMA_SHORT_SCRATCH = 9, /* scratch shorter than chroma_scratch_need */
    CHROMA_SHORT_OUTPUT = 10, /* an output too short */
    CHROMA_BAD_ROW = 11,      /* a row at or past the height */
    CHROMA_ROW_PASSED = 12,   /* a row before the reader's place: seek first */
    CHROMA_BAD_PIXEL = 13,    /* luma or whole chroma over 65535, chroma in 256ths over 16776960,
                                 or maxval outside 1..65535 */
    CHROMA_BAD_HEADER = 14,   /* a PGM header that is not one, a maxval outside 1..65535 or not
                                 that of the first image, or bytes left over */
    CHROMA_TOO_LARGE = 15,    /* the picture call's size limits passed, or rows missing */
    CHROMA_NOT_CENTRED = 16,  /* co-sited chroma on either axis with a guided or triangular call */
    CHROMA_ABOVE_MAXVAL = 17, /* a sample inside a plane that exceeds maxval */
    CHROMA_BAD_RANGE = 18,    /* studio range with another maxval than 255, or with the fixed
                                 kernel */
    CHROMA_BAD_RECTANGLE = 19, /* chroma_patch: a rectangle whose end passes 65535; chroma_refill:
                                 one with a cell outside the chroma plane */
    CHROMA_BAD_CHART = 20,    /* a chart that is not 2 to 24 shades of three bytes, no byte over */
    CHROMA_OTHER_CHANGE = 21, /* chroma_refill: luma that differs between the two sets of planes, or
                                 chroma that differs outside the rectangle */
    CHROMA_UNLIKE = 22,       /* chroma_blend_row: two pictures of unequal geometry (sizes, ratios,
                                 range), or a weight above 16 */
    CHROMA_NO_SUCH_WAY = 255  /* a siting, a range, or a switch of chroma_fill or chroma_refill, that
                                 is neither
                                 0 nor 1 */
};

/* A picture's numbers: w by h pixels, rh by rv of them to a chroma cell, cw by ch cells, bytes
 * of a sample, the largest sample, and where a chroma sample sits, across and down. 4:2:0 is rh 2
 * and rv 2, 4:2:2 is 2 and 1, 4:4:4 is 1 and 1. A siting is 0 for centred, in the middle of the
 * cell's pixels, as JPEG has it, or 1 for co-sited, on the first of them, as BT.601 has it
 * across: 4:2:2 video is siting_across 1 and siting_down 0. The numerators say how many cells lie to
 * rh pixels across and to rv down: 1 for whole ratios; 2 with rh 3 is two cells to three pixels.
 * Co-sited chroma and numerators other than 1 are for the linear calls. The range is 0 for full,
 * samples from 0 to maxval, as JPEG has it, or 1 for studio, luma 16 to 235 and chroma 16 to 240,
 * as BT.601 has it: it is for maxval 255, and colour alone depends on it. */
typedef struct ChromaLayout {
    size_t w, h;
    size_t rh, rv;
    size_t cw, ch;
    size_t sample_bytes;
    uint32_t maxval;
    uint32_t siting_across, siting_down;
    size_t num_across, num_down;
    uint32_t range;
} ChromaLayout;

/* The layout of a picture of one byte a sample with maxval 255, whole ratios, centred chroma and
 * full range, whose chroma size is the quotient rounded up (0 where a ratio is 0, which every call refuses). */
static inline ChromaLayout chroma_layout(size_t w, size_t h, size_t rh, size_t rv) {
    ChromaLayout l;
    l.w = w, l.h = h, l.rh = rh, l.rv = rv;
    l.cw = rh == 0 ? 0 : w / rh + (w % rh != 0);
    l.ch = rv == 0 ? 0 : h / rv + (h % rv != 0);
    l.sample_bytes = 1, l.maxval = 255;
    l.siting_across = 0, l.siting_down = 0;
    l.num_across = 1, l.num_down = 1;
    l.range = 0;
    return l;
}

/* How many bytes apart the rows of each plane begin. */
typedef struct ChromaStrides {
    size_t y, cb, cr;
} ChromaStrides;

/* How a pixel of a cell goes across: from the left neighbour (left 1) or its own cell (0), and
 * how far. */
typedef struct ChromaPhase {
    uint32_t left;
    float f;
} ChromaPhase;

/* A reader's state. Keep it as it was given; there is nothing to free. */
typedef struct ChromaReader {
    size_t w, h;
    size_t rh, rv;
    size_t cw, ch;
    ChromaPhase phases[4];
    size_t sample_bytes;
    uint32_t maxval;
    uint32_t range;
    size_t place;  /* the row that the reader is at */
    size_t h_next; /* the next chroma row to sum across, and the next to finish */
    size_t f_next;
} ChromaReader;

/* A refusal (CHROMA_ACCEPTED for none) and the state afterwards. A refused call gives back
 * the state it was handed. */
typedef struct ChromaReply {
    uint32_t refusal;
    ChromaReader reader;
} ChromaReply;

/* A refusal and a colour, 0, 0, 0 where the call was refused. */
typedef struct ChromaPixel {
    uint32_t refusal;
    uint8_t r, g, b;
} ChromaPixel;

/* A refusal and how many bytes were written, 0 where the call was refused. */
typedef struct ChromaWritten {
    uint32_t refusal;
    size_t len;
} ChromaWritten;

/* Part of a picture: its first column and row, and its sides. In pixels for chroma_patch and
 * chroma_chart_reading, in chroma cells for chroma_refill. */
typedef struct ChromaRectangle {
    size_t left, top;
    size_t width, height;
} ChromaRectangle;

/* The colour of a patch: `given` is 1 and `pixels` says how many it is the mean of, or `given` is
 * 0, where the call was refused or no pixel is shared, and all behind it is 0. Red, green, blue:
 * the mean, and the mean as a whole number, halves up. */
typedef struct ChromaPatch {
    uint32_t refusal;
    uint32_t given;
    size_t pixels;
    double mean[3];
    uint8_t whole[3];
} ChromaPatch;

/* The reading of a patch on a chart: `given` is 1, or 0 where the call was refused or the patch is
 * of no pixel, and then all behind it is 0. `nearest` is a shade's index, `pair` the index of the
 * first of two neighbours and `weight` how many sixteenths of the second are mixed in; the two
 * `off` are their sums of squared differences from `whole`, the patch's whole-number mean. */
typedef struct ChromaChartReading {
    uint32_t refusal;
    uint32_t given;
    size_t pixels;
    size_t nearest;
    size_t pair;
    size_t weight;
    uint32_t nearest_off;
    uint32_t between_off;
    uint8_t whole[3];
} ChromaChartReading;

/* A refusal and both states afterwards. A refused call gives back the states it was handed. */
typedef struct ChromaBlendReply {
    uint32_t refusal;
    ChromaReader early, late;
} ChromaBlendReply;

/* How many floats (not bytes) of scratch every call with a `scratch` asks for (chroma_picture
 * too, where CHROMA_PICTURE_SCRATCH always suffices). Scratch may hold anything at first; calloc
 * gives memory that counts as written. */
static inline size_t chroma_scratch_need(size_t cw, size_t w) {
    return 32 * cw + 8 * w;
}

/* Enough for any input that chroma_picture accepts: bytes of input, floats, bytes of output. */
#define CHROMA_PICTURE_INPUT 49152
#define CHROMA_PICTURE_SCRATCH 5120
#define CHROMA_PICTURE_OUTPUT 147472

/* Opens a picture: gives its reader at row 0. `scratch` is the slice that the row calls will
 * be lent; only its length is looked at. `reader` may hold anything, and comes back where the
 * call is refused; `static ChromaReader none;` is one to begin with, in C and in C++.
 * Refusals 255 (a siting or the range is neither 0 nor 1), then 2, 3, 4, 18, 5, 16, 7, 17, 9. */
ChromaReply chroma_open(ChromaLayout layout,
                        const uint8_t *y, size_t y_len,
                        const uint8_t *cb, size_t cb_len,
                        const uint8_t *cr, size_t cr_len,
                        ChromaStrides strides,
                        const float *scratch, size_t scratch_len,
                        ChromaReader reader);

/* Moves a reader to any row of its picture, back as well. Refusals 1, 11. */
ChromaReply chroma_seek(ChromaReader reader, size_t row);

/* Row `row` of Cb and of Cr, guided by luma: the first w values of out_cb and of out_cr. They
 * are in the samples' units, not rounded, each within the extremes of the 3 by 3 cells round its
 * own. The row may be the reader's place or any after it; the place is then that row. The row
 * follows from the picture and the row number alone, whatever was read before.
 * Refusals 1, 7, 9, 10 (either output shorter than w), 11, 12. */
ChromaReply chroma_row(ChromaReader reader,
                       const uint8_t *y, size_t y_len,
                       const uint8_t *cb, size_t cb_len,
                       const uint8_t *cr, size_t cr_len,
                       ChromaStrides strides,
                       size_t row,
                       float *scratch, size_t scratch_len,
                       float *out_cb, size_t out_cb_len,
                       float *out_cr, size_t out_cr_len);

/* Row `row` as RGB, guided by luma and exact: w pixels of three bytes into out, as chroma_fill gives
 * that row at size 3 with guided chroma and the exact kernel, in the range of the picture. The
 * reader and scratch are left as chroma_row leaves them, and the row may be the place or any after
 * it.
 * Refusals 1, 7, 9, 10 (out shorter than 3 * w), 11, 12. */
ChromaReply chroma_rgb_row(ChromaReader reader,
                           const uint8_t *y, size_t y_len,
                           const uint8_t *cb, size_t cb_len,
                           const uint8_t *cr, size_t cr_len,
                           ChromaStrides strides,
                           size_t row,
                           float *scratch, size_t scratch_len,
                           uint8_t *out, size_t out_len);

/* One whole chroma plane, interpolated linearly: w * h values into out, row by row without gaps,
 * rounded halves up and limited to 0..maxval. `plane` is Cb or Cr, by either siting
 * and any numerators.
 * Refusals 255, then 2, 3, 4, 18, 5, 7, 17, 9, 10. */
uint32_t chroma_linear_plane(ChromaLayout layout,
                             const uint8_t *plane, size_t plane_len, size_t stride,
                             float *scratch, size_t scratch_len,
                             uint16_t *out, size_t out_len);

/* One whole chroma plane, guided by luma: w * h values into out, laid out, rounded and limited as
 * above.
 * Refusals 255, then 2, 3, 4, 18, 5, 16, 7, 17 (of luma or the plane), 9, 10. */
uint32_t chroma_guided_plane(ChromaLayout layout,
                             const uint8_t *y, size_t y_len, size_t y_stride,
                             const uint8_t *plane, size_t plane_len, size_t stride,
                             float *scratch, size_t scratch_len,
                             uint16_t *out, size_t out_len);

/* One whole chroma plane, triangular, in whole numbers: w * h values into out, row by row.
 * Refusals 255, then 2, 3, 4, 18, 5, 6, 16, 7, 17, 10. */
uint32_t chroma_triangular_plane(ChromaLayout layout,
                                 const uint8_t *plane, size_t plane_len, size_t stride,
                                 uint16_t *out, size_t out_len);

/* The picture's w * h pixels into out, row by row, `size` bytes each (3 or 4): red, green,
 * blue; a fourth byte keeps what it held. Colour is T.871's (JFIF: BT.601's coefficients), in 8 bits
 * whatever maxval is; chroma is neutral at (maxval + 1) / 2. In studio range the same equations are
 * taken on 255 * (Y - 16) / 219 and 255 * (C - 128) / 224.
 * `upsampling`: 0 linear, 1 guided. `kernel`: 0 exact, T.871's equations on chroma in 256ths; 1
 * fixed, 16-bit fixed point on chroma rounded to whole samples (maxval 255, full range).
 * Refusals 255 (either, a siting or the range is another number), then 2, 3, 4, 18, 5,
 * 16 (guided), 7, 17, 8, 9, 10 (out shorter than w * h * size). */
uint32_t chroma_fill(ChromaLayout layout,
                     const uint8_t *y, size_t y_len,
                     const uint8_t *cb, size_t cb_len,
                     const uint8_t *cr, size_t cr_len,
                     ChromaStrides strides,
                     uint32_t upsampling,
                     uint32_t kernel,
                     size_t size,
                     float *scratch, size_t scratch_len,
                     uint8_t *out, size_t out_len);

/* Converts again, guided, where a rectangle of chroma cells was replaced: out holds the picture as
 * it was, as chroma_fill leaves it (guided, same kernel and size), and becomes the picture as it
 * is now. Only the rows whose cell row, y / rv, is within two of the rectangle are written, with
 * the bytes that chroma_fill would write there from the planes after the change; every other row
 * keeps its bytes, whatever they are. Where out held the conversion before the change it then
 * holds, as a whole, the one after it. A rectangle with no cell writes nothing. The first three
 * planes, with old_strides, are those before the change: they are looked at by the checks alone,
 * and may lie elsewhere or be padded otherwise than those after it.
 * Refusals 255, then 2, 3, 4, 18, 5, 16, 7, 17, 8, 9, 19 (a cell of the rectangle lies outside the
 * chroma plane), 10 (out shorter than w * h * size), 21 (a sample of luma, or of chroma outside
 * the rectangle, differs between the two sets of planes); 7 and 17 are for either set. */
uint32_t chroma_refill(ChromaLayout layout,
                       const uint8_t *old_y, size_t old_y_len,
                       const uint8_t *old_cb, size_t old_cb_len,
                       const uint8_t *old_cr, size_t old_cr_len,
                       ChromaStrides old_strides,
                       const uint8_t *y, size_t y_len,
                       const uint8_t *cb, size_t cb_len,
                       const uint8_t *cr, size_t cr_len,
                       ChromaStrides strides,
                       ChromaRectangle cells,
                       uint32_t kernel,
                       size_t size,
                       float *scratch, size_t scratch_len,
                       uint8_t *out, size_t out_len);

/* The colour of one pixel by the exact kernel: chroma in 256ths, samples in 0..maxval; in studio
 * range (range 1, maxval 255) as chroma_fill has it.
 * Refusals 255 (range is neither 0 nor 1), then 18, 13. */
ChromaPixel chroma_exact_pixel(uint32_t y, uint32_t cb256, uint32_t cr256, uint32_t maxval,
                               uint32_t range);

/* The colour of one pixel by the fixed kernel, for maxval 255: whole chroma. Refusal 13. */
ChromaPixel chroma_fixed_pixel(uint32_t y, uint32_t cb, uint32_t cr);

/* Three PGM images one after another (Y, Cb, Cr; width at most 128, 49152 bytes in all) to a PPM
 * of 8 bits at the front of out, guided and exact; gives the PPM's length. The maxval is any from
 * 1 to 65535, the same in all three; above 255 a sample is two bytes, the high byte first (in
 * planes it is the low one). Between `P5` and the maxval a comment, from `#` through the next CR
 * or LF, counts as whitespace.
 * Refusals 14 and 15 as they are met, then 2, 5, 17, 9 and 10, in this order. */
ChromaWritten chroma_picture(const uint8_t *input, size_t input_len,
                             float *scratch, size_t scratch_len,
                             uint8_t *out, size_t out_len);

/* The mean colour of the pixels that a rectangle shares with a picture of w by h pixels, three
 * bytes each, row by row without gaps, as chroma_fill leaves it at size 3. A rectangle may reach
 * past the picture, or have no pixel. Each mean is the exact sum of the bytes divided by their
 * number, rounded once.
 * Refusals 2 (w or h), 19 (left + width or top + height over 65535), 10 (rgb shorter than
 * w * h * 3), in this order. */
ChromaPatch chroma_patch(ChromaRectangle rectangle,
                         size_t w, size_t h,
                         const uint8_t *rgb, size_t rgb_len);

/* Reads a patch, as chroma_patch has it, on a chart of 2 to 24 shades, three bytes each: the shade
 * that is nearest to the patch's whole-number mean, by the least sum of squared differences, the
 * first on a tie; and the nearest mix of two neighbours, (16 - k) sixteenths of the first and k of
 * the second for a weight k from 0 to 16, rounded halves up in each channel, the first pair and
 * then the least weight on a tie.
 * Refusals 20 (chart_len is not 3 times 2 to 24: here alone a surplus is refused), then 2, 19 and
 * 10 as chroma_patch has them. */
ChromaChartReading chroma_chart_reading(const uint8_t *chart, size_t chart_len,
                                        ChromaRectangle rectangle,
                                        size_t w, size_t h,
                                        const uint8_t *rgb, size_t rgb_len);

/* A row between two pictures of equal geometry, each with its own reader and scratch: w pixels of
 * three bytes into out, each byte (16 - weight) sixteenths of the early picture's and `weight` of
 * the late one's as chroma_rgb_row gives them, rounded halves up; the early one at weight 0, the
 * late one at 16. Both readers are moved and both scratches left as by chroma_row, and each place
 * may be the row or any before it. Rows written one after another, each 3 * w bytes behind the one
 * before, are a picture that chroma_patch and chroma_chart_reading read. Sample bytes and maxval
 * may differ between the two.
 * Refusals 1 (either state), 22 (w, h, rh, rv, cw, ch or the range differ, or weight is above 16),
 * then 7, 9, 10 (out shorter than 3 * w), 11, 12 for either picture, the lowest first. A refusal
 * leaves both states, both scratches and out. */
ChromaBlendReply chroma_blend_row(ChromaReader early,
                                  const uint8_t *early_y, size_t early_y_len,
                                  const uint8_t *early_cb, size_t early_cb_len,
                                  const uint8_t *early_cr, size_t early_cr_len,
                                  ChromaStrides early_strides,
                                  float *early_scratch, size_t early_scratch_len,
                                  ChromaReader late,
                                  const uint8_t *late_y, size_t late_y_len,
                                  const uint8_t *late_cb, size_t late_cb_len,
                                  const uint8_t *late_cr, size_t late_cr_len,
                                  ChromaStrides late_strides,
                                  float *late_scratch, size_t late_scratch_len,
                                  size_t row,
                                  size_t weight,
                                  uint8_t *out, size_t out_len);

#ifdef __cplusplus
}
#endif

#endif
