/* Calls every function of include/chroma.h: document 01's examples, refusals, and what may not
 * be touched. Compiles as C11 and as C++. Prints each check that fails; status 1 if any did. */
#include "chroma.h"

#include <stdio.h>
#include <stdlib.h>
#include <string.h>

static int checks;
static int failures;

#define CHECK(what)                                                                   \
    do {                                                                              \
        checks++;                                                                     \
        if (!(what)) {                                                                \
            failures++;                                                               \
            printf("%s:%d: failed: %s\n", __FILE__, __LINE__, #what);                 \
        }                                                                             \
    } while (0)

#define SAME(found, wanted)                                                           \
    do {                                                                              \
        unsigned long long f_ = (unsigned long long)(found);                          \
        unsigned long long w_ = (unsigned long long)(wanted);                         \
        checks++;                                                                     \
        if (f_ != w_) {                                                               \
            failures++;                                                               \
            printf("%s:%d: failed: %s is %llu, not %llu\n", __FILE__, __LINE__, #found, f_, w_); \
        }                                                                             \
    } while (0)

/* ---- slices with canaries round them */

enum { GUARD = 64, SLICES = 64 };
static struct {
    unsigned char *block;
    size_t bytes;
} slices[SLICES];
static size_t slice_count;

static void *lend(size_t bytes) {
    unsigned char *block = (unsigned char *)malloc(bytes + 2 * GUARD);
    if (block == NULL || slice_count == SLICES) {
        printf("no room for another slice\n");
        exit(2);
    }
    memset(block, 0xA5, bytes + 2 * GUARD);
    slices[slice_count].block = block;
    slices[slice_count].bytes = bytes;
    slice_count++;
    return block + GUARD;
}

static uint8_t *lend_bytes(size_t n) { return (uint8_t *)lend(n); }
static uint16_t *lend_values(size_t n) { return (uint16_t *)lend(2 * n); }
static float *lend_floats(size_t n) { return (float *)lend(4 * n); }

/* Every canary still stands; the slices are given back. */
static void end_slices(void) {
    for (size_t k = 0; k < slice_count; k++) {
        const unsigned char *front = slices[k].block;
        const unsigned char *back = front + GUARD + slices[k].bytes;
        int whole = 1;
        for (size_t i = 0; i < GUARD; i++)
            whole = whole && front[i] == 0xA5 && back[i] == 0xA5;
        CHECK(whole);
        free(slices[k].block);
    }
    slice_count = 0;
}

static int untouched(const void *p, size_t bytes) {
    const unsigned char *b = (const unsigned char *)p;
    for (size_t i = 0; i < bytes; i++)
        if (b[i] != 0xA5)
            return 0;
    return 1;
}

/* ---- layouts and states */

static ChromaLayout layout_of(size_t w, size_t h, size_t rh, size_t rv, size_t cw, size_t ch) {
    ChromaLayout l = chroma_layout(w, h, rh, rv);
    l.cw = cw, l.ch = ch;
    return l;
}

static ChromaStrides strides_of(size_t y, size_t cb, size_t cr) {
    ChromaStrides s;
    s.y = y, s.cb = cb, s.cr = cr;
    return s;
}

/* A state of any content: every byte the same. */
static ChromaReader garbage(int byte) {
    ChromaReader r;
    memset(&r, byte, sizeof r);
    return r;
}

/* The same state bit for bit, not-a-numbers too. */
static int same_state(const ChromaReader *a, const ChromaReader *b) {
    int same = a->w == b->w && a->h == b->h && a->rh == b->rh && a->rv == b->rv
        && a->cw == b->cw && a->ch == b->ch && a->sample_bytes == b->sample_bytes
        && a->maxval == b->maxval && a->range == b->range && a->place == b->place && a->h_next == b->h_next
        && a->f_next == b->f_next;
    for (int k = 0; k < 4; k++)
        same = same && memcmp(&a->phases[k], &b->phases[k], sizeof(ChromaPhase)) == 0;
    return same;
}

/* ---- the interface: where each field stands, and that the library puts and finds it there */

#define STANDS(type, field, at) CHECK(offsetof(type, field) == (at))

static void test_structs(void) {
    CHECK(sizeof(ChromaLayout) == 96);
    STANDS(ChromaLayout, w, 0);
    STANDS(ChromaLayout, h, 8);
    STANDS(ChromaLayout, rh, 16);
    STANDS(ChromaLayout, rv, 24);
    STANDS(ChromaLayout, cw, 32);
    STANDS(ChromaLayout, ch, 40);
    STANDS(ChromaLayout, sample_bytes, 48);
    STANDS(ChromaLayout, maxval, 56);
    STANDS(ChromaLayout, siting_across, 60);
    STANDS(ChromaLayout, siting_down, 64);
    STANDS(ChromaLayout, num_across, 72);
    STANDS(ChromaLayout, num_down, 80);
    STANDS(ChromaLayout, range, 88);
    CHECK(sizeof(ChromaStrides) == 24);
    STANDS(ChromaStrides, y, 0);
    STANDS(ChromaStrides, cb, 8);
    STANDS(ChromaStrides, cr, 16);
    CHECK(sizeof(ChromaPhase) == 8);
    STANDS(ChromaPhase, left, 0);
    STANDS(ChromaPhase, f, 4);
    CHECK(sizeof(ChromaReader) == 120);
    STANDS(ChromaReader, w, 0);
    STANDS(ChromaReader, h, 8);
    STANDS(ChromaReader, rh, 16);
    STANDS(ChromaReader, rv, 24);
    STANDS(ChromaReader, cw, 32);
    STANDS(ChromaReader, ch, 40);
    STANDS(ChromaReader, phases, 48);
    STANDS(ChromaReader, sample_bytes, 80);
    STANDS(ChromaReader, maxval, 88);
    STANDS(ChromaReader, range, 92);
    STANDS(ChromaReader, place, 96);
    STANDS(ChromaReader, h_next, 104);
    STANDS(ChromaReader, f_next, 112);
    CHECK(sizeof(ChromaReply) == 128);
    STANDS(ChromaReply, refusal, 0);
    STANDS(ChromaReply, reader, 8);
    CHECK(sizeof(ChromaPixel) == 8);
    STANDS(ChromaPixel, refusal, 0);
    STANDS(ChromaPixel, r, 4);
    STANDS(ChromaPixel, g, 5);
    STANDS(ChromaPixel, b, 6);
    CHECK(sizeof(ChromaRectangle) == 32);
    STANDS(ChromaRectangle, left, 0);
    STANDS(ChromaRectangle, top, 8);
    STANDS(ChromaRectangle, width, 16);
    STANDS(ChromaRectangle, height, 24);
    CHECK(sizeof(ChromaPatch) == 48);
    STANDS(ChromaPatch, refusal, 0);
    STANDS(ChromaPatch, given, 4);
    STANDS(ChromaPatch, pixels, 8);
    STANDS(ChromaPatch, mean, 16);
    STANDS(ChromaPatch, whole, 40);
    CHECK(sizeof(ChromaChartReading) == 56);
    STANDS(ChromaChartReading, refusal, 0);
    STANDS(ChromaChartReading, given, 4);
    STANDS(ChromaChartReading, pixels, 8);
    STANDS(ChromaChartReading, nearest, 16);
    STANDS(ChromaChartReading, pair, 24);
    STANDS(ChromaChartReading, weight, 32);
    STANDS(ChromaChartReading, nearest_off, 40);
    STANDS(ChromaChartReading, between_off, 44);
    STANDS(ChromaChartReading, whole, 48);
    CHECK(sizeof(ChromaBlendReply) == 248);
    STANDS(ChromaBlendReply, refusal, 0);
    STANDS(ChromaBlendReply, early, 8);
    STANDS(ChromaBlendReply, late, 128);
    CHECK(sizeof(ChromaWritten) == 16);
    STANDS(ChromaWritten, refusal, 0);
    STANDS(ChromaWritten, len, 8);
}

/* A state spelled out field by field, as an open, a row and a seek leave it of a picture whose
 * numbers are all different: 21 by 14 pixels, ratios 4 and 3, 6 by 5 cells, two bytes, maxval
 * 4,095. */
static void state_is(ChromaReply p, size_t place, size_t h_next, size_t f_next) {
    static const uint32_t left[4] = {1, 1, 0, 0};
    static const float f[4] = {0.625f, 0.875f, 0.125f, 0.375f};
    SAME(p.refusal, 0);
    SAME(p.reader.w, 21);
    SAME(p.reader.h, 14);
    SAME(p.reader.rh, 4);
    SAME(p.reader.rv, 3);
    SAME(p.reader.cw, 6);
    SAME(p.reader.ch, 5);
    for (int k = 0; k < 4; k++) {
        SAME(p.reader.phases[k].left, left[k]);
        CHECK(p.reader.phases[k].f == f[k]);
    }
    SAME(p.reader.sample_bytes, 2);
    SAME(p.reader.maxval, 4095);
    SAME(p.reader.place, place);
    SAME(p.reader.h_next, h_next);
    SAME(p.reader.f_next, f_next);
}

static void test_fields(void) {
    ChromaLayout l = chroma_layout(21, 14, 4, 3);
    ChromaStrides strides = strides_of(43, 13, 15);
    size_t need = chroma_scratch_need(l.cw, l.w);
    uint8_t *y = lend_bytes(43 * 14), *cb = lend_bytes(13 * 5), *cr = lend_bytes(15 * 5);
    float *scratch = lend_floats(need), *row_cb = lend_floats(21), *row_cr = lend_floats(21);
    ChromaReader any = garbage(0x5A);
    ChromaReply p;

    SAME(chroma_version(), CHROMA_VERSION);
    SAME(need, 32 * 6 + 8 * 21);
    SAME(CHROMA_PICTURE_SCRATCH, chroma_scratch_need(128, 128));
    SAME(l.cw, 6);
    SAME(l.ch, 5);
    l.sample_bytes = 2, l.maxval = 4095;
    memset(y, 1, 43 * 14), memset(cb, 1, 13 * 5), memset(cr, 1, 15 * 5);
    /* Each stride is its own plane's: 42, 12 and 12 bytes to a row. */
    for (int k = 0; k < 3; k++) {
        ChromaStrides low = strides;
        *(k == 0 ? &low.y : k == 1 ? &low.cb : &low.cr) = k == 0 ? 41 : 11;
        SAME(chroma_open(l, y, 43 * 14, cb, 13 * 5, cr, 15 * 5, low, scratch, need, any).refusal, 7);
    }
    p = chroma_open(l, y, 43 * 14, cb, 13 * 5, cr, 15 * 5, strides, scratch, need, any);
    state_is(p, 0, 0, 0);
    p = chroma_row(p.reader, y, 43 * 14, cb, 13 * 5, cr, 15 * 5, strides, 7, scratch, need, row_cb, 21, row_cr, 21);
    state_is(p, 7, 5, 4);
    p = chroma_seek(p.reader, 13);
    state_is(p, 13, 3, 4);
    end_slices();
}

/* ---- single pixels */

static void pixel_is(ChromaPixel p, uint32_t refusal, int r, int g, int b) {
    SAME(p.refusal, refusal);
    SAME(p.r, r);
    SAME(p.g, g);
    SAME(p.b, b);
}

static void test_pixels(void) {
    pixel_is(chroma_exact_pixel(230, 3 * 256, 128 * 256, 255, 0), 0, 230, 255, 9);
    pixel_is(chroma_exact_pixel(10, 253 * 256, 128 * 256, 255, 0), 0, 10, 0, 232);
    pixel_is(chroma_exact_pixel(2048, 2048 * 256, 2048 * 256, 4095, 0), 0, 128, 128, 128);
    pixel_is(chroma_exact_pixel(0, 32768, 65545, 255, 0), 0, 179, 0, 0);
    pixel_is(chroma_exact_pixel(65535, 0, 0, 65535, 0), 0, 76, 255, 29);
    pixel_is(chroma_exact_pixel(65536, 0, 0, 255, 0), 13, 0, 0, 0);
    pixel_is(chroma_exact_pixel(0, 16776961, 0, 255, 0), 13, 0, 0, 0);
    pixel_is(chroma_exact_pixel(0, 0, 16776961, 255, 0), 13, 0, 0, 0);
    pixel_is(chroma_exact_pixel(0, 0, 0, 0, 0), 13, 0, 0, 0);
    pixel_is(chroma_exact_pixel(0, 0, 0, 65536, 0), 13, 0, 0, 0);
    pixel_is(chroma_exact_pixel(UINT32_MAX, UINT32_MAX, UINT32_MAX, UINT32_MAX, 0), 13, 0, 0, 0);
    pixel_is(chroma_fixed_pixel(230, 3, 128), 0, 230, 255, 8);
    pixel_is(chroma_fixed_pixel(65536, 0, 0), 13, 0, 0, 0);
    pixel_is(chroma_fixed_pixel(0, 65536, 0), 13, 0, 0, 0);
    pixel_is(chroma_fixed_pixel(0, 0, 65536), 13, 0, 0, 0);
}

/* Studio range: BT.601's ends, a test card's bars and the corners; 18 before 13, 255 before all else. */
static void test_studio_pixels(void) {
    static const int wanted[][6] = {
        {16, 128, 128, 0, 0, 0}, {235, 128, 128, 255, 255, 255}, {126, 128, 128, 128, 128, 128},
        {81, 90, 240, 254, 0, 0}, {145, 54, 34, 0, 255, 1}, {41, 240, 110, 0, 0, 255},
        {16, 16, 16, 0, 135, 0}, {235, 240, 240, 255, 120, 255}, {128, 16, 240, 255, 83, 0},
        {0, 0, 0, 0, 136, 0}, {255, 255, 255, 255, 125, 255}, {65535, 128, 128, 255, 255, 255}};
    static const uint32_t strange[] = {2, 255, 65536, UINT32_MAX};
    for (size_t k = 0; k < sizeof wanted / sizeof wanted[0]; k++) {
        const int *p = wanted[k];
        pixel_is(chroma_exact_pixel((uint32_t)p[0], (uint32_t)p[1] * 256, (uint32_t)p[2] * 256, 255, 1),
                 0, p[3], p[4], p[5]);
    }
    pixel_is(chroma_exact_pixel(100, 16776960, 65536, 255, 1), 0, 255, 0, 255);
    pixel_is(chroma_exact_pixel(100, 32769, 32767, 255, 1), 0, 98, 98, 98);
    pixel_is(chroma_exact_pixel(16, 32768, 32768, 254, 1), CHROMA_BAD_RANGE, 0, 0, 0);
    pixel_is(chroma_exact_pixel(65536, 32768, 32768, 1000, 1), CHROMA_BAD_RANGE, 0, 0, 0);
    pixel_is(chroma_exact_pixel(65536, 32768, 32768, 255, 1), 13, 0, 0, 0);
    for (size_t k = 0; k < 4; k++)
        pixel_is(chroma_exact_pixel(65536, 0, 0, 0, strange[k]), CHROMA_NO_SUCH_WAY, 0, 0, 0);
}

/* ---- whole planes */

static void values_are(const uint16_t *found, const int *wanted, size_t n) {
    for (size_t i = 0; i < n; i++)
        SAME(found[i], wanted[i]);
}

static void test_linear_plane(void) {
    static const int wanted[] = {0, 25, 75, 100};
    ChromaLayout l = layout_of(4, 1, 2, 1, 2, 1);
    size_t need = chroma_scratch_need(l.cw, l.w);
    uint8_t *plane = lend_bytes(2);
    float *scratch = lend_floats(need);
    uint16_t *out = lend_values(5);
    plane[0] = 0, plane[1] = 100;
    SAME(need, 96);

    SAME(chroma_linear_plane(l, plane, 2, 2, scratch, need - 1, out, 5), 9);
    SAME(chroma_linear_plane(l, plane, 2, 2, scratch, need, out, 3), 10);
    SAME(chroma_linear_plane(l, plane, 2, 1, scratch, need, out, 5), 7);
    SAME(chroma_linear_plane(l, NULL, 0, 2, NULL, 0, NULL, 0), 7);
    l.cw = 3;
    SAME(chroma_linear_plane(l, plane, 2, 2, scratch, need, out, 5), 5);
    l.maxval = 256;
    SAME(chroma_linear_plane(l, plane, 2, 2, scratch, need, out, 5), 4);
    l.rh = 5;
    SAME(chroma_linear_plane(l, plane, 2, 2, scratch, need, out, 5), 3);
    l.w = 0;
    SAME(chroma_linear_plane(l, plane, 2, 2, scratch, need, out, 5), 2);
    l = layout_of(4, 1, 2, 1, 2, 1);
    CHECK(untouched(scratch, 4 * need));
    CHECK(untouched(out, 10));

    SAME(chroma_linear_plane(l, plane, 2, 2, scratch, need, out, 5), 0);
    values_are(out, wanted, 4);
    CHECK(untouched(out + 4, 2));
    end_slices();
}

/* BT.601's co-sited rows of cells 0 and 100, the same down, and each axis by its own siting. */
static void test_sitings(void) {
    static const int sited[3][8] = {{0, 50, 100, 100}, {0, 33, 67, 100, 100, 100}, {0, 25, 50, 75, 100, 100, 100, 100}};
    static const int both[] = {0, 25, 75, 100, 50, 63, 88, 100, 100, 100, 100, 100};
    uint8_t *plane = lend_bytes(4);
    float *scratch = lend_floats(chroma_scratch_need(8, 8));
    uint16_t *out = lend_values(12);
    ChromaLayout l;

    plane[0] = 0, plane[1] = 100, plane[2] = 100, plane[3] = 100;
    for (size_t r = 2; r <= 4; r++) {
        ChromaLayout across = chroma_layout(2 * r, 1, r, 1), down = chroma_layout(1, 2 * r, 1, r);
        across.siting_across = 1, down.siting_down = 1;
        SAME(chroma_linear_plane(across, plane, 2, 2, scratch, chroma_scratch_need(2, 2 * r), out, 8), 0);
        values_are(out, sited[r - 2], 2 * r);
        SAME(chroma_linear_plane(down, plane, 2, 1, scratch, chroma_scratch_need(1, 1), out, 8), 0);
        values_are(out, sited[r - 2], 2 * r);
    }
    /* Cells 0, 100 over 100, 100: centred across, co-sited down. */
    l = chroma_layout(4, 3, 2, 2);
    l.siting_down = 1;
    SAME(chroma_linear_plane(l, plane, 4, 2, scratch, chroma_scratch_need(2, 4), out, 12), 0);
    values_are(out, both, 12);
    end_slices();
}

/* Two cells to three pixels and three to four, by both sitings, across and down. */
static void test_pairs(void) {
    static const uint8_t cells[] = {0, 100, 200, 60, 10, 250};
    static const struct {
        size_t num, den, cells, w;
        int row[2][8];
    } pairs[] = {
        {2, 3, 4, 6, {{0, 50, 117, 183, 130, 60}, {0, 67, 133, 200, 107, 60}}},
        {3, 4, 6, 8, {{0, 63, 138, 183, 78, 29, 100, 250}, {0, 75, 150, 165, 60, 23, 130, 250}}},
    };
    uint8_t *plane = lend_bytes(6);
    float *scratch = lend_floats(chroma_scratch_need(8, 8));
    uint16_t *out = lend_values(9);

    memcpy(plane, cells, 6);
    for (int k = 0; k < 2; k++)
        for (uint32_t siting = 0; siting < 2; siting++) {
            size_t w = pairs[k].w, n = pairs[k].cells, need = chroma_scratch_need(n, w);
            ChromaLayout across = chroma_layout(w, 1, pairs[k].den, 1), down = chroma_layout(1, w, 1, pairs[k].den);
            across.num_across = pairs[k].num, across.cw = n, across.siting_across = siting;
            down.num_down = pairs[k].num, down.ch = n, down.siting_down = siting;
            SAME(chroma_linear_plane(across, plane, n, n, scratch, need, out, w), 0);
            values_are(out, pairs[k].row[siting], w);
            SAME(chroma_linear_plane(down, plane, n, 1, scratch, chroma_scratch_need(1, 1), out, w), 0);
            values_are(out, pairs[k].row[siting], w);
            across.cw = n - 1;
            SAME(chroma_linear_plane(across, plane, n, n, scratch, need, out, w), 5);
            across.num_across = pairs[k].den + 1;
            SAME(chroma_linear_plane(across, plane, n, n, scratch, need, out, w), 3);
            across.num_across = 0;
            SAME(chroma_linear_plane(across, plane, n, n, scratch, need, out, w), 3);
        }
    end_slices();
}

/* Every call with a layout of 9 by 6 pixels: its refusal, and 0 for those that are taken. */
static void sited_calls(ChromaLayout l, uint32_t guided, uint32_t linear) {
    uint8_t *y = lend_bytes(54), *c = lend_bytes(15), *out = lend_bytes(162);
    size_t need = chroma_scratch_need(5, 9);
    float *scratch = lend_floats(need);
    uint16_t *plane = lend_values(54);
    ChromaStrides s = strides_of(9, 5, 5);
    ChromaReader any = garbage(0x5A);
    ChromaReply p = chroma_open(l, y, 54, c, 15, c, 15, s, scratch, need, any);

    SAME(p.refusal, guided);
    CHECK(same_state(&p.reader, &any));
    SAME(chroma_guided_plane(l, y, 54, 9, c, 15, 5, scratch, need, plane, 54), guided);
    SAME(chroma_triangular_plane(l, c, 15, 5, plane, 54), guided);
    SAME(chroma_fill(l, y, 54, c, 15, c, 15, s, 1, 0, 3, scratch, need, out, 162), guided);
    CHECK(untouched(plane, 108));
    SAME(chroma_linear_plane(l, c, 15, 5, scratch, need, plane, 54), linear);
    SAME(chroma_fill(l, y, 54, c, 15, c, 15, s, 0, 0, 3, scratch, need, out, 162), linear);
    if (linear != 0) {
        CHECK(untouched(scratch, 4 * need));
        CHECK(untouched(plane, 108));
        CHECK(untouched(out, 162));
    }
    end_slices();
}

static void test_not_centred(void) {
    static const uint32_t strange[] = {2, 255, 65536, UINT32_MAX};
    for (uint32_t k = 1; k < 4; k++) {
        ChromaLayout l = chroma_layout(9, 6, 2, 2);
        l.siting_across = k % 2, l.siting_down = k / 2;
        sited_calls(l, CHROMA_NOT_CENTRED, CHROMA_ACCEPTED);
    }
    /* 2 of 2 is 3 for the others, although each pixel has its cell; so is a numerator past its ratio. */
    for (uint32_t k = 0; k < 4; k++) {
        ChromaLayout l = chroma_layout(9, 6, 2, 2);
        *(k % 2 ? &l.num_across : &l.num_down) = k / 2 ? 3 : 0;
        l.siting_across = k / 2;
        sited_calls(l, CHROMA_BAD_RATIO, CHROMA_BAD_RATIO);
    }
    for (uint32_t k = 0; k < 8; k++) {
        ChromaLayout l = chroma_layout(9, 6, 2, 2);
        *(k % 2 ? &l.siting_across : &l.siting_down) = strange[k / 2];
        sited_calls(l, CHROMA_NO_SUCH_WAY, CHROMA_NO_SUCH_WAY);
        /* Before all else. */
        l.w = 0, l.sample_bytes = 9;
        sited_calls(l, CHROMA_NO_SUCH_WAY, CHROMA_NO_SUCH_WAY);
    }
}

/* 18 where maxval isn't 255, 255 for a range that stands for none; else the planes and rows of full range. */
static void test_ranges(void) {
    static const uint32_t strange[] = {2, 255, 65536, UINT32_MAX};
    for (uint32_t k = 0; k < 4; k++) {
        ChromaLayout l = chroma_layout(9, 6, 2, 2);
        l.range = 1, l.maxval = 254 - k;
        sited_calls(l, CHROMA_BAD_RANGE, CHROMA_BAD_RANGE);
        /* Right after 4 and before 5. */
        l.cw = 9;
        sited_calls(l, CHROMA_BAD_RANGE, CHROMA_BAD_RANGE);
        l.maxval = 0;
        sited_calls(l, CHROMA_BAD_SAMPLES, CHROMA_BAD_SAMPLES);
        l.maxval = 255;
        sited_calls(l, CHROMA_BAD_CHROMA, CHROMA_BAD_CHROMA);
        l.range = strange[k], l.w = 0, l.sample_bytes = 9;
        sited_calls(l, CHROMA_NO_SUCH_WAY, CHROMA_NO_SUCH_WAY);
    }
    for (uint32_t range = 0; range < 2; range++) {
        ChromaLayout l = chroma_layout(9, 6, 2, 2);
        uint8_t *y = lend_bytes(54), *c = lend_bytes(15), *out = lend_bytes(162);
        size_t need = chroma_scratch_need(5, 9);
        float *scratch = lend_floats(need), *cb = lend_floats(9), *cr = lend_floats(9);
        uint16_t *linear = lend_values(54), *triangular = lend_values(54), *guided = lend_values(54);
        static uint16_t full[3][54];
        static float rows[2][9];
        ChromaStrides s = strides_of(9, 5, 5);
        ChromaReply p;
        for (size_t i = 0; i < 54; i++)
            y[i] = (uint8_t)(16 + 37 * i % 220);
        for (size_t i = 0; i < 15; i++)
            c[i] = (uint8_t)(16 + 59 * i % 225);
        l.range = range;
        SAME(chroma_linear_plane(l, c, 15, 5, scratch, need, linear, 54), 0);
        SAME(chroma_triangular_plane(l, c, 15, 5, triangular, 54), 0);
        SAME(chroma_guided_plane(l, y, 54, 9, c, 15, 5, scratch, need, guided, 54), 0);
        p = chroma_open(l, y, 54, c, 15, c, 15, s, scratch, need, garbage(0x5A));
        SAME(p.refusal, 0);
        SAME(p.reader.range, range);
        p = chroma_row(p.reader, y, 54, c, 15, c, 15, s, 3, scratch, need, cb, 9, cr, 9);
        SAME(p.refusal, 0);
        SAME(p.reader.range, range);
        p = chroma_seek(p.reader, 1);
        SAME(p.refusal, 0);
        SAME(p.reader.range, range);
        if (range == 0) {
            memcpy(full[0], linear, sizeof full[0]);
            memcpy(full[1], triangular, sizeof full[1]);
            memcpy(full[2], guided, sizeof full[2]);
            memcpy(rows[0], cb, sizeof rows[0]);
            memcpy(rows[1], cr, sizeof rows[1]);
        }
        CHECK(memcmp(full[0], linear, sizeof full[0]) == 0);
        CHECK(memcmp(full[1], triangular, sizeof full[1]) == 0);
        CHECK(memcmp(full[2], guided, sizeof full[2]) == 0);
        CHECK(memcmp(rows[0], cb, sizeof rows[0]) == 0);
        CHECK(memcmp(rows[1], cr, sizeof rows[1]) == 0);
        /* A state with a range that stands for none, and one that open doesn't leave. */
        for (size_t k = 0; k < 4; k++) {
            ChromaReader odd = p.reader;
            odd.range = strange[k];
            SAME(chroma_seek(odd, 2).refusal, 1);
            SAME(chroma_row(odd, y, 54, c, 15, c, 15, s, 6, scratch, need, cb, 9, cr, 9).refusal, 1);
        }
        p.reader.maxval = 254;
        SAME(chroma_seek(p.reader, 2).refusal, range);
        /* The fixed kernel has full range alone. */
        SAME(chroma_fill(l, y, 54, c, 15, c, 15, s, 0, 1, 3, scratch, need, out, 162), range ? CHROMA_BAD_RANGE : 0);
        end_slices();
    }
}

static void test_triangular_plane(void) {
    static const int across[] = {0, 25, 75, 125, 175, 200};
    static const int down[] = {0, 1, 1, 2};
    ChromaLayout l = layout_of(6, 1, 2, 1, 3, 1);
    uint8_t *plane = lend_bytes(3);
    uint16_t *out = lend_values(7);
    plane[0] = 0, plane[1] = 100, plane[2] = 200;

    SAME(chroma_triangular_plane(layout_of(4, 1, 2, 1, 2, 1), plane, 3, 3, out, 7), 6);
    SAME(chroma_triangular_plane(l, plane, 2, 3, out, 7), 7);
    SAME(chroma_triangular_plane(l, plane, 3, 3, out, 5), 10);
    SAME(chroma_triangular_plane(l, plane, 3, 3, NULL, 0), 10);
    CHECK(untouched(out, 14));

    SAME(chroma_triangular_plane(l, plane, 3, 3, out, 7), 0);
    values_are(out, across, 6);
    CHECK(untouched(out + 6, 2));

    plane[0] = 0, plane[1] = 2;
    SAME(chroma_triangular_plane(layout_of(1, 4, 1, 2, 1, 2), plane, 2, 1, out, 4), 0);
    values_are(out, down, 4);
    end_slices();
}

static void test_guided_plane(void) {
    ChromaLayout l = layout_of(5, 3, 2, 2, 3, 2);
    size_t need = chroma_scratch_need(l.cw, l.w);
    uint8_t *y = lend_bytes(15);
    uint8_t *plane = lend_bytes(6);
    float *scratch = lend_floats(need);
    uint16_t *out = lend_values(15);
    for (size_t i = 0; i < 15; i++)
        y[i] = (uint8_t)(37 * i);
    memset(plane, 77, 6);

    SAME(chroma_guided_plane(l, y, 14, 5, plane, 6, 3, scratch, need, out, 15), 7);
    SAME(chroma_guided_plane(l, y, 15, 5, plane, 6, 3, scratch, 0, out, 15), 9);
    SAME(chroma_guided_plane(l, y, 15, 5, plane, 6, 3, scratch, need, out, 14), 10);
    CHECK(untouched(scratch, 4 * need));
    CHECK(untouched(out, 30));

    /* "Guided with constant chroma returns that constant." */
    SAME(chroma_guided_plane(l, y, 15, 5, plane, 6, 3, scratch, need, out, 15), 0);
    for (size_t i = 0; i < 15; i++)
        SAME(out[i], 77);
    end_slices();
}

/* ---- the reader */

enum { W = 5, H = 5, CW = 3, CH = 3 };
static uint8_t *planes[3];
static float *scratch_of_reader;
static float *rows[2];

static ChromaReply row_at(ChromaReader r, size_t row) {
    return chroma_row(r, planes[0], W * H, planes[1], CW * CH, planes[2], CW * CH,
                      strides_of(W, CW, CW), row, scratch_of_reader, chroma_scratch_need(CW, W),
                      rows[0], W + 1, rows[1], W + 1);
}

static void refused(ChromaReply p, uint32_t refusal, const ChromaReader *handed) {
    SAME(p.refusal, refusal);
    CHECK(same_state(&p.reader, handed));
}

/* Row `row` as the reader gave it, rounded, is the whole plane's. */
static void row_is(size_t row, const uint16_t *whole_cb, const uint16_t *whole_cr) {
    for (size_t x = 0; x < W; x++) {
        SAME((unsigned)(rows[0][x] + 0.5f), whole_cb[row * W + x]);
        SAME((unsigned)(rows[1][x] + 0.5f), whole_cr[row * W + x]);
    }
    CHECK(untouched(rows[0] + W, 4));
    CHECK(untouched(rows[1] + W, 4));
}

static void test_reader(void) {
    ChromaLayout l = layout_of(W, H, 2, 2, CW, CH);
    ChromaStrides strides = strides_of(W, CW, CW);
    size_t need = chroma_scratch_need(CW, W);
    uint16_t *whole_cb = lend_values(W * H);
    uint16_t *whole_cr = lend_values(W * H);
    float *other = lend_floats(need);
    ChromaReader any = garbage(0xFF);
    ChromaReader handed;
    ChromaReply p;

    planes[0] = lend_bytes(W * H);
    planes[1] = lend_bytes(CW * CH);
    planes[2] = lend_bytes(CW * CH);
    scratch_of_reader = lend_floats(need);
    rows[0] = lend_floats(W + 1);
    rows[1] = lend_floats(W + 1);
    for (size_t i = 0; i < W * H; i++)
        planes[0][i] = (uint8_t)(91 * i + 17);
    for (size_t i = 0; i < CW * CH; i++) {
        planes[1][i] = (uint8_t)(53 * i);
        planes[2][i] = (uint8_t)(250 - 29 * i);
    }
    SAME(chroma_guided_plane(l, planes[0], W * H, W, planes[1], CW * CH, CW, other, need, whole_cb, W * H), 0);
    SAME(chroma_guided_plane(l, planes[0], W * H, W, planes[2], CW * CH, CW, other, need, whole_cr, W * H), 0);

    /* A refused open hands back what it was handed, whatever that is. */
    p = chroma_open(l, planes[0], W * H, planes[1], CW * CH, planes[2], CW * CH, strides,
                    scratch_of_reader, need - 1, any);
    refused(p, 9, &any);
    p = chroma_open(l, planes[0], W * H, planes[1], CW * CH, planes[2], CW * CH - 1, strides,
                    scratch_of_reader, need, any);
    refused(p, 7, &any);
    p = chroma_open(layout_of(0, 5, 2, 2, 3, 3), NULL, 0, NULL, 0, NULL, 0, strides, NULL, 0, any);
    refused(p, 2, &any);
    /* So do a seek and a row of it, and they write nothing. */
    refused(chroma_seek(any, 0), 1, &any);
    refused(row_at(any, 0), 1, &any);
    any = garbage(0);
    refused(chroma_seek(any, 0), 1, &any);
    CHECK(untouched(rows[0], 4 * (W + 1)));
    CHECK(untouched(scratch_of_reader, 4 * need));

    /* An accepted open looks at nothing that it is handed. */
    any = garbage(0x5A);
    p = chroma_open(l, planes[0], W * H, planes[1], CW * CH, planes[2], CW * CH, strides,
                    scratch_of_reader, need, any);
    SAME(p.refusal, 0);
    SAME(p.reader.w, W);
    SAME(p.reader.ch, CH);
    SAME(p.reader.place, 0);
    SAME(p.reader.phases[0].left, 1);
    CHECK(p.reader.phases[0].f == 0.75f);
    SAME(p.reader.phases[1].left, 0);
    CHECK(p.reader.phases[1].f == 0.25f);
    SAME(p.reader.phases[2].left, 0);
    CHECK(p.reader.phases[2].f == 0.0f);
    CHECK(untouched(scratch_of_reader, 4 * need));

    p = row_at(p.reader, 0);
    SAME(p.refusal, 0);
    row_is(0, whole_cb, whole_cr);
    p = row_at(p.reader, 3);
    SAME(p.refusal, 0);
    SAME(p.reader.place, 3);
    row_is(3, whole_cb, whole_cr);
    p = row_at(p.reader, 3);
    SAME(p.refusal, 0);
    row_is(3, whole_cb, whole_cr);

    /* 12 before the place, 11 past the height; the reader goes on as if nothing was asked. */
    handed = p.reader;
    refused(row_at(handed, 2), 12, &handed);
    refused(row_at(handed, H), 11, &handed);
    refused(chroma_seek(handed, H), 11, &handed);
    refused(chroma_seek(handed, SIZE_MAX), 11, &handed);
    row_is(3, whole_cb, whole_cr);
    p = row_at(handed, 4);
    SAME(p.refusal, 0);
    row_is(4, whole_cb, whole_cr);

    /* Back by a seek. */
    p = chroma_seek(p.reader, 1);
    SAME(p.refusal, 0);
    SAME(p.reader.place, 1);
    handed = p.reader;
    refused(row_at(handed, 0), 12, &handed);
    p = row_at(handed, 1);
    SAME(p.refusal, 0);
    row_is(1, whole_cb, whole_cr);

    /* Outputs too short, or none at all. */
    handed = p.reader;
    refused(chroma_row(handed, planes[0], W * H, planes[1], CW * CH, planes[2], CW * CH, strides,
                       2, scratch_of_reader, need, rows[0], W, rows[1], W - 1), 10, &handed);
    refused(chroma_row(handed, planes[0], W * H, planes[1], CW * CH, planes[2], CW * CH, strides,
                       2, NULL, 0, NULL, 0, NULL, 0), 9, &handed);
    row_is(1, whole_cb, whole_cr);

    /* A left that is neither 0 nor 1 stands for none, at any phase; so does a fraction that
     * open doesn't leave, a signalling not-a-number here. */
    for (int k = 0; k < 4; k++) {
        ChromaReader strange = handed;
        uint32_t bits = 0x7F800001u + (uint32_t)k;
        strange.phases[k].left = 7;
        refused(chroma_seek(strange, 2), 1, &strange);
        refused(row_at(strange, 2), 1, &strange);
        refused(row_at(strange, H), 1, &strange);
        strange.phases[k].left = 0x01000001u;
        refused(chroma_seek(strange, 2), 1, &strange);
        strange = handed;
        memcpy(&strange.phases[k].f, &bits, sizeof bits);
        refused(chroma_seek(strange, 2), 1, &strange);
        refused(row_at(strange, 2), 1, &strange);
    }
    handed.h_next = CH + 1;
    refused(chroma_seek(handed, 0), 1, &handed);
    row_is(1, whole_cb, whole_cr);

    p = row_at(p.reader, 2);
    SAME(p.refusal, 0);
    row_is(2, whole_cb, whole_cr);
    end_slices();
}

/* ---- fill */

static void test_fill_one(void) {
    static const int blue[2] = {9, 8};
    ChromaLayout l = layout_of(1, 1, 1, 1, 1, 1);
    size_t need = chroma_scratch_need(1, 1);
    uint8_t *y = lend_bytes(1);
    uint8_t *cb = lend_bytes(1);
    uint8_t *cr = lend_bytes(1);
    y[0] = 230, cb[0] = 3, cr[0] = 128;
    for (uint32_t up = 0; up < 2; up++)
        for (uint32_t kernel = 0; kernel < 2; kernel++)
            for (size_t size = 3; size < 5; size++) {
                float *scratch = lend_floats(need + 1);
                uint8_t *out = lend_bytes(5);
                SAME(chroma_fill(l, y, 1, cb, 1, cr, 1, strides_of(1, 1, 1), up, kernel, size,
                                 scratch, need + 1, out, 5), 0);
                SAME(out[0], 230);
                SAME(out[1], 255);
                SAME(out[2], blue[kernel]);
                CHECK(untouched(out + 3, 2));
                CHECK(untouched(scratch + need, 4));
            }
    end_slices();
}

/* Video's own: 4:2:2, co-sited across, studio range; wide rows and narrow ones, each pixel by the pixel call. */
static void test_fill_studio(void) {
    for (size_t w = 1; w < 40; w++) {
        ChromaLayout l = chroma_layout(w, 1, 2, 1);
        size_t need = chroma_scratch_need(l.cw, w), size = 3 + w % 2;
        uint8_t *y = lend_bytes(w), *cb = lend_bytes(l.cw), *cr = lend_bytes(l.cw);
        uint8_t *out = lend_bytes(size * w);
        float *scratch = lend_floats(need);
        for (size_t i = 0; i < w; i++)
            y[i] = (uint8_t)(11 * w + 83 * i);
        for (size_t i = 0; i < l.cw; i++)
            cb[i] = (uint8_t)(31 * w + 47 * i), cr[i] = (uint8_t)(7 * w + 119 * i);
        l.siting_across = 1, l.range = 1;
        SAME(chroma_fill(l, y, w, cb, l.cw, cr, l.cw, strides_of(w, l.cw, l.cw), 0, 0, size, scratch, need, out,
                         size * w), 0);
        for (size_t x = 0; x < w; x++) {
            size_t i = x / 2, j = x % 2 && i + 1 < l.cw ? i + 1 : i;
            ChromaPixel p = chroma_exact_pixel(y[x], 128u * (uint32_t)(cb[i] + cb[j]), 128u * (uint32_t)(cr[i] + cr[j]), 255, 1);
            SAME(p.refusal, 0);
            SAME(out[size * x], p.r);
            SAME(out[size * x + 1], p.g);
            SAME(out[size * x + 2], p.b);
            CHECK(size == 3 || out[size * x + 3] == 0xA5);
        }
        end_slices();
    }
}

static void test_fill_row(void) {
    static const uint32_t cb_there[] = {0, 25, 75, 100};
    ChromaLayout l = layout_of(4, 1, 2, 1, 2, 1);
    ChromaStrides strides = strides_of(4, 2, 2);
    size_t need = chroma_scratch_need(l.cw, l.w);
    uint8_t *y = lend_bytes(4);
    uint8_t *cb = lend_bytes(2);
    uint8_t *cr = lend_bytes(2);
    float *scratch = lend_floats(need);
    uint8_t *out = lend_bytes(12);
    float *row_cb = lend_floats(4);
    float *row_cr = lend_floats(4);
    ChromaReply reply;
    y[0] = 10, y[1] = 120, y[2] = 130, y[3] = 240;
    cb[0] = 0, cb[1] = 100;
    cr[0] = 200, cr[1] = 200;

#define FILL(layout, up, kernel, size, scratch_len, out_len)                          \
    chroma_fill(layout, y, 4, cb, 2, cr, 2, strides, up, kernel, size, scratch, scratch_len, out, out_len)
    /* A switch that stands for no way, before everything else. */
    SAME(FILL(l, 2, 0, 3, need, 12), 255);
    SAME(FILL(l, 0, 2, 3, need, 12), 255);
    SAME(FILL(l, UINT32_MAX, UINT32_MAX, 3, need, 12), 255);
    SAME(chroma_fill(layout_of(0, 0, 9, 9, 0, 0), NULL, 0, NULL, 0, NULL, 0, strides, 256, 0, 0, NULL, 0, NULL, 0), 255);
    SAME(chroma_fill(layout_of(0, 0, 9, 9, 0, 0), NULL, 0, NULL, 0, NULL, 0, strides, 1, 1, 0, NULL, 0, NULL, 0), 2);
    SAME(FILL(l, 0, 0, 2, need, 12), 8);
    SAME(FILL(l, 0, 0, 5, need, 12), 8);
    SAME(FILL(l, 0, 0, 3, need - 1, 12), 9);
    SAME(FILL(l, 0, 0, 3, need, 11), 10);
    SAME(FILL(l, 0, 0, 4, need, 12), 10);
    l.maxval = 254;
    SAME(FILL(l, 0, 1, 3, need, 12), 4);
    l.maxval = 255;
    CHECK(untouched(scratch, 4 * need));
    CHECK(untouched(out, 12));

    SAME(FILL(l, 0, 0, 3, need, 12), 0);
    for (size_t x = 0; x < 4; x++) {
        ChromaPixel p = chroma_exact_pixel(y[x], cb_there[x] * 256, 200 * 256, 255, 0);
        SAME(out[3 * x], p.r);
        SAME(out[3 * x + 1], p.g);
        SAME(out[3 * x + 2], p.b);
    }
    SAME(FILL(l, 0, 1, 3, need, 12), 0);
    for (size_t x = 0; x < 4; x++) {
        ChromaPixel p = chroma_fixed_pixel(y[x], cb_there[x], 200);
        SAME(out[3 * x], p.r);
        SAME(out[3 * x + 1], p.g);
        SAME(out[3 * x + 2], p.b);
    }
    /* Guided: the reader's row, rounded to 256ths, by the exact kernel. */
    SAME(FILL(l, 1, 0, 3, need, 12), 0);
    reply = chroma_open(l, y, 4, cb, 2, cr, 2, strides, scratch, need, garbage(0));
    SAME(reply.refusal, 0);
    reply = chroma_row(reply.reader, y, 4, cb, 2, cr, 2, strides, 0, scratch, need, row_cb, 4, row_cr, 4);
    SAME(reply.refusal, 0);
    CHECK(row_cb[1] != 25.0f);
    for (size_t x = 0; x < 4; x++) {
        ChromaPixel p = chroma_exact_pixel(y[x], (uint32_t)(row_cb[x] * 256 + 0.5f), (uint32_t)(row_cr[x] * 256 + 0.5f), 255, 0);
        SAME(out[3 * x], p.r);
        SAME(out[3 * x + 1], p.g);
        SAME(out[3 * x + 2], p.b);
    }
#undef FILL
    end_slices();
}

/* ---- samples above maxval */

/* What a call answers of a picture that has such a sample, or hasn't; a refused one writes nothing. */
#define LOOKED(call, above, out, bytes)                                               \
    do {                                                                              \
        SAME(call, (above) ? CHROMA_ABOVE_MAXVAL : CHROMA_ACCEPTED);                  \
        CHECK(!(above) || untouched(out, bytes));                                     \
        memset(out, 0xA5, bytes);                                                     \
    } while (0)

/* 9 by 6 pixels, 5 by 3 cells, a sample of padding in each row and of surplus behind them. All samples
 * are the maxval, but for one of plane k that is one more: inside at three places, and outside at two. */
static void one_above(size_t bytes, int k) {
    ChromaLayout l = chroma_layout(9, 6, 2, 2);
    ChromaStrides s = strides_of(10 * bytes, 6 * bytes, 6 * bytes);
    size_t y_len = 61 * bytes, c_len = 19 * bytes, need = chroma_scratch_need(5, 9);
    size_t w = k == 0 ? 9 : 5, h = k == 0 ? 6 : 3;
    uint8_t *planes[3] = {lend_bytes(y_len), lend_bytes(c_len), lend_bytes(c_len)};
    const uint8_t *y = planes[0], *cb = planes[1], *cr = planes[2];
    float *scratch = lend_floats(need), *row_cb = lend_floats(9), *row_cr = lend_floats(9);
    uint16_t *out = lend_values(54);
    uint8_t *rgb = lend_bytes(162);
    ChromaReader any = garbage(0x5A), opened;
    size_t places[5] = {0, (w + 1) + 2, (h - 1) * (w + 1) + w - 1, w, h * (w + 1)};

    l.sample_bytes = bytes, l.maxval = bytes == 1 ? 254 : 771;
    memset(planes[0], bytes == 1 ? 254 : 3, y_len);
    memset(planes[1], bytes == 1 ? 254 : 3, c_len);
    memset(planes[2], bytes == 1 ? 254 : 3, c_len);
    opened = chroma_open(l, y, y_len, cb, c_len, cr, c_len, s, scratch, need, any).reader;
    for (int i = 0; i < 5; i++) {
        uint8_t *poked = planes[k] + places[i] * bytes + (i % 2 ? bytes - 1 : 0);
        int inside = i < 3;
        ChromaReply p;
        *poked += 1;
        p = chroma_open(l, y, y_len, cb, c_len, cr, c_len, s, scratch, need, any);
        SAME(p.refusal, inside ? 17 : 0);
        CHECK(same_state(&p.reader, inside ? &any : &opened));
        LOOKED(chroma_linear_plane(l, cb, c_len, s.cb, scratch, need, out, 54), inside && k == 1, out, 108);
        LOOKED(chroma_guided_plane(l, y, y_len, s.y, cb, c_len, s.cb, scratch, need, out, 54), inside && k < 2, out, 108);
        LOOKED(chroma_triangular_plane(l, cb, c_len, s.cb, out, 54), inside && k == 1, out, 108);
        for (uint32_t up = 0; up < 2; up++) {
            LOOKED(chroma_fill(l, y, y_len, cb, c_len, cr, c_len, s, up, 0, 3, scratch, need, rgb, 162), inside, rgb, 162);
            /* 7 comes before it, 8, 9 and 10 behind it. */
            SAME(chroma_fill(l, y, y_len, cb, c_len, cr, 0, s, up, 0, 3, scratch, need, rgb, 162), 7);
            SAME(chroma_fill(l, y, y_len, cb, c_len, cr, c_len, s, up, 0, 5, NULL, 0, NULL, 0), inside ? 17 : 8);
            SAME(chroma_fill(l, y, y_len, cb, c_len, cr, c_len, s, up, 0, 4, NULL, 0, NULL, 0), inside ? 17 : 9);
        }
        /* A row call takes samples as they are. */
        p = chroma_row(opened, y, y_len, cb, c_len, cr, c_len, s, 5, scratch, need, row_cb, 9, row_cr, 9);
        SAME(p.refusal, 0);
        *poked -= 1;
    }
    end_slices();
}

static void test_above_maxval(void) {
    for (int k = 0; k < 3; k++) {
        one_above(1, k);
        one_above(2, k);
    }
}

/* ---- the picture */

static void test_picture(void) {
    static const char text[] = "P5 1 1 255\n\346P5 1 1 255\n\003P5 1 1 255\n\200";
    static const char ppm[] = "P6\n1 1\n255\n\346\377\011";
    size_t n = sizeof text - 1;
    size_t len = sizeof ppm - 1;
    uint8_t *input = lend_bytes(n);
    float *scratch = lend_floats(40);
    uint8_t *out = lend_bytes(len + 1);
    ChromaWritten r;
    memcpy(input, text, n);

    r = chroma_picture(input, n - 1, scratch, 40, out, len);
    SAME(r.refusal, 15);
    SAME(r.len, 0);
    r = chroma_picture(input + 1, n - 1, scratch, 40, out, len);
    SAME(r.refusal, 14);
    r = chroma_picture(NULL, 0, NULL, 0, NULL, 0);
    SAME(r.refusal, 14);
    r = chroma_picture(input, n, scratch, 39, out, len);
    SAME(r.refusal, 9);
    r = chroma_picture(input, n, scratch, 40, out, len - 1);
    SAME(r.refusal, 10);
    CHECK(untouched(out, len + 1));
    CHECK(untouched(scratch, 4 * 40));

    r = chroma_picture(input, n, scratch, 40, out, len + 1);
    SAME(r.refusal, 0);
    SAME(r.len, len);
    CHECK(memcmp(out, ppm, len) == 0);
    CHECK(untouched(out + len, 1));
    end_slices();
}

/* Comments between a magic and its maxval count as whitespace; the byte behind a maxval is single, and a comment must end. */
static void test_comments(void) {
    static const char text[] = "P5#scanned\n1 1 255\n\346P5 1#x\r1 255\n\003P5 1 1# 9\r\n255\n\200";
    static const char behind[] = "P5 1 1 255#x\n\346P5 1 1 255\n\003P5 1 1 255\n\200";
    static const char ppm[] = "P6\n1 1\n255\n\346\377\011";
    size_t len = sizeof ppm - 1;
    uint8_t *input = lend_bytes(sizeof text);
    float *scratch = lend_floats(40);
    uint8_t *out = lend_bytes(len);
    ChromaWritten r;

    memcpy(input, behind, sizeof behind - 1);
    r = chroma_picture(input, sizeof behind - 1, scratch, 40, out, len);
    SAME(r.refusal, 14);
    memcpy(input, "P5 #never 1 1 255", 17);
    r = chroma_picture(input, 17, scratch, 40, out, len);
    SAME(r.refusal, 14);
    CHECK(untouched(out, len));

    memcpy(input, text, sizeof text - 1);
    r = chroma_picture(input, sizeof text - 1, scratch, 40, out, len);
    SAME(r.refusal, 0);
    SAME(r.len, len);
    CHECK(memcmp(out, ppm, len) == 0);
    end_slices();
}

/* Samples of two bytes stand the high one first, and one maxval serves all three images. */
static void test_deep_pictures(void) {
    static const char text[] = "P5 1 1 4095\n\010\000P5 1 1 4095\n\010\000P5 1 1 4095\n\010\000";
    static const char ppm[] = "P6\n1 1\n255\n\200\200\200";
    size_t n = sizeof text - 1, len = sizeof ppm - 1;
    uint8_t *input = lend_bytes(n);
    float *scratch = lend_floats(40);
    uint8_t *out = lend_bytes(len);
    ChromaWritten r;

    memcpy(input, text, n);
    r = chroma_picture(input, n - 1, scratch, 40, out, len);
    SAME(r.refusal, 15);
    input[38] = '4'; /* the third maxval is 4094 where it was 4095; the header is met before its missing row */
    r = chroma_picture(input, n - 1, scratch, 40, out, len);
    SAME(r.refusal, 14);
    CHECK(untouched(out, len));
    CHECK(untouched(scratch, 4 * 40));
    memcpy(input, "P5 1 1 65536\n", 13);
    r = chroma_picture(input, n, scratch, 40, out, len);
    SAME(r.refusal, 14);
    memcpy(input, "P5 1 1 00000\n", 13);
    r = chroma_picture(input, n, scratch, 40, out, len);
    SAME(r.refusal, 14);

    memcpy(input, text, n);
    r = chroma_picture(input, n, scratch, 40, out, len);
    SAME(r.refusal, 0);
    SAME(r.len, len);
    CHECK(memcmp(out, ppm, len) == 0);
    CHECK(memcmp(input, text, n) == 0);
    end_slices();
}

/* A sample above the maxval, in each image: 17, which 9 and 10 come behind. */
static void test_pictures_above(void) {
    static const char text[] = "P5 1 1 4094\n\017\376P5 1 1 4094\n\017\376P5 1 1 4094\n\017\376";
    size_t n = sizeof text - 1;
    uint8_t *input = lend_bytes(n);
    float *scratch = lend_floats(72);
    uint8_t *out = lend_bytes(14);

    memcpy(input, text, n);
    SAME(chroma_picture(input, n, scratch, 72, out, 14).refusal, 0);
    memset(out, 0xA5, 14), memset(scratch, 0xA5, 4 * 72);
    for (size_t k = 0; k < 3; k++) {
        ChromaWritten r;
        input[14 * k + 13] = 255;
        r = chroma_picture(input, n, scratch, 72, out, 14);
        SAME(r.refusal, CHROMA_ABOVE_MAXVAL);
        SAME(r.len, 0);
        SAME(chroma_picture(input, n, NULL, 0, NULL, 0).refusal, 17);
        SAME(chroma_picture(input, n - 1, scratch, 72, out, 14).refusal, 15);
        input[14 * k + 13] = 254;
    }
    CHECK(untouched(out, 14));
    CHECK(untouched(scratch, 4 * 72));
    end_slices();
}

/* The sizes that the header states suffice for the largest pictures. */
static void test_largest_pictures(void) {
    static const size_t pictures[][3] = {{128, 127, 1}, {1, 8192, 1}, {2, 8148, 1}, {128, 340, 4}};
    for (int k = 0; k < 4; k++) {
        size_t w = pictures[k][0], h = pictures[k][1], ratio = pictures[k][2];
        uint8_t *input = lend_bytes(CHROMA_PICTURE_INPUT);
        float *scratch = lend_floats(CHROMA_PICTURE_SCRATCH);
        uint8_t *out = lend_bytes(CHROMA_PICTURE_OUTPUT);
        size_t n = 0;
        ChromaWritten r;
        for (int image = 0; image < 3; image++) {
            size_t iw = image == 0 ? w : w / ratio, ih = image == 0 ? h : h / ratio;
            n += (size_t)sprintf((char *)input + n, "P5 %zu %zu 255\n", iw, ih);
            memset(input + n, 100 + image, iw * ih);
            n += iw * ih;
        }
        CHECK(n <= CHROMA_PICTURE_INPUT);
        r = chroma_picture(input, n, scratch, CHROMA_PICTURE_SCRATCH, out, CHROMA_PICTURE_OUTPUT);
        SAME(r.refusal, 0);
        CHECK(r.len > 3 * w * h);
        end_slices();
    }
}

/* ---- not-a-numbers, by their bits */

/* Signalling not-a-numbers of several payloads and both signs over every byte of a slice. They are
 * stored as bits: a float in hand may be quieted. */
static void *signalling(void *slice, size_t bytes) {
    static const uint32_t bits[] = {0x7F800001u, 0xFF800001u, 0x7FA5A5A5u, 0xFFBFFFFFu,
                                    0x7F812345u, 0xFFA00000u, 0x7FBFFFFEu};
    for (size_t i = 0; i < bytes; i++)
        ((unsigned char *)slice)[i] = ((const unsigned char *)&bits[i / 4 % 7])[i % 4];
    return slice;
}

/* Slices full of them, and whether they are so still. */
enum { WATCHED = 3 };
static struct {
    void *slice, *copy;
    size_t bytes;
} watched[WATCHED];
static size_t watched_count;

static void *watch(size_t bytes) {
    void *slice = signalling(lend(bytes), bytes);
    if (watched_count == WATCHED) {
        printf("no room to watch another slice\n");
        exit(2);
    }
    watched[watched_count].slice = slice;
    watched[watched_count].copy = signalling(lend(bytes), bytes);
    watched[watched_count].bytes = bytes;
    watched_count++;
    return slice;
}

static int kept(void) {
    for (size_t k = 0; k < watched_count; k++)
        if (memcmp(watched[k].slice, watched[k].copy, watched[k].bytes) != 0)
            return 0;
    return 1;
}

/* Watched slice k still holds what it held from byte `from` on. */
static int kept_from(size_t k, size_t from) {
    return memcmp((const char *)watched[k].slice + from, (const char *)watched[k].copy + from,
                  watched[k].bytes - from) == 0;
}

static void refresh(void) {
    for (size_t k = 0; k < watched_count; k++)
        signalling(watched[k].slice, watched[k].bytes);
}

static void end_watched(void) {
    watched_count = 0;
    end_slices();
}

/* The answer is this refusal, and every watched slice has kept its bits. */
#define REFUSED(call, refusal)                                                        \
    do {                                                                              \
        SAME(call, refusal);                                                          \
        CHECK(kept());                                                                \
    } while (0)

#define REPLIED(call, refusal, handed)                                                \
    do {                                                                              \
        refused(call, refusal, handed);                                               \
        CHECK(kept());                                                                \
    } while (0)

/* A picture of w by h pixels in one-byte samples, without padding. */
typedef struct Strip {
    ChromaLayout l;
    ChromaStrides s;
    uint8_t *y, *cb, *cr;
    size_t y_len, c_len, need;
} Strip;

static Strip strip_of(size_t w, size_t h, size_t rh, size_t rv) {
    Strip p;
    size_t cw = (w + rh - 1) / rh, ch = (h + rv - 1) / rv;
    p.l = layout_of(w, h, rh, rv, cw, ch);
    p.s = strides_of(w, cw, cw);
    p.y_len = w * h, p.c_len = cw * ch;
    p.y = lend_bytes(p.y_len), p.cb = lend_bytes(p.c_len), p.cr = lend_bytes(p.c_len);
    p.need = chroma_scratch_need(cw, w);
    for (size_t i = 0; i < p.y_len; i++)
        p.y[i] = (uint8_t)(91 * i + 17);
    for (size_t i = 0; i < p.c_len; i++) {
        p.cb[i] = (uint8_t)(53 * i);
        p.cr[i] = (uint8_t)(250 - 29 * i);
    }
    return p;
}

static ChromaReply open_strip(const Strip *p, ChromaLayout l, ChromaStrides s, const float *scratch,
                              size_t scratch_len, ChromaReader r) {
    return chroma_open(l, p->y, p->y_len, p->cb, p->c_len, p->cr, p->c_len, s, scratch, scratch_len, r);
}

static ChromaReply row_of_strip(const Strip *p, ChromaReader r, ChromaStrides s, size_t row,
                                float *scratch, size_t scratch_len, float *cb, size_t cb_len,
                                float *cr, size_t cr_len) {
    return chroma_row(r, p->y, p->y_len, p->cb, p->c_len, p->cr, p->c_len, s, row, scratch,
                      scratch_len, cb, cb_len, cr, cr_len);
}

/* Layouts that are refused 2, 3, 4 and 5. */
static ChromaLayout faulty(const Strip *p, int refusal) {
    ChromaLayout l = p->l;
    if (refusal == 2)
        l.h = 8193;
    if (refusal == 3)
        l.rv = 0;
    if (refusal == 4)
        l.sample_bytes = 3;
    if (refusal == 5)
        l.cw++;
    return l;
}

static void test_bits_of_reader(void) {
    Strip p = strip_of(21, 6, 2, 2);
    ChromaStrides narrow = strides_of(20, 11, 11);
    float *scratch = (float *)watch(4 * p.need);
    float *cb = (float *)watch(4 * 21);
    float *cr = (float *)watch(4 * 21);
    ChromaReader any, strange;
    ChromaReply q;

    /* The state is full of them too; it comes back by its bits. */
    signalling(&any, sizeof any);
    for (int n = 2; n < 6; n++)
        REPLIED(open_strip(&p, faulty(&p, n), p.s, scratch, p.need, any), (uint32_t)n, &any);
    REPLIED(open_strip(&p, p.l, narrow, scratch, p.need, any), 7, &any);
    REPLIED(open_strip(&p, p.l, p.s, scratch, p.need - 1, any), 9, &any);
    q = open_strip(&p, p.l, p.s, scratch, p.need, any);
    SAME(q.refusal, 0);
    CHECK(kept());
    q = chroma_seek(q.reader, 3);
    SAME(q.refusal, 0);

#define ROW(reader, strides, row, scratch_len, cb_len, cr_len)                        \
    row_of_strip(&p, reader, strides, row, scratch, scratch_len, cb, cb_len, cr, cr_len)
    REPLIED(ROW(any, p.s, 3, p.need, 21, 21), 1, &any);
    strange = q.reader;
    strange.phases[1].left = 2;
    REPLIED(ROW(strange, p.s, 3, p.need, 21, 21), 1, &strange);
    strange = q.reader;
    signalling(&strange.phases[0].f, 4);
    REPLIED(ROW(strange, p.s, 3, p.need, 21, 21), 1, &strange);
    strange = q.reader;
    strange.f_next++;
    REPLIED(ROW(strange, p.s, 3, p.need, 21, 21), 1, &strange);
    REPLIED(ROW(q.reader, narrow, 3, p.need, 21, 21), 7, &q.reader);
    REPLIED(ROW(q.reader, p.s, 3, p.need - 1, 21, 21), 9, &q.reader);
    REPLIED(ROW(q.reader, p.s, 3, p.need, 20, 21), 10, &q.reader);
    REPLIED(ROW(q.reader, p.s, 3, p.need, 21, 20), 10, &q.reader);
    REPLIED(ROW(q.reader, p.s, 6, p.need, 21, 21), 11, &q.reader);
    REPLIED(ROW(q.reader, p.s, 2, p.need, 21, 21), 12, &q.reader);
#undef ROW
    end_watched();
}

static void test_bits_of_planes(void) {
    Strip p = strip_of(21, 6, 2, 2);
    float *scratch = (float *)watch(4 * p.need);
    uint16_t *out = (uint16_t *)watch(2 * 126);
    ChromaLayout l;

#define LINEAR(layout, stride, scratch_len, out_len)                                  \
    chroma_linear_plane(layout, p.cb, p.c_len, stride, scratch, scratch_len, out, out_len)
#define GUIDED(layout, y_stride, stride, scratch_len, out_len)                        \
    chroma_guided_plane(layout, p.y, p.y_len, y_stride, p.cb, p.c_len, stride, scratch, scratch_len, out, out_len)
#define TRIANGULAR(layout, stride, out_len)                                           \
    chroma_triangular_plane(layout, p.cb, p.c_len, stride, out, out_len)
    for (int n = 2; n < 6; n++) {
        l = faulty(&p, n);
        REFUSED(LINEAR(l, 11, p.need, 126), n);
        REFUSED(GUIDED(l, 21, 11, p.need, 126), n);
        REFUSED(TRIANGULAR(l, 11, 126), n);
    }
    REFUSED(TRIANGULAR(layout_of(21, 6, 1, 1, 21, 6), 21, 126), 6);
    REFUSED(LINEAR(p.l, 10, p.need, 126), 7);
    REFUSED(GUIDED(p.l, 20, 11, p.need, 126), 7);
    REFUSED(GUIDED(p.l, 21, 12, p.need, 126), 7);
    REFUSED(TRIANGULAR(p.l, 10, 126), 7);
    REFUSED(LINEAR(p.l, 11, p.need - 1, 126), 9);
    REFUSED(GUIDED(p.l, 21, 11, p.need - 1, 126), 9);
    REFUSED(LINEAR(p.l, 11, p.need, 125), 10);
    REFUSED(GUIDED(p.l, 21, 11, p.need, 125), 10);
    REFUSED(TRIANGULAR(p.l, 11, 125), 10);
#undef LINEAR
#undef GUIDED
#undef TRIANGULAR
    end_watched();
}

static void test_bits_of_fill(void) {
    Strip p = strip_of(21, 6, 2, 2);
    float *scratch = (float *)watch(4 * p.need);
    uint8_t *out = (uint8_t *)watch(4 * 126);
    ChromaLayout l = p.l;
    ChromaStrides narrow = strides_of(21, 11, 10);

#define FILL(layout, strides, up, kernel, size, scratch_len, out_len)                 \
    chroma_fill(layout, p.y, p.y_len, p.cb, p.c_len, p.cr, p.c_len, strides, up, kernel, size, scratch, scratch_len, out, out_len)
    REFUSED(FILL(p.l, p.s, 2, 0, 4, p.need, 504), 255);
    REFUSED(FILL(p.l, p.s, 0, 2, 4, p.need, 504), 255);
    l.maxval = 254;
    REFUSED(FILL(l, p.s, 0, 1, 4, p.need, 504), 4);
    for (uint32_t up = 0; up < 2; up++) {
        for (int n = 2; n < 6; n++)
            REFUSED(FILL(faulty(&p, n), p.s, up, 0, 4, p.need, 504), n);
        REFUSED(FILL(p.l, narrow, up, 0, 4, p.need, 504), 7);
        REFUSED(FILL(p.l, p.s, up, 0, 5, p.need, 504), 8);
        REFUSED(FILL(p.l, p.s, up, 0, 4, p.need - 1, 504), 9);
        REFUSED(FILL(p.l, p.s, up, 0, 4, p.need, 503), 10);
    }
#undef FILL
    end_watched();
}

static void test_bits_of_picture(void) {
    static const char text[] = "P5 2 1 255\n\346\347P5 1 1 255\n\003P5 1 1 255\n\200";
    static const char no_ratio[] = "P5 1 1 255\n\346P5 2 1 255\n\003\003P5 1 1 255\n\200";
    static const char no_width[] = "P5 0 1 255\nP5 1 1 255\n\003P5 1 1 255\n\200";
    size_t n = sizeof text - 1, len = 11 + 6, need = chroma_scratch_need(1, 2);
    const uint8_t *input = (const uint8_t *)text;
    float *scratch = (float *)watch(4 * need);
    uint8_t *out = (uint8_t *)watch(len);

    REFUSED(chroma_picture(input + 1, n - 1, scratch, need, out, len).refusal, 14);
    REFUSED(chroma_picture(input, n - 1, scratch, need, out, len).refusal, 15);
    REFUSED(chroma_picture((const uint8_t *)no_width, sizeof no_width - 1, scratch, need, out, len).refusal, 2);
    REFUSED(chroma_picture((const uint8_t *)no_ratio, sizeof no_ratio - 1, scratch, need, out, len).refusal, 5);
    REFUSED(chroma_picture(input, n, scratch, need - 1, out, len).refusal, 9);
    REFUSED(chroma_picture(input, n, scratch, need, out, len - 1).refusal, 10);
    SAME(chroma_picture(input, n, scratch, need, out, len).refusal, 0);
    end_watched();
}

/* What stands behind the scratch and the outputs that an accepted call needs keeps its bits, and
 * what scratch held at first shows in no row. */
static void surplus_keeps_its_bits(size_t w, size_t h, size_t rh, size_t rv) {
    enum { MORE = 23 };
    Strip p = strip_of(w, h, rh, rv);
    float *scratch = (float *)watch(4 * (p.need + MORE));
    float *cb = (float *)watch(4 * (w + MORE));
    float *cr = (float *)watch(4 * (w + MORE));
    float *zeros = lend_floats(p.need), *plain_cb = lend_floats(w), *plain_cr = lend_floats(w);
    ChromaReply q, plain;
    uint16_t *plane;
    uint8_t *out;

    memset(zeros, 0, 4 * p.need);
    q = open_strip(&p, p.l, p.s, scratch, p.need + MORE, garbage(0));
    plain = open_strip(&p, p.l, p.s, zeros, p.need, garbage(0));
    for (size_t row = 0; row < h; row += 2) {
        signalling(cb, 4 * (w + MORE));
        signalling(cr, 4 * (w + MORE));
        q = row_of_strip(&p, q.reader, p.s, row, scratch, p.need + MORE, cb, w + MORE, cr, w + MORE);
        plain = row_of_strip(&p, plain.reader, p.s, row, zeros, p.need, plain_cb, w, plain_cr, w);
        SAME(q.refusal, 0);
        SAME(plain.refusal, 0);
        CHECK(memcmp(cb, plain_cb, 4 * w) == 0);
        CHECK(memcmp(cr, plain_cr, 4 * w) == 0);
        CHECK(kept_from(0, 4 * p.need));
        CHECK(kept_from(1, 4 * w));
        CHECK(kept_from(2, 4 * w));
    }

    refresh();
    plane = (uint16_t *)signalling(lend_values(w * h), 2 * w * h);
    SAME(chroma_linear_plane(p.l, p.cb, p.c_len, p.s.cb, scratch, p.need + MORE, plane, w * h), 0);
    CHECK(kept_from(0, 4 * p.need));
    SAME(chroma_guided_plane(p.l, p.y, p.y_len, p.s.y, p.cb, p.c_len, p.s.cb, scratch, p.need + MORE, plane, w * h), 0);
    CHECK(kept_from(0, 4 * p.need));
    out = lend_bytes(4 * w * h);
    for (uint32_t way = 0; way < 4; way++) {
        SAME(chroma_fill(p.l, p.y, p.y_len, p.cb, p.c_len, p.cr, p.c_len, p.s, way % 2, way / 2, 4,
                         scratch, p.need + MORE, out, 4 * w * h), 0);
        CHECK(kept_from(0, 4 * p.need));
        for (size_t i = 3; i < 4 * w * h; i += 4)
            CHECK(out[i] == 0xA5);
    }
    end_watched();
}

static void test_surplus(void) {
    static const size_t widths[] = {1, 5, 16, 37, 70};
    for (size_t rh = 1; rh < 5; rh++)
        for (size_t rv = 1; rv < 5; rv++)
            for (int k = 0; k < 5; k++)
                surplus_keeps_its_bits(widths[k], 7, rh, rv);
    surplus_keeps_its_bits(600, 3, 2, 2);
    /* Round the limits of the padding between rows of cells. */
    surplus_keeps_its_bits(256, 3, 1, 1);
    surplus_keeps_its_bits(513, 3, 2, 1);
    surplus_keeps_its_bits(840, 3, 1, 2);
}

/* ---- patches */

static ChromaRectangle rectangle_of(size_t left, size_t top, size_t width, size_t height) {
    ChromaRectangle r;
    r.left = left, r.top = top, r.width = width, r.height = height;
    return r;
}

/* ---- refills */

/* A strip after a change of each cell of a rectangle; it shares the luma. */
static Strip changed_strip(const Strip *p, ChromaRectangle cells) {
    Strip q = *p;
    q.cb = lend_bytes(q.c_len), q.cr = lend_bytes(q.c_len);
    memcpy(q.cb, p->cb, q.c_len), memcpy(q.cr, p->cr, q.c_len);
    for (size_t j = cells.top; j < cells.top + cells.height; j++)
        for (size_t i = cells.left; i < cells.left + cells.width; i++) {
            q.cb[j * q.s.cb + i] ^= 0x55;
            q.cr[j * q.s.cr + i] = (uint8_t)(255 - q.cr[j * q.s.cr + i]);
        }
    return q;
}

static uint32_t fill_strip(const Strip *p, uint32_t kernel, size_t size, float *scratch, uint8_t *out) {
    return chroma_fill(p->l, p->y, p->y_len, p->cb, p->c_len, p->cr, p->c_len, p->s, 1, kernel, size,
                       scratch, p->need, out, p->y_len * size);
}

static uint32_t refill_strip(const Strip *p, const Strip *q, ChromaRectangle cells, uint32_t kernel,
                             size_t size, float *scratch, size_t scratch_len, uint8_t *out, size_t out_len) {
    return chroma_refill(q->l, p->y, p->y_len, p->cb, p->c_len, p->cr, p->c_len, p->s,
                         q->y, q->y_len, q->cb, q->c_len, q->cr, q->c_len, q->s,
                         cells, kernel, size, scratch, scratch_len, out, out_len);
}

/* A picture of the conversion before becomes the one after; of any other picture the rows that are
 * within two cell rows become those of the conversion, and all others keep their bytes. */
static void refill_is_fill(size_t w, size_t h, size_t rh, size_t rv, ChromaRectangle cells,
                           uint32_t kernel, size_t size) {
    Strip p = strip_of(w, h, rh, rv);
    Strip q = changed_strip(&p, cells);
    size_t len = w * h * size, row = w * size;
    float *scratch = lend_floats(p.need);
    uint8_t *before = lend_bytes(len), *after = lend_bytes(len), *out = lend_bytes(len);
    SAME(fill_strip(&p, kernel, size, scratch, before), 0);
    SAME(fill_strip(&q, kernel, size, scratch, after), 0);

    memcpy(out, before, len);
    SAME(refill_strip(&p, &q, cells, kernel, size, scratch, p.need, out, len), 0);
    CHECK(memcmp(out, after, len) == 0);

    memset(out, 0xA5, len);
    SAME(refill_strip(&p, &q, cells, kernel, size, scratch, p.need, out, len), 0);
    for (size_t y = 0; y < h; y++) {
        size_t j = y / rv;
        if (cells.width > 0 && cells.height > 0 && cells.top <= j + 2 && j < cells.top + cells.height + 2)
            CHECK(memcmp(out + y * row, after + y * row, row) == 0);
        else
            CHECK(untouched(out + y * row, row));
    }
    end_slices();
}

static void test_refills(void) {
    for (size_t rh = 1; rh < 5; rh++)
        for (size_t rv = 1; rv < 5; rv++) {
            size_t w = 19, h = 9 * rv - rv / 2, cw = (w + rh - 1) / rh, ch = 9;
            for (uint32_t way = 0; way < 4; way++) {
                uint32_t kernel = way % 2;
                size_t size = 3 + way / 2;
                refill_is_fill(w, h, rh, rv, rectangle_of(0, 0, 1, 1), kernel, size);
                refill_is_fill(w, h, rh, rv, rectangle_of(cw - 1, ch - 1, 1, 1), kernel, size);
                refill_is_fill(w, h, rh, rv, rectangle_of(1, 3, 2, 2), kernel, size);
                refill_is_fill(w, h, rh, rv, rectangle_of(0, 0, cw, ch), kernel, size);
                refill_is_fill(w, h, rh, rv, rectangle_of(2, 4, 0, 3), kernel, size);
                refill_is_fill(w, h, rh, rv, rectangle_of(SIZE_MAX, SIZE_MAX, 1, 0), kernel, size);
            }
        }
}

static void test_refill_refusals(void) {
    ChromaRectangle cells = rectangle_of(3, 1, 2, 1);
    Strip p = strip_of(21, 6, 2, 2);
    Strip q = changed_strip(&p, cells);
    Strip r = q;
    float *scratch = (float *)watch(4 * p.need);
    uint8_t *out = (uint8_t *)watch(4 * 126);

#define REFILL(cells, kernel, size, scratch_len, out_len)                             \
    refill_strip(&p, &r, cells, kernel, size, scratch, scratch_len, out, out_len)
    REFUSED(REFILL(cells, 2, 4, p.need, 504), 255);
    r.l.siting_down = 2;
    REFUSED(REFILL(cells, 0, 4, p.need, 504), 255);
    r.l.siting_down = 1;
    REFUSED(REFILL(cells, 0, 4, p.need, 504), 16);
    r.l = p.l, r.l.maxval = 254;
    REFUSED(REFILL(cells, 1, 4, p.need, 504), 4);
    REFUSED(REFILL(cells, 0, 4, p.need, 504), 17);
    for (int n = 2; n < 6; n++) {
        r.l = faulty(&p, n);
        REFUSED(REFILL(cells, 0, 4, p.need, 504), n);
    }
    /* Of either set a plane that is short. */
    r = q, r.c_len--;
    REFUSED(REFILL(cells, 0, 4, p.need, 504), 7);
    r = q, p.s.y--;
    REFUSED(REFILL(cells, 0, 4, p.need, 504), 7);
    p.s.y++;
    REFUSED(REFILL(cells, 0, 5, p.need, 504), 8);
    REFUSED(REFILL(cells, 0, 4, p.need - 1, 504), 9);
    REFUSED(REFILL(rectangle_of(10, 1, 2, 1), 0, 4, p.need, 503), 19);
    REFUSED(REFILL(rectangle_of(3, 3, 2, 1), 0, 4, p.need, 504), 19);
    REFUSED(REFILL(rectangle_of(SIZE_MAX, 1, 2, 1), 0, 4, p.need, 504), 19);
    REFUSED(REFILL(rectangle_of(3, 1, 2, SIZE_MAX), 0, 4, p.need, 504), 19);
    REFUSED(REFILL(cells, 0, 4, p.need, 503), 10);
    /* A rectangle that leaves out a cell that was changed, and one that has none. */
    REFUSED(REFILL(rectangle_of(4, 1, 1, 1), 0, 4, p.need, 504), 21);
    REFUSED(REFILL(rectangle_of(3, 1, 1, 1), 0, 4, p.need, 504), 21);
    REFUSED(REFILL(rectangle_of(3, 1, 2, 0), 0, 4, p.need, 504), 21);
    r.y = lend_bytes(r.y_len), memcpy(r.y, p.y, r.y_len), r.y[r.y_len - 1] ^= 1;
    REFUSED(REFILL(cells, 0, 4, p.need, 504), 21);
    /* With no cell nothing is written, scratch neither. */
    r = p;
    REFUSED(REFILL(rectangle_of(7, 1, 2, 0), 0, 4, p.need, 504), 0);
    r = q;
    SAME(REFILL(cells, 0, 4, p.need, 504), 0);
    CHECK(!kept());
#undef REFILL
    end_watched();
}

/* No mean: all is 0 but the refusal. */
static void no_patch(ChromaPatch p, uint32_t refusal) {
    SAME(p.refusal, refusal);
    SAME(p.given, 0);
    SAME(p.pixels, 0);
    for (int k = 0; k < 3; k++) {
        CHECK(p.mean[k] == 0);
        SAME(p.whole[k], 0);
    }
}

static void patch_is(ChromaPatch p, size_t pixels, double r, double g, double b, int wr, int wg, int wb) {
    SAME(p.refusal, 0);
    SAME(p.given, 1);
    SAME(p.pixels, pixels);
    CHECK(p.mean[0] == r && p.mean[1] == g && p.mean[2] == b);
    SAME(p.whole[0], wr);
    SAME(p.whole[1], wg);
    SAME(p.whole[2], wb);
}

static void test_patches(void) {
    /* Two rows of three pixels, and two bytes behind them that are not the picture's. */
    static const uint8_t rgb[20] = {0, 254, 0,  1, 255, 0,  1, 255, 1,
                                    9, 9, 9,  10, 20, 30,  40, 50, 60,  255, 255};
    patch_is(chroma_patch(rectangle_of(0, 0, 2, 1), 3, 2, rgb, 18), 2, 0.5, 254.5, 0, 1, 255, 0);
    patch_is(chroma_patch(rectangle_of(0, 0, 3, 1), 3, 2, rgb, 20), 3, 2 / 3.0, 764 / 3.0, 1 / 3.0, 1, 255, 0);
    patch_is(chroma_patch(rectangle_of(1, 1, 1, 1), 3, 2, rgb, 20), 1, 10, 20, 30, 10, 20, 30);
    patch_is(chroma_patch(rectangle_of(2, 0, 65533, 65535), 3, 2, rgb, 18), 2, 20.5, 152.5, 30.5, 21, 153, 31);
    patch_is(chroma_patch(rectangle_of(2, 1, 9, 9), 3, 2, rgb, 20), 1, 40, 50, 60, 40, 50, 60);

    /* No pixel shared: beside, below, and a rectangle with none. */
    no_patch(chroma_patch(rectangle_of(3, 0, 5, 5), 3, 2, rgb, 18), 0);
    no_patch(chroma_patch(rectangle_of(0, 2, 5, 5), 3, 2, rgb, 18), 0);
    no_patch(chroma_patch(rectangle_of(1, 1, 0, 1), 3, 2, rgb, 18), 0);
    no_patch(chroma_patch(rectangle_of(1, 1, 1, 0), 3, 2, rgb, 18), 0);
    no_patch(chroma_patch(rectangle_of(65535, 65535, 0, 0), 3, 2, rgb, 18), 0);

    /* 2, then 19, then 10; an end whose sum would wrap. */
    no_patch(chroma_patch(rectangle_of(65535, 0, 1, 1), 0, 2, NULL, 0), 2);
    no_patch(chroma_patch(rectangle_of(0, 0, 1, 1), 3, 8193, NULL, 0), 2);
    no_patch(chroma_patch(rectangle_of(0, 0, 1, 1), SIZE_MAX, SIZE_MAX, rgb, 20), 2);
    no_patch(chroma_patch(rectangle_of(65535, 0, 1, 1), 3, 2, NULL, 0), 19);
    no_patch(chroma_patch(rectangle_of(0, 65536, 0, 0), 3, 2, rgb, 18), 19);
    no_patch(chroma_patch(rectangle_of(SIZE_MAX, 0, 2, 1), 3, 2, rgb, 18), 19);
    no_patch(chroma_patch(rectangle_of(0, 1, 1, SIZE_MAX), 3, 2, rgb, 18), 19);
    no_patch(chroma_patch(rectangle_of(0, 0, 1, 1), 3, 2, rgb, 17), 10);
    no_patch(chroma_patch(rectangle_of(0, 0, 0, 0), 3, 2, NULL, 0), 10);
    no_patch(chroma_patch(rectangle_of(0, 0, 1, 1), 8192, 8192, rgb, 20), 10);
}

/* The largest picture there is, whole: sums past 2^32. */
static void test_largest_patch(void) {
    const size_t side = 8192, bytes = 3 * side * side;
    uint8_t *rgb = (uint8_t *)malloc(bytes);
    if (rgb == NULL) {
        printf("no room for the largest patch\n");
        exit(2);
    }
    memset(rgb, 255, bytes);
    patch_is(chroma_patch(rectangle_of(0, 0, side, side), side, side, rgb, bytes), side * side, 255, 255, 255, 255, 255, 255);
    rgb[bytes - 2] = 0;
    patch_is(chroma_patch(rectangle_of(0, 0, side, side), side, side, rgb, bytes), side * side, 255, 17112760065.0 / 67108864, 255, 255, 255, 255);
    no_patch(chroma_patch(rectangle_of(0, 0, side, side), side, side, rgb, bytes - 1), 10);
    free(rgb);
}

/* ---- readings on a chart */

static void no_reading(ChromaChartReading r, uint32_t refusal) {
    SAME(r.refusal, refusal);
    SAME(r.given, 0);
    SAME(r.pixels, 0);
    SAME(r.nearest, 0);
    SAME(r.pair, 0);
    SAME(r.weight, 0);
    SAME(r.nearest_off, 0);
    SAME(r.between_off, 0);
    for (int k = 0; k < 3; k++)
        SAME(r.whole[k], 0);
}

static void reading_is(ChromaChartReading r, size_t nearest, uint32_t nearest_off, size_t pair, size_t weight, uint32_t between_off) {
    SAME(r.refusal, 0);
    SAME(r.given, 1);
    SAME(r.nearest, nearest);
    SAME(r.nearest_off, nearest_off);
    SAME(r.pair, pair);
    SAME(r.weight, weight);
    SAME(r.between_off, between_off);
}

static void test_charts(void) {
    static const uint8_t chart[75] = {0, 0, 0,  100, 100, 100,  200, 200, 200,  200, 200, 200};
    static const uint8_t steps[6] = {0, 0, 0,  1, 1, 1};
    static const uint8_t grey[9] = {50, 50, 50,  51, 51, 51,  200, 200, 201};
    const ChromaRectangle first = rectangle_of(0, 0, 1, 1), second = rectangle_of(1, 0, 1, 1);
    const ChromaRectangle third = rectangle_of(2, 0, 1, 1), both = rectangle_of(0, 0, 2, 1);
    ChromaChartReading r;

    /* A tie goes to the first shade; a mix may be nearer than any. */
    reading_is(chroma_chart_reading(chart, 12, first, 3, 1, grey, 9), 0, 7500, 0, 8, 0);
    reading_is(chroma_chart_reading(chart, 12, second, 3, 1, grey, 9), 1, 7203, 0, 8, 3);
    /* 50 and 51 have the mean 50.5, as a whole number 51. */
    r = chroma_chart_reading(chart, 12, both, 3, 1, grey, 9);
    reading_is(r, 1, 7203, 0, 8, 3);
    SAME(r.pixels, 2);
    SAME(r.whole[0], 51);
    /* Equal shades: the first of them, and the first pair that comes to it, at its last weight. */
    reading_is(chroma_chart_reading(chart, 12, third, 3, 1, grey, 9), 2, 1, 1, 16, 1);
    /* Halves up: 0 and 1 give 0 up to weight 7 and 1 from 8 on. */
    reading_is(chroma_chart_reading(steps, 6, rectangle_of(0, 0, 1, 1), 1, 1, steps, 3), 0, 0, 0, 0, 0);
    reading_is(chroma_chart_reading(steps, 6, rectangle_of(1, 0, 1, 1), 2, 1, steps, 6), 1, 0, 0, 8, 0);

    /* No pixel shared. */
    no_reading(chroma_chart_reading(chart, 12, rectangle_of(3, 0, 1, 1), 3, 1, grey, 9), 0);
    no_reading(chroma_chart_reading(chart, 12, rectangle_of(0, 0, 0, 0), 3, 1, grey, 9), 0);

    /* 20 for every length but 3 times 2 to 24, before all else; then 2, 19 and 10. */
    for (size_t n = 0; n <= 75; n++) {
        int good = n % 3 == 0 && n >= 6 && n <= 72;
        no_reading(chroma_chart_reading(chart, n, rectangle_of(65536, 0, 0, 0), 0, 1, NULL, 0), good ? 2 : 20);
        SAME(chroma_chart_reading(chart, n, first, 3, 1, grey, 9).refusal, good ? 0 : 20);
    }
    no_reading(chroma_chart_reading(NULL, 0, first, 3, 1, grey, 9), 20);
    no_reading(chroma_chart_reading(chart, 12, rectangle_of(65535, 0, 1, 1), 3, 1, NULL, 0), 19);
    no_reading(chroma_chart_reading(chart, 12, first, 3, 1, grey, 8), 10);
}

/* ---- rows as RGB, and blends */

static ChromaReply rgb_row_of(const Strip *p, ChromaReader r, ChromaStrides s, size_t row, float *scratch,
                              size_t scratch_len, uint8_t *out, size_t out_len) {
    return chroma_rgb_row(r, p->y, p->y_len, p->cb, p->c_len, p->cr, p->c_len, s, row, scratch, scratch_len,
                          out, out_len);
}

/* A whole picture, guided and exact: what the rows are held to. */
static uint8_t *filled(const Strip *p) {
    uint8_t *out = lend_bytes(3 * p->l.w * p->l.h);
    float *scratch = lend_floats(p->need);
    SAME(chroma_fill(p->l, p->y, p->y_len, p->cb, p->c_len, p->cr, p->c_len, p->s, 1, 0, 3, scratch, p->need, out,
                     3 * p->l.w * p->l.h), 0);
    return out;
}

static void test_rgb_rows(void) {
    for (uint32_t range = 0; range < 2; range++) {
        Strip p = strip_of(21, 6, 2, 2);
        p.l.range = range;
        const uint8_t *whole = filled(&p);
        ChromaStrides narrow = strides_of(20, 11, 11);
        float *scratch = (float *)watch(4 * p.need);
        uint8_t *out = (uint8_t *)watch(63);
        ChromaReader any, strange;
        ChromaReply q;

        signalling(&any, sizeof any);
        REPLIED(rgb_row_of(&p, any, p.s, 3, scratch, p.need, out, 63), 1, &any);
        q = open_strip(&p, p.l, p.s, scratch, p.need, any);
        q = chroma_seek(q.reader, 3);
        SAME(q.refusal, 0);
        strange = q.reader;
        strange.phases[1].left = 2;
        REPLIED(rgb_row_of(&p, strange, p.s, 3, scratch, p.need, out, 63), 1, &strange);
        strange = q.reader;
        strange.range = 2;
        REPLIED(rgb_row_of(&p, strange, p.s, 9, scratch, 0, out, 0), 1, &strange);
        REPLIED(rgb_row_of(&p, q.reader, narrow, 3, scratch, p.need, out, 63), 7, &q.reader);
        REPLIED(rgb_row_of(&p, q.reader, p.s, 3, scratch, p.need - 1, out, 63), 9, &q.reader);
        REPLIED(rgb_row_of(&p, q.reader, p.s, 3, scratch, p.need, out, 62), 10, &q.reader);
        REPLIED(rgb_row_of(&p, q.reader, p.s, 6, scratch, p.need, out, 63), 11, &q.reader);
        REPLIED(rgb_row_of(&p, q.reader, p.s, 2, scratch, p.need, out, 63), 12, &q.reader);
        q = chroma_seek(q.reader, 0);
        for (size_t row = 0; row < 6; row += 1 + row % 2) {
            q = rgb_row_of(&p, q.reader, p.s, row, scratch, p.need, out, 63);
            SAME(q.refusal, 0);
            SAME(q.reader.place, row);
            CHECK(memcmp(out, whole + 63 * row, 63) == 0);
        }
        end_watched();
    }
}

/* A reader of each of two pictures, and what they are lent. */
typedef struct Both {
    Strip early, late;
    ChromaReader readers[2];
    float *scratch[2];
    uint8_t *out;
} Both;

static ChromaBlendReply blended(const Both *b, size_t row, size_t weight, size_t early_need, size_t late_need,
                                size_t room) {
    const Strip *e = &b->early, *l = &b->late;
    return chroma_blend_row(b->readers[0], e->y, e->y_len, e->cb, e->c_len, e->cr, e->c_len, e->s, b->scratch[0],
                            early_need, b->readers[1], l->y, l->y_len, l->cb, l->c_len, l->cr, l->c_len, l->s,
                            b->scratch[1], late_need, row, weight, b->out, room);
}

/* Refused: both states come back, and every watched slice has kept its bits. */
static void not_blended(const Both *b, ChromaBlendReply q, uint32_t refusal) {
    SAME(q.refusal, refusal);
    CHECK(same_state(&q.early, &b->readers[0]) && same_state(&q.late, &b->readers[1]));
    CHECK(kept());
}

static Both open_both(Strip early, Strip late) {
    Both b;
    ChromaReply q;
    b.early = early, b.late = late;
    b.scratch[0] = (float *)watch(4 * early.need);
    b.scratch[1] = (float *)watch(4 * late.need);
    b.out = (uint8_t *)watch(3 * early.l.w);
    q = open_strip(&early, early.l, early.s, b.scratch[0], early.need, garbage(1));
    SAME(q.refusal, 0);
    b.readers[0] = q.reader;
    q = open_strip(&late, late.l, late.s, b.scratch[1], late.need, garbage(2));
    SAME(q.refusal, 0);
    b.readers[1] = q.reader;
    return b;
}

/* A strip with other samples than strip_of has. */
static Strip other_strip(size_t w, size_t h, size_t rh, size_t rv) {
    Strip p = strip_of(w, h, rh, rv);
    for (size_t i = 0; i < p.y_len; i++)
        p.y[i] = (uint8_t)(200 - 37 * i);
    for (size_t i = 0; i < p.c_len; i++)
        p.cb[i] = (uint8_t)(120 + 5 * i), p.cr[i] = (uint8_t)(3 + 11 * i);
    return p;
}

static void test_refused_blends(void) {
    Both b = open_both(strip_of(21, 6, 2, 2), other_strip(21, 6, 2, 2));
    size_t need = b.early.need;
    Both odd = b;
    ChromaReply q = chroma_seek(b.readers[1], 4);

    for (int k = 0; k < 2; k++) {
        odd = b;
        odd.readers[k].h_next++;
        not_blended(&odd, blended(&odd, 9, 17, 0, 0, 0), 1);
        odd = b;
        odd.readers[k].phases[3].left = 7;
        not_blended(&odd, blended(&odd, 9, 17, 0, 0, 0), 1);
        odd = b;
        odd.readers[k].range = 3;
        not_blended(&odd, blended(&odd, 9, 17, 0, 0, 0), 1);
        odd = b;
        odd.readers[k].range = 1;
        not_blended(&odd, blended(&odd, 9, 8, 0, 0, 0), 22);
    }
    not_blended(&b, blended(&b, 9, 17, 0, 0, 0), 22);
    not_blended(&b, blended(&b, 9, SIZE_MAX, 0, 0, 0), 22);
    odd = b;
    odd.late.s.cr = 10;
    not_blended(&odd, blended(&odd, 9, 16, 0, need, 0), 7);
    odd = b;
    odd.early.c_len--;
    not_blended(&odd, blended(&odd, 9, 16, need, 0, 0), 7);
    not_blended(&b, blended(&b, 9, 16, need, need - 1, 0), 9);
    not_blended(&b, blended(&b, 9, 16, need - 1, need, 0), 9);
    not_blended(&b, blended(&b, 9, 16, need, need, 62), 10);
    not_blended(&b, blended(&b, 6, 16, need, need, 63), 11);
    odd = b;
    odd.readers[1] = q.reader;
    not_blended(&odd, blended(&odd, 3, 16, need, need, 63), 12);
    odd.readers[1] = b.readers[0], odd.readers[0] = q.reader;
    not_blended(&odd, blended(&odd, 3, 16, need, need, 63), 12);
    end_watched();

    /* Another geometry, by its sizes. */
    b = open_both(strip_of(21, 6, 2, 2), other_strip(21, 5, 2, 2));
    not_blended(&b, blended(&b, 3, 8, b.early.need, b.late.need, 63), 22);
    end_watched();
}

/* From two pictures to a shade: every row of a blend, and its reading on a chart of two greys. */
static void test_blends(void) {
    static const uint8_t chart[] = {0, 0, 0, 255, 255, 255};
    for (size_t weight = 0; weight <= 16; weight++) {
        Both b = open_both(strip_of(21, 6, 2, 2), other_strip(21, 6, 2, 2));
        const uint8_t *early = filled(&b.early), *late = filled(&b.late);
        uint8_t *rgb = lend_bytes(3 * 21 * 6);
        uint64_t sums[3] = {0, 0, 0};
        /* A jump in one reader alone. */
        ChromaReply q = chroma_seek(b.readers[1], 5);
        q = chroma_seek(q.reader, 0);
        b.readers[1] = q.reader;
        for (size_t row = 0; row < 6; row++) {
            b.out = rgb + 63 * row;
            ChromaBlendReply r = blended(&b, row, weight, b.early.need, b.late.need, 63);
            SAME(r.refusal, 0);
            SAME(r.early.place, row);
            SAME(r.late.place, row);
            b.readers[0] = r.early, b.readers[1] = r.late;
        }
        int all = 1;
        for (size_t i = 0; i < 3 * 21 * 6; i++) {
            all = all && rgb[i] == ((16 - weight) * early[i] + weight * late[i] + 8) / 16;
            sums[i % 3] += rgb[i];
        }
        CHECK(all);
        CHECK(weight != 0 || memcmp(rgb, early, 3 * 21 * 6) == 0);
        CHECK(weight != 16 || memcmp(rgb, late, 3 * 21 * 6) == 0);
        ChromaChartReading c = chroma_chart_reading(chart, 6, rectangle_of(0, 0, 21, 6), 21, 6, rgb, 3 * 21 * 6);
        SAME(c.given, 1);
        SAME(c.pixels, 126);
        for (int k = 0; k < 3; k++)
            SAME(c.whole[k], (2 * sums[k] + 126) / 252);
        end_watched();
    }
}

int main(void) {
    test_structs();
    test_fields();
    test_pixels();
    test_studio_pixels();
    test_linear_plane();
    test_sitings();
    test_pairs();
    test_not_centred();
    test_ranges();
    test_triangular_plane();
    test_guided_plane();
    test_reader();
    test_fill_one();
    test_fill_studio();
    test_fill_row();
    test_above_maxval();
    test_picture();
    test_comments();
    test_deep_pictures();
    test_pictures_above();
    test_largest_pictures();
    test_bits_of_reader();
    test_bits_of_planes();
    test_bits_of_fill();
    test_bits_of_picture();
    test_surplus();
    test_refills();
    test_refill_refusals();
    test_patches();
    test_largest_patch();
    test_charts();
    test_rgb_rows();
    test_refused_blends();
    test_blends();
    printf("%d checks, %d failed\n", checks, failures);
    return failures == 0 ? 0 : 1;
}
