/* Every call of chroma.h with arbitrary numbers, states, lengths, strides and contents: what a
 * fuzzer finds must be a crash, a byte touched outside what was lent, or a refused call that
 * changed something. */
#include <stdint.h>
#include <stdio.h>
#include <stdlib.h>
#include <string.h>

#include "chroma.h"

enum { ROUND = 32, MOST = 4096 };

static const uint8_t *next;
static size_t left;

static void check(int good, const char *what) {
    if (!good) {
        fprintf(stderr, "%s\n", what);
        abort();
    }
}

/* The next n bytes of the input, 0 past its end. */
static uint64_t take(size_t n) {
    uint64_t v = 0;
    for (size_t i = 0; i < n; i++) {
        v = v << 8 | (left > 0 ? *next : 0);
        if (left > 0) {
            next++;
            left--;
        }
    }
    return v;
}

/* Mostly small, at times any number. */
static size_t number(void) {
    uint8_t kind = (uint8_t)take(1);
    if (kind < 200) {
        return kind % 24;
    }
    if (kind < 230) {
        return take(2) % 9000;
    }
    return take(8);
}

/* A lent slice with canaries round it, and what it held before. */
typedef struct Slice {
    uint8_t *all;
    uint8_t *before;
    size_t bytes;
} Slice;

static Slice lend(size_t count, size_t each) {
    Slice s;
    s.bytes = count * each;
    s.all = malloc(s.bytes + 2 * ROUND);
    s.before = malloc(s.bytes + 2 * ROUND);
    check(s.all && s.before, "no memory");
    memset(s.all, 0xA5, s.bytes + 2 * ROUND);
    for (size_t i = 0; i < s.bytes; i++) {
        s.all[ROUND + i] = (uint8_t)(left > 0 ? take(1) : i * 37 + 11);
    }
    memcpy(s.before, s.all, s.bytes + 2 * ROUND);
    return s;
}

static void *at(Slice s) {
    return s.all + ROUND;
}

static void done(Slice s, int may_change) {
    check(memcmp(s.all, s.before, ROUND) == 0, "written before a slice");
    check(memcmp(s.all + ROUND + s.bytes, s.before + ROUND + s.bytes, ROUND) == 0, "written behind a slice");
    check(may_change || memcmp(s.all, s.before, s.bytes + 2 * ROUND) == 0, "a slice changed that should not");
    free(s.all);
    free(s.before);
}

static ChromaLayout layout(void) {
    ChromaLayout l;
    l.w = number();
    l.h = number();
    l.rh = number() % 6;
    l.rv = number() % 6;
    uint8_t nums = (uint8_t)take(1);
    l.num_across = nums < 128 ? 1 : nums % 6;
    l.num_down = nums < 128 ? 1 : nums / 6 % 6;
    l.cw = l.rh ? (l.w * l.num_across + (l.rh - 1)) / l.rh : number();
    l.ch = l.rv ? (l.h * l.num_down + (l.rv - 1)) / l.rv : number();
    if (take(1) % 8 == 0) {
        l.cw = number();
    }
    l.sample_bytes = 1 + take(1) % 3;
    l.maxval = l.sample_bytes == 1 ? (take(1) % 2 ? 255 : (uint32_t)take(1)) : (uint32_t)take(3);
    uint8_t sitings = (uint8_t)take(1);
    l.siting_across = sitings < 128 ? 0 : sitings % 3;
    l.siting_down = sitings < 128 ? 0 : sitings / 3 % 3;
    l.range = (uint32_t)take(1) % 8 % 3;
    return l;
}

static ChromaReader state(void) {
    ChromaReader r;
    uint8_t *bytes = (uint8_t *)&r;
    for (size_t i = 0; i < sizeof r; i++) {
        bytes[i] = (uint8_t)take(1);
    }
    return r;
}

/* All but the padding between the fields. */
static int same(const ChromaReader *a, const ChromaReader *b) {
    return a->w == b->w && a->h == b->h && a->rh == b->rh && a->rv == b->rv && a->cw == b->cw && a->ch == b->ch
        && memcmp(a->phases, b->phases, sizeof a->phases) == 0 && a->sample_bytes == b->sample_bytes
        && a->maxval == b->maxval && a->range == b->range && a->place == b->place && a->h_next == b->h_next && a->f_next == b->f_next;
}

static size_t room(size_t need) {
    size_t n = take(1) % 16 == 0 ? number() : need + take(1) % 3;
    return n > MOST ? MOST : n;
}

/* The planes of a picture: mostly as long as it asks for, with strides that fit. */
typedef struct Planes {
    Slice y, cb, cr;
    ChromaStrides strides;
} Planes;

static Planes planes(ChromaLayout l) {
    Planes p;
    p.strides = (ChromaStrides){number(), number(), number()};
    p.y = lend(room(l.w * l.h * l.sample_bytes), 1);
    p.cb = lend(room(l.cw * l.ch * l.sample_bytes), 1);
    p.cr = lend(room(l.cw * l.ch * l.sample_bytes), 1);
    if (take(1) % 4) {
        p.strides.y = l.w * l.sample_bytes;
        p.strides.cb = p.strides.cr = l.cw * l.sample_bytes;
    }
    return p;
}

/* Whether a sample of the plane exceeds maxval; it isn't too short. */
static int above(ChromaLayout l, Slice p, size_t stride, size_t w, size_t h) {
    const uint8_t *bytes = at(p);
    for (size_t y = 0; y < h; y++) {
        for (size_t x = 0; x < w; x++) {
            const uint8_t *sample = bytes + y * stride + x * l.sample_bytes;
            if (sample[0] + (l.sample_bytes == 2 ? 256u * sample[1] : 0) > l.maxval) {
                return 1;
            }
        }
    }
    return 0;
}

/* A call that looks at these planes is refused 17 where one has such a sample, and is not accepted then. */
static void looked(uint32_t refusal, ChromaLayout l, Planes p, int luma, int cb, int cr) {
    if (refusal == 0 || refusal == 17) {
        int found = (luma && above(l, p.y, p.strides.y, l.w, l.h)) || (cb && above(l, p.cb, p.strides.cb, l.cw, l.ch))
            || (cr && above(l, p.cr, p.strides.cr, l.cw, l.ch));
        check(found == (refusal == 17), "a sample above maxval that was taken, or none that was turned down");
    }
}

static void reader(void) {
    ChromaLayout l = layout();
    Planes p = planes(l);
    Slice y = p.y, cb = p.cb, cr = p.cr;
    ChromaStrides strides = p.strides;
    Slice s = lend(room(chroma_scratch_need(l.cw, l.w)), sizeof(float));
    ChromaReader strange = state();
    ChromaReply at_row = chroma_open(l, at(y), y.bytes, at(cb), cb.bytes, at(cr), cr.bytes, strides, at(s), s.bytes / 4, strange);
    check(at_row.refusal == 0 || same(&at_row.reader, &strange), "a refused open gave another state");
    looked(at_row.refusal, l, p, 1, 1, 1);
    for (int k = 0; k < 6; k++) {
        ChromaReader now = take(1) % 8 == 0 ? state() : at_row.reader;
        if (take(1) % 3 == 0) {
            at_row = chroma_seek(now, number());
            check(at_row.refusal == 0 || same(&at_row.reader, &now), "a refused seek gave another state");
            continue;
        }
        if (take(1) % 2 == 0) {
            Slice rgb = lend(room(3 * l.w), 1);
            memcpy(s.before, s.all, s.bytes + 2 * ROUND);
            at_row = chroma_rgb_row(now, at(y), y.bytes, at(cb), cb.bytes, at(cr), cr.bytes, strides, number(), at(s), s.bytes / 4, at(rgb), rgb.bytes);
            check(at_row.refusal == 0 || same(&at_row.reader, &now), "a refused RGB row gave another state");
            check(at_row.refusal == 0 || memcmp(s.all, s.before, s.bytes + 2 * ROUND) == 0, "a refused RGB row changed scratch");
            done(rgb, at_row.refusal == 0);
            continue;
        }
        Slice b = lend(room(l.w), sizeof(float));
        Slice r = lend(room(l.w), sizeof(float));
        memcpy(s.before, s.all, s.bytes + 2 * ROUND);
        at_row = chroma_row(now, at(y), y.bytes, at(cb), cb.bytes, at(cr), cr.bytes, strides, number(), at(s), s.bytes / 4, at(b), b.bytes / 4, at(r), r.bytes / 4);
        check(at_row.refusal == 0 || same(&at_row.reader, &now), "a refused row gave another state");
        check(at_row.refusal == 0 || memcmp(s.all, s.before, s.bytes + 2 * ROUND) == 0, "a refused row changed scratch");
        done(b, at_row.refusal == 0);
        done(r, at_row.refusal == 0);
    }
    done(s, 1);
    done(y, 0);
    done(cb, 0);
    done(cr, 0);
}

/* Two readers, mostly of one geometry, and blends of their rows; at times one of them jumps. */
static void blends(void) {
    ChromaLayout l[2];
    Planes p[2];
    Slice s[2];
    ChromaReader now[2];
    l[0] = l[1] = layout();
    if (take(1) % 8 == 0) {
        l[1] = layout();
    }
    for (int k = 0; k < 2; k++) {
        p[k] = planes(l[k]);
        s[k] = lend(room(chroma_scratch_need(l[k].cw, l[k].w)), sizeof(float));
        now[k] = chroma_open(l[k], at(p[k].y), p[k].y.bytes, at(p[k].cb), p[k].cb.bytes, at(p[k].cr), p[k].cr.bytes, p[k].strides, at(s[k]), s[k].bytes / 4, state()).reader;
    }
    for (int n = 0; n < 6; n++) {
        uint8_t kind = (uint8_t)take(1);
        if (kind % 4 == 0) {
            now[kind / 4 % 2] = chroma_seek(now[kind / 4 % 2], number()).reader;
            continue;
        }
        Slice out = lend(room(3 * l[0].w), 1);
        for (int k = 0; k < 2; k++) {
            memcpy(s[k].before, s[k].all, s[k].bytes + 2 * ROUND);
        }
        ChromaBlendReply q = chroma_blend_row(now[0], at(p[0].y), p[0].y.bytes, at(p[0].cb), p[0].cb.bytes, at(p[0].cr), p[0].cr.bytes, p[0].strides, at(s[0]), s[0].bytes / 4,
                                              now[1], at(p[1].y), p[1].y.bytes, at(p[1].cb), p[1].cb.bytes, at(p[1].cr), p[1].cr.bytes, p[1].strides, at(s[1]), s[1].bytes / 4,
                                              number(), take(1) % 19, at(out), out.bytes);
        check(q.refusal == 0 || (same(&q.early, &now[0]) && same(&q.late, &now[1])), "a refused blend gave another state");
        for (int k = 0; k < 2; k++) {
            check(q.refusal == 0 || memcmp(s[k].all, s[k].before, s[k].bytes + 2 * ROUND) == 0, "a refused blend changed scratch");
        }
        check(q.refusal != 0 || q.early.place == q.late.place, "a blend that left its readers at two rows");
        now[0] = q.early;
        now[1] = q.late;
        done(out, q.refusal == 0);
    }
    for (int k = 0; k < 2; k++) {
        done(s[k], 1);
        done(p[k].y, 0);
        done(p[k].cb, 0);
        done(p[k].cr, 0);
    }
}

static void whole(void) {
    ChromaLayout l = layout();
    size_t size = take(1) % 6;
    Planes p = planes(l);
    Slice y = p.y, cb = p.cb, cr = p.cr;
    ChromaStrides strides = p.strides;
    Slice s = lend(room(chroma_scratch_need(l.cw, l.w)), sizeof(float));
    Slice values = lend(room(l.w * l.h), sizeof(uint16_t));
    Slice out = lend(room(l.w * l.h * size), 1);
    uint32_t refusal = 0;
    int kind = take(1) % 4;
    if (kind == 0) {
        refusal = chroma_fill(l, at(y), y.bytes, at(cb), cb.bytes, at(cr), cr.bytes, strides, (uint32_t)take(1) % 3, (uint32_t)take(1) % 3, size, at(s), s.bytes / 4, at(out), out.bytes);
    } else if (kind == 1) {
        refusal = chroma_linear_plane(l, at(cb), cb.bytes, strides.cb, at(s), s.bytes / 4, at(values), values.bytes / 2);
    } else if (kind == 2) {
        refusal = chroma_guided_plane(l, at(y), y.bytes, strides.y, at(cb), cb.bytes, strides.cb, at(s), s.bytes / 4, at(values), values.bytes / 2);
    } else {
        refusal = chroma_triangular_plane(l, at(cb), cb.bytes, strides.cb, at(values), values.bytes / 2);
    }
    looked(refusal, l, p, kind == 0 || kind == 2, 1, kind == 0);
    done(s, refusal == 0 && kind != 3);
    done(values, refusal == 0 && kind != 0);
    done(out, refusal == 0 && kind == 0);
    done(y, 0);
    done(cb, 0);
    done(cr, 0);
}

static void program(void) {
    static float scratch[CHROMA_PICTURE_SCRATCH];
    static uint8_t out[CHROMA_PICTURE_OUTPUT + ROUND];
    size_t n = left;
    uint8_t *input = malloc(n + 1);
    check(input != NULL, "no memory");
    memcpy(input, next, n);
    memset(out, 0xA5, sizeof out);
    ChromaWritten w = chroma_picture(input, n, scratch, CHROMA_PICTURE_SCRATCH, out, CHROMA_PICTURE_OUTPUT);
    check(w.refusal == 0 || w.len == 0, "a refused picture with a length");
    for (size_t i = w.len; i < sizeof out; i++) {
        check(out[i] == 0xA5, "written behind the picture");
    }
    check(memcmp(input, next, n) == 0, "an input that was changed");
    free(input);
}

static ChromaRectangle rectangle(void) {
    ChromaRectangle r;
    r.left = number();
    r.top = number();
    r.width = number();
    r.height = number();
    return r;
}

/* A slice that holds what another one does. */
static Slice copy(Slice s) {
    Slice t = s;
    t.all = malloc(s.bytes + 2 * ROUND);
    t.before = malloc(s.bytes + 2 * ROUND);
    check(t.all && t.before, "no memory");
    memcpy(t.all, s.all, s.bytes + 2 * ROUND);
    memcpy(t.before, s.all, s.bytes + 2 * ROUND);
    return t;
}

/* Planes before and after a change of a few cells, and a rectangle that mostly lies in the plane and mostly has
 * them. An accepted refill of the fill before gives the fill after; a refused one changes nothing. */
static void refill(void) {
    ChromaLayout l = layout();
    size_t size = take(1) % 8 == 0 ? take(1) % 6 : 3 + take(1) % 2;
    uint32_t kernel = (uint32_t)take(1) % 17 % 3;
    ChromaRectangle r = rectangle();
    if (take(1) % 8 && l.cw && l.ch) {
        r.left %= l.cw;
        r.top %= l.ch;
        r.width %= l.cw - r.left == SIZE_MAX ? SIZE_MAX : l.cw - r.left + 1;
        r.height %= l.ch - r.top == SIZE_MAX ? SIZE_MAX : l.ch - r.top + 1;
    }
    Planes p = planes(l), q = p;
    q.y = copy(p.y), q.cb = copy(p.cb), q.cr = copy(p.cr);
    for (size_t k = take(1) % 8; k > 0; k--) {
        uint8_t kind = (uint8_t)take(1);
        Slice s = kind == 0 ? q.y : k % 2 ? q.cb : q.cr;
        size_t place = number();
        if (kind > 16 && r.width && r.height) {
            place = (r.top + place % r.height) * (k % 2 ? q.strides.cb : q.strides.cr) + (r.left + place / 5 % r.width) * l.sample_bytes;
        }
        if (s.bytes > 0) {
            s.all[ROUND + place % s.bytes] ^= (uint8_t)take(1);
        }
    }
    memcpy(q.y.before, q.y.all, q.y.bytes + 2 * ROUND);
    memcpy(q.cb.before, q.cb.all, q.cb.bytes + 2 * ROUND);
    memcpy(q.cr.before, q.cr.all, q.cr.bytes + 2 * ROUND);
    Slice s = lend(room(chroma_scratch_need(l.cw, l.w)), sizeof(float));
    Slice out = lend(room(l.w * l.h * size), 1);
    uint32_t held = chroma_fill(l, at(p.y), p.y.bytes, at(p.cb), p.cb.bytes, at(p.cr), p.cr.bytes, p.strides, 1, kernel, size, at(s), s.bytes / 4, at(out), out.bytes);
    Slice after = copy(out);
    uint32_t filled = chroma_fill(l, at(q.y), q.y.bytes, at(q.cb), q.cb.bytes, at(q.cr), q.cr.bytes, q.strides, 1, kernel, size, at(s), s.bytes / 4, at(after), after.bytes);
    memcpy(out.before, out.all, out.bytes + 2 * ROUND);
    memcpy(s.before, s.all, s.bytes + 2 * ROUND);
    uint32_t refusal = chroma_refill(l, at(p.y), p.y.bytes, at(p.cb), p.cb.bytes, at(p.cr), p.cr.bytes, p.strides, at(q.y), q.y.bytes, at(q.cb), q.cb.bytes, at(q.cr), q.cr.bytes, q.strides, r, kernel, size, at(s), s.bytes / 4, at(out), out.bytes);
    check(refusal != 0 || (held == 0 && filled == 0), "a refill of what is not filled");
    check(refusal != 0 || memcmp(at(out), at(after), out.bytes) == 0, "a refill that is not the fill");
    int wrote = refusal == 0 && r.width > 0 && r.height > 0;
    done(s, wrote);
    done(out, wrote);
    done(after, 1);
    Slice lent[] = {p.y, p.cb, p.cr, q.y, q.cb, q.cr};
    for (int k = 0; k < 6; k++) {
        done(lent[k], 0);
    }
}

static void patch(void) {
    ChromaRectangle r = rectangle();
    size_t w = number(), h = number();
    Slice rgb = lend(room(w * h * 3), 1);
    ChromaPatch p = chroma_patch(r, w, h, at(rgb), rgb.bytes);
    check(p.given == (p.pixels > 0), "a mean of no pixel, or pixels without a mean");
    check(p.refusal == 0 || p.given == 0, "a refused patch with a mean");
    for (int k = 0; k < 3; k++) {
        check(p.mean[k] >= 0 && p.mean[k] <= 255, "a mean that is none of bytes");
        check(p.whole[k] == (int)(p.mean[k] + 0.5), "a whole-number mean that is not the mean's");
    }
    done(rgb, 0);
}

static void chart(void) {
    ChromaRectangle r = rectangle();
    size_t w = number(), h = number();
    Slice shades = lend(room(3 * (2 + take(1) % 24)), 1);
    Slice rgb = lend(room(w * h * 3), 1);
    ChromaChartReading c = chroma_chart_reading(at(shades), shades.bytes, r, w, h, at(rgb), rgb.bytes);
    ChromaPatch p = chroma_patch(r, w, h, at(rgb), rgb.bytes);
    check(c.refusal == 20 || c.refusal == p.refusal, "a reading refused otherwise than its patch");
    check(c.refusal == 20 || c.given == p.given, "a reading without its patch, or a patch without its reading");
    check(c.pixels == (c.given ? p.pixels : 0) && c.weight <= 16, "a reading of other pixels, or a weight past 16");
    check(!c.given || (c.nearest < shades.bytes / 3 && c.pair + 1 < shades.bytes / 3), "a shade that the chart doesn't have");
    check(c.between_off <= c.nearest_off, "a mix that is farther than a shade");
    check(c.weight > 0 || c.pair == 0, "weight 0 with another pair than the first");
    done(shades, 0);
    done(rgb, 0);
}

int LLVMFuzzerTestOneInput(const uint8_t *data, size_t size) {
    next = data;
    left = size;
    switch (take(1) % 8) {
    case 0:
        reader();
        break;
    case 1:
        whole();
        break;
    case 2:
        chroma_exact_pixel((uint32_t)take(4), (uint32_t)take(4), (uint32_t)take(4), (uint32_t)take(4), (uint32_t)take(1) % 4);
        chroma_fixed_pixel((uint32_t)take(4), (uint32_t)take(4), (uint32_t)take(4));
        break;
    case 4:
        patch();
        break;
    case 5:
        chart();
        break;
    case 6:
        refill();
        break;
    case 7:
        blends();
        break;
    default:
        program();
    }
    return 0;
}
