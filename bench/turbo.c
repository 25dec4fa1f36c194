/* libjpeg-turbo beside the static library, for orientation: planes of 4:2:0 to RGB. They compute
 * different things; bench/RESULTS.md says what. One thread, the ways turn by turn, thread CPU
 * time, the best of the turns.
 * Usage: turbo TURNS NAME; a small picture has four times as many turns, and NAME says in the
 * table which code of libjpeg-turbo runs. bench/turbo builds it and runs it. */
#define _POSIX_C_SOURCE 199309L
#include "chroma.h"
#include <stdio.h>
#include <stdlib.h>
#include <string.h>
#include <time.h>
#include <turbojpeg.h>

/* A picture of side by side pixels, and what the ways need beside it. */
typedef struct Job {
    size_t side;
    size_t size; /* bytes of a pixel */
    uint8_t *planes[3], *out;
    float *scratch;
    size_t need;
    tjhandle decoder;
    unsigned char *jpeg; /* a grey picture of that side */
    unsigned long jpeg_len;
    uint8_t *decoded[3];
} Job;

static void *some(size_t n, size_t size) {
    void *p = calloc(n, size);
    if (!p) exit(2);
    return p;
}

static void must(int ok, const char *what) {
    if (ok) return;
    fprintf(stderr, "turbo: %s\n", what);
    exit(1);
}

static double now(void) {
    struct timespec t;
    clock_gettime(CLOCK_THREAD_CPUTIME_ID, &t);
    return (double)t.tv_sec + (double)t.tv_nsec * 1e-9;
}

/* The noise of bench.rs. */
static void noise(uint8_t *plane, size_t n, uint64_t *state) {
    for (size_t i = 0; i < n; i++) {
        *state ^= *state << 13;
        *state ^= *state >> 7;
        *state ^= *state << 17;
        plane[i] = (uint8_t)*state;
    }
}

static ChromaLayout layout(const Job *j) {
    return (ChromaLayout){j->side, j->side, 2, 2, j->side / 2, j->side / 2, 1, 255};
}

static size_t plane_len(const Job *j, int k) {
    return k == 0 ? j->side * j->side : j->side * j->side / 4;
}

static void fill(Job *j, uint32_t upsampling, uint32_t kernel) {
    const ChromaStrides strides = {j->side, j->side / 2, j->side / 2};
    const uint32_t refusal = chroma_fill(
        layout(j), j->planes[0], plane_len(j, 0), j->planes[1], plane_len(j, 1), j->planes[2],
        plane_len(j, 2), strides, upsampling, kernel, j->size, j->scratch, j->need, j->out,
        j->side * j->side * j->size);
    must(refusal == CHROMA_ACCEPTED, "chroma_fill refused");
}

static void guided_exact(Job *j) { fill(j, 1, 0); }
static void guided_fixed(Job *j) { fill(j, 1, 1); }
static void linear_exact(Job *j) { fill(j, 0, 0); }
static void linear_fixed(Job *j) { fill(j, 0, 1); }

static int format(const Job *j) { return j->size == 3 ? TJPF_RGB : TJPF_RGBX; }

static void planes(Job *j, int flags) {
    const unsigned char *from[3] = {j->planes[0], j->planes[1], j->planes[2]};
    const int side = (int)j->side;
    must(tjDecodeYUVPlanes(j->decoder, from, NULL, TJSAMP_420, j->out, side, 0, side, format(j),
                           flags) == 0, tjGetErrorStr2(j->decoder));
}

static void planes_plain(Job *j) { planes(j, 0); }
static void planes_fast(Job *j) { planes(j, TJFLAG_FASTUPSAMPLE); }

static void decompress(Job *j, int flags) {
    const int side = (int)j->side;
    must(tjDecompress2(j->decoder, j->jpeg, j->jpeg_len, j->out, side, 0, side, format(j), flags)
         == 0, tjGetErrorStr2(j->decoder));
}

static void decompress_fancy(Job *j) { decompress(j, 0); }
static void decompress_fast(Job *j) { decompress(j, TJFLAG_FASTUPSAMPLE); }

static void decompress_planes(Job *j) {
    const int side = (int)j->side;
    must(tjDecompressToYUVPlanes(j->decoder, j->jpeg, j->jpeg_len, j->decoded, side, NULL, side, 0)
         == 0, tjGetErrorStr2(j->decoder));
}

typedef struct Way {
    const char *name;
    void (*run)(Job *);
} Way;

/* The last is taken from the one before it, since nothing but decompression gives fancy chroma. */
static const Way ways[] = {
    {"fill guided exact", guided_exact},
    {"fill guided fixed", guided_fixed},
    {"fill linear exact", linear_exact},
    {"fill linear fixed", linear_fixed},
    {"libjpeg-turbo, replicated", planes_plain},
    {"libjpeg-turbo, what fancy adds", decompress_fancy},
    {"", decompress_fast},
};
enum { WAYS = sizeof ways / sizeof *ways, OURS = 4 };

/* Best times in nanoseconds a pixel. */
static void measure(Job *j, int turns, double best[WAYS]) {
    for (int k = 0; k < WAYS; k++) best[k] = 1e9;
    for (int t = 0; t < turns; t++) {
        for (int k = 0; k < WAYS; k++) {
            const double start = now();
            ways[k].run(j);
            const double took = now() - start;
            if (took < best[k]) best[k] = took;
        }
    }
    for (int k = 0; k < WAYS; k++) best[k] *= 1e9 / (double)(j->side * j->side);
    best[WAYS - 2] -= best[WAYS - 1];
}

/* A JPEG of these planes. */
static void compress(Job *j, uint8_t *const from[3]) {
    const unsigned char *given[3] = {from[0], from[1], from[2]};
    const int side = (int)j->side;
    tjhandle encoder = tjInitCompress();
    tjFree(j->jpeg);
    j->jpeg = NULL;
    j->jpeg_len = 0;
    must(tjCompressFromYUVPlanes(encoder, given, side, NULL, side, TJSAMP_420, &j->jpeg,
                                 &j->jpeg_len, 100, 0) == 0, tjGetErrorStr2(encoder));
    tjDestroy(encoder);
}

/* How many pixels of out aren't what the fixed kernel makes of luma and of chroma at its size. */
static size_t differing(const Job *j, const uint8_t *y, const uint16_t *cb, const uint16_t *cr) {
    size_t n = 0;
    for (size_t i = 0; i < j->side * j->side; i++) {
        const ChromaPixel p = chroma_fixed_pixel(y[i], cb[i], cr[i]);
        const uint8_t *o = j->out + i * j->size;
        n += o[0] != p.r || o[1] != p.g || o[2] != p.b;
    }
    return n;
}

static void replicate(const Job *j, const uint8_t *plane, uint16_t *out) {
    for (size_t i = 0; i < j->side * j->side; i++) {
        out[i] = plane[i / j->side / 2 * (j->side / 2) + i % j->side / 2];
    }
}

/* What the ways of libjpeg-turbo compute, on noise. */
static void look(Job *j) {
    const size_t n = j->side * j->side;
    uint16_t *chroma[2] = {some(n, 2), some(n, 2)};
    for (int k = 0; k < 2; k++) replicate(j, j->planes[k + 1], chroma[k]);
    planes_plain(j);
    const size_t replicated = differing(j, j->planes[0], chroma[0], chroma[1]);
    planes_fast(j);
    const size_t fast = differing(j, j->planes[0], chroma[0], chroma[1]);

    compress(j, j->planes);
    decompress_planes(j);
    for (int k = 0; k < 2; k++) {
        must(chroma_triangular_plane(layout(j), j->decoded[k + 1], n / 4, j->side / 2, chroma[k], n)
             == CHROMA_ACCEPTED, "chroma_triangular_plane refused");
    }
    decompress_fancy(j);
    const size_t fancy = differing(j, j->decoded[0], chroma[0], chroma[1]);
    printf("%zu by %zu, %zu bytes, pixels that differ from the fixed kernel's: on replicated "
           "chroma %zu, with TJFLAG_FASTUPSAMPLE %zu; fancy, on chroma_triangular_plane's %zu\n",
           j->side, j->side, j->size, replicated, fast, fancy);
    for (int k = 0; k < 2; k++) free(chroma[k]);
}

/* Measures, or looks where there is nothing to put times in. */
static void job(size_t side, size_t size, int turns, double *best) {
    Job j = {.side = side, .size = size, .need = chroma_scratch_need(side / 2, side)};
    uint64_t state = 88172645463325252u;
    for (int k = 0; k < 3; k++) {
        j.planes[k] = some(plane_len(&j, k), 1);
        j.decoded[k] = some(plane_len(&j, k), 1);
        noise(j.planes[k], plane_len(&j, k), &state);
    }
    j.out = some(side * side, size);
    j.scratch = some(j.need, sizeof *j.scratch);
    j.decoder = tjInitDecompress();
    if (!best) {
        look(&j);
    } else {
        for (int k = 0; k < 3; k++) memset(j.decoded[k], 128, plane_len(&j, k));
        compress(&j, j.decoded);
        measure(&j, turns, best);
    }
    tjDestroy(j.decoder);
    tjFree(j.jpeg);
    for (int k = 0; k < 3; k++) free(j.planes[k]), free(j.decoded[k]);
    free(j.out);
    free(j.scratch);
}

int main(int argc, char **argv) {
    must(argc == 3, "usage: turbo TURNS NAME");
    double best[4][WAYS];
    for (size_t k = 0; k < 4; k++) {
        const size_t side = k < 2 ? 1024 : 4096, size = 3 + k % 2;
        job(side, size, 0, NULL);
        job(side, size, atoi(argv[1]) * (k < 2 ? 4 : 1), best[k]);
    }
    printf("\n| ns a pixel, 4:2:0 | 1024 by 1024, 3 bytes | 4 bytes | 4096 by 4096, 3 bytes "
           "| 4 bytes |\n|---|---|---|---|---|\n");
    for (int k = 0; k < WAYS - 1; k++) {
        printf("| %s%s%s |", ways[k].name, k < OURS ? "" : ", ", k < OURS ? "" : argv[2]);
        for (int c = 0; c < 4; c++) printf(" %.2f |", best[c][k]);
        printf("\n");
    }
    return 0;
}
