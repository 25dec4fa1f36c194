/* The mean of a whole picture of 8,192 by 8,192 pixels: chroma_patch beside a plain loop in C, turn by
 * turn, thread CPU time, the best of TURNS. Usage: patch TURNS. */
#include "chroma.h"

#include <stdio.h>
#include <stdlib.h>
#include <time.h>

enum { SIDE = 8192 };

static double now(void) {
    struct timespec t;
    clock_gettime(CLOCK_THREAD_CPUTIME_ID, &t);
    return (double)t.tv_sec + (double)t.tv_nsec * 1e-9;
}

static void plain(const uint8_t *rgb, size_t w, size_t h, double mean[3]) {
    uint64_t r = 0, g = 0, b = 0;
    for (size_t i = 0; i < w * h; i++) {
        r += rgb[3 * i];
        g += rgb[3 * i + 1];
        b += rgb[3 * i + 2];
    }
    mean[0] = (double)r / (double)(w * h);
    mean[1] = (double)g / (double)(w * h);
    mean[2] = (double)b / (double)(w * h);
}

int main(int count, char **words) {
    int turns = count > 1 ? atoi(words[1]) : 15;
    size_t bytes = (size_t)3 * SIDE * SIDE;
    uint8_t *rgb = malloc(bytes);
    double ours = 1e9, other = 1e9, mean[3];
    ChromaRectangle whole = {0, 0, SIDE, SIDE};
    uint32_t state = 1;
    if (rgb == NULL) {
        fprintf(stderr, "patch: no room for the picture\n");
        return 2;
    }
    for (size_t i = 0; i < bytes; i++) {
        state = state * 1103515245u + 12345u;
        rgb[i] = (uint8_t)(state >> 24);
    }
    for (int k = 0; k < turns; k++) {
        double begin = now();
        ChromaPatch p = chroma_patch(whole, SIDE, SIDE, rgb, bytes);
        double middle = now();
        plain(rgb, SIDE, SIDE, mean);
        double end = now();
        ours = middle - begin < ours ? middle - begin : ours;
        other = end - middle < other ? end - middle : other;
        if (p.refusal != 0 || p.mean[0] != mean[0] || p.mean[1] != mean[1] || p.mean[2] != mean[2]) {
            fprintf(stderr, "patch: the means differ\n");
            return 1;
        }
    }
    printf("patch of %d by %d: %.3f ns a pixel, plain loop %.3f, %.2f times its time, the same means\n", SIDE, SIDE,
           ours * 1e9 / SIDE / SIDE, other * 1e9 / SIDE / SIDE, ours / other);
    free(rgb);
    return 0;
}
