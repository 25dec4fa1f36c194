/* A first program, C11 or C++: opens a picture, reads its rows of chroma and meets a refusal. */
#include "chroma.h"
#include <stdio.h>
#include <stdlib.h>

int main(void) {
    /* 4 by 2 pixels, 4:2:0: a cell has 2 by 2 of them, so chroma is 2 by 1. */
    const uint8_t y[8] = {10, 12, 14, 200, 10, 12, 198, 200}, cb[2] = {90, 110}, cr[2] = {200, 180};
    const ChromaLayout layout = chroma_layout(4, 2, 2, 2);
    const ChromaStrides strides = {4, 2, 2};
    const size_t need = chroma_scratch_need(layout.cw, layout.w);
    float *scratch = (float *)calloc(need, sizeof *scratch);
    float row_cb[4], row_cr[4];
    static ChromaReader none;
    if (!scratch || chroma_version() != CHROMA_VERSION) return 2;

    ChromaReply at = chroma_open(layout, y, 8, cb, 2, cr, 2, strides, scratch, need, none);
    for (size_t row = 0; row < layout.h && at.refusal == CHROMA_ACCEPTED; row++) {
        at = chroma_row(at.reader, y, 8, cb, 2, cr, 2, strides, row, scratch, need,
                        row_cb, 4, row_cr, 4);
        printf("row %zu: Cb %g to %g, Cr %g to %g\n", row, row_cb[0], row_cb[3], row_cr[0], row_cr[3]);
    }

    /* Back to row 0 without a seek. */
    at = chroma_row(at.reader, y, 8, cb, 2, cr, 2, strides, 0, scratch, need, row_cb, 4, row_cr, 4);
    printf("refused %u\n", (unsigned)at.refusal);
    free(scratch);
    return at.refusal == CHROMA_ROW_PASSED ? 0 : 1;
}
