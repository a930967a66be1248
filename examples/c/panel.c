/* The figure in the corner of the front panel: how many rows are free. The panel reads it before anything is set up,
 * while boxes write, when one gives up, and after a trim. */
#include "house.h"

static uint32_t show(const char *when) {
    uint32_t rows;
    const uint32_t refusal = wellcherry_free(&house, &rows);
    if (refusal == WELLCHERRY_OK) printf("%-32s %u free\n", when, (unsigned)rows);
    else printf("%-32s --  (refused %u)\n", when, (unsigned)refusal);
    return rows;
}

int main(void) {
    (void)show("before the set-up");
    open_house();
    if (show("after it") != ROWS) return 1;
    must(wellcherry_begin(&house, 3, NULL, NULL), "begin");
    for (uint32_t cell = 0; cell < 4; cell++) put_count(3, cell, cell + 1);
    if (show("box 3 has written four cells") != ROWS - 4) return 1;
    (void)commit(3);
    must(wellcherry_begin(&house, 4, NULL, NULL), "begin");
    put_count(4, 0, 9);
    if (show("box 4 has written one of them") != ROWS - 5) return 1;
    must(wellcherry_abandon(&house, 4, NULL), "abandon");
    if (show("box 4 has given up") != ROWS - 4) return 1;
    must(wellcherry_begin(&house, 4, NULL, NULL), "begin");
    put_count(4, 0, 9);
    (void)commit(4);
    must(wellcherry_trim(&house, NULL), "trim");
    return show("it has committed, and a trim") == ROWS - 4 ? 0 : 1;
}
