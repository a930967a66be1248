/* What the examples share: a store of 64 rows, and an end with a message where a call is refused that should not be. */
#ifndef HOUSE_H
#define HOUSE_H

#include <stdio.h>
#include <stdlib.h>

#include "wellcherry.h"

enum { ROWS = 64 };

static struct wellcherry house;
static uint8_t data[WELLCHERRY_DATA_BYTES(ROWS)];
static uint8_t committed[WELLCHERRY_COMMITTED_BYTES(ROWS)];

static inline void must(uint32_t refusal, const char *call) {
    if (refusal == WELLCHERRY_OK) return;
    fprintf(stderr, "%s: refused %u\n", call, (unsigned)refusal);
    exit(1);
}

static inline void open_house(void) {
    must(wellcherry_set_up(&house, data, sizeof data, committed, sizeof committed, 1, 0, NULL), "set-up");
}

/* A count as a cell holds it: its first two bytes, the low one first. */
static inline unsigned count_in(uint32_t box, uint32_t cell) {
    const uint8_t *value;
    must(wellcherry_read(&house, box, cell, &value), "read");
    return value ? value[0] + 256u * value[1] : 0;
}

static inline void put_count(uint32_t box, uint32_t cell, unsigned count) {
    uint8_t value[WELLCHERRY_VALUE] = {0};
    value[0] = (uint8_t)(count & 255u);
    value[1] = (uint8_t)(count >> 8 & 255u);
    must(wellcherry_write(&house, box, cell, value, sizeof value, NULL), "write");
}

/* All steps of a commit that has nobody to wait for. Gives the commit's number. */
static inline uint32_t commit(uint32_t box) {
    uint32_t progress, number;
    do must(wellcherry_advance(&house, box, &progress, &number), "advance");
    while (progress == WELLCHERRY_STAGE);
    if (progress != WELLCHERRY_DONE) exit(1);
    return number;
}

#endif
