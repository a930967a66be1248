/* What fuzz.c and stack.c share: chance, memory between forbidden pages, and made-up houses. */
#ifndef HOUSES_H
#define HOUSES_H

#include <stdio.h>
#include <stdlib.h>
#include <string.h>
#include <sys/mman.h>
#include <unistd.h>

#include "wellcherry.h"

/* ---- Chance: the same numbers from the same seed (splitmix64) */

static uint64_t chance;

static inline uint32_t draw(void) {
    uint64_t z = (chance += 0x9e3779b97f4a7c15u);
    z = (z ^ (z >> 30)) * 0xbf58476d1ce4e5b9u;
    z = (z ^ (z >> 27)) * 0x94d049bb133111ebu;
    return (uint32_t)((z ^ (z >> 31)) >> 32);
}

static inline uint32_t below(uint32_t bound) { return (uint32_t)(((uint64_t)draw() * bound) >> 32); }

static inline int one_in(uint32_t times) { return below(times) == 0; }

/* small numbers and edges above all */
static inline uint32_t odd_number(void) {
    switch (below(6)) {
    case 0: return draw();
    case 1: return UINT32_MAX - below(3);
    case 2: return 1u << below(32);
    case 3: return below(70);
    default: return below(8);
    }
}

/* ---- Areas: memory between two pages that may not be touched */

struct area {
    uint8_t *low;
    size_t room;
};

/* an area of so many bytes, or some more to make whole pages */
static inline struct area new_area(size_t bytes) {
    const size_t page = (size_t)sysconf(_SC_PAGESIZE);
    const size_t room = (bytes + page - 1) / page * page;
    uint8_t *all = mmap(NULL, room + 2 * page, PROT_NONE, MAP_PRIVATE | MAP_ANONYMOUS, -1, 0);
    if (all == MAP_FAILED || mprotect(all + page, room, PROT_READ | PROT_WRITE)) {
        perror("no memory between forbidden pages");
        exit(2);
    }
    return (struct area){all + page, room};
}

/* so many bytes against the page above the area, or against the one below it */
static inline void *place(const struct area *area, size_t bytes, int high) {
    return area->low + (high ? area->room - bytes : 0);
}

/* ---- Made-up houses */

static inline void put_number(uint8_t *at, uint32_t number, int bytes) {
    for (int i = 0; i < bytes; i++) at[i] = (uint8_t)(number >> 8 * i);
}

/* Rows in all of both buffers. In orderly ones, commit numbers and tags rise, and no tag has a cell twice: the bytes
 * that a trim goes through from the newest commit on. */
static inline void make_up_rows(uint8_t *data, uint8_t *committed, uint32_t rows, int orderly) {
    const uint32_t each = 1 + below(4), step = one_in(2) ? 1 : 1u << below(20);
    const uint32_t cells = each + below(one_in(4) ? 1024 : 30);
    for (uint32_t row = 0; row < rows; row++, data += WELLCHERRY_DATA_ROW, committed += WELLCHERRY_COMMITTED_ROW) {
        const uint32_t turn = row / each, first = turn * 40503u % cells;
        put_number(data, orderly ? 1 + turn * step : below(rows), 4);
        put_number(data + 4, orderly ? (first + row % each) % cells : below(cells), 2);
        put_number(data + 6, 0, 2);
        put_number(data + WELLCHERRY_VALUE_AT, draw(), 4);
        put_number(committed, orderly ? 1 + 2 * row : below(2 * rows), 4);
        put_number(committed + 4, orderly ? 1 + row * step : below(rows), 4);
    }
}

/* Any rows and any clients in a house that has its buffers; fit, where these are of one set-up. */
static inline void make_up(struct wellcherry *house) {
    struct wellcherry_record *const record = &house->record;
    const uint32_t rows = (uint32_t)(house->data_bytes / WELLCHERRY_DATA_ROW);
    const uint32_t open = below(one_in(2) ? 4 : WELLCHERRY_CLIENTS + 1);
    if (rows == 0 || house->committed_bytes < WELLCHERRY_COMMITTED_BYTES(rows)) return;
    make_up_rows(house->data, house->committed, rows, one_in(2));
    memset(record, 0, sizeof *record);
    for (uint32_t cell = 0; cell < WELLCHERRY_CELLS; cell++) house->versions[cell] = one_in(2) ? 0 : below(2 * rows + 2);
    record->head.rows = rows;
    record->head.limit = below(66);
    record->head.issued = rows;
    record->head.used = one_in(2) ? rows : below(rows + 1);
    record->head.entries = one_in(2) ? rows : below(rows + 1);
    record->head.last = below(2 * rows + 2);
    for (uint32_t client = 0; client < open; client++) {
        record->stage[client] = below(14);
        record->number[client] = below(rows + 1);
        record->snapshot[client] = below(2 * rows + 2);
        record->request[client] = below(16);
        record->commit[client] = below(16);
        record->request_waits[client] = (uint64_t)draw() << 32 | draw();
        record->commit_waits[client] = (uint64_t)draw() << 32 | draw();
    }
}

#endif
