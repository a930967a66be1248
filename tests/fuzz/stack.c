/* stack CALLS [SEED]: how many bytes of stack each call takes at most. Each kind of call is made on a stack of its
 * own, which was painted before and is looked at in the end: what is no longer painted was used. The houses are made
 * up anew time and again, most of them of 1,024 rows, so that trims take every path. The frame of the function that
 * makes the call counts with it; that of one that does nothing is shown too. */
#define _DEFAULT_SOURCE
#include <ucontext.h>

#include "houses.h"

enum { PAINT = 0x5c, STACK_BYTES = 4 * WELLCHERRY_STACK };

static struct wellcherry house;
static uint8_t data[WELLCHERRY_DATA_BYTES(WELLCHERRY_MAX_ROWS)];
static uint8_t committed[WELLCHERRY_COMMITTED_BYTES(WELLCHERRY_MAX_ROWS)];
static uint8_t value[WELLCHERRY_VALUE];
static uint32_t client, cell;

/* ---- The calls. Nothing is wanted of their results. */

static void nothing(void) {}
static void set_up(void) {
    wellcherry_set_up(&house, data, house.data_bytes, committed, house.committed_bytes, 1, 0, NULL);
}
static void begin(void) { wellcherry_begin(&house, client, NULL, NULL); }
static void read_cell(void) { wellcherry_read(&house, client, cell, NULL); }
static void write_cell(void) { wellcherry_write(&house, client, cell, value, sizeof value, NULL); }
static void advance(void) { wellcherry_advance(&house, client, NULL, NULL); }
static void abandon(void) { wellcherry_abandon(&house, client, NULL); }
static void trim(void) { wellcherry_trim(&house, NULL); }
static void free_rows(void) { wellcherry_free(&house, NULL); }

static const struct {
    const char *name;
    void (*make)(void);
} kinds[] = {{"nothing", nothing}, {"set-up", set_up},   {"begin", begin}, {"read", read_cell}, {"write", write_cell},
             {"advance", advance}, {"abandon", abandon}, {"trim", trim},   {"free", free_rows}};
enum { SET_UP = 1, KINDS = sizeof kinds / sizeof *kinds };
static struct area stacks[KINDS];

static void on_its_stack(int kind) {
    ucontext_t here, there;
    getcontext(&there);
    there.uc_stack.ss_sp = stacks[kind].low;
    there.uc_stack.ss_size = stacks[kind].room;
    there.uc_link = &here;
    makecontext(&there, kinds[kind].make, 0);
    swapcontext(&here, &there);
}

static size_t used_of(const struct area *stack) {
    size_t painted = 0;
    while (painted < stack->room && stack->low[painted] == PAINT) painted++;
    return stack->room - painted;
}

/* ---- The houses */

static void new_house(void) {
    const uint32_t rows = one_in(4) ? 1 + below(WELLCHERRY_MAX_ROWS) : WELLCHERRY_MAX_ROWS;
    house.data_bytes = WELLCHERRY_DATA_BYTES(rows);
    house.committed_bytes = WELLCHERRY_COMMITTED_BYTES(rows);
    on_its_stack(SET_UP);
    make_up(&house);
}

int main(int argc, char **argv) {
    const unsigned long long calls = argc > 1 ? strtoull(argv[1], NULL, 10) : 100000;
    const unsigned long long seed = argc > 2 ? strtoull(argv[2], NULL, 10) : 1;
    int faults = 0;
    chance = seed;
    for (int kind = 0; kind < KINDS; kind++) {
        stacks[kind] = new_area(STACK_BYTES);
        memset(stacks[kind].low, PAINT, stacks[kind].room);
    }
    for (unsigned long long at = 0; at < calls; at++) {
        if (at % 8 == 0) new_house();
        client = below(WELLCHERRY_CLIENTS);
        cell = below(one_in(2) ? WELLCHERRY_CELLS : 30);
        on_its_stack((int)below(KINDS));
    }
    for (int kind = 0; kind < KINDS; kind++) {
        const size_t used = used_of(&stacks[kind]);
        const int fault = used > WELLCHERRY_STACK;
        printf("%-8s %6zu bytes of stack%s\n", kinds[kind].name, used, fault ? ": FAULT, more than promised" : "");
        faults += fault;
    }
    printf("stack: %llu calls, %d faults, seed %llu\n", calls, faults, seed);
    return faults != 0;
}
