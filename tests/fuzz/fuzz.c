/* fuzz CALLS [SEED]: random calls on random houses. Half of the houses grow from their set-up; the others are
 * damaged time and again, record, bytes, version table and lengths.
 *
 * Each object that is lent stands by itself between two forbidden pages, against the one or the other, so that a
 * byte touched outside it stops the run. (The library is not instrumented: a sanitizer sees nothing inside it.) Each
 * call is made twice: by the archive's function on a copy of the house, with a place of its own for each part of
 * the record, and by the header's call on the house. A Read is now and then lent a version table of another length.
 *
 * Checked at each call: both give the same and leave the same record and bytes; a refused call gives zeros and
 * changes nothing; an answered one changes nothing that is not its own to change; the refusal is one of the call's
 * list; what is given agrees with the record. At the end of a long run: each refusal of each list was met, and each
 * progress, on houses of both kinds. */
#define _DEFAULT_SOURCE
#include <setjmp.h>
#include <signal.h>

#include "houses.h"

enum { LONG_RUN = 1000000 };

/* ---- The calls, and what is known of each */

enum kind { SET_UP, BEGIN, READ, WRITE, ADVANCE, ABANDON, TRIM, FREE, KINDS };
enum part { HEAD = 1, CLIENTS = 2, DATA = 4, COMMITTED = 8, VERSIONS = 16 };

enum { REFUSALS = WELLCHERRY_WRONG_LENGTH + 1, PROGRESSES = WELLCHERRY_DONE + 1 };
#define REFUSAL(name) (1u << WELLCHERRY_##name)
#define NAMED (REFUSAL(OK) | REFUSAL(UNFIT) | REFUSAL(NO_CLIENT))

static const struct {
    const char *name;
    uint32_t refusals; /* its list, one bit each, and that of OK */
    uint32_t changes;  /* the parts that it may change where it is answered */
} calls_known[KINDS] = {
    {"set-up", REFUSAL(OK) | REFUSAL(BAD_SET_UP), HEAD | CLIENTS | DATA | COMMITTED | VERSIONS},
    {"begin", NAMED | REFUSAL(ALREADY_OPEN) | REFUSAL(NUMBERS_USED_UP), HEAD | CLIENTS},
    {"read", NAMED | REFUSAL(NO_CELL) | REFUSAL(NOT_OPEN) | REFUSAL(WRONG_STAGE), VERSIONS},
    {"write",
     NAMED | REFUSAL(NO_CELL) | REFUSAL(WRONG_LENGTH) | REFUSAL(NOT_OPEN) | REFUSAL(WRONG_STAGE) |
         REFUSAL(CELL_LIMIT) | REFUSAL(NO_FREE_ROW),
     HEAD | DATA},
    {"advance", NAMED | REFUSAL(NOT_OPEN), HEAD | CLIENTS | DATA | COMMITTED},
    {"abandon", NAMED | REFUSAL(NOT_OPEN) | REFUSAL(WRONG_STAGE), HEAD | CLIENTS | DATA},
    {"trim", REFUSAL(OK) | REFUSAL(UNFIT), HEAD | DATA | COMMITTED},
    {"free", REFUSAL(OK) | REFUSAL(UNFIT), 0},
};

struct call {
    enum kind kind;
    uint32_t client, cell, first, limit;
    uint8_t *value;
    size_t value_bytes;
};

/* What a call gives: a figure; number and snapshot; 1 and a row; progress and its number. */
struct given {
    uint32_t refusal;
    uint32_t first, second;
};

/* The house as the archive's functions take it. */
struct apart {
    struct wellcherry_head *head;
    uint32_t *stage, *number, *snapshot, *request, *commit;
    uint64_t *request_waits, *commit_waits;
    uint8_t *data;
    size_t data_bytes;
    uint8_t *committed;
    size_t committed_bytes;
    uint32_t *versions;
};

/* ---- The places */

enum { DATA_ROOM = 25 * WELLCHERRY_MAX_ROWS, COMMITTED_ROOM = 9 * WELLCHERRY_MAX_ROWS };

static struct area house_area, data_area, committed_area, value_area, first_area, second_area, pointer_area;
static struct area part_areas[8], data_copy_area, committed_copy_area, versions_area;

static struct wellcherry *house;
static struct apart copy;
/* what the call found */
static struct wellcherry before;
static uint8_t data_before[DATA_ROOM], committed_before[COMMITTED_ROOM], value_before[2 * WELLCHERRY_VALUE];

static void make_areas(void) {
    house_area = new_area(sizeof *house);
    data_area = new_area(DATA_ROOM);
    data_copy_area = new_area(DATA_ROOM);
    committed_area = new_area(COMMITTED_ROOM);
    committed_copy_area = new_area(COMMITTED_ROOM);
    versions_area = new_area(2 * sizeof house->versions);
    value_area = new_area(sizeof value_before);
    first_area = new_area(sizeof(uint32_t));
    second_area = new_area(sizeof(uint32_t));
    pointer_area = new_area(sizeof(uint8_t *));
    for (int i = 0; i < 8; i++) part_areas[i] = new_area(sizeof before.record.commit_waits);
    house = place(&house_area, sizeof *house, 0);
}

/* a buffer of that length; none at all may be NULL */
static uint8_t *buffer(const struct area *area, size_t bytes) {
    const int high = one_in(2);
    return bytes == 0 && one_in(2) ? NULL : place(area, bytes, high);
}

static void copy_bytes(void *to, const void *from, size_t bytes) {
    if (bytes) memcpy(to, from, bytes);
}

static int same_bytes(const void *one, const void *other, size_t bytes) {
    return bytes == 0 || memcmp(one, other, bytes) == 0;
}

static int all_zero(const void *at, size_t bytes) {
    const uint8_t *byte = at;
    while (bytes && *byte == 0) byte++, bytes--;
    return bytes == 0;
}

/* ---- Counts, and the end */

static uint64_t calls, seed, at; /* `at`: the call that is made now, counted from 1 */
static struct call call;
static int damaged; /* whether the house is; else it grows from its set-up */
/* the calls on houses that grow, and on those that are damaged */
static uint64_t met[2][KINDS][REFUSALS], progress_met[2][PROGRESSES], found_met[2][2], dropped_met[2][2];
static uint64_t noted_met[2][2], other_tables_met[2];

typedef unsigned long long wide; /* for printf */

static void finish(int faults) {
    printf("fuzz: %llu calls, %d faults, seed %llu\n", (wide)at, faults, (wide)seed);
    exit(faults != 0);
}

static void fault(const char *what) {
    printf("FAULT at call %llu, %s on a house that %s: %s\n", (wide)at, calls_known[call.kind].name,
           damaged ? "is damaged" : "grows", what);
    finish(1);
}

static sigjmp_buf outside;
static void touched(int signal) {
    (void)signal;
    siglongjmp(outside, 1);
}

/* ---- The two ways of a call */

/* Where a call of the header puts its results, each in an exact place; NULL for one that is not wanted. */
struct results {
    uint32_t *first, *second;
    const uint8_t **value;
};

static uint32_t by_header(const struct results *to) {
    switch (call.kind) {
    case SET_UP: return wellcherry_set_up(house, WELLCHERRY_BUFFERS(house), call.first, call.limit, to->first);
    case BEGIN: return wellcherry_begin(house, call.client, to->first, to->second);
    case READ: return wellcherry_read(house, call.client, call.cell, to->value);
    case WRITE: return wellcherry_write(house, call.client, call.cell, call.value, call.value_bytes, to->first);
    case ADVANCE: return wellcherry_advance(house, call.client, to->first, to->second);
    case ABANDON: return wellcherry_abandon(house, call.client, to->first);
    case TRIM: return wellcherry_trim(house, to->first);
    default: return wellcherry_free(house, to->first);
    }
}

static struct given figure(struct wellcherry_figure_given given) {
    return (struct given){given.refusal, given.figure, 0};
}

/* clang-format off */
#define RECORD_APART(c) \
    (c)->head, (c)->stage, (c)->number, (c)->snapshot, (c)->request, (c)->commit, (c)->request_waits, (c)->commit_waits
/* clang-format on */

/* lent a version table of so many entries */
static struct wellcherry_read_given read_by_parts(size_t version_count) {
    struct apart *const c = &copy;
    return wellcherry_call_read(c->head, c->stage, c->number, c->snapshot, WELLCHERRY_BUFFERS(c), c->versions,
                                version_count, call.client, call.cell);
}

static struct given by_parts(void) {
    struct wellcherry_begin_given begun;
    struct wellcherry_read_given read;
    struct wellcherry_advance_given advanced;
    struct apart *const c = &copy;
    switch (call.kind) {
    case SET_UP:
        return figure(wellcherry_call_set_up(RECORD_APART(c), WELLCHERRY_BUFFERS(c), c->versions, call.first, call.limit));
    case BEGIN:
        begun = wellcherry_call_begin(RECORD_APART(c), WELLCHERRY_BUFFERS(c), call.client);
        return (struct given){begun.refusal, begun.number, begun.snapshot};
    case READ:
        read = read_by_parts(WELLCHERRY_CELLS);
        return (struct given){read.refusal, read.found, (uint32_t)read.row};
    case WRITE:
        return figure(wellcherry_call_write(c->head, c->stage, c->number, WELLCHERRY_BUFFERS(c), call.client,
                                            call.cell, call.value, call.value_bytes));
    case ADVANCE:
        advanced = wellcherry_call_advance(RECORD_APART(c), WELLCHERRY_BUFFERS(c), call.client);
        return (struct given){advanced.refusal, advanced.progress, advanced.number};
    case ABANDON: return figure(wellcherry_call_abandon(RECORD_APART(c), WELLCHERRY_BUFFERS(c), call.client));
    case TRIM:
        return figure(wellcherry_call_trim(c->head, c->stage, c->number, c->snapshot, WELLCHERRY_BUFFERS(c)));
    default: return figure(wellcherry_call_free(c->head, c->stage, WELLCHERRY_BUFFERS(c)));
    }
}

/* a part of the record in a place of its own, against either page */
static void *part(int which, const void *from, size_t bytes) {
    return memcpy(place(&part_areas[which], bytes, one_in(2)), from, bytes);
}

/* the house in other places */
static void copy_house(void) {
    const struct wellcherry_record *const r = &house->record;
    copy.head = part(7, &r->head, sizeof r->head);
    copy.stage = part(0, r->stage, sizeof r->stage);
    copy.number = part(1, r->number, sizeof r->number);
    copy.snapshot = part(2, r->snapshot, sizeof r->snapshot);
    copy.request = part(3, r->request, sizeof r->request);
    copy.commit = part(4, r->commit, sizeof r->commit);
    copy.request_waits = part(5, r->request_waits, sizeof r->request_waits);
    copy.commit_waits = part(6, r->commit_waits, sizeof r->commit_waits);
    copy.data_bytes = house->data_bytes;
    copy.data = buffer(&data_copy_area, copy.data_bytes);
    copy_bytes(copy.data, house->data, copy.data_bytes);
    copy.committed_bytes = house->committed_bytes;
    copy.committed = buffer(&committed_copy_area, copy.committed_bytes);
    copy_bytes(copy.committed, house->committed, copy.committed_bytes);
    copy.versions = place(&versions_area, sizeof house->versions, one_in(2));
    copy_bytes(copy.versions, house->versions, sizeof house->versions);
}

static void remember(void) {
    before = *house;
    copy_bytes(data_before, house->data, house->data_bytes);
    copy_bytes(committed_before, house->committed, house->committed_bytes);
    copy_bytes(value_before, call.value, call.value_bytes);
}

/* ---- The checks */

static int same_clients(const struct wellcherry_record *one, const struct wellcherry_record *other) {
    return same_bytes(one->stage, other->stage, sizeof *one - offsetof(struct wellcherry_record, stage));
}

/* the house, after a call, against what it was: the parts that the call may not change */
static void check_kept(uint32_t may_change) {
    const struct wellcherry_record *const r = &house->record;
    if (!(may_change & HEAD) && !same_bytes(&r->head, &before.record.head, sizeof r->head))
        fault("the head of the record changed");
    if (!(may_change & CLIENTS) && !same_clients(r, &before.record)) fault("the record's clients changed");
    if (!(may_change & DATA) && !same_bytes(house->data, data_before, before.data_bytes))
        fault("the data buffer changed");
    if (!(may_change & COMMITTED) && !same_bytes(house->committed, committed_before, before.committed_bytes))
        fault("the committed buffer changed");
    if (!(may_change & VERSIONS) && !same_bytes(house->versions, before.versions, sizeof house->versions))
        fault("the version table changed");
    if (!same_bytes(call.value, value_before, call.value_bytes)) fault("the value changed");
    if (house->data != before.data || house->data_bytes != before.data_bytes ||
        house->committed != before.committed || house->committed_bytes != before.committed_bytes)
        fault("the buffers are others");
}

/* the house against its copy, on which the same call was made */
static void check_same(void) {
    const struct wellcherry_record *const r = &house->record;
    if (!same_bytes(&r->head, copy.head, sizeof r->head) ||
        !same_bytes(r->stage, copy.stage, sizeof r->stage) || !same_bytes(r->number, copy.number, sizeof r->number) ||
        !same_bytes(r->snapshot, copy.snapshot, sizeof r->snapshot) ||
        !same_bytes(r->request, copy.request, sizeof r->request) ||
        !same_bytes(r->commit, copy.commit, sizeof r->commit) ||
        !same_bytes(r->request_waits, copy.request_waits, sizeof r->request_waits) ||
        !same_bytes(r->commit_waits, copy.commit_waits, sizeof r->commit_waits))
        fault("the same call leaves another record on a copy");
    if (!same_bytes(house->data, copy.data, copy.data_bytes)) fault("the same call leaves other data on a copy");
    if (!same_bytes(house->committed, copy.committed, copy.committed_bytes))
        fault("the same call leaves other committed rows on a copy");
    if (!same_bytes(house->versions, copy.versions, sizeof house->versions))
        fault("the same call leaves another version table on a copy");
}

static uint32_t ones(uint64_t set) {
    uint32_t count = 0;
    for (; set; set &= set - 1) count++;
    return count;
}

static int set_up_agrees(const struct given *given) {
    const uint32_t rows = (uint32_t)(house->data_bytes / WELLCHERRY_DATA_ROW);
    struct wellcherry_record fresh;
    memset(&fresh, 0, sizeof fresh);
    fresh.head.rows = rows;
    fresh.head.limit = call.limit ? call.limit : 8;
    fresh.head.issued = call.first - 1;
    return given->first == rows && same_bytes(&house->record, &fresh, sizeof fresh) &&
           all_zero(house->data, house->data_bytes) && all_zero(house->committed, house->committed_bytes) &&
           all_zero(house->versions, sizeof house->versions);
}

static int begin_agrees(const struct given *given) {
    const struct wellcherry_record *const r = &house->record;
    const uint32_t k = call.client;
    return given->first == before.record.head.issued + 1 && given->first == r->head.issued &&
           given->first == r->number[k] && given->second == r->head.last && given->second == r->snapshot[k] &&
           !(r->stage[k] | r->request[k] | r->commit[k]) && !(r->request_waits[k] | r->commit_waits[k]);
}

/* the version table, after a read: all as it was, or the cell's entry higher, up to the snapshot */
static int versions_agree(void) {
    const uint32_t now = house->versions[call.cell], then = before.versions[call.cell];
    before.versions[call.cell] = now;
    return same_bytes(house->versions, before.versions, sizeof before.versions) &&
           (now == then || (now > then && now <= house->record.snapshot[call.client]));
}

/* a row in use with the cell that was asked for, or nothing; the layout is the papers', not the header's */
static int read_agrees(const struct given *given) {
    const uint8_t *row;
    noted_met[damaged][house->versions[call.cell] != before.versions[call.cell]]++;
    if (!versions_agree()) return 0;
    if (!given->first) return given->second == 0;
    if (given->first != 1 || given->second >= house->record.head.used) return 0;
    row = house->data + (size_t)given->second * 24;
    return call.cell == (uint32_t)(row[4] | row[5] << 8);
}

static int advance_agrees(const struct given *given) {
    const struct wellcherry_record *const r = &house->record;
    const uint32_t k = call.client, stage = before.record.stage[k];
    switch (given->first) {
    case WELLCHERRY_STAGE: return given->second == stage + 1 && r->stage[k] == stage + 1;
    case WELLCHERRY_WAITING:
        return given->second > 0 && r->stage[k] == stage &&
               ((stage == 4 && given->second == ones(r->request_waits[k])) ||
                (stage == 10 && given->second == ones(r->commit_waits[k])));
    case WELLCHERRY_CONFLICT: return stage == 5 && r->number[k] == 0 && given->second > before.record.snapshot[k];
    case WELLCHERRY_DONE:
        return r->number[k] == 0 && given->second == (stage ? before.record.commit : before.record.snapshot)[k];
    default: return 0;
    }
}

/* whether what an answered call gives agrees with what it leaves */
static int agrees(const struct given *given) {
    const struct wellcherry_head *const now = &house->record.head, *const then = &before.record.head;
    switch (call.kind) {
    case SET_UP: return set_up_agrees(given);
    case BEGIN: return begin_agrees(given);
    case READ: return read_agrees(given);
    case WRITE: return given->first == now->rows - now->used && now->used - then->used <= 1;
    case ADVANCE: return advance_agrees(given);
    case ABANDON: return given->first == now->rows - now->used && house->record.number[call.client] == 0;
    case TRIM: return given->first == then->used - now->used && now->entries <= then->entries;
    default: return given->first == now->rows - now->used;
    }
}

static void check(const struct given *given, int other_lengths) {
    const uint32_t refusal = given->refusal;
    if (refusal >= REFUSALS || !(calls_known[call.kind].refusals >> refusal & 1))
        fault("a refusal that is not in the call's list");
    if (call.kind != SET_UP && !damaged &&
        (refusal == WELLCHERRY_UNFIT) != (other_lengths || before.record.head.rows == 0))
        fault("unfit or not, against what was lent");
    if (refusal && (given->first || given->second)) fault("refused, and gives something");
    if (refusal == WELLCHERRY_BAD_SET_UP) {
        if (!all_zero(&house->record, sizeof house->record)) fault("refused, and the record is not zero");
        if (!all_zero(house->versions, sizeof house->versions)) fault("refused, and the version table is not zero");
        check_kept(HEAD | CLIENTS | VERSIONS);
    } else {
        check_kept(refusal ? 0 : calls_known[call.kind].changes);
    }
    check_same();
    if (!refusal && !agrees(given)) fault("what is given does not agree with the record");
}

static void count(const struct given *given) {
    met[damaged][call.kind][given->refusal]++;
    if (given->refusal) return;
    if (call.kind == ADVANCE) progress_met[damaged][given->first]++;
    if (call.kind == READ) found_met[damaged][given->first]++;
    if (call.kind == TRIM) dropped_met[damaged][given->first != 0]++;
}

/* ---- One call, both ways */

/* a place for a result, with something in it; now and then none */
static void *exact(const struct area *area, size_t bytes) {
    void *const result = place(area, bytes, one_in(2));
    memset(result, 0xa5, bytes);
    return one_in(10) ? NULL : result;
}

/* the row in which a value stands, from the pointer that was given */
static uint32_t row_of(const uint8_t *value) {
    const uintptr_t offset = (uintptr_t)value - (uintptr_t)house->data;
    if (offset >= house->data_bytes || offset % 24 != 8) fault("a value that does not stand in a data row");
    return (uint32_t)(offset / 24);
}

/* what the header's call has given; what was not wanted is as the other way had it */
static struct given collect(uint32_t refusal, const struct results *from, struct given same) {
    struct given given = same;
    given.refusal = refusal;
    if (call.kind == READ) {
        if (!from->value) return given;
        given.first = *from->value != NULL;
        given.second = *from->value ? row_of(*from->value) : 0;
        return given;
    }
    if (from->first) given.first = *from->first;
    if (from->second && (call.kind == BEGIN || call.kind == ADVANCE)) given.second = *from->second;
    return given;
}

/* a Read that is lent a version table of another length: unfit, and nothing changes */
static void read_other_table(void) {
    const size_t count = one_in(2) ? below(WELLCHERRY_CELLS) : WELLCHERRY_CELLS + 1 + below(WELLCHERRY_CELLS);
    struct wellcherry_read_given given;
    copy_house();
    copy.versions = place(&versions_area, count * sizeof *copy.versions, one_in(2));
    for (size_t i = 0; i < count; i++) copy.versions[i] = (uint32_t)i;
    given = read_by_parts(count);
    if (given.refusal != WELLCHERRY_UNFIT || given.found || given.row) fault("a version table of another length is read");
    for (size_t i = 0; i < count; i++)
        if (copy.versions[i] != i) fault("a version table of another length changed");
    other_tables_met[damaged]++;
}

static void make_call(int other_lengths) {
    struct results to;
    struct given given, same;
    to.first = exact(&first_area, sizeof *to.first);
    to.second = exact(&second_area, sizeof *to.second);
    to.value = exact(&pointer_area, sizeof *to.value);
    if (call.kind == READ && one_in(20)) read_other_table();
    remember();
    copy_house();
    same = by_parts();
    given = collect(by_header(&to), &to, same);
    if (given.refusal != same.refusal || given.first != same.first || given.second != same.second)
        fault("the same call gives something else on a copy");
    check(&given, other_lengths);
    count(&given);
}

/* ---- What is called, and on which house */

static uint32_t calls_left;     /* on this house */
static uint32_t clients, cells; /* the ones in use in this house: those below */

/* a set-up of a house of some size, as it should be or with something wrong */
static void choose_set_up(void) {
    const uint32_t rows = one_in(50) ? 1 + below(WELLCHERRY_MAX_ROWS) : 1 + below(one_in(4) ? 12 : 120);
    const struct wellcherry old = *house;
    house = place(&house_area, sizeof *house, one_in(2));
    *house = old;
    if (one_in(2)) memset(house->versions, 0xa5, sizeof house->versions);
    house->data_bytes = WELLCHERRY_DATA_BYTES(rows);
    house->committed_bytes = WELLCHERRY_COMMITTED_BYTES(rows);
    if (one_in(20)) house->data_bytes = below(one_in(2) ? 80 : DATA_ROOM);
    if (one_in(20)) house->committed_bytes = below(one_in(2) ? 80 : COMMITTED_ROOM);
    if (one_in(40)) { /* one row too many */
        house->data_bytes = WELLCHERRY_DATA_BYTES(WELLCHERRY_MAX_ROWS + 1);
        house->committed_bytes = WELLCHERRY_COMMITTED_BYTES(WELLCHERRY_MAX_ROWS + 1);
    }
    house->data = buffer(&data_area, house->data_bytes);
    house->committed = buffer(&committed_area, house->committed_bytes);
    if (house->data_bytes) memset(house->data, 0xa5, house->data_bytes);
    if (house->committed_bytes) memset(house->committed, 0xa5, house->committed_bytes);
    damaged = one_in(2);
    clients = 1 + below(one_in(4) ? WELLCHERRY_CLIENTS : 6);
    cells = 1 + below(one_in(4) ? WELLCHERRY_CELLS : 1 + rows / 4); /* few, so that trims find something to drop */
    call.kind = SET_UP;
    call.first = one_in(10) ? odd_number() : 1;
    call.limit = one_in(3) ? 0 : below(70);
}

/* any kind, but most often one that takes the client's transaction further */
static enum kind choose_kind(uint32_t client) {
    const struct wellcherry_record *const r = &house->record;
    if (client >= WELLCHERRY_CLIENTS || one_in(4)) return (enum kind)(BEGIN + below(KINDS - BEGIN));
    if (r->number[client] == 0) return BEGIN;
    if (r->head.used == r->head.rows && one_in(8)) return TRIM;
    return r->stage[client] == 0 && !one_in(3) ? WRITE : ADVANCE;
}

static void choose_call(void) {
    call.client = one_in(40) ? WELLCHERRY_CLIENTS | odd_number() : below(clients);
    call.kind = choose_kind(call.client);
    call.cell = one_in(40) ? odd_number() : below(cells);
    call.value_bytes = one_in(30) ? below(sizeof value_before) : WELLCHERRY_VALUE;
    call.value = buffer(&value_area, call.value_bytes);
    for (size_t i = 0; i < call.value_bytes; i++) call.value[i] = (uint8_t)draw();
}

static void damage_record(void) {
    struct wellcherry_record *const r = &house->record;
    uint8_t *const bytes = (uint8_t *)r;
    const uint32_t words = sizeof *r / sizeof(uint32_t);
    for (uint32_t left = 1 + below(one_in(4) ? words : 4); left; left--) {
        const uint32_t word = one_in(3) ? below(8) : below(words), number = odd_number();
        memcpy(bytes + word * sizeof number, &number, sizeof number);
    }
    if (one_in(3)) return;
    /* most often it is fit all the same */
    r->head.rows = (uint32_t)(house->data_bytes / WELLCHERRY_DATA_ROW);
    r->head.used = below(r->head.rows + 1);
    r->head.entries = below(r->head.rows + 1);
    for (int client = 0; client < WELLCHERRY_CLIENTS; client++) r->stage[client] %= 14;
}

static void damage_bytes(uint8_t *bytes, size_t length) {
    if (length == 0) return;
    for (uint32_t left = 1 + below(one_in(4) ? (uint32_t)length : 6); left; left--)
        bytes[below((uint32_t)length)] = (uint8_t)(one_in(2) ? below(4) : draw());
}

static void damage(void) {
    if (one_in(60)) damage_record();
    if (one_in(60)) damage_bytes(house->data, house->data_bytes);
    if (one_in(60)) damage_bytes(house->committed, house->committed_bytes);
    if (one_in(100)) make_up(house);
    if (one_in(60)) {
        const int all = one_in(4);
        for (uint32_t cell = 0; cell < WELLCHERRY_CELLS; cell++)
            if (all || one_in(200)) house->versions[cell] = odd_number();
    }
}

/* another length for this call alone */
static int lend_other_length(const struct area *area, uint8_t **bytes, size_t *length) {
    const size_t own = *length;
    *length = one_in(2) ? below(200) : (one_in(2) ? own + 1 + below(24) : own - (own ? 1 : 0));
    if (*length > area->room) *length = 0;
    *bytes = buffer(area, *length);
    return *length != own;
}

static void one_call(void) {
    struct wellcherry own;
    int other_lengths = 0;
    call.value_bytes = 0;
    if (calls_left == 0) {
        choose_set_up();
        make_call(0);
        calls_left = below(house->record.head.rows ? 2000 : 20);
        return;
    }
    calls_left--;
    if (damaged) damage();
    choose_call();
    own = *house;
    if (one_in(100)) other_lengths |= lend_other_length(&data_area, &house->data, &house->data_bytes);
    if (one_in(100)) other_lengths |= lend_other_length(&committed_area, &house->committed, &house->committed_bytes);
    make_call(other_lengths);
    house->data = own.data;
    house->data_bytes = own.data_bytes;
    house->committed = own.committed;
    house->committed_bytes = own.committed_bytes;
}

/* ---- The run */

static int missing; /* how many kinds of answers were never met */

static void print_count(const char *name, uint64_t count, int width) {
    if (count == 0) missing++;
    printf("%s%*llu", name, width, (wide)count);
}

static void print_table(int which) {
    printf("\n%-20s answered  refused", which ? "damaged" : "grown from set-up");
    for (int refusal = 1; refusal < REFUSALS; refusal++)
        if (refusal != 11) printf("%9d", refusal);
    for (int kind = 0; kind < KINDS; kind++) {
        printf("\n%-20s", calls_known[kind].name);
        for (int refusal = 0; refusal < REFUSALS; refusal++) {
            if (refusal == 1) printf("%9s", "");
            if (refusal == 11) continue;
            if (calls_known[kind].refusals >> refusal & 1)
                print_count("", met[which][kind][refusal], 9);
            else
                printf("%9s", ".");
        }
    }
    print_count("\nadvance: stage ", progress_met[which][WELLCHERRY_STAGE], 1);
    print_count(", waiting ", progress_met[which][WELLCHERRY_WAITING], 1);
    print_count(", conflict ", progress_met[which][WELLCHERRY_CONFLICT], 1);
    print_count(", done ", progress_met[which][WELLCHERRY_DONE], 1);
    print_count("; read: value ", found_met[which][1], 1);
    print_count(", unwritten ", found_met[which][0], 1);
    print_count(", noted ", noted_met[which][1], 1);
    print_count(", not ", noted_met[which][0], 1);
    print_count(", other tables ", other_tables_met[which], 1);
    print_count("; trim: some ", dropped_met[which][1], 1);
    print_count(", none ", dropped_met[which][0], 1);
    printf("\n");
}

int main(int argc, char **argv) {
    struct sigaction action;
    calls = argc > 1 ? strtoull(argv[1], NULL, 10) : LONG_RUN;
    seed = chance = argc > 2 ? strtoull(argv[2], NULL, 10) : 1;
    memset(&action, 0, sizeof action);
    action.sa_handler = touched;
    sigaction(SIGSEGV, &action, NULL);
    sigaction(SIGBUS, &action, NULL);
    make_areas();
    if (sigsetjmp(outside, 1)) fault("a byte was touched outside what is lent");
    for (at = 1; at <= calls; at++) one_call();
    at = calls;
    print_table(0);
    print_table(1);
    if (calls >= LONG_RUN && missing) printf("FAULT: %d kinds of answers were never met\n", missing);
    finish(calls >= LONG_RUN ? missing : 0);
}
