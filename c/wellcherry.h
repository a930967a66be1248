/* wellcherry.h: the house store, for C99 and C++. Link libwellcherry.a.
 *
 * A store of 1,024 cells of 16 bytes, shared by 64 clients with snapshot isolation: a transaction reads the cells as
 * they were when it began, with its own writes, and its writes become visible together when its commit is made, or
 * never. Of two transactions that wrote one cell and ran at the same time, one commits and the other is told of a
 * conflict. A commit is made in steps, one a call, so that no call waits: each answers at once.
 *
 *     struct wellcherry house;
 *     static uint8_t data[WELLCHERRY_DATA_BYTES(64)], committed[WELLCHERRY_COMMITTED_BYTES(64)];
 *     uint32_t progress, number;
 *
 *     wellcherry_set_up(&house, data, sizeof data, committed, sizeof committed, 1, 0, NULL);
 *     wellcherry_begin(&house, 5, NULL, NULL);
 *     wellcherry_write(&house, 5, 7, value, WELLCHERRY_VALUE, NULL);
 *     do wellcherry_advance(&house, 5, &progress, &number);
 *     while (progress == WELLCHERRY_STAGE);
 *     (at WAITING let the others advance, then go on; at DONE it is committed; at CONFLICT begin again)
 *
 * PROVED. Every call is proved to end, to touch nothing outside what it is lent, and to leave in the record, in the
 * buffers and in its results exactly what its definition says, for every record, every byte of the buffers, every
 * length and every argument. No record is too damaged to be passed. What is not proved is what stands in this file:
 * it only takes the record apart and puts the answers where they are wanted.
 *
 * WHO OWNS WHAT. The library allocates nothing, keeps nothing between calls and calls nothing but memcpy and memset.
 * All memory is the program's: the record, the version table and two buffers, and together they are the whole store.
 * They may be copied, moved, saved and read back as bytes.
 *     data buffer        24 bytes a row: tag (4), cell (2), zero (2), value (16)
 *     committed buffer    8 bytes a row: commit number (4), tag (4)
 *     version table       an entry (uint32_t) for each of the 1,024 cells: the newest commit that reads have found
 * Numbers in the buffers are little-endian. Both have the same number of rows, 1 to 1,024.
 *
 * WHAT MAY NOT OVERLAP. The record, the version table, the two buffers, a value that is passed and the results are
 * distinct objects: no two of them share a byte. A length is that of the object behind its pointer; a pointer with length 0 may be NULL.
 *
 * THREADS. There are no threads in the library, and no locks: one caller at a time for each record. Calls on
 * different records with different buffers need no care. The library is reentrant and may be called from a signal
 * handler under the same rule.
 *
 * STACK. No call needs more than WELLCHERRY_STACK bytes.
 *
 * ANSWERS. Each call returns WELLCHERRY_OK where it is answered, and else the number of its refusal. A refused call
 * changes no byte of the record, of a buffer or of the version table, and gives 0 for whatever it hands back (set-up's
 * own rule stands with it). Where more than one refusal would apply, the first in the order of the call's list is given. A pointer
 * to a result may be NULL where the result is not wanted. */
#ifndef WELLCHERRY_H
#define WELLCHERRY_H

#include <stddef.h>
#include <stdint.h>

#ifdef __cplusplus
extern "C" {
#endif

#define WELLCHERRY_VERSION "0.2.0"

#define WELLCHERRY_CLIENTS 64
#define WELLCHERRY_CELLS 1024
#define WELLCHERRY_MAX_ROWS 1024
#define WELLCHERRY_MAX_LIMIT 64
#define WELLCHERRY_VALUE 16
#define WELLCHERRY_DATA_ROW 24
#define WELLCHERRY_COMMITTED_ROW 8
/* where in its data row a value stands */
#define WELLCHERRY_VALUE_AT 8
#define WELLCHERRY_STACK 65536

/* the bytes of the two buffers of a store of so many rows */
#define WELLCHERRY_DATA_BYTES(rows) ((size_t)(rows) * WELLCHERRY_DATA_ROW)
#define WELLCHERRY_COMMITTED_BYTES(rows) ((size_t)(rows) * WELLCHERRY_COMMITTED_ROW)

/* Why a call is refused. 11 is no longer used. */
enum wellcherry_refusal {
    WELLCHERRY_OK = 0,
    /* set-up: the data buffer is not 24 bytes for each of 1 to 1,024 rows, the committed buffer not 8 for each of
     * as many, the first number is 0 or the limit above 64 */
    WELLCHERRY_BAD_SET_UP = 1,
    /* the record and the buffers are not those of one set-up: a length is another, a row count is above the rows,
     * the rows are not 1 to 1,024, or a stage is above 13. Read also where the version table has not 1,024 entries;
     * Advance also where request or commit numbers are used up or the committed buffer is full, which calls alone do
     * not lead to */
    WELLCHERRY_UNFIT = 2,
    /* the client is above 63 */
    WELLCHERRY_NO_CLIENT = 3,
    /* the cell is above 1,023 */
    WELLCHERRY_NO_CELL = 4,
    /* begin: the client has an open transaction */
    WELLCHERRY_ALREADY_OPEN = 5,
    /* the client has no open transaction */
    WELLCHERRY_NOT_OPEN = 6,
    /* the stage of the client's commit does not allow the call */
    WELLCHERRY_WRONG_STAGE = 7,
    /* begin: the last transaction number, 4,294,967,295, has been given out */
    WELLCHERRY_NUMBERS_USED_UP = 8,
    /* write: the transaction has written as many cells as the limit of the set-up allows */
    WELLCHERRY_CELL_LIMIT = 9,
    /* write: every data row is in use. Trim, or let others finish */
    WELLCHERRY_NO_FREE_ROW = 10,
    /* write: the value has not 16 bytes */
    WELLCHERRY_WRONG_LENGTH = 12
};

/* What an Advance comes to. */
enum wellcherry_progress {
    /* one step on: the new stage, 1 to 13 */
    WELLCHERRY_STAGE = 1,
    /* no step: how many transactions are still waited for. Once they have advanced, so does this one */
    WELLCHERRY_WAITING = 2,
    /* closed, its writes gone: the smallest number of a commit since its snapshot that wrote one of its cells */
    WELLCHERRY_CONFLICT = 3,
    /* closed: its commit number, or the number of its snapshot where it wrote nothing */
    WELLCHERRY_DONE = 4
};

/* The record. A program may read every field; the calls alone should write them. A client has an open transaction
 * where `number` is not 0. Bit k of a waiting list says that the client waits for client k. */
struct wellcherry_head {
    uint32_t rows;      /* of the store; 0 before a set-up */
    uint32_t limit;     /* how many cells a transaction may write */
    uint32_t issued;    /* the last transaction number given out */
    uint32_t requested; /* the last request number given out */
    uint32_t taken;     /* the last commit number given out */
    uint32_t last;      /* the last commit made: the snapshot of a transaction that begins now */
    uint32_t used;      /* data rows in use */
    uint32_t entries;   /* committed rows in use */
};

struct wellcherry_record {
    struct wellcherry_head head;
    uint32_t stage[WELLCHERRY_CLIENTS];    /* 0 while it works, 1 to 13 while it commits */
    uint32_t number[WELLCHERRY_CLIENTS];   /* of its transaction, 0 for none */
    uint32_t snapshot[WELLCHERRY_CLIENTS]; /* the commit that it reads at */
    uint32_t request[WELLCHERRY_CLIENTS];  /* its request number, 0 before it has one */
    uint32_t commit[WELLCHERRY_CLIENTS];   /* its commit number, 0 before it has one */
    uint64_t request_waits[WELLCHERRY_CLIENTS]; /* for whom it waits before the check */
    uint64_t commit_waits[WELLCHERRY_CLIENTS];  /* for whom it waits before the commit is made */
};

/* A record, the version table and the buffers that they are used with. The program keeps all of them for as long as it
 * uses them. */
struct wellcherry {
    struct wellcherry_record record;
    uint32_t versions[WELLCHERRY_CELLS]; /* by cell: reads look from this commit on, where it is up to their snapshot */
    uint8_t *data;
    size_t data_bytes;
    uint8_t *committed;
    size_t committed_bytes;
};

/* ---- The functions of libwellcherry.a, for the calls below and for other languages. The record is lent in its
 * parts: its numbers, and the arrays that a call looks at. */

struct wellcherry_figure_given {
    uint32_t refusal;
    uint32_t figure;
};

struct wellcherry_begin_given {
    uint32_t refusal;
    uint32_t number;
    uint32_t snapshot;
};

struct wellcherry_read_given {
    uint32_t refusal;
    uint32_t found; /* 1, or 0 for an unwritten cell */
    size_t row;     /* the data row in which the value stands */
};

struct wellcherry_advance_given {
    uint32_t refusal;
    uint32_t progress;
    uint32_t number;
};

/* clang-format off */
struct wellcherry_figure_given wellcherry_call_set_up(
    struct wellcherry_head *head,
    uint32_t *stage, uint32_t *number, uint32_t *snapshot, uint32_t *request, uint32_t *commit,
    uint64_t *request_waits, uint64_t *commit_waits,
    uint8_t *data, size_t data_bytes, uint8_t *committed, size_t committed_bytes, uint32_t *versions,
    uint32_t first, uint32_t limit);
struct wellcherry_begin_given wellcherry_call_begin(
    struct wellcherry_head *head,
    uint32_t *stage, uint32_t *number, uint32_t *snapshot, uint32_t *request, uint32_t *commit,
    uint64_t *request_waits, uint64_t *commit_waits,
    const uint8_t *data, size_t data_bytes, const uint8_t *committed, size_t committed_bytes, uint32_t client);
struct wellcherry_read_given wellcherry_call_read(
    const struct wellcherry_head *head,
    const uint32_t *stage, const uint32_t *number, const uint32_t *snapshot,
    const uint8_t *data, size_t data_bytes, const uint8_t *committed, size_t committed_bytes,
    uint32_t *versions, size_t version_count, uint32_t client, uint32_t cell);
struct wellcherry_figure_given wellcherry_call_write(
    struct wellcherry_head *head,
    const uint32_t *stage, const uint32_t *number,
    uint8_t *data, size_t data_bytes, const uint8_t *committed, size_t committed_bytes,
    uint32_t client, uint32_t cell, const uint8_t *value, size_t value_bytes);
struct wellcherry_advance_given wellcherry_call_advance(
    struct wellcherry_head *head,
    uint32_t *stage, uint32_t *number, uint32_t *snapshot, uint32_t *request, uint32_t *commit,
    uint64_t *request_waits, uint64_t *commit_waits,
    uint8_t *data, size_t data_bytes, uint8_t *committed, size_t committed_bytes, uint32_t client);
struct wellcherry_figure_given wellcherry_call_abandon(
    struct wellcherry_head *head,
    uint32_t *stage, uint32_t *number, uint32_t *snapshot, uint32_t *request, uint32_t *commit,
    uint64_t *request_waits, uint64_t *commit_waits,
    uint8_t *data, size_t data_bytes, const uint8_t *committed, size_t committed_bytes, uint32_t client);
struct wellcherry_figure_given wellcherry_call_trim(
    struct wellcherry_head *head,
    const uint32_t *stage, const uint32_t *number, const uint32_t *snapshot,
    uint8_t *data, size_t data_bytes, uint8_t *committed, size_t committed_bytes);
struct wellcherry_figure_given wellcherry_call_free(
    const struct wellcherry_head *head, const uint32_t *stage,
    const uint8_t *data, size_t data_bytes, const uint8_t *committed, size_t committed_bytes);

#define WELLCHERRY_RECORD(record) \
    &(record).head, (record).stage, (record).number, (record).snapshot, (record).request, (record).commit, \
    (record).request_waits, (record).commit_waits
#define WELLCHERRY_BUFFERS(house) (house)->data, (house)->data_bytes, (house)->committed, (house)->committed_bytes
/* clang-format on */

static inline uint32_t wellcherry_put(uint32_t *result, uint32_t value, uint32_t refusal) {
    if (result) *result = value;
    return refusal;
}

/* ---- The calls */

/* Set-up: a new store in two buffers, which become zero, as does the version table. `first` is the first transaction number, 1 as a rule and
 * never 0. `limit` is how many cells a transaction may write, 1 to 64; 0 stands for 8. The buffers are kept in the
 * house, and the later calls use them there.
 * Gives the free figure: the data rows not in use.
 * Refused: BAD_SET_UP (1). The record and the version table are then all zeros, so that every call on the house is
 * refused with UNFIT, and the buffers keep their bytes. */
static inline uint32_t wellcherry_set_up(struct wellcherry *house, uint8_t *data, size_t data_bytes,
                                         uint8_t *committed, size_t committed_bytes, uint32_t first, uint32_t limit,
                                         uint32_t *free_rows) {
    const struct wellcherry_figure_given given = wellcherry_call_set_up(
        WELLCHERRY_RECORD(house->record), data, data_bytes, committed, committed_bytes, house->versions, first, limit);
    house->data = data;
    house->data_bytes = data_bytes;
    house->committed = committed;
    house->committed_bytes = committed_bytes;
    return wellcherry_put(free_rows, given.figure, given.refusal);
}

/* Begin: opens a transaction of the client. It reads the store as the commit `snapshot` left it, whatever is
 * committed later.
 * Gives the transaction's number and its snapshot.
 * Refused: UNFIT (2), NO_CLIENT (3), ALREADY_OPEN (5), NUMBERS_USED_UP (8). */
static inline uint32_t wellcherry_begin(struct wellcherry *house, uint32_t client, uint32_t *number,
                                        uint32_t *snapshot) {
    const struct wellcherry_begin_given given = wellcherry_call_begin(
        WELLCHERRY_RECORD(house->record), WELLCHERRY_BUFFERS(house), client);
    if (number) *number = given.number;
    return wellcherry_put(snapshot, given.snapshot, given.refusal);
}

/* Read: the client's own write of the cell, or else the value at its snapshot. Answered until its commit is made,
 * also while it waits. Changes nothing but the cell's entry in the version table: a commit above it that is found is
 * stored there, and later reads look from it on.
 * Gives a pointer to the 16 bytes where they stand in the data buffer, good until the next write, advance, abandon,
 * trim or set-up of the house; NULL for a cell that is unwritten, and where the call is refused.
 * Refused: UNFIT (2), NO_CLIENT (3), NO_CELL (4), NOT_OPEN (6), WRONG_STAGE (7) at stages 12 and 13. */
static inline uint32_t wellcherry_read(struct wellcherry *house, uint32_t client, uint32_t cell,
                                       const uint8_t **value) {
    const struct wellcherry_read_given given =
        wellcherry_call_read(&house->record.head, house->record.stage, house->record.number, house->record.snapshot,
                             WELLCHERRY_BUFFERS(house), house->versions, WELLCHERRY_CELLS, client, cell);
    if (value) *value = given.found ? house->data + given.row * WELLCHERRY_DATA_ROW + WELLCHERRY_VALUE_AT : NULL;
    return given.refusal;
}

/* Write: the 16 bytes become the client's value of the cell. They are copied. Nobody else reads them before the
 * commit is made. A second write of a cell takes the place of the first.
 * Gives the free figure.
 * Refused: UNFIT (2), NO_CLIENT (3), NO_CELL (4), WRONG_LENGTH (12), NOT_OPEN (6), WRONG_STAGE (7) from stage 1 on,
 * CELL_LIMIT (9), NO_FREE_ROW (10). */
static inline uint32_t wellcherry_write(struct wellcherry *house, uint32_t client, uint32_t cell,
                                        const uint8_t *value, size_t value_bytes, uint32_t *free_rows) {
    const struct wellcherry_figure_given given =
        wellcherry_call_write(&house->record.head, house->record.stage, house->record.number,
                              WELLCHERRY_BUFFERS(house), client, cell, value, value_bytes);
    return wellcherry_put(free_rows, given.figure, given.refusal);
}

/* Advance: one step of the client's commit. Called again and again, it comes to DONE or to CONFLICT; at WAITING
 * others have to advance first. A transaction that wrote nothing is DONE with the first call.
 * Gives which progress it is, and the number that goes with it.
 * Refused: UNFIT (2), NO_CLIENT (3), NOT_OPEN (6). */
static inline uint32_t wellcherry_advance(struct wellcherry *house, uint32_t client, uint32_t *progress,
                                          uint32_t *number) {
    const struct wellcherry_advance_given given = wellcherry_call_advance(
        WELLCHERRY_RECORD(house->record), WELLCHERRY_BUFFERS(house), client);
    if (progress) *progress = given.progress;
    return wellcherry_put(number, given.number, given.refusal);
}

/* Abandon: closes the client's transaction; its writes are gone, and who waited for it waits no longer.
 * Gives the free figure.
 * Refused: UNFIT (2), NO_CLIENT (3), NOT_OPEN (6), WRONG_STAGE (7) at stages 12 and 13: its commit is made. */
static inline uint32_t wellcherry_abandon(struct wellcherry *house, uint32_t client, uint32_t *free_rows) {
    const struct wellcherry_figure_given given = wellcherry_call_abandon(
        WELLCHERRY_RECORD(house->record), WELLCHERRY_BUFFERS(house), client);
    return wellcherry_put(free_rows, given.figure, given.refusal);
}

/* Trim: drops the values that no open transaction reads and no later one can.
 * Gives how many data rows went.
 * Refused: UNFIT (2). */
static inline uint32_t wellcherry_trim(struct wellcherry *house, uint32_t *dropped) {
    const struct wellcherry_figure_given given =
        wellcherry_call_trim(&house->record.head, house->record.stage, house->record.number, house->record.snapshot,
                             WELLCHERRY_BUFFERS(house));
    return wellcherry_put(dropped, given.figure, given.refusal);
}

/* Free: changes nothing.
 * Gives the free figure: the data rows not in use.
 * Refused: UNFIT (2). */
static inline uint32_t wellcherry_free(const struct wellcherry *house, uint32_t *free_rows) {
    const struct wellcherry_figure_given given =
        wellcherry_call_free(&house->record.head, house->record.stage, WELLCHERRY_BUFFERS(house));
    return wellcherry_put(free_rows, given.figure, given.refusal);
}

#ifdef __cplusplus
}
#endif

#endif
