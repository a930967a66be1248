/* Prints where c/wellcherry.h has each field of its structs: name, offset and size; and its numbers. */
#include <stdio.h>

#include "wellcherry.h"

#define WHOLE(type) printf(#type " %zu\n", sizeof(struct type))
#define FIELD(type, field) \
    printf(#type " " #field " %zu %zu\n", offsetof(struct type, field), sizeof(((struct type *)NULL)->field))
#define NUMBER(name) printf(#name " %lu\n", (unsigned long)(name))

int main(void) {
    WHOLE(wellcherry_head);
    FIELD(wellcherry_head, rows);
    FIELD(wellcherry_head, limit);
    FIELD(wellcherry_head, issued);
    FIELD(wellcherry_head, requested);
    FIELD(wellcherry_head, taken);
    FIELD(wellcherry_head, last);
    FIELD(wellcherry_head, used);
    FIELD(wellcherry_head, entries);

    WHOLE(wellcherry_record);
    FIELD(wellcherry_record, head);
    FIELD(wellcherry_record, stage);
    FIELD(wellcherry_record, number);
    FIELD(wellcherry_record, snapshot);
    FIELD(wellcherry_record, request);
    FIELD(wellcherry_record, commit);
    FIELD(wellcherry_record, request_waits);
    FIELD(wellcherry_record, commit_waits);

    WHOLE(wellcherry_figure_given);
    FIELD(wellcherry_figure_given, refusal);
    FIELD(wellcherry_figure_given, figure);

    WHOLE(wellcherry_begin_given);
    FIELD(wellcherry_begin_given, refusal);
    FIELD(wellcherry_begin_given, number);
    FIELD(wellcherry_begin_given, snapshot);

    WHOLE(wellcherry_read_given);
    FIELD(wellcherry_read_given, refusal);
    FIELD(wellcherry_read_given, found);
    FIELD(wellcherry_read_given, row);

    WHOLE(wellcherry_advance_given);
    FIELD(wellcherry_advance_given, refusal);
    FIELD(wellcherry_advance_given, progress);
    FIELD(wellcherry_advance_given, number);

    NUMBER(WELLCHERRY_CLIENTS);
    NUMBER(WELLCHERRY_CELLS);
    NUMBER(WELLCHERRY_VALUE);
    NUMBER(WELLCHERRY_DATA_ROW);
    NUMBER(WELLCHERRY_COMMITTED_ROW);
    NUMBER(WELLCHERRY_VALUE_AT);
    return 0;
}
