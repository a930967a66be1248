/* Two pinsetters count one game each on one lane, at the same time: neither count is lost. The later one waits for the
 * other, learns that its count is no longer good, and counts again. */
#include "house.h"

enum { LANE = 7 };

static void count_one(uint32_t box) {
    must(wellcherry_begin(&house, box, NULL, NULL), "begin");
    put_count(box, LANE, count_in(box, LANE) + 1);
}

/* One step of the box's commit, said aloud where something happens. Gives 1 while it is under way. */
static int step(uint32_t box) {
    uint32_t progress, number;
    must(wellcherry_advance(&house, box, &progress, &number), "advance");
    switch (progress) {
    case WELLCHERRY_WAITING: printf("box %u waits for %u other\n", (unsigned)box, (unsigned)number); return 1;
    case WELLCHERRY_CONFLICT:
        printf("box %u: commit %u was first, so it counts again\n", (unsigned)box, (unsigned)number);
        count_one(box);
        return 1;
    case WELLCHERRY_DONE: printf("box %u: commit %u\n", (unsigned)box, (unsigned)number); return 0;
    default: return 1;
    }
}

int main(void) {
    int under_way[2] = {1, 1};
    open_house();
    count_one(0);
    count_one(1);
    while (under_way[0] || under_way[1])
        for (uint32_t box = 0; box < 2; box++)
            if (under_way[box]) under_way[box] = step(box);
    must(wellcherry_begin(&house, 5, NULL, NULL), "begin");
    printf("lane %d: %u games\n", LANE, count_in(5, LANE));
    return count_in(5, LANE) == 2 ? 0 : 1;
}
