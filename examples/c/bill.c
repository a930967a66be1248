/* The desk bills from one moment: what it reads is what was there when it began, whatever the lanes commit meanwhile,
 * and a trim leaves what it reads. */
#include "house.h"

enum { DESK = 63, GAMES = 5, SHOES = 6 };

static void play(uint32_t box, unsigned games, unsigned shoes) {
    must(wellcherry_begin(&house, box, NULL, NULL), "begin");
    put_count(box, GAMES, games);
    put_count(box, SHOES, shoes);
    printf("box %u: %u games, %u pairs of shoes, commit %u\n", (unsigned)box, games, shoes, (unsigned)commit(box));
}

static unsigned bill(void) { return 7 * count_in(DESK, GAMES) + 2 * count_in(DESK, SHOES); }

int main(void) {
    uint32_t dropped;
    open_house();
    play(5, 2, 4);
    must(wellcherry_begin(&house, DESK, NULL, NULL), "begin");
    const unsigned first = bill();
    play(5, 3, 5);
    must(wellcherry_trim(&house, &dropped), "trim");
    printf("the desk bills %u, and %u after the lane went on; trim dropped %u rows\n", first, bill(), (unsigned)dropped);
    if (first != 22 || bill() != 22 || dropped != 0) return 1;
    (void)commit(DESK);
    must(wellcherry_begin(&house, DESK, NULL, NULL), "begin");
    must(wellcherry_trim(&house, &dropped), "trim");
    printf("begun anew it bills %u; trim dropped %u rows\n", bill(), (unsigned)dropped);
    return bill() == 31 && dropped == 2 ? 0 : 1;
}
