/* How much stack the calls use: the stack below is painted, a call is made, and the part that is no longer paint is measured. The header
   asks a caller for 16 KB. The solid is one point, made of six faces. So one cube or a few are gray at each level, and building goes down
   to level 10. Refining goes down the tree of the old map first; it is measured from a map of each depth. */
#include "zone.h"
#include <stdio.h>

#define PAINTED 65536
#define ASKED_FOR 16384
#define PAINT 0xA5

static const uint8_t sheet[] = {
    0,  75, 1,                                                    /* the number of bytes that follow, version */
    1,  2,  1, 3,  1, 4,                                          /* 0 to 2: x, y, z */
    5,  1,  0, 0,  1, 85,                                         /* 3: the constant 341 */
    3,  6,  0, 3,  3, 6,  3, 0,                                   /* 4 and 5: x - 341, 341 - x */
    3,  6,  1, 3,  3, 6,  3, 1,                                   /* 6 and 7: y - 341, 341 - y */
    3,  6,  2, 3,  3, 6,  3, 2,                                   /* 8 and 9: z - 341, 341 - z */
    2,  16, 4, 2,  16, 5, 2, 16, 6, 2, 16, 7, 2, 16, 8, 2, 16, 9, /* 10 to 15: each is at most 0 */
    3,  17, 10, 11, 3, 17, 16, 12, 3, 17, 17, 13,                 /* 16 to 18: both */
    3,  17, 18, 14, 3, 17, 19, 15,                                /* 19 and 20: both */
};

static uint8_t map[65536], old[65536];

/* The lowest painted byte. To the compiler the painted bytes belong to nobody, so they are volatile and the address is kept as a number. */
static size_t lowest;

__attribute__((noinline)) static void paint(void) {
    volatile uint8_t area[PAINTED];
    for (size_t i = 0; i < PAINTED; i++)
        area[i] = PAINT;
    lowest = (size_t)&area[0];
}

/* The number of bytes at the top of the painted area that are no longer paint. */
__attribute__((noinline)) static size_t used(void) {
    size_t clean = 0;
    while (clean < PAINTED && ((const volatile uint8_t *)lowest)[clean] == PAINT)
        clean++;
    return PAINTED - clean;
}

static int is_small(const char *call, size_t bytes) {
    printf("%s uses %u bytes of stack\n", call, (unsigned)bytes);
    return 0 < bytes && bytes <= ASKED_FOR;
}

/* The most that refining to depth 10 uses, or more than was painted if a map is not as it should be. */
static size_t used_to_refine(void) {
    size_t most = 0;
    for (uint8_t d = 0; d <= 10; d++) {
        ZoneReply built = zone_build(sheet, sizeof sheet, 0, 0, 0, 10, d, old, sizeof old);
        paint();
        ZoneReply refined = zone_refine(sheet, sizeof sheet, old, (size_t)built.number, 10, map, sizeof map);
        size_t bytes = used();
        if (built.code != ZONE_DONE || refined.code != ZONE_DONE || refined.number < built.number)
            return PAINTED + 1;
        most = bytes > most ? bytes : most;
    }
    return most;
}

int main(void) {
    paint();
    ZoneReply checked = zone_check(sheet, sizeof sheet);
    size_t checking = used();
    paint();
    ZoneReply built = zone_build(sheet, sizeof sheet, 0, 0, 0, 10, 10, map, sizeof map);
    size_t building = used();
    paint();
    ZoneReply opened = zone_open(map, (size_t)built.number);
    size_t opening = used();
    paint();
    ZoneReply found = zone_lookup(sheet, sizeof sheet, map, (size_t)built.number, 341, 341, 341);
    size_t looking_up = used();
    if (checked.code != ZONE_DONE || built.code != ZONE_DONE || opened.code != ZONE_DONE || found.code != ZONE_DONE ||
        found.number != ZONE_UNDECIDED) {
        printf("the sheet is not as it should be: %u, %u, %u, %u\n", checked.code, built.code, opened.code, found.code);
        return 1;
    }
    return !(is_small("zone_check", checking) & is_small("zone_build", building) & is_small("zone_refine", used_to_refine()) &
             is_small("zone_open", opening) & is_small("zone_lookup", looking_up));
}
