/* Checks the sheet of the step room (x at most 2 and y at most 2), builds its map, opens it as a panel does, and looks points up in it. */
#include "zone.h"
#include <stdio.h>

static const uint8_t sheet[] = {
    0x00, 0x1D, 1,          /* 29 bytes follow; version 1 */
    1, 2, 1, 3,             /* records 0 and 1: x and y */
    5, 1, 0, 0, 0, 2,       /* 2: the constant 2 */
    3, 6, 0, 2, 3, 6, 1, 2, /* 3 and 4: x - 2 and y - 2 */
    2, 16, 3, 2, 16, 4,     /* 5 and 6: their faces */
    3, 17, 5, 6             /* 7: both, the solid */
};

static const char *why(uint32_t code) {
    switch (code) {
    case ZONE_SHEET_LENGTH: return "the sheet's length is wrong";
    case ZONE_SHEET_VERSION: return "the sheet's version is neither 1 nor 2";
    case ZONE_RECORD: return "the sheet's record at this offset is bad";
    case ZONE_OPERAND: return "an operand of this record is bad";
    case ZONE_SOLID: return "the sheet has this many records, and the last is not logical";
    case ZONE_LIMITS: return "the root or the depth is out of limits";
    case ZONE_MAP: return "the map is bad at this offset";
    case ZONE_OVER_ROOT: return "the bounds of a record over the root pass 2^60";
    case ZONE_SHORT: return "the map needs a buffer of this many bytes";
    case ZONE_NOT_IN_ROOT: return "not in the root";
    default: return "a code of a later version";
    }
}

static void print_refusal(ZoneReply reply) {
    printf("refused by %u with %llu, %s\n", reply.code, (unsigned long long)reply.number, why(reply.code));
    if (reply.code == ZONE_OVER_ROOT)
        printf("it is the %s end of record %llu\n", ZONE_OVER_END(reply.number) == ZONE_LOW_END ? "low" : "high",
               (unsigned long long)ZONE_OVER_RECORD(reply.number));
}

/* Prints the number that a call returns, or why it refuses. Returns whether the call is done. */
static int told(const char *before, ZoneReply reply, const char *after) {
    if (reply.code == ZONE_DONE)
        printf("%s %llu %s\n", before, (unsigned long long)reply.number, after);
    else
        print_refusal(reply);
    return reply.code == ZONE_DONE;
}

/* Looks a point up, prints where it is, and returns the code. */
static uint32_t look(const uint8_t *map, size_t map_len, int32_t x, int32_t y, int32_t z) {
    static const char *const words[] = {"outside", "inside", "undecided, ask the guest"};
    ZoneReply reply = zone_lookup(sheet, sizeof sheet, map, map_len, x, y, z);
    printf("(%d, %d, %d): ", x, y, z);
    if (reply.code == ZONE_DONE)
        printf("%s\n", words[reply.number]);
    else
        print_refusal(reply);
    return reply.code;
}

int main(void) {
    uint8_t map[64];
    if (!told("the sheet has", zone_check(sheet, sizeof sheet), "records"))
        return 1;
    ZoneReply built = zone_build(sheet, sizeof sheet, 0, 0, 0, 2, 1, map, sizeof map);
    size_t length = (size_t)built.number;
    if (!told("the map has", built, "bytes") || !told("it opens, with", zone_open(map, length), "leaves"))
        return 1;
    int good = look(map, length, 0, 0, 0) == ZONE_DONE;
    good &= look(map, length, 3, 0, 0) == ZONE_DONE;
    good &= look(map, length, 2, 2, 0) == ZONE_DONE;
    good &= look(map, length, 4, 0, 0) == ZONE_NOT_IN_ROOT;
    return good ? 0 : 1;
}
