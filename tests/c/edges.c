/* Calls at the edges of what zone.h promises: no bytes, a byte too few, a map that lies in the buffer of its sheet, a leaf that names no
   face, bounds that pass 2^60 at either end, both versions of a sheet with those beside them, and a map that is refined. Prints one line
   per call that returns something else, and exits with 1 if there is one. */
#include "zone.h"
#include <stdio.h>

#define NONE ((uint8_t *)0)

/* The step room's sheet, and room for its map. */
static uint8_t bytes[31 + 43] = {0, 29, 1, 1, 2, 1, 3, 5, 1, 0, 0, 0, 2, 3, 6, 0, 2, 3, 6, 1, 2, 2, 16, 3, 2, 16, 4, 3, 17, 5, 6};
static const size_t sheet_len = 31;
static int failed;

static void is(const char *what, ZoneReply reply, uint32_t code, uint64_t number) {
    if (reply.code == code && reply.number == number)
        return;
    printf("%s: %u with %llu\n", what, reply.code, (unsigned long long)reply.number);
    failed = 1;
}

static int all_are(const uint8_t *at, size_t length, uint8_t byte) {
    while (length > 0 && *at == byte) {
        at++;
        length--;
    }
    return length == 0;
}

static void no_bytes(void) {
    is("no sheet to check", zone_check(NONE, 0), ZONE_SHEET_LENGTH, 0);
    is("no sheet", zone_build(NONE, 0, 0, 0, 0, 2, 1, NONE, 0), ZONE_SHEET_LENGTH, 0);
    is("no buffer", zone_build(bytes, sheet_len, 0, 0, 0, 2, 1, NONE, 0), ZONE_SHORT, 43);
    is("no sheet to refine by", zone_refine(NONE, 0, NONE, 0, 0, NONE, 0), ZONE_SHEET_LENGTH, 0);
    is("no map to refine", zone_refine(bytes, sheet_len, NONE, 0, 0, NONE, 0), ZONE_MAP, 0);
    is("no map to open", zone_open(NONE, 0), ZONE_MAP, 0);
    is("no sheet to look up by", zone_lookup(NONE, 0, NONE, 0, 0, 0, 0), ZONE_SHEET_LENGTH, 0);
    is("no map", zone_lookup(bytes, sheet_len, NONE, 0, 0, 0, 0), ZONE_MAP, 0);
}

static void a_byte_short(void) {
    uint8_t *out = bytes + sheet_len;
    is("the whole sheet", zone_check(bytes, sheet_len), ZONE_DONE, 8);
    is("a sheet that is a byte short", zone_check(bytes, sheet_len - 1), ZONE_SHEET_LENGTH, 0);
    is("a byte short", zone_build(bytes, sheet_len, 0, 0, 0, 2, 1, out, 42), ZONE_SHORT, 43);
    if (!all_are(out, 43, 0)) {
        printf("a byte short: the buffer was changed\n");
        failed = 1;
    }
}

static void side_by_side(void) {
    uint8_t *map = bytes + sheet_len;
    is("sheet and map side by side", zone_build(bytes, sheet_len, 0, 0, 0, 2, 1, map, 43), ZONE_DONE, 43);
    is("the whole map", zone_open(map, 43), ZONE_DONE, 8);
    is("a map that is a byte short", zone_open(map, 42), ZONE_MAP, 0);
    is("the furthest numbers", zone_lookup(bytes, sheet_len, map, 43, INT32_MIN, INT32_MAX, -1), ZONE_NOT_IN_ROOT, 0);
    is("a point by face 5", zone_lookup(bytes, sheet_len, map, 43, 2, 0, 0), ZONE_DONE, ZONE_INSIDE);
    is("the sheet as the map", zone_lookup(bytes, sheet_len, bytes, sheet_len, 0, 0, 0), ZONE_MAP, 0);
    is("the sheet to be opened", zone_open(bytes, sheet_len), ZONE_MAP, 0);
    is("the map to be checked", zone_check(map, 43), ZONE_SHEET_LENGTH, 0);
    is("all numbers at their greatest", zone_build(bytes, sheet_len, INT32_MAX, INT32_MAX, INT32_MAX, 255, 255, map, 43), ZONE_LIMITS, 0);
}

/* The second leaf names record 7, which is not a face. Only a lookup has the sheet, and can tell. */
static void no_face(void) {
    uint8_t *map = bytes + sheet_len;
    map[24] = 7;
    is("a leaf that names no face, opened", zone_open(map, 43), ZONE_DONE, 8);
    is("a leaf that names no face, looked up", zone_lookup(bytes, sheet_len, map, 43, 0, 0, 0), ZONE_MAP, 22);
    is("a leaf that names no face, refined", zone_refine(bytes, sheet_len, map, 43, 0, NONE, 0), ZONE_MAP, 22);
}

static int are_same(const uint8_t *a, const uint8_t *b, size_t length) {
    while (length > 0 && *a == *b) {
        a++;
        b++;
        length--;
    }
    return length == 0;
}

/* The step room's map from depth 1 to 2, into a buffer that is a byte too short, just long enough, and longer; to the same depth; and to
   depths that are too small, over k, and over 10. */
static void refined(void) {
    uint8_t map[43], out[86] = {0}, afresh[85];
    is("a map to refine", zone_build(bytes, sheet_len, 0, 0, 0, 2, 1, map, sizeof map), ZONE_DONE, 43);
    is("built afresh", zone_build(bytes, sheet_len, 0, 0, 0, 2, 2, afresh, sizeof afresh), ZONE_DONE, 85);
    is("refined, a byte short", zone_refine(bytes, sheet_len, map, 43, 2, out, 84), ZONE_SHORT, 85);
    is("refined, without a buffer", zone_refine(bytes, sheet_len, map, 43, 2, NONE, 0), ZONE_SHORT, 85);
    is("a smaller depth", zone_refine(bytes, sheet_len, map, 43, 0, out, sizeof out), ZONE_LIMITS, 0);
    is("a depth over k", zone_refine(bytes, sheet_len, map, 43, 3, out, sizeof out), ZONE_LIMITS, 0);
    is("the greatest depth", zone_refine(bytes, sheet_len, map, 43, 255, out, sizeof out), ZONE_LIMITS, 0);
    is("a map that is a byte short, to a smaller depth", zone_refine(bytes, sheet_len, map, 42, 0, out, sizeof out), ZONE_MAP, 0);
    int is_left = all_are(out, sizeof out, 0);
    out[85] = 7;
    is("refined", zone_refine(bytes, sheet_len, map, 43, 2, out, sizeof out), ZONE_DONE, 85);
    int is_built = are_same(out, afresh, 85) && out[85] == 7;
    is("refined to the same depth", zone_refine(bytes, sheet_len, map, 43, 1, out, 43), ZONE_DONE, 43);
    if (is_left && is_built && are_same(out, map, 43))
        return;
    printf("refined: the buffer is not as it should be\n");
    failed = 1;
}

/* A build, and a refine of and a lookup in a map of the step room over the same root, refuse a sheet with this record and end. */
static void is_over(const char *what, const uint8_t *sheet, size_t length, uint64_t record, enum ZoneEnd end) {
    uint8_t map[22];
    is(what, zone_build(sheet, length, 1048575, 0, 0, 0, 0, NONE, 0), ZONE_OVER_ROOT, 2 * record + end);
    is(what, zone_build(bytes, sheet_len, 1048575, 0, 0, 0, 0, map, sizeof map), ZONE_DONE, sizeof map);
    is(what, zone_refine(sheet, length, map, sizeof map, 0, NONE, 0), ZONE_OVER_ROOT, 2 * record + end);
    is(what, zone_lookup(sheet, length, map, sizeof map, 1048575, 0, 0), ZONE_OVER_ROOT, 2 * record + end);
    if (ZONE_OVER_RECORD(2 * record + end) == record && ZONE_OVER_END(2 * record + end) == end)
        return;
    printf("%s: the number is taken apart as another record or end\n", what);
    failed = 1;
}

/* Over x from 1048575 to 1048576: the cube of x reaches 2^60, and the sum with x passes it; the square of -2^31 is above 2^60 all over
   the root; y less the cube reaches -2^60, and less y once more passes it. */
static void over_root(void) {
    static const uint8_t high[] = {0, 17, 1, 1, 2, 2, 8, 0, 3, 7, 1, 0, 3, 5, 2, 0, 2, 16, 3};
    static const uint8_t above[] = {0, 13, 1, 5, 1, 128, 0, 0, 0, 2, 8, 0, 2, 16, 1};
    static const uint8_t below[] = {0, 23, 1, 1, 2, 2, 8, 0, 3, 7, 1, 0, 1, 3, 3, 6, 3, 2, 3, 6, 4, 3, 2, 16, 5};
    is_over("the high end above 2^60", high, sizeof high, 3, ZONE_HIGH_END);
    is_over("both ends above 2^60", above, sizeof above, 1, ZONE_LOW_END);
    is_over("the low end below -2^60", below, sizeof below, 5, ZONE_LOW_END);
}

/* The step room as version 2, where x is less than 2 and y less than 2: (1, 0, 0) is inside and (2, 0, 0) on a face, which excludes it.
   Versions 0 and 3 are refused. */
static void versions(void) {
    uint8_t map[85];
    bytes[2] = 2;
    is("version 2", zone_check(bytes, sheet_len), ZONE_DONE, 8);
    is("a map of version 2", zone_build(bytes, sheet_len, 0, 0, 0, 2, 2, map, sizeof map), ZONE_DONE, sizeof map);
    is("inside by version 2", zone_lookup(bytes, sheet_len, map, sizeof map, 1, 0, 0), ZONE_DONE, ZONE_INSIDE);
    is("on a face of version 2", zone_lookup(bytes, sheet_len, map, sizeof map, 2, 0, 0), ZONE_DONE, ZONE_OUTSIDE);
    bytes[2] = 1;
    is("on a face of version 1", zone_build(bytes, sheet_len, 0, 0, 0, 2, 1, map, 43), ZONE_DONE, 43);
    is("on a face of version 1", zone_lookup(bytes, sheet_len, map, 43, 2, 0, 0), ZONE_DONE, ZONE_INSIDE);
    bytes[2] = 0;
    is("version 0", zone_check(bytes, sheet_len), ZONE_SHEET_VERSION, 0);
    bytes[2] = 3;
    is("version 3", zone_build(bytes, sheet_len, 0, 0, 0, 2, 1, map, sizeof map), ZONE_SHEET_VERSION, 0);
    is("version 3", zone_lookup(bytes, sheet_len, map, 43, 2, 0, 0), ZONE_SHEET_VERSION, 0);
    bytes[2] = 1;
}

int main(void) {
    no_bytes();
    a_byte_short();
    side_by_side();
    no_face();
    over_root();
    versions();
    refined();
    return failed;
}
