/* Reads a room's sheet from standard input, builds its map at depth 5 as a commissioner does before walking the corridor, refines the map to
   depth 7, and compares it with the one built afresh. For example: target/refine <examples/round-bay.sheet */
#include "zone.h"
#include <stdio.h>

/* The root is 8 m wide, from the origin, which holds most rooms of examples/. */
#define K 11
#define COARSE 5
#define FINE 7

static uint8_t sheet[65537], coarse[1 << 20], fine[1 << 20], afresh[1 << 20];

static size_t read_sheet(void) {
    size_t length = 0;
    int byte;
    while (length < sizeof sheet && (byte = getchar()) != EOF)
        sheet[length++] = (uint8_t)byte;
    return length;
}

/* The gray leaves, where the panel has to ask the guest. A map has 19 bytes before its leaves, and each leaf is a level, a class and a face;
   gray is class 4. */
static unsigned gray_leaves(const uint8_t *map, size_t length) {
    unsigned count = 0;
    for (size_t at = 19; at < length; at += 3)
        count += map[at + 1] == 4;
    return count;
}

/* Prints what a call that writes a map has made, or why it refuses. Returns the map's length, or 0. */
static size_t told(const char *what, ZoneReply reply, const uint8_t *map) {
    size_t length = (size_t)reply.number;
    if (reply.code != ZONE_DONE) {
        printf("%s: refused by %u with %llu\n", what, reply.code, (unsigned long long)reply.number);
        return 0;
    }
    printf("%s: %llu bytes, %u gray leaves\n", what, (unsigned long long)reply.number, gray_leaves(map, length));
    return length;
}

static int are_same(const uint8_t *a, const uint8_t *b, size_t length) {
    while (length > 0 && *a == *b) {
        a++;
        b++;
        length--;
    }
    return length == 0;
}

int main(void) {
    size_t sheet_len = read_sheet();
    size_t old_len = told("built at depth 5", zone_build(sheet, sheet_len, 0, 0, 0, K, COARSE, coarse, sizeof coarse), coarse);
    if (old_len == 0)
        return 1;
    /* The old map stays as it is: the new one is written into a second buffer. */
    size_t new_len = told("refined to depth 7", zone_refine(sheet, sheet_len, coarse, old_len, FINE, fine, sizeof fine), fine);
    size_t afresh_len = told("built at depth 7", zone_build(sheet, sheet_len, 0, 0, 0, K, FINE, afresh, sizeof afresh), afresh);
    if (new_len == 0 || new_len != afresh_len || !are_same(fine, afresh, new_len)) {
        printf("the two differ\n");
        return 1;
    }
    printf("the two are the same, byte for byte\n");
    return 0;
}
