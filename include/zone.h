/* Zone maps: check a zone sheet, build its map, refine a map, open one, and look a point up in it. The library is libzone.a, for x86-64
   Linux.

   Every call returns a reply for all bytes and all numbers; the caller need not check anything first. The caller provides the memory:
   - A pointer is valid for as many bytes as the length that follows it says. With length 0 it may be null.
   - Nobody else changes these bytes during the call. `out` overlaps no other argument. `sheet` and `map` are only read, and may overlap.
   - There are 16 KB of stack. zone_build and zone_refine have been measured to use under 13 KB, zone_lookup under 6 KB, zone_check and
     zone_open under 1 KB.

   No call allocates. The library has no global state, and a call keeps nothing when it returns. So calls may run at the same time, in any
   number of threads, on the same sheet and the same map too, as long as nobody writes to the bytes of either. Each zone_build and each
   zone_refine that runs has its own `out`.

   A length is that of the whole sheet or map. A buffer that is longer than the map in it is not a map: pass the length that zone_build or
   zone_refine returned. Numbers in sheets and maps are big-endian; one unit is 1/256 metre.

   A sheet is of version 1 or 2, by its third byte. The two differ only in what a face is, the record of kind 16: where its operand is at
   most 0 in version 1, and where it is less than 0 in version 2. So a point on a face satisfies the face in version 1, and its complement in
   version 2: there the face belongs to the wall. A version 1 and a version 2 sheet with equal records are two sheets, with a map each. A map
   does not say which version its sheet has: refine it, and look up in it, with the sheet that it was built from. */
#ifndef ZONE_H
#define ZONE_H

#include <stddef.h>
#include <stdint.h>

/* The version of this header, and of the library that it was shipped with.

   A later version may add calls and codes, and may drop a code that no input brings about. A code keeps its meaning, and a number that was
   dropped is not used again. So treat a code that you do not know as a refusal. While the major number is 0, a new minor number may also
   change a call, the number that comes with a code, the sheets that are read, or the map that zone_build makes of a sheet: CHANGELOG.md
   says what to do. A map that an earlier version built still opens, and what a lookup answers by it is still true. */
#define ZONE_VERSION_MAJOR 0
#define ZONE_VERSION_MINOR 7
#define ZONE_VERSION (ZONE_VERSION_MAJOR * 1000 + ZONE_VERSION_MINOR)

#ifdef __cplusplus
extern "C" {
#endif

/* The codes of replies, in order of test: a call returns the first that applies. One call has another order: zone_refine tests ZONE_MAP
   before ZONE_LIMITS, since it compares the depth with that of the map. The comment of a code has what is wrong, then a colon and the number
   that comes with the code. Where several records or leaves are at fault, the number is that of the first. Above the codes stand the calls
   that return them. */
enum ZoneCode {
    /* Every call. */
    ZONE_DONE = 0, /* nothing is wrong: from zone_check the number of records, from zone_build the map's length, from zone_refine the new
                      map's length, from zone_open the number of leaves, from zone_lookup one of ZoneAnswer */
    /* zone_check, zone_build, zone_refine and zone_lookup. */
    ZONE_SHEET_LENGTH = 1,  /* the sheet has fewer than 3 bytes, or its length is not the one that it says: 0 */
    ZONE_SHEET_VERSION = 2, /* the sheet's version is neither 1 nor 2: 0 */
    ZONE_RECORD = 3,        /* a record runs over the end, has an unknown kind or a wrong count, or is the 257th: its offset in the sheet */
    ZONE_OPERAND = 4,       /* an operand is not an earlier record, or is of the wrong sort: the record's number */
    ZONE_SOLID = 5,         /* there are no records, or the last is not logical: the number of records */
    /* zone_build and zone_refine. */
    ZONE_LIMITS = 6, /* the root or the depth is out of limits or, from zone_refine, the depth is smaller than the map's: 0 */
    /* zone_refine, zone_open and zone_lookup. */
    ZONE_MAP = 9, /* the map does not open or, but not from zone_open, a terminal leaf names a record that is not a face of the sheet: the
                     offset in the map, which is 0 for the length, 4 for the version, 5 for the root or the depth, the first byte of a bad
                     leaf, or the map's length if the leaves stop short */
    /* zone_build, zone_refine and zone_lookup. */
    ZONE_OVER_ROOT = 7, /* a record's bounds over the root pass 2^60: twice the record's number, plus 1 for the high end. ZONE_OVER_RECORD
                           and ZONE_OVER_END take the number apart */
    /* zone_build and zone_refine. */
    ZONE_SHORT = 8, /* the buffer is shorter than the map: the number of bytes needed */
    /* zone_lookup. */
    ZONE_NOT_IN_ROOT = 10 /* the point is not in the map's root, the high planes left out: 0 */
    /* 11 is never given. It was document 01's reply for a record whose bounds over a smaller cube pass 2^60, which no input brings about:
       such bounds lie inside the root's. The number is not used for anything else. */
};

/* Which end of a record's bounds lies outside -2^60 to 2^60: the low end if it does, on either side, otherwise the high end. It tells the
   author of a sheet what to change:
   - The high end alone: the record grows too large towards the far side of the root. Take a smaller root, or shift it so that its far side
     is nearer to 0.
   - The low end: the record runs too far below zero; or it is above 2^60 all over the root, and no root inside this one helps. Shrink the
     coefficients, or shift the whole room towards 0. */
enum ZoneEnd {
    ZONE_LOW_END = 0,
    ZONE_HIGH_END = 1
};

/* The record and the end, one of ZoneEnd, in the number of ZONE_OVER_ROOT. */
#define ZONE_OVER_RECORD(number) ((number) / 2)
#define ZONE_OVER_END(number) ((number) % 2)

/* What zone_lookup returns with ZONE_DONE: where the point is. */
enum ZoneAnswer {
    ZONE_OUTSIDE = 0,
    ZONE_INSIDE = 1,
    ZONE_UNDECIDED = 2 /* the bounds cannot tell: ask the guest */
};

typedef struct ZoneReply {
    uint32_t code;   /* one of ZoneCode */
    uint64_t number; /* its meaning stands with the code */
} ZoneReply;

/* Checks a zone sheet, as zone_build, zone_refine and zone_lookup do before anything else, and returns the number of its records. The bounds
   of a sheet that is good here may still be too large over some root: these calls then return ZONE_OVER_ROOT. */
ZoneReply zone_check(const uint8_t *sheet, size_t sheet_len);

/* Builds the zone map of a sheet at the start of `out`, and returns the map's length. The root has the low corner x, y, z and the side 2^k.
   k is at most 16, and the root lies within -2^20 to 2^20. The depth d is at most 10 and at most k. The bytes of `out` after the map stay
   as they were, and a refusal leaves all of `out` as it was. To learn the number of bytes needed, call it with out_len 0: the reply is
   ZONE_SHORT. */
ZoneReply zone_build(const uint8_t *sheet, size_t sheet_len, int32_t x, int32_t y, int32_t z, uint8_t k, uint8_t d, uint8_t *out,
                     size_t out_len);

/* Refines a zone map to the depth d, with the sheet that it was built from, at the start of `out`, and returns the new map's length. Each
   gray leaf is replaced by what zone_build gives for its cube at the new depth: it may turn out white, black or terminal as a whole, and is
   split if it is gray. All other leaves stand as they were, levels included. The new map has the same root and the depth d.
   - A map that zone_build made of this sheet becomes, byte for byte, the map that zone_build makes at the depth d. For a map of another
     sheet, or one that a version before 0.5 built, the rule of replacement alone holds.
   - d is at least the depth of the map, at most 10 and at most its k. With the map's own depth only its gray leaves are worked out again.
   - `map` is only read, and `out` does not overlap it. The bytes of `out` after the new map stay as they were, and a refusal leaves all of
     `out` as it was. To learn the number of bytes needed, call it with out_len 0: the reply is ZONE_SHORT. */
ZoneReply zone_refine(const uint8_t *sheet, size_t sheet_len, const uint8_t *map, size_t map_len, uint8_t d, uint8_t *out, size_t out_len);

/* Opens a zone map without its sheet, and returns the number of its leaves. A terminal leaf may name any record here; zone_refine and
   zone_lookup, which have the sheet, also refuse a leaf that names no face of it. */
ZoneReply zone_open(const uint8_t *map, size_t map_len);

/* Looks the point x, y, z up in a zone map, with the sheet that the map was built from, and returns one of ZoneAnswer. */
ZoneReply zone_lookup(const uint8_t *sheet, size_t sheet_len, const uint8_t *map, size_t map_len, int32_t x, int32_t y, int32_t z);

#ifdef __cplusplus
}
#endif

#endif
