/* A server for tests: it calls the library for each request on standard input, and writes the outcome to standard output.

   Each slice that it lends lies against a page that nobody may touch: its last byte before one, or its first byte after one. Sheets and
   maps lie in pages that nobody may write. A byte that is read or written outside a slice, or a write to a sheet or a map, stops the
   server. Numbers of requests and replies are little-endian, as on the machines it is built for.

   check:  'c', placing, sheet
           -> code (32 bits), number (64 bits), whether the sheet is unchanged (a byte)
   build:  'b', placing, sheet, x y z (32 bits), k d (a byte), length of out (32 bits), seed of the bytes of out (64 bits)
           -> code, number, whether the sheet is unchanged, every byte of out
   refine: 'r', placing, sheet, map, d (a byte), length of out (32 bits), seed of the bytes of out (64 bits)
           -> code, number, whether sheet and map are unchanged, every byte of out
   open:   'o', placing, map
           -> code, number, whether the map is unchanged
   lookup: 'l', placing, sheet, map, the number of points (32 bits), x y z of each
           -> code and number for each, whether sheet and map are unchanged
   trespass: 't', which (a byte): does what a wrong library might do, so that a test can check that it stops the server

   A sheet or a map is its length (32 bits) and its bytes. */
#include "zone.h"

#define LARGEST ((size_t)1 << 26)
#define MOST_POINTS 4096
/* A request that takes longer stops the server, since every call has to return. */
#define MOST_SECONDS 300
/* No page on these machines is larger. */
#define PAGE ((size_t)65536)

/* As in the C library, which is linked; the kit has no headers for it. */
void *mmap(void *at, size_t length, int protection, int flags, int file, long offset);
int mprotect(void *at, size_t length, int protection);
long read(int file, void *to, size_t length);
long write(int file, const void *from, size_t length);
void *memcpy(void *to, const void *from, size_t length);
int memcmp(const void *a, const void *b, size_t length);
unsigned alarm(unsigned seconds);
void _exit(int status);

enum { NOTHING = 0, READING = 1, READING_AND_WRITING = 3, PRIVATE_ANONYMOUS_NORESERVE = 0x4022 };

/* Where slices lie: the first bit for the sheet, the second for out or the map, the third for empty slices, the fourth for out if there
   is a map too. */
enum { SHEET_FIRST = 1, SECOND_FIRST = 2, NULL_IF_EMPTY = 4, THIRD_FIRST = 8 };

enum { AFTER_END = 0, BEFORE_START = 1, INTO_SHEET = 2, KINDS_OF_TRESPASS = 3 };

/* Pages between two that nobody may touch, with the slice that is lent from them. */
typedef struct Room {
    uint8_t *pages;
    uint8_t *slice;
    size_t length;
} Room;

static Room sheet_room, map_room, out_room;

/* The sheet and the map as they were read, to compare with the slices after the call. */
static uint8_t sheet_read[LARGEST], map_read[LARGEST];

static void stop_if(int wrong, int status) {
    if (wrong)
        _exit(status);
}

/* Reads this many bytes. Returns 0 if the input has ended before the first of them, and stops the server if it ends after that. */
static int get(void *to, size_t length) {
    size_t done = 0;
    while (done < length) {
        long some = read(0, (uint8_t *)to + done, length - done);
        if (some <= 0 && done == 0)
            return 0;
        stop_if(some <= 0, 3);
        done += (size_t)some;
    }
    return 1;
}

static void put(const void *from, size_t length) {
    size_t done = 0;
    while (done < length) {
        long some = write(1, (const uint8_t *)from + done, length - done);
        stop_if(some <= 0, 4);
        done += (size_t)some;
    }
}

static uint32_t get_number(void) {
    uint32_t number = 0;
    stop_if(!get(&number, sizeof number), 5);
    return number;
}

static uint8_t get_byte(void) {
    uint8_t byte = 0;
    stop_if(!get(&byte, 1), 5);
    return byte;
}

static size_t get_length(void) {
    size_t length = get_number();
    stop_if(length > LARGEST, 6);
    return length;
}

static void make_room(Room *room) {
    uint8_t *all = mmap((void *)0, PAGE + LARGEST + PAGE, NOTHING, PRIVATE_ANONYMOUS_NORESERVE, -1, 0);
    stop_if(all == (uint8_t *)-1, 7);
    room->pages = all + PAGE;
    stop_if(mprotect(room->pages, LARGEST, READING_AND_WRITING) != 0, 7);
}

/* Places a slice of this length at the start of the pages, or else at their end. */
static void place(Room *room, size_t length, int first, int null_if_empty) {
    room->length = length;
    room->slice = first ? room->pages : room->pages + LARGEST - length;
    if (length == 0 && null_if_empty)
        room->slice = (uint8_t *)0;
    else if (length == 0 && first)
        room->slice = room->pages - 1;
}

/* Sets the protection of the pages in which a slice lies. */
static void allow(const Room *room, int protection) {
    if (room->length == 0)
        return;
    size_t from = (size_t)(room->slice - room->pages) / PAGE * PAGE;
    size_t past = (size_t)(room->slice - room->pages) + room->length;
    stop_if(mprotect(room->pages + from, (past - from + PAGE - 1) / PAGE * PAGE, protection) != 0, 8);
}

/* Reads a sheet or a map and lends it for reading only. */
static void lend(Room *room, uint8_t *copy, int first, int null_if_empty) {
    size_t length = get_length();
    stop_if(length > 0 && !get(copy, length), 5);
    place(room, length, first, null_if_empty);
    if (length > 0)
        memcpy(room->slice, copy, length);
    allow(room, READING);
}

/* Takes a sheet or a map back, and returns whether its bytes are as they were. */
static uint8_t take_back(const Room *room, const uint8_t *copy) {
    allow(room, READING_AND_WRITING);
    return room->length == 0 || memcmp(room->slice, copy, room->length) == 0;
}

/* Fills the buffer with bytes that a map has only by chance: the lowest byte of each step of a xorshift generator. */
static void fill(const Room *room, uint64_t seed) {
    for (size_t i = 0; i < room->length; i++) {
        seed ^= seed << 13;
        seed ^= seed >> 7;
        seed ^= seed << 17;
        room->slice[i] = (uint8_t)seed;
    }
}

/* Reads the length of the buffer and the seed of its bytes, and lends it. */
static void lend_out(int first, int null_if_empty) {
    place(&out_room, get_length(), first, null_if_empty);
    uint64_t seed;
    stop_if(!get(&seed, sizeof seed), 5);
    fill(&out_room, seed);
}

static void put_reply(ZoneReply reply) {
    put(&reply.code, sizeof reply.code);
    put(&reply.number, sizeof reply.number);
}

/* A call that takes one slice. `first` is the bit of the placing that says where the slice lies. */
static void test(Room *room, uint8_t *copy, int first, ZoneReply (*call)(const uint8_t *, size_t)) {
    int placing = get_byte();
    lend(room, copy, placing & first, placing & NULL_IF_EMPTY);
    ZoneReply reply = call(room->slice, room->length);
    uint8_t same = take_back(room, copy);
    put_reply(reply);
    put(&same, 1);
}

static void build(void) {
    int placing = get_byte();
    lend(&sheet_room, sheet_read, placing & SHEET_FIRST, placing & NULL_IF_EMPTY);
    int32_t low[3];
    uint8_t k_and_d[2];
    stop_if(!get(low, sizeof low) || !get(k_and_d, sizeof k_and_d), 5);
    lend_out(placing & SECOND_FIRST, placing & NULL_IF_EMPTY);
    ZoneReply reply = zone_build(sheet_room.slice, sheet_room.length, low[0], low[1], low[2], k_and_d[0], k_and_d[1], out_room.slice,
                                 out_room.length);
    uint8_t same = take_back(&sheet_room, sheet_read);
    put_reply(reply);
    put(&same, 1);
    put(out_room.slice, out_room.length);
}

static void refine(void) {
    int placing = get_byte();
    lend(&sheet_room, sheet_read, placing & SHEET_FIRST, placing & NULL_IF_EMPTY);
    lend(&map_room, map_read, placing & SECOND_FIRST, placing & NULL_IF_EMPTY);
    uint8_t d = get_byte();
    lend_out(placing & THIRD_FIRST, placing & NULL_IF_EMPTY);
    ZoneReply reply =
        zone_refine(sheet_room.slice, sheet_room.length, map_room.slice, map_room.length, d, out_room.slice, out_room.length);
    uint8_t same = take_back(&sheet_room, sheet_read);
    same &= take_back(&map_room, map_read);
    put_reply(reply);
    put(&same, 1);
    put(out_room.slice, out_room.length);
}

static void lookup(void) {
    static int32_t points[MOST_POINTS][3];
    int placing = get_byte();
    lend(&sheet_room, sheet_read, placing & SHEET_FIRST, placing & NULL_IF_EMPTY);
    lend(&map_room, map_read, placing & SECOND_FIRST, placing & NULL_IF_EMPTY);
    size_t count = get_number();
    stop_if(count > MOST_POINTS || (count > 0 && !get(points, count * sizeof points[0])), 6);
    for (size_t i = 0; i < count; i++)
        put_reply(zone_lookup(sheet_room.slice, sheet_room.length, map_room.slice, map_room.length, points[i][0], points[i][1], points[i][2]));
    uint8_t same = take_back(&sheet_room, sheet_read);
    same &= take_back(&map_room, map_read);
    put(&same, 1);
}

/* Goes where no library may, with slices of 16 bytes. The byte that it writes means that nothing stopped it. */
static void trespass(void) {
    uint8_t which = get_byte();
    stop_if(which >= KINDS_OF_TRESPASS, 6);
    place(&out_room, 16, which == BEFORE_START, 0);
    place(&sheet_room, 16, 0, 0);
    allow(&sheet_room, READING);
    volatile uint8_t *at = out_room.slice;
    uint8_t seen = 0;
    if (which == AFTER_END)
        seen = at[16];
    else if (which == BEFORE_START)
        at[-1] = 1;
    else
        *(volatile uint8_t *)sheet_room.slice = 1;
    put(&seen, 1);
}

int main(void) {
    uint8_t call;
    make_room(&sheet_room);
    make_room(&map_room);
    make_room(&out_room);
    while (get(&call, 1)) {
        alarm(MOST_SECONDS);
        if (call == 'c')
            test(&sheet_room, sheet_read, SHEET_FIRST, zone_check);
        else if (call == 'b')
            build();
        else if (call == 'r')
            refine();
        else if (call == 'o')
            test(&map_room, map_read, SECOND_FIRST, zone_open);
        else if (call == 'l')
            lookup();
        else if (call == 't')
            trespass();
        else
            return 2;
        alarm(0);
    }
    return 0;
}
