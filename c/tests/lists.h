/* Lists that the tests call with. Bytes end where a page begins that may not be touched, and what is written stands at the
 * end and at the beginning of a page between two such: a read or a write outside of it stops the program. A file that
 * includes this says before it that it takes what systems have (`_GNU_SOURCE`). */
#include "row_mask.h"

#include <stdio.h>
#include <stdlib.h>
#include <string.h>
#ifdef _WIN32
#include <windows.h>
#else
#include <sys/mman.h>
#include <unistd.h>
#endif

enum { LONGEST = 200 };

static size_t compared;

static void same(size_t got, size_t want, const char *what) {
    compared++;
    if (got == want)
        return;
    printf("%s: %zu in place of %zu\n", what, got, want);
    exit(1);
}

static uint64_t state = 1;

static uint64_t random_word(void) {
    state ^= state << 13;
    state ^= state >> 7;
    state ^= state << 17;
    return state;
}

static inline size_t random_below(size_t end) {
    return (size_t)(random_word() % (end ? end : 1));
}

/* A page between two that may not be touched. */
typedef struct room {
    uint8_t *start, *end;
} room;

#ifdef _WIN32
static room new_room(void) {
    SYSTEM_INFO system;
    DWORD before;
    uint8_t *at;
    room made;

    GetSystemInfo(&system);
    at = VirtualAlloc(NULL, 3 * system.dwPageSize, MEM_RESERVE | MEM_COMMIT, PAGE_READWRITE);
    if (at == NULL || !VirtualProtect(at, system.dwPageSize, PAGE_NOACCESS, &before)
        || !VirtualProtect(at + 2 * system.dwPageSize, system.dwPageSize, PAGE_NOACCESS, &before))
        exit(2);
    made.start = at + system.dwPageSize;
    made.end = at + 2 * system.dwPageSize;
    return made;
}
#else
static room new_room(void) {
    size_t page = (size_t)sysconf(_SC_PAGESIZE);
    uint8_t *at = mmap(NULL, 3 * page, PROT_READ | PROT_WRITE, MAP_PRIVATE | MAP_ANONYMOUS, -1, 0);
    room made;

    if (at == MAP_FAILED || mprotect(at, page, PROT_NONE) != 0
        || mprotect(at + 2 * page, page, PROT_NONE) != 0)
        exit(2);
    made.start = at + page;
    made.end = at + 2 * page;
    return made;
}
#endif

/* A list, and the bitmap that has it from a bit on, among random bits. */
typedef struct bitmap {
    bool list[LONGEST];
    uint8_t *bytes;
    size_t size, offset, len;
} bitmap;

static inline void fill(bitmap *made, room where, size_t offset, size_t len, unsigned share) {
    size_t i;

    made->size = (offset + len + 7) / 8;
    made->bytes = where.end - made->size;
    made->offset = offset;
    made->len = len;
    for (i = 0; i < made->size; i++)
        made->bytes[i] = (uint8_t)random_word();
    for (i = 0; i < len; i++) {
        size_t p = offset + i;
        uint8_t bit = (uint8_t)(1u << (p % 8));
        made->list[i] = random_word() % 256 < share;
        made->bytes[p / 8] = (uint8_t)(made->list[i] ? made->bytes[p / 8] | bit : made->bytes[p / 8] & ~bit);
    }
}

#define WHOLE(b) (b)->bytes, (b)->size, (b)->offset, (b)->len
#define BYTES(b) (b)->bytes, (b)->size, (b)->offset

/* Where a bitmap is written: at the beginning of its page, at the end of it, and with room to spare. */
enum { FIRST, LAST, ROOMY, PLACES, MARK = 0xA5 };

static inline size_t size_at(int place, size_t len) {
    return (len + 7) / 8 + (place == ROOMY ? 11 : 0);
}

static inline uint8_t *marked(room where, int place, size_t size) {
    memset(where.start, MARK, (size_t)(where.end - where.start));
    return place == LAST ? where.end - size : where.start;
}

/* The values, clear bits behind them in their byte, and all other bytes of the page as they were. */
static inline void same_written(room where, const uint8_t *out, size_t len, const bool *want, const char *what) {
    size_t i, size = (len + 7) / 8;
    const uint8_t *it;

    for (i = 0; i < 8 * size; i++)
        same((size_t)(out[i / 8] >> (i % 8) & 1), i < len && want[i], what);
    for (it = where.start; it < where.end; it++)
        if (*it != MARK && (it < out || it >= out + size))
            same(*it, MARK, what);
    compared++;
}

#define WRITES(where, len, want, call, ...)                                \
    for (place = 0; place < PLACES; place++) {                             \
        uint8_t *out = marked(where, place, size_at(place, len));          \
        call(__VA_ARGS__, out, size_at(place, len));                       \
        same_written(where, out, len, want, #call);                        \
    }
