// Bad input through C: lengths of 0, too short buffers, malformed registers, handlers, cells and codes that there are not. Each call
// has to give the number of docs/REPLIES.md and to leave every word as it was. The words lent end where the memory does: the page
// behind them can't be touched, so that a look beyond them ends the program too.
#define _DEFAULT_SOURCE
#include "zidlemowo.h"

#include <inttypes.h>
#include <stdbool.h>
#include <stdio.h>
#include <stdlib.h>
#include <string.h>
#include <sys/mman.h>
#include <unistd.h>

// Room for the largest register and a few words more.
#define ROOM ((size_t)ZIDLEMOWO_MOST_WORDS + 8)

// What fills words that no call may change.
#define FILLER UINT32_C(0xdeadbeef)

#define COUNT(array) (sizeof(array) / sizeof((array)[0]))

// A register's size.
struct size {
    uint32_t m, n;
};

static const struct size sizes[] = {{1, 1}, {2, 1}, {3, 2}, {5, 16}, {31, 3}, {32, 1}, {32, 16}};

// Codes of each kind, known and unknown.
static const uint32_t some_codes[] = {0, 1, 2, 3, 31, 32, 63, 64, 95, 96, 255, 256, 65535, UINT32_MAX};

static uint32_t *end;         // where the words lent end: behind it the memory can't be touched
static uint32_t before[ROOM]; // the words as they were before a call
static unsigned long calls;   // how many calls were refused

// What a call gave is what was expected. A plain number is shown as a detail of kind 0.
static void demand(const char *what, uint64_t given, uint64_t expected) {
    if (given != expected) {
        fprintf(stderr, "bad_input: %s: kind %" PRIu32 ", detail %" PRIu32 ", but expected kind %" PRIu32 ", detail %" PRIu32 "\n", what,
                zidlemowo_kind(given), zidlemowo_detail(given), zidlemowo_kind(expected), zidlemowo_detail(expected));
        exit(EXIT_FAILURE);
    }
}

// The room, in front of a page that can't be touched.
static void make_room(void) {
    const size_t page = (size_t)sysconf(_SC_PAGESIZE);
    const size_t bytes = (ROOM * sizeof(uint32_t) + page - 1) / page * page;
    char *start = mmap(NULL, bytes + page, PROT_READ | PROT_WRITE, MAP_PRIVATE | MAP_ANONYMOUS, -1, 0);
    if (start == MAP_FAILED || mprotect(start + bytes, page, PROT_NONE) != 0) {
        perror("bad_input: no memory");
        exit(EXIT_FAILURE);
    }
    end = (uint32_t *)(void *)(start + bytes);
}

// The last `length` words of the room; those in front of them are filler.
static uint32_t *lend(size_t length) {
    for (uint32_t *word = end - ROOM; word < end - length; word++) {
        *word = FILLER;
    }
    return end - length;
}

// Every word of the room is as it was.
static void unchanged(const char *what) {
    if (memcmp(before, end - ROOM, sizeof before) != 0) {
        fprintf(stderr, "bad_input: %s: a word was changed\n", what);
        exit(EXIT_FAILURE);
    }
}

// A step that has to be refused with a number, and to leave every word of the room as it was.
static void step_refused(const char *what, uint32_t *words, size_t length, uint32_t handler, uint32_t code, uint32_t number) {
    memcpy(before, end - ROOM, sizeof before);
    demand(what, zidlemowo_step(words, length, handler, code, FILLER), ((uint64_t)4 << 32) + number);
    unchanged(what);
    calls++;
}

// An opening that has to be refused with a number, and to leave every word of the room as it was.
static void open_refused(const char *what, uint32_t *words, size_t length, struct size size, uint32_t number) {
    memcpy(before, end - ROOM, sizeof before);
    demand(what, zidlemowo_open(words, length, size.m, size.n), number);
    unchanged(what);
    calls++;
}

// Words that are no register: 10 goes before all else, whatever handler and code.
static void no_register(const char *what, uint32_t *words, size_t length) {
    for (size_t k = 0; k < COUNT(some_codes); k++) {
        step_refused(what, words, length, 0, some_codes[k], ZIDLEMOWO_NOT_WELL_FORMED);
        step_refused(what, words, length, UINT32_MAX, some_codes[k], ZIDLEMOWO_NOT_WELL_FORMED);
    }
}

// Where the blocks of the handlers begin, and how long each is.
static size_t first_block(struct size size) { return 2 + (size_t)size.m * (size.m + 1); }
static size_t block_length(struct size size) { return 3 + 3 * (size_t)size.m; }

// Whether a place of a register, 2 or above, is a number of a cell, a handler or a transaction.
static bool is_number(struct size size, size_t place) {
    if (place < first_block(size)) {
        return (place - 2) % (size.m + 1) > 0;
    }
    const size_t part = (place - first_block(size)) % block_length(size);
    return part >= 3 && part < 3 + 2 * (size_t)size.m;
}

// A well-formed register at the end of the room, with all numbers, sets, values and copies at their largest. All handlers are open
// but the first.
static uint32_t *largest(struct size size) {
    const size_t need = zidlemowo_length(size.m, size.n);
    uint32_t *words = lend(need);
    words[0] = size.m;
    words[1] = size.n;
    for (size_t place = 2; place < need; place++) {
        words[place] = is_number(size, place) ? ZIDLEMOWO_MOST_NUMBER : UINT32_MAX;
    }
    for (size_t i = 0; i < size.n; i++) {
        uint32_t *block = words + first_block(size) + i * block_length(size);
        block[0] = i > 0;
        block[1] = block[2] = UINT32_MAX >> (32 - size.m);
    }
    return words;
}

// The lengths, and the header's constant for them.
static void lengths(void) {
    static const uint32_t outside[] = {0, 33, 65536, 65537, UINT32_C(1) << 31, UINT32_MAX};
    for (uint32_t m = 1; m <= 32; m++) {
        for (uint32_t n = 1; n <= 16; n++) {
            demand("a length", zidlemowo_length(m, n), 2 + m * (m + 1) + n * (3 + 3 * m));
            demand("a length as a constant", ZIDLEMOWO_WORDS(m, n), zidlemowo_length(m, n));
        }
    }
    for (size_t k = 0; k < COUNT(outside); k++) {
        demand("no length, m", zidlemowo_length(outside[k], 1), 0);
        demand("no length, n", zidlemowo_length(1, outside[k]), 0);
    }
    demand("no length, n = 17", zidlemowo_length(32, 17), 0);
    demand("the largest length", zidlemowo_length(32, 16), ZIDLEMOWO_MOST_WORDS);
}

// Openings with m or n out of range: 20, also where the buffer is too short, or there is none.
static void openings_out_of_range(void) {
    static const struct size outside[] = {{0, 1}, {33, 1}, {1, 0}, {1, 17}, {0, 0}, {33, 17}, {UINT32_MAX, 1}, {1, UINT32_MAX},
                                          {UINT32_C(1) << 16, UINT32_C(1) << 16}, {UINT32_MAX, UINT32_MAX}};
    for (size_t k = 0; k < COUNT(outside); k++) {
        open_refused("m or n out of range", lend(ROOM), ROOM, outside[k], ZIDLEMOWO_OUT_OF_RANGE);
        open_refused("m or n out of range, no word", end, 0, outside[k], ZIDLEMOWO_OUT_OF_RANGE);
        open_refused("m or n out of range, NULL", NULL, 0, outside[k], ZIDLEMOWO_OUT_OF_RANGE);
    }
}

// Buffers of every length below the need: an opening gives 21 and a step 10. With the need, both do their work.
static void too_short(struct size size) {
    const size_t need = zidlemowo_length(size.m, size.n);
    for (size_t length = 0; length < need; length++) {
        uint32_t *words = memmove(end - length, largest(size), length * sizeof(uint32_t));
        lend(length);
        step_refused("too short", words, length, 0, ZIDLEMOWO_BEGIN, ZIDLEMOWO_NOT_WELL_FORMED);
        lend(0);
        open_refused("too short", words, length, size, ZIDLEMOWO_TOO_SHORT);
    }
    open_refused("NULL", NULL, 0, size, ZIDLEMOWO_TOO_SHORT);
    no_register("NULL", NULL, 0);
    no_register("a register of which no word is lent", largest(size), 0);
    no_register("a register of which one word is missing", largest(size), need - 1);
}

// An opening that is ready clears the register and no word beyond; then a begin is ok.
static void ready(struct size size) {
    const size_t need = zidlemowo_length(size.m, size.n);
    uint32_t *words = lend(need + 3);
    memset(words, 0xff, (need + 3) * sizeof(uint32_t));
    memcpy(before, end - ROOM, sizeof before);
    memset(before + ROOM - need - 3, 0, need * sizeof(uint32_t));
    before[ROOM - need - 3] = size.m;
    before[ROOM - need - 2] = size.n;
    demand("an opening", zidlemowo_open(words, need + 3, size.m, size.n), 0);
    unchanged("an opening");
    demand("begin after an opening", zidlemowo_step(words, need + 3, size.n - 1, ZIDLEMOWO_BEGIN, 0), 0);
}

// A word that spoils a register in one place, there and put back.
static void spoilt(const char *what, uint32_t *words, size_t need, size_t place, uint32_t word) {
    const uint32_t kept = words[place];
    words[place] = word;
    no_register(what, words, need);
    words[place] = kept;
}

// Words 0 and 1: m and n out of range, and each in range but too large for the buffer.
static void wrong_sizes(struct size size) {
    static const uint32_t outside[] = {0, 33, 34, 65536, UINT32_C(1) << 31, UINT32_MAX};
    const size_t need = zidlemowo_length(size.m, size.n);
    uint32_t *words = largest(size);
    for (size_t k = 0; k < COUNT(outside); k++) {
        spoilt("word 0 out of range", words, need, 0, outside[k]);
        spoilt("word 1 out of range", words, need, 1, outside[k]);
    }
    spoilt("word 0 too large by one", words, need, 0, size.m + 1);
    spoilt("word 1 too large by one", words, need, 1, size.n + 1);
}

// Numbers of every cell, handler and transaction above 65,535.
static void wrong_numbers(struct size size) {
    static const uint32_t above[] = {65536, UINT32_C(1) << 31, UINT32_MAX};
    const size_t need = zidlemowo_length(size.m, size.n);
    uint32_t *words = largest(size);
    for (size_t place = 2; place < need; place++) {
        for (size_t k = 0; is_number(size, place) && k < COUNT(above); k++) {
            spoilt("a number above 65,535", words, need, place, above[k]);
        }
    }
}

// Phases other than 0 and 1, and sets with a bit at m or above, of every handler.
static void wrong_blocks(struct size size) {
    static const uint32_t phases[] = {2, 3, 256, UINT32_C(1) << 31, UINT32_MAX};
    const size_t need = zidlemowo_length(size.m, size.n);
    uint32_t *words = largest(size);
    for (size_t i = 0; i < size.n; i++) {
        const size_t block = first_block(size) + i * block_length(size);
        for (size_t k = 0; k < COUNT(phases); k++) {
            spoilt("a phase above 1", words, need, block, phases[k]);
        }
        for (uint32_t bit = size.m; bit < 32; bit++) {
            spoilt("a read set with a bit at m or above", words, need, block + 1, UINT32_C(1) << bit);
            spoilt("a written set with a bit at m or above", words, need, block + 2, UINT32_C(1) << bit);
        }
    }
}

// Handlers that there are not: 11 for every known code, also of a cell that there is not, and 15 for an unknown one.
static void no_handler(struct size size) {
    const uint32_t handlers[] = {size.n, size.n + 1, 255, 65536, UINT32_C(1) << 31, UINT32_MAX};
    const size_t need = zidlemowo_length(size.m, size.n);
    uint32_t *words = largest(size);
    for (size_t k = 0; k < COUNT(handlers); k++) {
        for (uint32_t code = 0; code < 96; code += code == 2 ? 30 : 1) {
            step_refused("no handler's step", words, need, handlers[k], code, ZIDLEMOWO_NO_HANDLER);
        }
        step_refused("no handler, no step", words, need, handlers[k], 3, ZIDLEMOWO_UNKNOWN_STEP);
    }
}

// Steps that the handler's phase or the register's cells do not allow: the first handler is idle, the others are open.
static void wrong_steps(struct size size) {
    const size_t need = zidlemowo_length(size.m, size.n);
    uint32_t *words = largest(size);
    step_refused("try while idle", words, need, 0, 1, ZIDLEMOWO_NOT_OPEN);
    step_refused("give up while idle", words, need, 0, 2, ZIDLEMOWO_NOT_OPEN);
    for (uint32_t cell = 0; cell < size.m; cell++) {
        step_refused("read while idle", words, need, 0, 32 + cell, ZIDLEMOWO_NOT_OPEN);
        step_refused("write while idle", words, need, 0, 64 + cell, ZIDLEMOWO_NOT_OPEN);
    }
    for (uint32_t handler = 0; handler < size.n; handler++) {
        if (handler > 0) {
            step_refused("begin while open", words, need, handler, 0, ZIDLEMOWO_ALREADY_OPEN);
        }
        for (uint32_t cell = size.m; cell < 32; cell++) {
            step_refused("read of no cell", words, need, handler, 32 + cell, ZIDLEMOWO_NO_CELL);
            step_refused("write of no cell", words, need, handler, 64 + cell, ZIDLEMOWO_NO_CELL);
        }
    }
}

// Unknown codes, from 3 on: all up to 131,071, the last 65,536 up to 4,294,967,295, and every 65,521st between them.
static void unknown_codes(void) {
    const struct size size = {2, 2};
    uint32_t *words = largest(size);
    for (uint64_t code = 3; code <= UINT32_MAX; code += code < 131071 || code > UINT32_MAX - 65536 ? 1 : 65521) {
        if (code < 32 || code > 95) {
            step_refused("unknown code, idle", words, ZIDLEMOWO_WORDS(2, 2), 0, (uint32_t)code, ZIDLEMOWO_UNKNOWN_STEP);
            step_refused("unknown code, open", words, ZIDLEMOWO_WORDS(2, 2), 1, (uint32_t)code, ZIDLEMOWO_UNKNOWN_STEP);
        }
    }
}

int main(void) {
    make_room();
    lengths();
    openings_out_of_range();
    unknown_codes();
    for (size_t k = 0; k < COUNT(sizes); k++) {
        too_short(sizes[k]);
        ready(sizes[k]);
        wrong_sizes(sizes[k]);
        wrong_numbers(sizes[k]);
        wrong_blocks(sizes[k]);
        no_handler(sizes[k]);
        wrong_steps(sizes[k]);
    }
    printf("bad_input: %lu calls refused, each with its number and no word changed\n", calls);
    return EXIT_SUCCESS;
}
