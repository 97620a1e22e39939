// The header's names against the numbers of docs/RULES.md: every step code, every kind of reply and every reason of an abort with the cell that
// it names, each given by the proved register itself. The refusals' names are tried in bad_input.c.
#include "zidlemowo.h"

#include <inttypes.h>
#include <stdio.h>
#include <stdlib.h>
#include <string.h>

// A register of two cells and three handlers, and where its cells have their own numbers.
static uint32_t words[ZIDLEMOWO_WORDS(2, 3)];
enum { OWN_NUMBER = 3, OWN_NUMBER_1 = 7 };

// A step with the reply that it has to give.
struct line {
    uint32_t handler, code, value, kind, detail;
};

static void demand(const char *what, uint32_t given, uint32_t expected) {
    if (given != expected) {
        fprintf(stderr, "replies: %s: gave %" PRIu32 ", expected %" PRIu32 "\n", what, given, expected);
        exit(EXIT_FAILURE);
    }
}

// A fresh register, with a number in cell 0.
static void fresh(uint32_t number) {
    demand("an opening", zidlemowo_open(words, sizeof words / sizeof words[0], 2, 3), 0);
    words[OWN_NUMBER] = number;
}

// Takes the steps one after another, each with the reply expected.
static void play(const char *what, const struct line *lines, size_t count) {
    for (size_t k = 0; k < count; k++) {
        const uint64_t reply = zidlemowo_step(words, sizeof words / sizeof words[0], lines[k].handler, lines[k].code, lines[k].value);
        const int aborts = lines[k].kind == ZIDLEMOWO_ABORT;
        demand(what, zidlemowo_kind(reply), lines[k].kind);
        demand(what, zidlemowo_detail(reply), lines[k].detail);
        demand(what, zidlemowo_reason(reply), aborts ? lines[k].detail & 0xffff : 0);
        demand(what, zidlemowo_cell(reply), aborts ? lines[k].detail >> 16 : 0);
    }
}

// The kind and the detail of an abort that names a cell.
#define ABORT(reason, cell) ZIDLEMOWO_ABORT, (cell) * UINT32_C(65536) + (reason)

#define PLAY(what, lines) play(what, lines, sizeof(lines) / sizeof((lines)[0]))

// The published listing, K7, in numbers; then the same in the header's names.
static void listing(void) {
    static const struct line numbers[] = {{0, 0, 0, 0, 0},  {0, 32, 0, 5, 0}, {1, 0, 0, 0, 0}, {1, 64, 5, 0, 0},
                                          {1, 65, 7, 0, 0}, {1, 1, 0, 2, 0},  {0, 33, 0, 3, 1}};
    const struct line names[] = {{0, ZIDLEMOWO_BEGIN, 0, ZIDLEMOWO_OK, 0},
                                 {0, zidlemowo_read_code(0), 0, ZIDLEMOWO_UNSET, 0},
                                 {1, ZIDLEMOWO_BEGIN, 0, ZIDLEMOWO_OK, 0},
                                 {1, zidlemowo_write_code(0), 5, ZIDLEMOWO_OK, 0},
                                 {1, zidlemowo_write_code(1), 7, ZIDLEMOWO_OK, 0},
                                 {1, ZIDLEMOWO_TRY, 0, ZIDLEMOWO_COMMIT, 0},
                                 {0, zidlemowo_read_code(1), 0, ABORT(ZIDLEMOWO_TORN, 0)}};
    fresh(0);
    PLAY("the listing in numbers", numbers);
    fresh(0);
    PLAY("the listing in names", names);
}

// K8 to K11: a read is torn from a cell that was read before, through a read and through a handler, and not by a blind write; in K11 from cell 1.
static void reads(void) {
    static const struct line by_read[] = {{0, 0, 0, 0, 0}, {0, 32, 0, 5, 0}, {1, 0, 0, 0, 0}, {1, 64, 5, 0, 0}, {1, 1, 0, 2, 0},
                                          {2, 0, 0, 0, 0}, {2, 32, 0, 1, 5}, {2, 65, 6, 0, 0}, {2, 1, 0, 2, 0}, {0, 33, 0, ABORT(ZIDLEMOWO_TORN, 0)}};
    static const struct line by_handler[] = {{0, 0, 0, 0, 0}, {0, 32, 0, 5, 0}, {1, 0, 0, 0, 0}, {1, 64, 5, 0, 0}, {1, 1, 0, 2, 0},
                                             {1, 0, 0, 0, 0}, {1, 65, 6, 0, 0}, {1, 1, 0, 2, 0}, {0, 33, 0, ABORT(ZIDLEMOWO_TORN, 0)}};
    static const struct line blind[] = {{0, 0, 0, 0, 0},  {0, 32, 0, 5, 0}, {1, 0, 0, 0, 0}, {1, 64, 5, 0, 0}, {1, 1, 0, 2, 0}, {2, 0, 0, 0, 0},
                                        {2, 65, 6, 0, 0}, {2, 1, 0, 2, 0},  {0, 33, 0, 1, 6}, {0, 1, 0, ABORT(ZIDLEMOWO_OVERTAKEN, 0)}};
    static const struct line in_order[] = {{1, 0, 0, 0, 0}, {1, 65, 3, 0, 0}, {1, 1, 0, 2, 0}, {0, 0, 0, 0, 0}, {0, 33, 0, 1, 3}, {2, 0, 0, 0, 0},
                                           {2, 64, 4, 0, 0}, {2, 65, 8, 0, 0}, {2, 1, 0, 2, 0}, {0, 32, 0, ABORT(ZIDLEMOWO_TORN, 1)}};
    fresh(0);
    PLAY("K8", by_read);
    fresh(0);
    PLAY("K9", by_handler);
    fresh(0);
    PLAY("K10", blind);
    fresh(0);
    PLAY("K11", in_order);
}

// K6 and K12: a try is overtaken by another's commit, also where it writes the cell; a written cell's number goes to 65,535 and no further, and a
// stale read of cell 1 goes before that. Of two cells that are written, the one that is spent is named.
static void tries(void) {
    static const struct line overtaken[] = {{0, 0, 0, 0, 0}, {0, 32, 0, 5, 0}, {1, 0, 0, 0, 0}, {1, 64, 5, 0, 0}, {1, 1, 0, 2, 0},
                                            {0, 1, 0, ABORT(ZIDLEMOWO_OVERTAKEN, 0)}};
    static const struct line written[] = {{0, 0, 0, 0, 0}, {0, 32, 0, 5, 0}, {0, 64, 7, 0, 0}, {1, 0, 0, 0, 0}, {1, 64, 5, 0, 0}, {1, 1, 0, 2, 0},
                                          {0, 1, 0, ABORT(ZIDLEMOWO_OVERTAKEN, 0)}};
    static const struct line spent[] = {{0, 0, 0, 0, 0}, {0, 64, UINT32_MAX, 0, 0}, {0, 1, 0, 2, 0}, {0, 0, 0, 0, 0}, {0, 64, 1, 0, 0},
                                        {0, 1, 0, ABORT(ZIDLEMOWO_SPENT, 0)}, {0, 0, 0, 0, 0}, {0, 32, 0, 1, UINT32_MAX}};
    static const struct line stale[] = {{0, 0, 0, 0, 0}, {0, 33, 0, 5, 0}, {0, 64, 6, 0, 0}, {1, 0, 0, 0, 0}, {1, 65, 3, 0, 0}, {1, 1, 0, 2, 0},
                                        {0, 1, 0, ABORT(ZIDLEMOWO_OVERTAKEN, 1)}};
    static const struct line one_of_two[] = {{0, 0, 0, 0, 0}, {0, 64, 6, 0, 0}, {0, 65, 6, 0, 0}, {0, 1, 0, ABORT(ZIDLEMOWO_SPENT, 1)}};
    fresh(0);
    PLAY("K6", overtaken);
    fresh(0);
    PLAY("K6, written", written);
    fresh(ZIDLEMOWO_MOST_NUMBER - 1);
    PLAY("K12", spent);
    demand("the number of cell 0", words[OWN_NUMBER], 65535);
    fresh(ZIDLEMOWO_MOST_NUMBER);
    PLAY("K12, a stale read", stale);
    fresh(ZIDLEMOWO_MOST_NUMBER - 1);
    words[OWN_NUMBER_1] = ZIDLEMOWO_MOST_NUMBER;
    PLAY("one of two cells is spent", one_of_two);
}

// A step on the largest register.
static uint64_t step_of_32(uint32_t *largest, uint32_t handler, uint32_t code) {
    return zidlemowo_step(largest, ZIDLEMOWO_MOST_WORDS, handler, code, 7);
}

// An abort has its reason and its cell, together in the detail and each by itself.
static void is_named(const char *what, uint64_t reply, uint32_t reason, uint32_t cell) {
    demand(what, zidlemowo_kind(reply), ZIDLEMOWO_ABORT);
    demand(what, zidlemowo_detail(reply), cell * ZIDLEMOWO_ABORT_CELL + reason);
    demand(what, zidlemowo_reason(reply), reason);
    demand(what, zidlemowo_cell(reply), cell);
}

// The largest register, with handler 0 open and handler 1 just committed: handler 0 has read or, where it is to be spent, written all cells but
// one, from the highest down, and handler 1 has written that one and all from a cell on.
static uint32_t *prepared(uint32_t reason, uint32_t cell, uint32_t but_one) {
    static uint32_t largest[ZIDLEMOWO_MOST_WORDS];
    const int spent = reason == ZIDLEMOWO_SPENT;
    demand("an opening", zidlemowo_open(largest, ZIDLEMOWO_MOST_WORDS, 32, 16), 0);
    step_of_32(largest, 0, ZIDLEMOWO_BEGIN);
    step_of_32(largest, 1, ZIDLEMOWO_BEGIN);
    for (uint32_t c = 31; c < 32; c--) { // behind 0 it wraps
        if (c != but_one) {
            step_of_32(largest, 0, spent ? zidlemowo_write_code(c) : zidlemowo_read_code(c));
        }
        if (c == but_one || c >= cell) {
            step_of_32(largest, 1, zidlemowo_write_code(c));
            largest[2 + c * 33 + 1 + c] = spent ? ZIDLEMOWO_MOST_NUMBER - 1 : 0; // its own number, as it will be raised
        }
    }
    demand("a commit", zidlemowo_kind(step_of_32(largest, 1, ZIDLEMOWO_TRY)), ZIDLEMOWO_COMMIT);
    return largest;
}

// Each cell of 32 as the lowest of those that meet a condition.
static void cells(void) {
    for (uint32_t cell = 0; cell < 32; cell++) {
        const uint32_t but_one = cell == 31 ? 0 : 31, first_read = zidlemowo_read_code(but_one);
        is_named("torn", step_of_32(prepared(ZIDLEMOWO_TORN, cell, but_one), 0, first_read), ZIDLEMOWO_TORN, cell);
        is_named("overtaken", step_of_32(prepared(ZIDLEMOWO_OVERTAKEN, cell, but_one), 0, ZIDLEMOWO_TRY), ZIDLEMOWO_OVERTAKEN, cell);
        is_named("spent", step_of_32(prepared(ZIDLEMOWO_SPENT, cell, but_one), 0, ZIDLEMOWO_TRY), ZIDLEMOWO_SPENT, cell);
    }
}

// A cell written as 0 is a value, and one never written is unset: in first and later reads, and unset by the number alone, whatever the
// cell holds.
static void unset_cells(void) {
    const struct line calm[] = {{0, 0, 0, 0, 0},
                                {0, 64, 0, 0, 0},
                                {0, 32, 0, ZIDLEMOWO_VALUE, 0}, // its own write
                                {0, 33, 0, ZIDLEMOWO_UNSET, 0},
                                {0, 33, 0, ZIDLEMOWO_UNSET, 0},
                                {0, 1, 0, ZIDLEMOWO_COMMIT, 0},
                                {1, 0, 0, 0, 0},
                                {1, 32, 0, ZIDLEMOWO_VALUE, 0},
                                {1, 32, 0, ZIDLEMOWO_VALUE, 0},
                                {1, 33, 0, ZIDLEMOWO_UNSET, 0},
                                {1, 65, 0, 0, 0},
                                {1, 33, 0, ZIDLEMOWO_VALUE, 0}};
    const struct line held[] = {{0, 0, 0, 0, 0}, {0, 32, 0, 5, 0}, {0, 32, 0, 5, 0}, {0, 64, 7, 0, 0}, {0, 32, 0, 1, 7}};
    fresh(0);
    PLAY("a cell written as 0", calm);
    fresh(0);
    words[OWN_NUMBER - 1] = 9;
    PLAY("a value with number 0", held);
}

// K14, in numbers and then in the header's names: a give up keeps nothing, and while idle it is refused.
static void give_ups(void) {
    static const struct line numbers[] = {{0, 0, 0, 0, 0}, {0, 32, 0, 1, 0}, {0, 65, 7, 0, 0}, {0, 2, 0, 3, 5}, {0, 2, 0, 4, 14}};
    const struct line names[] = {{0, ZIDLEMOWO_BEGIN, 0, ZIDLEMOWO_OK, 0},
                                 {0, zidlemowo_write_code(0), 9, ZIDLEMOWO_OK, 0},
                                 {0, ZIDLEMOWO_GIVE_UP, 0, ABORT(ZIDLEMOWO_GAVE_UP, 0)},
                                 {0, ZIDLEMOWO_TRY, 0, ZIDLEMOWO_REFUSED, ZIDLEMOWO_NOT_OPEN}};
    static uint32_t before[sizeof words / sizeof words[0]];
    fresh(ZIDLEMOWO_MOST_NUMBER);
    memcpy(before, words, sizeof before);
    PLAY("a give up in numbers", numbers);
    PLAY("a give up in names", names);
    demand("a word changed by what was given up", memcmp(before, words, sizeof before) != 0, 0);
}

// The codes of all cells. A cell that no code names has an unknown one, never that of another step.
static void codes(void) {
    static const uint32_t beyond[] = {32, 33, 63, 64, 95, 224, 65536, UINT32_MAX - 95, UINT32_MAX - 63, UINT32_MAX - 31, UINT32_MAX};
    for (uint32_t cell = 0; cell < 32; cell++) {
        demand("the code that reads a cell", zidlemowo_read_code(cell), 32 + cell);
        demand("the code that writes a cell", zidlemowo_write_code(cell), 64 + cell);
    }
    for (size_t k = 0; k < sizeof beyond / sizeof beyond[0]; k++) {
        demand("the code that reads no cell", zidlemowo_read_code(beyond[k]), ZIDLEMOWO_NO_CODE);
        demand("the code that writes no cell", zidlemowo_write_code(beyond[k]), ZIDLEMOWO_NO_CODE);
    }
    const struct line absent[] = {{0, zidlemowo_read_code(31), 0, ZIDLEMOWO_REFUSED, ZIDLEMOWO_NO_CELL},
                                  {0, zidlemowo_write_code(31), 5, ZIDLEMOWO_REFUSED, ZIDLEMOWO_NO_CELL},
                                  {0, zidlemowo_read_code(32), 0, ZIDLEMOWO_REFUSED, ZIDLEMOWO_UNKNOWN_STEP},
                                  {0, zidlemowo_write_code(32), 5, ZIDLEMOWO_REFUSED, ZIDLEMOWO_UNKNOWN_STEP}};
    PLAY("cells that there are not", absent);
}

int main(void) {
    listing();
    reads();
    tries();
    cells();
    unset_cells();
    give_ups();
    codes();
    printf("replies: every step code, kind and reason as documented, and each of 32 cells named by aborts 1, 2 and 3\n");
    return EXIT_SUCCESS;
}
