// Rows of steps through C: malformed registers, too few words for the reports, places beyond them and NULL with a length of 0 get the number
// of docs/REPLIES.md and leave every word as it was; a row that is taken gives what its steps give one by one, and changes no other
// word. All three buffers end where the memory does, and the steps can't be written at all: a look beyond any of them ends the program.
#define _DEFAULT_SOURCE
#include "zidlemowo.h"

#include <inttypes.h>
#include <stdio.h>
#include <stdlib.h>
#include <string.h>
#include <sys/mman.h>
#include <unistd.h>

// The most steps of a row here.
#define MOST_STEPS ((size_t)40)

// Room for each buffer, and some words in front of it.
#define REGISTER_ROOM ((size_t)ZIDLEMOWO_MOST_WORDS + 8)
#define STEPS_ROOM (MOST_STEPS * ZIDLEMOWO_STEP_WORDS + 2)
#define REPORTS_ROOM (MOST_STEPS * ZIDLEMOWO_REPORT_WORDS + 20)

// What fills words that no call may change.
#define FILLER UINT32_C(0xdeadbeef)

#define COUNT(array) (sizeof(array) / sizeof((array)[0]))

// A register's size.
struct size {
    uint32_t m, n;
};

static const struct size sizes[] = {{1, 1}, {2, 2}, {8, 4}, {31, 3}, {32, 16}};

// Memory for words: where it ends, behind which it can't be touched, how many words it has, and how they were before a call.
struct room {
    uint32_t *end, *before;
    size_t count;
};

static struct room registers, row_steps, row_reports;
static unsigned long refused, taken; // how many rows were

static void fail(const char *what, uint64_t given, uint64_t expected) {
    fprintf(stderr, "rows: %s: %" PRIu64 ", but expected %" PRIu64 "\n", what, given, expected);
    exit(EXIT_FAILURE);
}

static void demand(const char *what, uint64_t given, uint64_t expected) {
    if (given != expected) {
        fail(what, given, expected);
    }
}

// Room for so many words, in front of a page that can't be touched.
static struct room room_of(size_t count) {
    const size_t page = (size_t)sysconf(_SC_PAGESIZE);
    const size_t bytes = (count * sizeof(uint32_t) + page - 1) / page * page;
    char *start = mmap(NULL, bytes + page, PROT_READ | PROT_WRITE, MAP_PRIVATE | MAP_ANONYMOUS, -1, 0);
    uint32_t *before = malloc(count * sizeof(uint32_t));
    if (start == MAP_FAILED || mprotect(start + bytes, page, PROT_NONE) != 0 || before == NULL) {
        perror("rows: no memory");
        exit(EXIT_FAILURE);
    }
    const struct room room = {(uint32_t *)(void *)(start + bytes), before, count};
    for (size_t k = 0; k < count; k++) {
        room.end[-1 - (ptrdiff_t)k] = FILLER;
    }
    return room;
}

// The steps may be written, or only read.
static void protect_steps(int protection) {
    const size_t page = (size_t)sysconf(_SC_PAGESIZE);
    const size_t bytes = (row_steps.count * sizeof(uint32_t) + page - 1) / page * page;
    if (mprotect((char *)(void *)row_steps.end - bytes, bytes, protection) != 0) {
        perror("rows: memory that can only be read");
        exit(EXIT_FAILURE);
    }
}

// The last `length` words of a room, all of it filled first.
static uint32_t *lend(struct room room, size_t length) {
    for (size_t k = 0; k < room.count; k++) {
        (room.end - room.count)[k] = FILLER;
    }
    return room.end - length;
}

static void keep(struct room room) { memcpy(room.before, room.end - room.count, room.count * sizeof(uint32_t)); }

static void unchanged(const char *what, struct room room) {
    for (size_t k = 0; k < room.count; k++) {
        demand(what, (room.end - room.count)[k], room.before[k]);
    }
}

// A register at the end of its room, fresh.
static uint32_t *fresh(struct size size) {
    const size_t need = zidlemowo_length(size.m, size.n);
    uint32_t *words = lend(registers, need);
    demand("an opening", zidlemowo_open(words, need, size.m, size.n), 0);
    return words;
}

// A row of so many steps at the end of its room: all handlers in turn begin, read, write and try, with refused steps of every number
// among them, codes and handlers above 255 too.
static const uint32_t *steps_of(struct size size, size_t count) {
    const uint32_t codes[] = {0, 32, 64, 0, 65, 1, 63, 3, 0, 64, 1000, 33, 2, UINT32_MAX, 1};
    protect_steps(PROT_READ | PROT_WRITE);
    uint32_t *steps = lend(row_steps, count * ZIDLEMOWO_STEP_WORDS);
    for (size_t k = 0; k < count; k++) {
        uint32_t *step = steps + k * ZIDLEMOWO_STEP_WORDS;
        step[ZIDLEMOWO_STEP_HANDLER] = k % 13 == 12 ? 300 : (uint32_t)(k / COUNT(codes)) % size.n;
        step[ZIDLEMOWO_STEP_CODE] = codes[k % COUNT(codes)];
        step[ZIDLEMOWO_STEP_VALUE] = (uint32_t)k + 1;
    }
    protect_steps(PROT_READ);
    return steps;
}

// A row that has to be refused with a number, and to leave every word of all rooms as it was.
static void row_refused(const char *what, uint32_t *words, size_t length, const uint32_t *steps, size_t steps_length, uint32_t *reports,
                        size_t reports_length, size_t place, uint32_t number) {
    keep(registers);
    keep(row_steps);
    keep(row_reports);
    demand(what, zidlemowo_row(words, length, steps, steps_length, reports, reports_length, place), number);
    unchanged(what, registers);
    unchanged(what, row_steps);
    unchanged(what, row_reports);
    refused++;
}

// Words that are no register: 10, also where the reports have no room, and with no step.
static void no_register(struct size size) {
    const size_t need = zidlemowo_length(size.m, size.n);
    const uint32_t *steps = steps_of(size, 2);
    uint32_t *words = fresh(size);
    uint32_t *reports = lend(row_reports, 10);
    row_refused("a word too few", words, need - 1, steps, 6, reports, 10, 0, ZIDLEMOWO_NOT_WELL_FORMED);
    row_refused("no words", NULL, 0, steps, 6, reports, 10, 0, ZIDLEMOWO_NOT_WELL_FORMED);
    for (size_t place = 0; place < need; place++) {
        const uint32_t kept = words[place];
        words[place] = UINT32_MAX;
        // A value or a copy may be anything: what a step finds is what a row does.
        const uint64_t reply = zidlemowo_step(words, need, UINT32_MAX, ZIDLEMOWO_BEGIN, 0);
        if (zidlemowo_detail(reply) == ZIDLEMOWO_NOT_WELL_FORMED) {
            row_refused("a damaged register", words, need, steps, 6, reports, 10, 0, ZIDLEMOWO_NOT_WELL_FORMED);
            row_refused("a damaged register, no room", words, need, steps, 6, reports, 10, 1, ZIDLEMOWO_NOT_WELL_FORMED);
            row_refused("a damaged register, no step", words, need, NULL, 0, NULL, 0, 0, ZIDLEMOWO_NOT_WELL_FORMED);
        }
        words[place] = kept;
    }
}

// Reports that would pass the end of the words for them: 42, from the first word too few on, and for no place anything else.
static void no_room(struct size size) {
    static const size_t beyond[] = {1, 2, 3, 4, 100, SIZE_MAX / 8, SIZE_MAX / 4, SIZE_MAX / 4 + 1, SIZE_MAX / 2, SIZE_MAX / 2 + 1};
    const size_t need = zidlemowo_length(size.m, size.n);
    uint32_t *words = fresh(size);
    for (size_t count = 0; count <= MOST_STEPS; count++) {
        const uint32_t *steps = steps_of(size, count);
        const size_t long_enough = count * ZIDLEMOWO_REPORT_WORDS, given = count * ZIDLEMOWO_STEP_WORDS;
        for (size_t length = 0; length < long_enough; length++) {
            row_refused("too few words", words, need, steps, given, lend(row_reports, length), length, 0, ZIDLEMOWO_NO_ROOM);
        }
        uint32_t *reports = lend(row_reports, long_enough + 5);
        for (size_t place = 6; place < 20; place++) {
            row_refused("a place too far", words, need, steps, given, reports, long_enough + 5, place, ZIDLEMOWO_NO_ROOM);
        }
        for (size_t k = 0; k < COUNT(beyond); k++) {
            const size_t length = long_enough + 5;
            row_refused("a place beyond the end", words, need, steps, given, reports, length, length + beyond[k], ZIDLEMOWO_NO_ROOM);
            row_refused("a place near the largest", words, need, steps, given, reports, length, SIZE_MAX - beyond[k], ZIDLEMOWO_NO_ROOM);
        }
        // Here place + 5 * steps wraps round to a word that there is.
        for (size_t k = 0; count > 0 && k < ZIDLEMOWO_REPORT_WORDS; k++) {
            row_refused("a sum that wraps", words, need, steps, given, reports, long_enough + 5, SIZE_MAX - long_enough + 1 + k, ZIDLEMOWO_NO_ROOM);
        }
        row_refused("the largest place", words, need, steps, given, reports, long_enough + 5, SIZE_MAX, ZIDLEMOWO_NO_ROOM);
        row_refused("no word for reports", words, need, steps, given, NULL, 0, count == 0 ? 1 : 0, ZIDLEMOWO_NO_ROOM);
    }
}

// The five words of a step's report, from the reply that the step gives by itself.
static void report_of(uint32_t *report, const uint32_t *step, uint64_t reply) {
    const uint32_t kind = zidlemowo_kind(reply);
    report[0] = step[0];
    report[1] = step[1];
    report[2] = kind;
    report[3] = kind == ZIDLEMOWO_ABORT ? zidlemowo_reason(reply) : zidlemowo_detail(reply);
    report[4] = zidlemowo_cell(reply);
}

// A row from a place with so many words behind its reports, of which the last step may be cut short by `cut` words: the replies, the
// register and every word for reports are those of the steps one by one.
static void as_one_by_one(struct size size, size_t count, size_t cut, size_t place, size_t behind) {
    const size_t need = zidlemowo_length(size.m, size.n), length = place + count * ZIDLEMOWO_REPORT_WORDS + behind;
    const uint32_t *steps = steps_of(size, count + (cut > 0));
    const size_t given = count * ZIDLEMOWO_STEP_WORDS + (cut > 0 ? ZIDLEMOWO_STEP_WORDS - cut : 0);
    uint32_t *reports = lend(row_reports, length);
    keep(row_reports);
    uint32_t *expected = row_reports.before + row_reports.count - length + place;
    uint32_t *words = fresh(size);
    for (size_t k = 0; k < count; k++) {
        const uint32_t *step = steps + k * ZIDLEMOWO_STEP_WORDS;
        const uint64_t reply = zidlemowo_step(words, need, step[0], step[1], step[2]);
        report_of(expected + k * ZIDLEMOWO_REPORT_WORDS, step, reply);
    }
    keep(registers);
    keep(row_steps);
    words = fresh(size);
    demand("a row", zidlemowo_row(words, need, steps, given, reports, length, place), 0);
    unchanged("a register's word after a row", registers);
    unchanged("a step's word after a row", row_steps);
    unchanged("a report's word after a row", row_reports);
    taken++;
}

// The published listing, K7, as a row, in the header's names.
static void listing(void) {
    static const uint32_t steps[] = {0, 0, 0, 0, 32, 0, 1, 0, 0, 1, 64, 5, 1, 65, 7, 1, 1, 0, 0, 33, 0};
    static const uint32_t replies[] = {ZIDLEMOWO_OK, ZIDLEMOWO_UNSET, ZIDLEMOWO_OK, ZIDLEMOWO_OK, ZIDLEMOWO_OK, ZIDLEMOWO_COMMIT, ZIDLEMOWO_ABORT};
    uint32_t words[ZIDLEMOWO_WORDS(2, 2)], reports[COUNT(replies) * ZIDLEMOWO_REPORT_WORDS];
    demand("an opening", zidlemowo_open(words, COUNT(words), 2, 2), 0);
    demand("the listing", zidlemowo_row(words, COUNT(words), steps, COUNT(steps), reports, COUNT(reports), 0), 0);
    for (size_t k = 0; k < COUNT(replies); k++) {
        const uint32_t *report = reports + k * ZIDLEMOWO_REPORT_WORDS;
        demand("a report's handler", report[ZIDLEMOWO_REPORT_HANDLER], steps[3 * k]);
        demand("a report's code", report[ZIDLEMOWO_REPORT_CODE], steps[3 * k + 1]);
        demand("a report's kind", report[ZIDLEMOWO_REPORT_KIND], replies[k]);
        demand("a report's detail", report[ZIDLEMOWO_REPORT_DETAIL], k == 6 ? ZIDLEMOWO_TORN : 0);
        demand("a report's cell", report[ZIDLEMOWO_REPORT_CELL], 0);
    }
    taken++;
}

// Every abort in one row, each with its reason and its cell in words of their own: K11, a cell overtaken, one spent, and a give up. Words in
// front of the reports and behind them stay.
static void aborts(void) {
    static const uint32_t steps[] = {
        1, 0, 0, 1, 65, 3, 1, 1, 0, 0, 0,  0, 0, 33, 0, 2, 0, 0, 2, 64, 4, 2, 65, 8, 2, 1, 0, 0, 32, 0, // K11: abort 1 cell 1
        0, 0, 0, 0, 32, 0, 0, 33, 0, 1, 0, 0, 1, 65, 9, 1, 1, 0, 0, 1,  0,                              // cell 1 is overtaken: abort 2
        0, 0, 0, 0, 64, 6, 0, 65, 6, 0, 1, 0,                                                           // and spent: abort 3
        0, 0, 0, 0, 65, 6, 0, 2,  0,                                                                    // abort 5, which names none
    };
    static const uint32_t expected[][ZIDLEMOWO_REPORT_WORDS] = {
        {0, 32, ZIDLEMOWO_ABORT, ZIDLEMOWO_TORN, 1},
        {0, 1, ZIDLEMOWO_ABORT, ZIDLEMOWO_OVERTAKEN, 1},
        {0, 1, ZIDLEMOWO_ABORT, ZIDLEMOWO_SPENT, 1},
        {0, 2, ZIDLEMOWO_ABORT, ZIDLEMOWO_GAVE_UP, 0},
    };
    enum { PLACE = 3, BEHIND = 4, STEPS = COUNT(steps) / ZIDLEMOWO_STEP_WORDS };
    uint32_t words[ZIDLEMOWO_WORDS(2, 3)], reports[PLACE + STEPS * ZIDLEMOWO_REPORT_WORDS + BEHIND];
    demand("an opening", zidlemowo_open(words, COUNT(words), 2, 3), 0);
    words[7] = ZIDLEMOWO_MOST_NUMBER - 3; // cell 1's own number: the three commits of the row spend it
    for (size_t k = 0; k < COUNT(reports); k++) {
        reports[k] = FILLER;
    }
    demand("aborts", zidlemowo_row(words, COUNT(words), steps, COUNT(steps), reports, COUNT(reports), PLACE), 0);
    size_t met = 0;
    for (size_t k = 0; k < STEPS; k++) {
        const uint32_t *report = reports + PLACE + k * ZIDLEMOWO_REPORT_WORDS;
        for (size_t w = 0; report[ZIDLEMOWO_REPORT_KIND] == ZIDLEMOWO_ABORT && w < ZIDLEMOWO_REPORT_WORDS; w++) {
            demand("an abort's report", report[w], met < COUNT(expected) ? expected[met][w] : FILLER);
        }
        met += report[ZIDLEMOWO_REPORT_KIND] == ZIDLEMOWO_ABORT;
    }
    demand("the aborts of a row", met, COUNT(expected));
    for (size_t k = 0; k < COUNT(reports); k++) {
        if (k < PLACE || k >= COUNT(reports) - BEHIND) {
            demand("a word around the reports", reports[k], FILLER);
        }
    }
    taken++;
}

int main(void) {
    registers = room_of(REGISTER_ROOM);
    row_steps = room_of(STEPS_ROOM);
    row_reports = room_of(REPORTS_ROOM);
    listing();
    aborts();
    for (size_t k = 0; k < COUNT(sizes); k++) {
        no_register(sizes[k]);
        no_room(sizes[k]);
        for (size_t count = 0; count < MOST_STEPS; count++) {
            for (size_t cut = 0; cut < ZIDLEMOWO_STEP_WORDS; cut++) {
                as_one_by_one(sizes[k], count, cut, count % 7, count % 3);
            }
        }
        as_one_by_one(sizes[k], MOST_STEPS, 0, 0, 0);
        demand("a row of nothing", zidlemowo_row(fresh(sizes[k]), zidlemowo_length(sizes[k].m, sizes[k].n), NULL, 0, NULL, 0, 0), 0);
    }
    printf("rows: %lu refused with no word changed, %lu taken as their steps one by one\n", refused, taken);
    return EXIT_SUCCESS;
}
