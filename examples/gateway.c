// A depot with two sites and one register: cell 0 says which mast stands at the north site, cell 1 which at the south site, 0 for
// none; a site of which nothing was ever reported is unset. The desk and two feed handlers share it. The desk brings the northern mast to
// the south site; while it does, the north feed reports another mast there, so the desk's try is aborted, and the desk begins anew until it
// commits. Then the south feed begins to report a mast that drops off the air: it gives up, and nothing of its report is kept. At last its
// line is up again, and the reports that have gathered come as a burst: all of their steps are taken in one call.
#include "zidlemowo.h"

#include <inttypes.h>
#include <stdbool.h>
#include <stdio.h>
#include <stdlib.h>
#include <string.h>

// The cells.
enum { NORTH, SOUTH, SITES };

// The handlers.
enum { DESK, NORTH_FEED, SOUTH_FEED, HANDLERS };

// How many words the register needs.
#define LENGTH ((size_t)ZIDLEMOWO_WORDS(SITES, HANDLERS))

// A register in its own buffer.
struct depot {
    uint32_t words[LENGTH];
};

// Whether a reply ended the transaction with nothing of it kept.
static bool aborted(uint64_t reply) { return zidlemowo_kind(reply) == ZIDLEMOWO_ABORT; }

// Whether a read found a cell that no commit has written: not the same as a site that was reported empty, which is 0.
static bool unset(uint64_t reply) { return zidlemowo_kind(reply) == ZIDLEMOWO_UNSET; }

// Takes a step whose reply has to be of the expected kind; unset may come in the place of a value, and an abort in the place of a value or
// a commit. Any other reply is a mistake of this program and ends it.
static uint64_t take(struct depot *depot, uint32_t handler, uint32_t code, uint32_t value, uint32_t expected) {
    const uint64_t reply = zidlemowo_step(depot->words, LENGTH, handler, code, value);
    const bool may_abort = expected == ZIDLEMOWO_VALUE || expected == ZIDLEMOWO_COMMIT;
    const bool may_be_unset = expected == ZIDLEMOWO_VALUE;
    if (zidlemowo_kind(reply) != expected && !(may_abort && aborted(reply)) && !(may_be_unset && unset(reply))) {
        fprintf(stderr, "handler %" PRIu32 ", code %" PRIu32 ": %s\n", handler, code,
                zidlemowo_text(zidlemowo_kind(reply), zidlemowo_detail(reply)));
        exit(EXIT_FAILURE);
    }
    return reply;
}

// The five steps.
static void begin(struct depot *depot, uint32_t handler) { take(depot, handler, ZIDLEMOWO_BEGIN, 0, ZIDLEMOWO_OK); }

static uint64_t read_site(struct depot *depot, uint32_t handler, uint32_t site) {
    return take(depot, handler, zidlemowo_read_code(site), 0, ZIDLEMOWO_VALUE);
}

static void write_site(struct depot *depot, uint32_t handler, uint32_t site, uint32_t mast) {
    take(depot, handler, zidlemowo_write_code(site), mast, ZIDLEMOWO_OK);
}

static uint64_t try_to_commit(struct depot *depot, uint32_t handler) {
    return take(depot, handler, ZIDLEMOWO_TRY, 0, ZIDLEMOWO_COMMIT);
}

static uint64_t give_up(struct depot *depot, uint32_t handler) {
    return take(depot, handler, ZIDLEMOWO_GIVE_UP, 0, ZIDLEMOWO_ABORT);
}

// Says how a transaction ended, of an abort also which cell stood in the way, and whether it has to be begun anew. A spent number ends the
// program: no attempt would ever commit.
static bool again(const char *who, uint64_t reply) {
    if (!aborted(reply)) {
        printf("%s: commit\n", who);
        return false;
    }
    printf("%s: abort %" PRIu32 " cell %" PRIu32 "\n", who, zidlemowo_reason(reply), zidlemowo_cell(reply));
    if (zidlemowo_reason(reply) == ZIDLEMOWO_SPENT) {
        exit(EXIT_FAILURE);
    }
    return true;
}

// The north feed reports the mast that stands at its site.
static void report(struct depot *depot, uint32_t mast) {
    printf("north feed: mast %" PRIu32 " stands here\n", mast);
    do {
        begin(depot, NORTH_FEED);
        write_site(depot, NORTH_FEED, NORTH, mast);
    } while (again("north feed", try_to_commit(depot, NORTH_FEED)));
}

// The desk tries to bring the northern mast to the south site. The north feed reports the mast `meanwhile`, if any, before the try.
static uint64_t move_south(struct depot *depot, uint32_t meanwhile) {
    begin(depot, DESK);
    const uint64_t found = read_site(depot, DESK, NORTH);
    if (aborted(found)) {
        return found;
    }
    if (unset(found)) {
        printf("desk: the north site was never reported\n");
        return try_to_commit(depot, DESK);
    }
    printf("desk: mast %" PRIu32 " goes south\n", zidlemowo_detail(found));
    write_site(depot, DESK, NORTH, 0);
    write_site(depot, DESK, SOUTH, zidlemowo_detail(found));
    if (meanwhile != 0) {
        report(depot, meanwhile);
    }
    return try_to_commit(depot, DESK);
}

// The south feed begins to report a mast at its site, which drops off the air before the try.
static void drop_off(struct depot *depot, uint32_t mast) {
    begin(depot, SOUTH_FEED);
    write_site(depot, SOUTH_FEED, SOUTH, mast);
    printf("south feed: mast %" PRIu32 " drops off the air\n", mast);
    printf("south feed: abort %" PRIu32 "\n", zidlemowo_reason(give_up(depot, SOUTH_FEED)));
}

// The masts that the south feed reports in a burst, one after another, and the steps of each report.
static const uint32_t gathered[] = {3, 5, 8};
enum { REPORTED = sizeof gathered / sizeof gathered[0], STEPS = 3 * REPORTED };

// The south feed reports all of them in one call: three transactions, in each of which it begins, writes and tries. Nobody else's step
// comes between, and nothing is read, so that each of them commits.
static void burst(struct depot *depot) {
    uint32_t row[STEPS * ZIDLEMOWO_STEP_WORDS], reports[STEPS * ZIDLEMOWO_REPORT_WORDS];
    size_t length = 0;
    for (size_t k = 0; k < REPORTED; k++) {
        const uint32_t steps[] = {SOUTH_FEED, ZIDLEMOWO_BEGIN,            0,           // handler, code, value
                                  SOUTH_FEED, zidlemowo_write_code(SOUTH), gathered[k], //
                                  SOUTH_FEED, ZIDLEMOWO_TRY,              0};
        memcpy(row + length, steps, sizeof steps);
        length += sizeof steps / sizeof steps[0];
    }
    const uint32_t refusal = zidlemowo_row(depot->words, LENGTH, row, length, reports, sizeof reports / sizeof reports[0], 0);
    if (refusal != 0) {
        fprintf(stderr, "burst: %s\n", zidlemowo_refusal_text(refusal));
        exit(EXIT_FAILURE);
    }
    printf("south feed: %d steps in one call\n", STEPS);
    for (size_t k = 0; k < REPORTED; k++) {
        const uint32_t *tried = reports + (3 * k + 2) * ZIDLEMOWO_REPORT_WORDS;
        printf("south feed: mast %" PRIu32 " stands here: %s\n", gathered[k],
               zidlemowo_text(tried[ZIDLEMOWO_REPORT_KIND], tried[ZIDLEMOWO_REPORT_DETAIL]));
    }
}

// Prints what was found at a site.
static void print_site(const char *name, uint64_t found) {
    if (unset(found)) {
        printf("%s never reported", name);
    } else {
        printf("%s %" PRIu32, name, zidlemowo_detail(found));
    }
}

// The south feed looks at both sites in one transaction.
static uint64_t look(struct depot *depot) {
    begin(depot, SOUTH_FEED);
    const uint64_t north = read_site(depot, SOUTH_FEED, NORTH);
    if (aborted(north)) {
        return north;
    }
    const uint64_t south = read_site(depot, SOUTH_FEED, SOUTH);
    if (aborted(south)) {
        return south;
    }
    print_site("south feed: north", north);
    print_site(", south", south);
    printf("\n");
    return try_to_commit(depot, SOUTH_FEED);
}

int main(void) {
    static struct depot depot;
    const uint32_t refusal = zidlemowo_open(depot.words, LENGTH, SITES, HANDLERS);
    if (refusal != 0) {
        fprintf(stderr, "opening: %s\n", zidlemowo_refusal_text(refusal));
        return EXIT_FAILURE;
    }
    printf("open: %d cells, %d handlers, %zu words\n", SITES, HANDLERS, LENGTH);

    while (again("desk", move_south(&depot, 0))) {
    }
    report(&depot, 7);
    while (again("south feed", look(&depot))) {
    }
    uint32_t meanwhile = 9;
    while (again("desk", move_south(&depot, meanwhile))) {
        meanwhile = 0;
    }
    drop_off(&depot, 4);
    burst(&depot);
    while (again("south feed", look(&depot))) {
    }
    return EXIT_SUCCESS;
}
