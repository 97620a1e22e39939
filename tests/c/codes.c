// The header's codes and the register's against docs/CODES.md, whose path is the argument: each of its 256 rows has the code that the
// header names for its step and cell, and with that code the register takes that step, on that cell. An unknown code is 15, and so is 256.
#include "zidlemowo.h"

#include <inttypes.h>
#include <stdio.h>
#include <stdlib.h>
#include <string.h>

enum { CODES = 256, KNOWN = 67 }; // the rows of the page, and those of them that are a step: three, and a read and a write of 32 cells
enum { BEFORE = 100, AFTER = 7 }; // cell c holds BEFORE + c; a write writes AFTER

// A row of the page.
struct row {
    uint32_t code, cell;
    char step[8];
};

static struct row rows[CODES];
static uint32_t prepared[ZIDLEMOWO_WORDS(32, 1)]; // a register whose cells all hold a value, with an idle handler
static uint32_t words[ZIDLEMOWO_WORDS(32, 1)];    // a copy of it, for the step of one row

static void demand(const char *what, uint32_t code, uint32_t given, uint32_t expected) {
    if (given != expected) {
        fprintf(stderr, "codes: code %" PRIu32 ": %s: gave %" PRIu32 ", expected %" PRIu32 "\n", code, what, given, expected);
        exit(EXIT_FAILURE);
    }
}

// A step's word without the spaces behind it.
static void trim(char *step) {
    for (size_t end = strlen(step); end > 0 && step[end - 1] == ' '; end--) {
        step[end - 1] = 0;
    }
}

// Reads the rows of the page: one for each code, in order.
static void read_page(const char *path) {
    FILE *page = fopen(path, "r");
    if (page == NULL) {
        perror(path);
        exit(EXIT_FAILURE);
    }
    char line[128];
    uint32_t count = 0;
    while (fgets(line, sizeof line, page) != NULL) {
        struct row row;
        if (sscanf(line, "| %" SCNu32 " | %7[a-z ] | %" SCNu32 " |", &row.code, row.step, &row.cell) == 3) {
            demand("a row too many", row.code, count < CODES, 1);
            demand("a row in its place", row.code, row.code, count);
            trim(row.step);
            rows[count++] = row;
        }
    }
    fclose(page);
    demand("how many rows there are", count, count, CODES);
}

// A row's step is this word.
static int is(const struct row *row, const char *step) { return strcmp(row->step, step) == 0; }

// The code that the header names for a row's step and cell. A row of no step has none, and a word that is none of ours is no code.
static uint32_t named(const struct row *row) {
    if (is(row, "begin")) {
        return ZIDLEMOWO_BEGIN;
    }
    if (is(row, "try")) {
        return ZIDLEMOWO_TRY;
    }
    if (is(row, "give up")) {
        return ZIDLEMOWO_GIVE_UP;
    }
    if (is(row, "read")) {
        return zidlemowo_read_code(row->cell);
    }
    return is(row, "write") ? zidlemowo_write_code(row->cell) : (uint32_t)ZIDLEMOWO_NO_CODE;
}

// Each row that is no unknown one has the header's code, so that these are all that the header names: as many are a step.
static void names(void) {
    uint32_t known = 0;
    for (uint32_t code = 0; code < CODES; code++) {
        if (!is(&rows[code], "unknown")) {
            demand("the header's code for the row", code, named(&rows[code]), code);
            known++;
        }
        const int celled = is(&rows[code], "read") || is(&rows[code], "write");
        demand("a cell where none is named", code, celled ? 0 : rows[code].cell, 0);
    }
    demand("how many rows are a step", known, known, KNOWN);
}

// A step's reply has this kind and detail.
static void replies(const char *what, uint32_t code, uint32_t kind, uint32_t detail) {
    const uint64_t reply = zidlemowo_step(words, sizeof words / sizeof words[0], 0, code, AFTER);
    demand(what, code, zidlemowo_kind(reply), kind);
    demand(what, code, zidlemowo_detail(reply), detail);
}

// The register that each step finds.
static void prepare(void) {
    const size_t length = sizeof prepared / sizeof prepared[0];
    demand("an opening", 0, zidlemowo_open(prepared, length, 32, 1), 0);
    zidlemowo_step(prepared, length, 0, ZIDLEMOWO_BEGIN, 0);
    for (uint32_t cell = 0; cell < 32; cell++) {
        zidlemowo_step(prepared, length, 0, zidlemowo_write_code(cell), BEFORE + cell);
    }
    demand("a commit", 1, zidlemowo_kind(zidlemowo_step(prepared, length, 0, ZIDLEMOWO_TRY, 0)), ZIDLEMOWO_COMMIT);
}

// After a write and a commit the row's cell holds what was written, and every other what it held.
static void written(const struct row *row) {
    replies("a commit of what was written", ZIDLEMOWO_TRY, ZIDLEMOWO_COMMIT, 0);
    for (uint32_t cell = 0; cell < 32; cell++) {
        demand("what a cell holds after the write", row->code, words[2 + 33 * cell], cell == row->cell ? AFTER : BEFORE + cell);
    }
}

// A code that stands for no step is refused with 15, whether the handler is idle or open.
static void unknown(uint32_t code) {
    memcpy(words, prepared, sizeof words);
    replies("an unknown code, idle", code, ZIDLEMOWO_REFUSED, ZIDLEMOWO_UNKNOWN_STEP);
    replies("a begin", ZIDLEMOWO_BEGIN, ZIDLEMOWO_OK, 0);
    replies("an unknown code, open", code, ZIDLEMOWO_REFUSED, ZIDLEMOWO_UNKNOWN_STEP);
}

// The code of a row that is a step does what that step does, on the row's cell.
static void taken(const struct row *row) {
    memcpy(words, prepared, sizeof words);
    if (!is(row, "begin")) {
        replies("a begin", ZIDLEMOWO_BEGIN, ZIDLEMOWO_OK, 0);
    }
    if (is(row, "try")) {
        replies("a try", row->code, ZIDLEMOWO_COMMIT, 0);
    } else if (is(row, "give up")) {
        replies("a give up", row->code, ZIDLEMOWO_ABORT, ZIDLEMOWO_GAVE_UP);
    } else if (is(row, "read")) {
        replies("a read", row->code, ZIDLEMOWO_VALUE, BEFORE + row->cell);
    } else {
        replies("a begin or a write", row->code, ZIDLEMOWO_OK, 0);
    }
    if (is(row, "write")) {
        written(row);
    }
}

int main(int count, char **arguments) {
    demand("one argument, the page", 0, (uint32_t)count, 2);
    read_page(arguments[1]);
    names();
    prepare();
    for (uint32_t code = 0; code < CODES; code++) {
        if (is(&rows[code], "unknown")) {
            unknown(code);
        } else {
            taken(&rows[code]);
        }
    }
    demand("the header's name for no code", CODES, ZIDLEMOWO_NO_CODE, CODES);
    unknown(CODES);
    printf("codes: %d rows of the page are the header's names and the register's steps, and %d is none\n", CODES, CODES);
    return EXIT_SUCCESS;
}
