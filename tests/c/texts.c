// The header's texts, printed as the rows of the table "In words" of docs/REPLIES.md, with which the gate compares them; and its
// version, said twice the same way. A number that is in no row has the text of the last row.
#include "zidlemowo.h"

#include <inttypes.h>
#include <stdio.h>
#include <stdlib.h>
#include <string.h>

static void demand(const char *what, int holds) {
    if (!holds) {
        fprintf(stderr, "texts: %s\n", what);
        exit(EXIT_FAILURE);
    }
}

// Whether a kind and a detail stand for something.
static int is_known(uint32_t kind, uint32_t detail) { return strcmp(zidlemowo_text(kind, detail), zidlemowo_no_text()) != 0; }

// Every detail of a value has the one text of its row.
static void values(void) {
    static const uint32_t details[] = {0, 1, 15, 65535, UINT32_MAX};
    const char *text = zidlemowo_text(ZIDLEMOWO_VALUE, 7);
    for (size_t k = 0; k < sizeof details / sizeof details[0]; k++) {
        demand("a value's text depends on the value", strcmp(zidlemowo_text(ZIDLEMOWO_VALUE, details[k]), text) == 0);
    }
    printf("| %d | any | %s |\n", ZIDLEMOWO_VALUE, text);
}

// The rows of a kind: each detail that stands for something.
static void rows(uint32_t kind) {
    for (uint32_t detail = 0; detail <= ZIDLEMOWO_MOST_NUMBER; detail++) {
        if (is_known(kind, detail)) {
            printf("| %" PRIu32 " | %" PRIu32 " | %s |\n", kind, detail, zidlemowo_text(kind, detail));
        }
    }
    demand("the largest detail has a text", !is_known(kind, UINT32_MAX));
}

// Every cell that there can be has the text of its abort's reason, where one is named; no other has a text.
static void cells(void) {
    for (uint32_t reason = 0; reason <= 10; reason++) {
        for (uint32_t cell = 1; cell <= ZIDLEMOWO_MOST_NUMBER; cell++) {
            const char *text = zidlemowo_text(ZIDLEMOWO_ABORT, cell * ZIDLEMOWO_ABORT_CELL + reason);
            const int named = reason != ZIDLEMOWO_GAVE_UP && cell < ZIDLEMOWO_MOST_CELLS;
            demand("an abort's text depends on the cell", strcmp(text, named ? zidlemowo_reason_text(reason) : zidlemowo_no_text()) == 0);
        }
    }
}

// The version's parts make its text.
static void version(void) {
    char text[32];
    snprintf(text, sizeof text, "%d.%d.%d", ZIDLEMOWO_VERSION_MAJOR, ZIDLEMOWO_VERSION_MINOR, ZIDLEMOWO_VERSION_PATCH);
    demand("the parts of the version are not those of its text", strcmp(text, ZIDLEMOWO_VERSION) == 0);
}

int main(void) {
    version();
    cells();
    for (uint32_t kind = 0; kind <= 20; kind++) {
        if (kind == ZIDLEMOWO_VALUE) {
            values();
        } else {
            rows(kind);
        }
    }
    demand("the largest kind has a text", !is_known(UINT32_MAX, 0));
    printf("| other | other | %s |\n", zidlemowo_no_text());
    return EXIT_SUCCESS;
}
