// A duty sheet over two schedules: K7, the published listing, and K10, in which a read is overtaken. Both are counted into the same
// sheet; a third file, cut short, is refused and adds nothing. Then the rows of the handlers that began something are printed.
#include "zidlemowo.h"

#include <inttypes.h>
#include <stdio.h>
#include <stdlib.h>

// The schedule files; examples/listing.hex and examples/k10-blind-write.hex say what their bytes are.
static const uint8_t listing[] = {
    0x02, 0x02, 0x00, 0x0e, 0x00, 0x03, 0x00, 0x11, 0x00, 0x0c, 0x00, 0x1d, 0x00, 0x07, 0x00, 0x20, 0x21, 0x00,
    0x40, 0x00, 0x00, 0x00, 0x05, 0x41, 0x00, 0x00, 0x00, 0x07, 0x01, 0x00, 0x00, 0x01, 0x01, 0x01, 0x01, 0x00,
};
static const uint8_t blind_write[] = {
    0x03, 0x02, 0x00, 0x12, 0x00, 0x04, 0x00, 0x16, 0x00, 0x07, 0x00, 0x1d, 0x00, 0x07, 0x00, 0x24, 0x00, 0x0a, 0x00, 0x20, 0x21, 0x01, 0x00,
    0x40, 0x00, 0x00, 0x00, 0x05, 0x01, 0x00, 0x41, 0x00, 0x00, 0x00, 0x06, 0x01, 0x00, 0x00, 0x01, 0x01, 0x01, 0x02, 0x02, 0x02, 0x00, 0x00,
};

// Adds a file to the sheet, and says what came of it.
static void add(uint32_t *sheet, const char *name, const uint8_t *file, size_t length) {
    const uint32_t refusal = zidlemowo_sheet(sheet, ZIDLEMOWO_SHEET_WORDS, file, length);
    if (refusal == 0) {
        printf("%s: counted\n", name);
    } else {
        printf("%s: refused %" PRIu32 ", %s\n", name, refusal, zidlemowo_refusal_text(refusal));
    }
}

// A row of the table.
static void print_row(uint32_t handler, const uint32_t *row) {
    printf("%7" PRIu32, handler);
    for (size_t column = 0; column < ZIDLEMOWO_SHEET_COLUMNS; column++) {
        printf(" %10" PRIu32, row[column]);
    }
    printf("\n");
}

int main(void) {
    uint32_t sheet[ZIDLEMOWO_SHEET_WORDS] = {0};
    add(sheet, "the listing", listing, sizeof listing);
    add(sheet, "K10", blind_write, sizeof blind_write);
    add(sheet, "K10 without its last byte", blind_write, sizeof blind_write - 1);
    printf("handler %10s %10s %10s %10s %10s %10s\n", "begun", "committed", "abort 1", "abort 2", "abort 3", "abort 5");
    for (uint32_t handler = 0; handler < ZIDLEMOWO_MOST_HANDLERS; handler++) {
        const uint32_t *row = sheet + ZIDLEMOWO_SHEET_COLUMNS * handler;
        if (row[ZIDLEMOWO_SHEET_BEGUN] > 0) {
            print_row(handler, row);
        }
    }
    return EXIT_SUCCESS;
}
