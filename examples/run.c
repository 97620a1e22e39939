// The published listing as one call: a schedule file in memory, and the text of its whole run in memory that is as large as the text.
// The judge gives a second opinion on the same file.
#include "zidlemowo.h"

#include <stdbool.h>
#include <stdio.h>
#include <stdlib.h>
#include <string.h>

// The schedule file; examples/listing.hex says what its bytes are.
static const uint8_t listing[] = {
    0x02, 0x02, 0x00, 0x0e, 0x00, 0x03, 0x00, 0x11, 0x00, 0x0c, 0x00, 0x1d, 0x00, 0x07, // two handlers, two cells, and the table
    0x00, 0x20, 0x21,                                                                   // handler 0: begin, read 0, read 1
    0x00, 0x40, 0x00, 0x00, 0x00, 0x05, 0x41, 0x00, 0x00, 0x00, 0x07, 0x01,             // handler 1: begin, write both, try
    0x00, 0x00, 0x01, 0x01, 0x01, 0x01, 0x00,                                           // whose step is next
};

// Whoever runs a file: zidlemowo_run or zidlemowo_judge.
typedef size_t runs(const uint8_t *file, size_t file_length, uint8_t *output, size_t output_length);

// A text, to be freed by whoever asked for it.
struct text {
    uint8_t *bytes;
    size_t length;
};

// The text of the listing's run: the first call tells how long it is, the second puts it into memory of that length.
static struct text text_by(runs *run) {
    struct text text;
    text.length = run(listing, sizeof listing, NULL, 0);
    text.bytes = (uint8_t *)malloc(text.length);
    if (text.bytes == NULL) {
        fprintf(stderr, "no memory for %zu bytes\n", text.length);
        exit(EXIT_FAILURE);
    }
    run(listing, sizeof listing, text.bytes, text.length);
    return text;
}

int main(void) {
    const struct text printed = text_by(zidlemowo_run);
    const struct text judged = text_by(zidlemowo_judge);
    fwrite(printed.bytes, 1, printed.length, stdout);
    const bool same = judged.length == printed.length && memcmp(judged.bytes, printed.bytes, printed.length) == 0;
    printf("%zu bytes; the judge says %s\n", printed.length, same ? "the same" : "something else");
    free(printed.bytes);
    free(judged.bytes);
    return EXIT_SUCCESS;
}
