// The duty sheet through C: short sheets, NULL with a length of 0, damaged files and full sheets get the number of docs/REPLIES.md and
// leave every word as it was; a good file raises its counts and no other word. The words lent end where the memory does, and so does
// the file, which can't be written at all: a look beyond either ends the program.
#define _DEFAULT_SOURCE
#include "zidlemowo.h"

#include <inttypes.h>
#include <stdio.h>
#include <stdlib.h>
#include <string.h>
#include <sys/mman.h>
#include <unistd.h>

// Words of a sheet, and some behind it.
#define ROOM ((size_t)ZIDLEMOWO_SHEET_WORDS + 20)

// What fills words that no call may change. It is above the border, and words behind a sheet may be.
#define FILLER UINT32_C(0xffffabcd)

#define COUNT(array) (sizeof(array) / sizeof((array)[0]))

// A schedule file.
struct file {
    const uint8_t *start;
    size_t length;
};

// The published listing; examples/listing.hex says what its bytes are.
static const uint8_t listing_bytes[] = {
    2, 2, 0, 14, 0, 3, 0, 17, 0, 12, 0, 29, 0, 7, // two handlers, two cells, and the table
    0, 32, 33,                                    // handler 0: begin, read 0, read 1
    0, 64, 0, 0, 0, 5, 65, 0, 0, 0, 7, 1,         // handler 1: begin, write both, try
    0, 0, 1, 1, 1, 1, 0,                          // whose step is next
};

// One handler that gives up while idle, begins, writes, gives up, and begins again.
static const uint8_t give_up_bytes[] = {
    1, 1, 0, 10, 0, 9, 0, 19, 0, 5, // one handler, one cell, and the table
    2, 0, 64, 0, 0, 0, 5, 2, 0,     // its script
    0, 0, 0, 0, 0,                  // its turns
};

// Files that are refused: a table with a gap before the first body, and an unknown code in a script that is never ordered.
static const uint8_t gap_bytes[] = {1, 1, 0, 11, 0, 0, 0, 11, 0, 0, 0};
static const uint8_t unknown_bytes[] = {1, 1, 0, 10, 0, 1, 0, 11, 0, 0, 3};

static uint32_t *end;                  // where the words lent end: behind it the memory can't be touched
static uint32_t before[ROOM];          // the words as they were before a call
static unsigned long refused, counted; // how many files were
static struct file listing, give_up, short_by_one, gap, unknown, too_long;

static void fail(const char *what, uint32_t given, uint32_t expected) {
    fprintf(stderr, "sheets: %s: %" PRIu32 ", but expected %" PRIu32 "\n", what, given, expected);
    exit(EXIT_FAILURE);
}

// The end of so many bytes of memory, in front of a page that can't be touched.
static char *end_of_memory(size_t count) {
    const size_t page = (size_t)sysconf(_SC_PAGESIZE);
    const size_t bytes = (count + page - 1) / page * page;
    char *start = mmap(NULL, bytes + page, PROT_READ | PROT_WRITE, MAP_PRIVATE | MAP_ANONYMOUS, -1, 0);
    if (start == MAP_FAILED || mprotect(start + bytes, page, PROT_NONE) != 0) {
        perror("sheets: no memory");
        exit(EXIT_FAILURE);
    }
    return start + bytes;
}

// A file of so many bytes at the end of memory of its own that can only be read: some bytes, and 0 behind them.
static struct file file_of(const uint8_t *bytes, size_t count, size_t length) {
    const size_t page = (size_t)sysconf(_SC_PAGESIZE);
    const size_t whole = (length + page - 1) / page * page;
    char *stop = end_of_memory(length);
    memcpy(stop - length, bytes, count);
    if (mprotect(stop - whole, whole, PROT_READ) != 0) {
        perror("sheets: memory that can only be read");
        exit(EXIT_FAILURE);
    }
    return (struct file){(const uint8_t *)(stop - length), length};
}

// The last `length` words of the room, all holding one count; those in front of them, and behind the sheet, are filler.
static uint32_t *lend(size_t length, uint32_t count) {
    uint32_t *words = end - length;
    for (uint32_t *word = end - ROOM; word < end; word++) {
        *word = word >= words && word < words + ZIDLEMOWO_SHEET_WORDS ? count : FILLER;
    }
    return words;
}

// A file that has to be refused with a number, and to leave every word of the room as it was.
static void is_refused(const char *what, uint32_t *words, size_t length, struct file file, uint32_t number) {
    memcpy(before, end - ROOM, sizeof before);
    const uint32_t given = zidlemowo_sheet(words, length, file.start, file.length);
    if (given != number) {
        fail(what, given, number);
    }
    for (size_t k = 0; k < ROOM; k++) {
        if ((end - ROOM)[k] != before[k]) {
            fail(what, (end - ROOM)[k], before[k]);
        }
    }
    refused++;
}

// What the listing adds to the word at a place: both handlers begin, handler 0 is aborted by 1, and handler 1 commits.
static uint32_t added_by_listing(size_t place) {
    switch (place) {
    case 0 + ZIDLEMOWO_SHEET_BEGUN:
    case 0 + ZIDLEMOWO_SHEET_TORN:
    case ZIDLEMOWO_SHEET_COLUMNS + ZIDLEMOWO_SHEET_BEGUN:
    case ZIDLEMOWO_SHEET_COLUMNS + ZIDLEMOWO_SHEET_COMMITTED: return 1;
    default: return 0;
    }
}

// What the give up adds to the word at a place: handler 0 begins twice, and gives up once. Its first give up is refused.
static uint32_t added_by_give_up(size_t place) {
    switch (place) {
    case ZIDLEMOWO_SHEET_BEGUN: return 2;
    case ZIDLEMOWO_SHEET_GAVE_UP: return 1;
    default: return 0;
    }
}

// A file that has to be counted, with what it adds, and to change no other word of the room.
static void is_counted(const char *what, uint32_t *words, size_t length, struct file file, uint32_t added(size_t place)) {
    memcpy(before, end - ROOM, sizeof before);
    const uint32_t given = zidlemowo_sheet(words, length, file.start, file.length);
    if (given != 0) {
        fail(what, given, 0);
    }
    const size_t first = (size_t)(words - (end - ROOM));
    for (size_t k = 0; k < ROOM; k++) {
        const uint32_t expected = before[k] + (k >= first ? added(k - first) : 0);
        if ((end - ROOM)[k] != expected) {
            fail(what, (end - ROOM)[k], expected);
        }
    }
    counted++;
}

// Too few words: 21 goes before all else, whatever they hold and whatever the file.
static void short_sheets(void) {
    const struct file files[] = {listing, short_by_one, gap, unknown, too_long, {NULL, 0}};
    const uint32_t counts[] = {0, ZIDLEMOWO_SHEET_MOST + 1, UINT32_MAX};
    for (size_t k = 0; k < COUNT(files); k++) {
        for (size_t length = 0; length < ZIDLEMOWO_SHEET_WORDS; length++) {
            for (size_t c = 0; c < COUNT(counts); c++) {
                is_refused("a short sheet", lend(length, counts[c]), length, files[k], ZIDLEMOWO_TOO_SHORT);
            }
        }
        is_refused("no sheet", NULL, 0, files[k], ZIDLEMOWO_TOO_SHORT);
    }
}

// Files that are refused, onto sheets that are full and that are not: the file's number goes before 41.
static void bad_files(size_t length) {
    const uint32_t counts[] = {0, ZIDLEMOWO_SHEET_MOST, ZIDLEMOWO_SHEET_MOST + 1, UINT32_MAX};
    for (size_t c = 0; c < COUNT(counts); c++) {
        uint32_t *words = lend(length, counts[c]);
        is_refused("no file", words, length, (struct file){NULL, 0}, ZIDLEMOWO_BAD_FILE);
        is_refused("a byte too few", words, length, short_by_one, ZIDLEMOWO_BAD_FILE);
        is_refused("a gap", words, length, gap, ZIDLEMOWO_BAD_FILE);
        is_refused("a byte too many", words, length, too_long, ZIDLEMOWO_BAD_FILE);
        is_refused("an unknown code", words, length, unknown, ZIDLEMOWO_UNKNOWN_STEP);
    }
}

// A count above the border in any place, also of a handler that the file has not, makes the sheet full; one at the border does not.
static void full_sheets(size_t length) {
    for (size_t place = 0; place < ZIDLEMOWO_SHEET_WORDS; place++) {
        uint32_t *words = lend(length, 0);
        words[place] = ZIDLEMOWO_SHEET_MOST;
        is_counted("a count at the border", words, length, listing, added_by_listing);
        words = lend(length, 0);
        words[place] = ZIDLEMOWO_SHEET_MOST + 1;
        is_refused("a count above the border", words, length, listing, ZIDLEMOWO_SHEET_FULL);
        words[place] = UINT32_MAX;
        is_refused("the largest count", words, length, listing, ZIDLEMOWO_SHEET_FULL);
    }
    uint32_t *words = lend(length, ZIDLEMOWO_SHEET_MOST);
    is_counted("all counts at the border", words, length, listing, added_by_listing);
    is_refused("the same file once more", words, length, listing, ZIDLEMOWO_SHEET_FULL);
    is_counted("a give up", lend(length, 7), length, give_up, added_by_give_up);
}

int main(void) {
    end = (uint32_t *)(void *)end_of_memory(ROOM * sizeof(uint32_t));
    listing = file_of(listing_bytes, sizeof listing_bytes, sizeof listing_bytes);
    give_up = file_of(give_up_bytes, sizeof give_up_bytes, sizeof give_up_bytes);
    short_by_one = file_of(listing_bytes, sizeof listing_bytes - 1, sizeof listing_bytes - 1);
    gap = file_of(gap_bytes, sizeof gap_bytes, sizeof gap_bytes);
    unknown = file_of(unknown_bytes, sizeof unknown_bytes, sizeof unknown_bytes);
    too_long = file_of(listing_bytes, sizeof listing_bytes, (size_t)ZIDLEMOWO_MOST_FILE + 1);
    short_sheets();
    for (size_t length = ZIDLEMOWO_SHEET_WORDS; length <= ROOM; length += ROOM - ZIDLEMOWO_SHEET_WORDS) {
        bad_files(length);
        full_sheets(length);
    }
    printf("sheets: %lu files refused, each with its number and no word changed; %lu counted\n", refused, counted);
    return EXIT_SUCCESS;
}
