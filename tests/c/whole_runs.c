// Whole runs through C, into outputs of every kind of length: each byte that fits is that of the text expected, and no other byte is
// touched. The words of the command are a schedule file, the runner's text of it and the judge's, and so on with the next file.
// File and output end where their memory does: the page behind can't be touched, and the file can't be written at all.
#define _DEFAULT_SOURCE
#include "zidlemowo.h"

#include <stdio.h>
#include <stdlib.h>
#include <string.h>
#include <sys/mman.h>
#include <unistd.h>

// What fills bytes that no call may change. No text has such a byte.
#define FILLER 0xa5

// How many bytes before an output are looked at too.
#define MARGIN ((size_t)64)

// The most bytes that are lent, and that a file or a text here may have.
#define ROOM ((size_t)ZIDLEMOWO_MOST_PRINTED + 100)

// Whoever runs a file.
typedef size_t runs(const uint8_t *file, size_t file_length, uint8_t *output, size_t output_length);

// Bytes that belong together.
struct bytes {
    uint8_t *start;
    size_t length;
};

static uint8_t *output_end; // where outputs end: behind it the memory can't be touched
static unsigned long calls; // how many calls were as expected

static void fail(const char *what, const char *name, size_t length) {
    fprintf(stderr, "whole_runs: %s: %s, with an output of %zu bytes\n", name, what, length);
    exit(EXIT_FAILURE);
}

// The end of so many bytes of memory, in front of a page that can't be touched.
static uint8_t *end_of_memory(size_t count) {
    const size_t page = (size_t)sysconf(_SC_PAGESIZE);
    const size_t bytes = (count + page - 1) / page * page;
    uint8_t *start = mmap(NULL, bytes + page, PROT_READ | PROT_WRITE, MAP_PRIVATE | MAP_ANONYMOUS, -1, 0);
    if (start == MAP_FAILED || mprotect(start + bytes, page, PROT_NONE) != 0) {
        perror("whole_runs: no memory");
        exit(EXIT_FAILURE);
    }
    return start + bytes;
}

// The content of a file of this system, at the end of memory of its own that can only be read.
static struct bytes content(const char *name) {
    static uint8_t read[ROOM];
    FILE *file = fopen(name, "rb");
    if (file == NULL) {
        perror(name);
        exit(EXIT_FAILURE);
    }
    const size_t length = fread(read, 1, ROOM, file);
    fclose(file);
    const size_t page = (size_t)sysconf(_SC_PAGESIZE);
    const size_t whole = (length + page) / page * page;
    uint8_t *end = end_of_memory(whole);
    struct bytes bytes = {end - length, length};
    if (length > 0) {
        memcpy(bytes.start, read, length);
    }
    if (mprotect(end - whole, whole, PROT_READ) != 0) {
        perror("whole_runs: memory that can only be read");
        exit(EXIT_FAILURE);
    }
    return bytes;
}

// One call with an output of a length: the reply, the bytes that fit, and the filler around them.
static void into(const char *name, runs *run, struct bytes file, struct bytes text, size_t length) {
    uint8_t *output = output_end - length;
    const size_t fits = text.length < length ? text.length : length;
    memset(output - MARGIN, FILLER, MARGIN + length);
    if (run(file.start, file.length, output, length) != text.length) {
        fail("another length than the text's", name, length);
    }
    if (memcmp(output, text.start, fits) != 0) {
        fail("another text", name, length);
    }
    for (const uint8_t *byte = output - MARGIN; byte < output_end; byte++) {
        if ((byte < output || byte >= output + fits) && *byte != FILLER) {
            fail("a byte before or behind the text was touched", name, length);
        }
    }
    calls++;
}

// A file whose whole run is a text, into outputs of no byte, one byte, a byte too few, just enough, and more than enough.
static void whole(const char *name, runs *run, struct bytes file, struct bytes text) {
    const size_t lengths[] = {0, 1, text.length / 2, text.length - 1, text.length, text.length + 1, text.length + 99};
    for (size_t k = 0; k < sizeof lengths / sizeof lengths[0]; k++) {
        into(name, run, file, text, lengths[k]);
    }
    if (run(file.start, file.length, NULL, 0) != text.length) {
        fail("another length than the text's, for NULL", name, 0);
    }
    calls++;
}

// No file at all is refused as an empty one is.
static void no_file(runs *run) {
    static uint8_t refused[] = "refused 30\n";
    const struct bytes none = {NULL, 0}, text = {refused, sizeof refused - 1};
    whole("NULL", run, none, text);
}

int main(int count, char **words) {
    if (count < 4 || count % 3 != 1) {
        fprintf(stderr, "whole_runs: files, each with the runner's text and the judge's\n");
        return EXIT_FAILURE;
    }
    output_end = end_of_memory(MARGIN + ROOM);
    for (int k = 1; k < count; k += 3) {
        const struct bytes file = content(words[k]);
        whole(words[k], zidlemowo_run, file, content(words[k + 1]));
        whole(words[k], zidlemowo_judge, file, content(words[k + 2]));
    }
    no_file(zidlemowo_run);
    no_file(zidlemowo_judge);
    printf("whole_runs: %d files, %lu calls, each with the program's text as far as it fits and no other byte touched\n", count / 3, calls);
    return EXIT_SUCCESS;
}
