// The answering end of the relay: reads calls of zidlemowo.h from standard input, makes them on the proved archive, and writes the
// replies to standard output, until its input ends. message.h says in what form. Each part that is lent lies between guards, and a
// call that changes a guard, or a byte that it may only read, ends it: the caller's own memory is not near.
#include "message.h"
#include "zidlemowo.h"

#include <stdio.h>
#include <stdlib.h>
#include <string.h>

// The bytes in front of a part that is lent, and those behind it; and what they all are.
enum { GUARD = 64, GUARD_BYTE = 0xa5 };

// Bytes that were brought, in room that grows as it is needed: a guard, the bytes, a guard; and the bytes as they were brought.
struct bytes {
    uint8_t *room, *brought;
    size_t most, count;
};

static void fail(const char *what) {
    fprintf(stderr, "relay: %s\n", what);
    exit(EXIT_FAILURE);
}

// Where the bytes lie.
static void *start(const struct bytes *bytes) { return bytes->room + GUARD; }

// Takes so many bytes in.
static void take(struct bytes *bytes, size_t count) {
    if (bytes->room == NULL || count > bytes->most) {
        free(bytes->room);
        free(bytes->brought);
        bytes->room = malloc(count + 2 * GUARD);
        bytes->brought = malloc(count + 1); // never 0 bytes, for which there may be no memory
        bytes->most = count;
    }
    if (bytes->room == NULL || bytes->brought == NULL || !receive_all(STDIN_FILENO, start(bytes), count)) {
        fail("a request is cut short, or there is no memory for it");
    }
    bytes->count = count;
    memcpy(bytes->brought, start(bytes), count);
    memset(bytes->room, GUARD_BYTE, GUARD);
    memset(bytes->room + GUARD + count, GUARD_BYTE, GUARD);
}

// Both guards are as they were.
static void guarded(const struct bytes *bytes) {
    for (size_t k = 0; k < GUARD; k++) {
        if (bytes->room[k] != GUARD_BYTE || bytes->room[GUARD + bytes->count + k] != GUARD_BYTE) {
            fail("a call has written outside of what it was lent");
        }
    }
}

// Makes the call on the archive: the number that it gives.
static uint64_t answer(const struct request *request, const void *file, void *changeable, void *more) {
    uint32_t *words = changeable;
    const size_t length = request->changeable[0] / sizeof *words;
    const uint32_t a = (uint32_t)request->numbers[0], b = (uint32_t)request->numbers[1], c = (uint32_t)request->numbers[2];
    switch (request->function) {
    case LENGTH: return zidlemowo_length(a, b);
    case OPEN: return zidlemowo_open(words, length, a, b);
    case STEP: return zidlemowo_step(words, length, a, b, c);
    case ROW:
        return zidlemowo_row(words, length, file, request->read_only / sizeof *words, more, request->changeable[1] / sizeof *words,
                             request->numbers[0]);
    case RUN: return zidlemowo_run(file, request->read_only, changeable, request->changeable[0]);
    case JUDGE: return zidlemowo_judge(file, request->read_only, changeable, request->changeable[0]);
    case SHEET: return zidlemowo_sheet(words, length, file, request->read_only);
    default: fail("a request for no function"); return 0;
    }
}

int main(void) {
    static struct bytes read_only, changeable, more;
    struct request request;
    while (receive_all(STDIN_FILENO, &request, sizeof request)) {
        take(&read_only, request.read_only);
        take(&changeable, request.changeable[0]);
        take(&more, request.changeable[1]);
        const uint64_t number = answer(&request, start(&read_only), start(&changeable), start(&more));
        guarded(&read_only);
        guarded(&changeable);
        guarded(&more);
        if (memcmp(read_only.brought, start(&read_only), read_only.count) != 0) {
            fail("a call has changed what it may only read");
        }
        if (!send_all(STDOUT_FILENO, &number, sizeof number) || !send_all(STDOUT_FILENO, start(&changeable), request.changeable[0]) ||
            !send_all(STDOUT_FILENO, start(&more), request.changeable[1])) {
            fail("nobody takes the reply");
        }
    }
    return EXIT_SUCCESS;
}
