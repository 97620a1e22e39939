// What the two ends of the relay say to each other, over two pipes, one call at a time.
//
// A request is a `struct request`, the bytes that the function may only read, and those that it may change, which lie in one or two
// places. The reply is the function's number as a uint64_t, and the changeable bytes as they are afterwards, all of them. Both processors
// are little-endian.
#ifndef MESSAGE_H
#define MESSAGE_H

#include <errno.h>
#include <stdbool.h>
#include <stddef.h>
#include <stdint.h>
#include <unistd.h>

// The functions of zidlemowo.h.
enum { LENGTH, OPEN, STEP, ROW, RUN, JUDGE, SHEET };

// A call: which function, how many bytes follow of each kind, and its numbers in their order, 0 where it has fewer.
struct request {
    uint64_t function, read_only, changeable[2];
    uint64_t numbers[3];
};

// Writes all of the bytes; false where the other end is gone.
static inline bool send_all(int pipe, const void *bytes, size_t count) {
    for (const char *next = bytes; count > 0;) {
        const ssize_t sent = write(pipe, next, count);
        if (sent < 0 && errno == EINTR) {
            continue;
        }
        if (sent <= 0) {
            return false;
        }
        next += sent;
        count -= (size_t)sent;
    }
    return true;
}

// Reads as many bytes; false where the other end is gone.
static inline bool receive_all(int pipe, void *bytes, size_t count) {
    for (char *next = bytes; count > 0;) {
        const ssize_t received = read(pipe, next, count);
        if (received < 0 && errno == EINTR) {
            continue;
        }
        if (received <= 0) {
            return false;
        }
        next += received;
        count -= (size_t)received;
    }
    return true;
}

#endif
