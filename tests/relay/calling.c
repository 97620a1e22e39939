// The calling end of the relay: the functions of zidlemowo.h for a processor that the proved archive is not built for. Each call
// goes to the answering end, a program that links the archive and runs under an emulator; ANSWERING is its path. So programs in Rust
// link and call as they do on x86-64, and what answers them is the archive's own machine code. For tests alone.
#define _GNU_SOURCE
#include "message.h"
#include "zidlemowo.h"

#include <fcntl.h>
#include <pthread.h>
#include <spawn.h>
#include <stdio.h>
#include <stdlib.h>

extern char **environ;

static pthread_mutex_t turn = PTHREAD_MUTEX_INITIALIZER; // calls of different threads take turns
static int request_pipe = -1, reply_pipe = -1;           // this end of each, once the answering end is started

static void fail(const char *what) {
    fprintf(stderr, "relay: %s\n", what);
    abort();
}

// Starts the answering end, which ends when this program does and closes its pipes.
static void start(void) {
    int requests[2], replies[2];
    if (pipe2(requests, O_CLOEXEC) != 0 || pipe2(replies, O_CLOEXEC) != 0) {
        fail("no pipes");
    }
    posix_spawn_file_actions_t actions;
    posix_spawn_file_actions_init(&actions);
    posix_spawn_file_actions_adddup2(&actions, requests[0], STDIN_FILENO);
    posix_spawn_file_actions_adddup2(&actions, replies[1], STDOUT_FILENO);
    char *words[] = {ANSWERING, NULL};
    pid_t process;
    if (posix_spawn(&process, ANSWERING, &actions, NULL, words, environ) != 0) {
        fail(ANSWERING " doesn't start");
    }
    posix_spawn_file_actions_destroy(&actions);
    close(requests[0]);
    close(replies[1]);
    request_pipe = requests[1];
    reply_pipe = replies[0];
}

// One call, and the number that it gives; the changeable bytes, in one place or in two, are afterwards what the function left.
static uint64_t call(struct request request, const void *read_only, void *changeable, void *more) {
    uint64_t number;
    pthread_mutex_lock(&turn);
    if (request_pipe < 0) {
        start();
    }
    if (!send_all(request_pipe, &request, sizeof request) || !send_all(request_pipe, read_only, request.read_only) ||
        !send_all(request_pipe, changeable, request.changeable[0]) || !send_all(request_pipe, more, request.changeable[1])) {
        fail("the answering end takes no request");
    }
    if (!receive_all(reply_pipe, &number, sizeof number) || !receive_all(reply_pipe, changeable, request.changeable[0]) ||
        !receive_all(reply_pipe, more, request.changeable[1])) {
        fail("the answering end gives no reply");
    }
    pthread_mutex_unlock(&turn);
    return number;
}

uint32_t zidlemowo_length(uint32_t m, uint32_t n) {
    return (uint32_t)call((struct request){LENGTH, 0, {0, 0}, {m, n, 0}}, NULL, NULL, NULL);
}

uint32_t zidlemowo_open(uint32_t *words, size_t length, uint32_t m, uint32_t n) {
    return (uint32_t)call((struct request){OPEN, 0, {length * sizeof *words, 0}, {m, n, 0}}, NULL, words, NULL);
}

uint64_t zidlemowo_step(uint32_t *words, size_t length, uint32_t handler, uint32_t code, uint32_t value) {
    return call((struct request){STEP, 0, {length * sizeof *words, 0}, {handler, code, value}}, NULL, words, NULL);
}

uint32_t zidlemowo_row(uint32_t *words, size_t length, const uint32_t *steps, size_t steps_length, uint32_t *reports,
                       size_t reports_length, size_t place) {
    const struct request request = {ROW, steps_length * sizeof *steps, {length * sizeof *words, reports_length * sizeof *reports}, {place, 0, 0}};
    return (uint32_t)call(request, steps, words, reports);
}

size_t zidlemowo_run(const uint8_t *file, size_t file_length, uint8_t *output, size_t output_length) {
    return (size_t)call((struct request){RUN, file_length, {output_length, 0}, {0, 0, 0}}, file, output, NULL);
}

size_t zidlemowo_judge(const uint8_t *file, size_t file_length, uint8_t *output, size_t output_length) {
    return (size_t)call((struct request){JUDGE, file_length, {output_length, 0}, {0, 0, 0}}, file, output, NULL);
}

uint32_t zidlemowo_sheet(uint32_t *counts, size_t length, const uint8_t *file, size_t file_length) {
    return (uint32_t)call((struct request){SHEET, file_length, {length * sizeof *counts, 0}, {0, 0, 0}}, file, counts, NULL);
}
