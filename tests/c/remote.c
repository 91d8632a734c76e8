/*
 * The library's entries, answered by a program at the other end of two pipes:
 * what is linked with this asks a build of the library for another processor,
 * through bridge.c or bridge.mjs, and cannot tell the difference. The words that
 * run that program are in OPEN_PANEL_BRIDGE; each thread starts one of its own.
 *
 * remote_entries.h, which remote.sh makes from the header, has the entries.
 */
#define _GNU_SOURCE
#include <errno.h>
#include <fcntl.h>
#include <stdio.h>
#include <stdlib.h>
#include <string.h>
#include <sys/uio.h>
#include <unistd.h>

#include "open_panel.h"

enum { NUMBER = 8, MOST_PIECES = 16, ROW_NUMBER = 4, PART = 3 * NUMBER };

typedef struct {
    const void *at;
    size_t length;
} piece;

static __thread int requests = -1, answers = -1;

static void stop(const char *what) {
    perror(what);
    abort();
}

static void start(void) {
    const char *words = getenv("OPEN_PANEL_BRIDGE");
    int in[2], out[2];
    if (words == NULL || pipe2(in, O_CLOEXEC) != 0 || pipe2(out, O_CLOEXEC) != 0) {
        stop("OPEN_PANEL_BRIDGE");
    }
    switch (fork()) {
    case -1:
        stop("fork");
        break;
    case 0:
        if (dup2(in[0], 0) < 0 || dup2(out[1], 1) < 0) {
            _exit(126);
        }
        execl("/bin/sh", "sh", "-c", words, (char *)NULL);
        _exit(127);
    default:
        close(in[0]);
        close(out[1]);
        requests = in[1];
        answers = out[0];
    }
}

static void put_number(uint8_t *bytes, size_t value) {
    int i;
    for (i = 0; i < NUMBER; i++) {
        bytes[i] = (uint8_t)(value & 255);
        value >>= 8;
    }
}

static size_t number_of(const uint8_t *bytes) {
    size_t value = 0;
    int i;
    for (i = NUMBER; i > 0; i--) {
        value = value << 8 | bytes[i - 1];
    }
    return value;
}

static void give(struct iovec *from, int pieces) {
    while (pieces > 0) {
        ssize_t got = writev(requests, from, pieces);
        if (got < 0) {
            stop("a request");
        }
        for (; pieces > 0 && (size_t)got >= from->iov_len; from++, pieces--) {
            got -= (ssize_t)from->iov_len;
        }
        if (pieces > 0) {
            from->iov_base = (uint8_t *)from->iov_base + got;
            from->iov_len -= (size_t)got;
        }
    }
}

static void take(uint8_t *into, size_t length) {
    while (length > 0) {
        ssize_t got = read(answers, into, length);
        if (got <= 0) {
            stop("an answer");
        }
        into += got;
        length -= (size_t)got;
    }
}

/* Asks: the entry's name and what it only reads are the pieces, the last of which is the room; all of it comes back. */
static open_panel_answer asked(const piece *p, size_t pieces, uint8_t *room) {
    uint8_t head[(MOST_PIECES + 1) * NUMBER], answer[2 * NUMBER];
    struct iovec all[MOST_PIECES + 1];
    open_panel_answer told;
    size_t i;
    if (requests < 0) {
        start();
    }
    put_number(head, pieces);
    all[0].iov_base = head;
    all[0].iov_len = (pieces + 1) * NUMBER;
    for (i = 0; i < pieces; i++) {
        put_number(head + (i + 1) * NUMBER, p[i].length);
        all[i + 1].iov_base = (void *)p[i].at;
        all[i + 1].iov_len = p[i].length;
    }
    give(all, (int)pieces + 1);
    take(answer, sizeof answer);
    take(room, p[pieces - 1].length);
    if (number_of(answer) > 255) {
        fprintf(stderr, "%.*s: the library wrote outside its room\n", (int)p[0].length, (const char *)p[0].at);
        abort();
    }
    told.number = (uint8_t)number_of(answer);
    told.value = number_of(answer + NUMBER);
    return told;
}

#include "remote_entries.h"
