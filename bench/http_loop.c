/* The same requests as bench/http times, read and answered by a plain loop in C.

       http_loop COUNT

   It takes the bytes in pieces of at most 16,384, finds the end of each head, splits its lines, reads the length, and
   appends each response to one growing block. It copies no part of a request but the body, and tests little. */
#define _GNU_SOURCE
#include <stdio.h>
#include <stdlib.h>
#include <string.h>
#include <strings.h>

static const char head_text[] =
    "PUT /v1.0/actors/cart/42/method/add HTTP/1.1\r\nHost: 127.0.0.1:3500\r\n"
    "Content-Type: application/json\r\nContent-Length: 200\r\n\r\n";

enum { BODY = 200, MOST = 16384 };

struct block {
    char *bytes;
    size_t length, room;
};

static void append(struct block *to, const void *bytes, size_t length) {
    if (to->room - to->length < length) {
        while (to->room - to->length < length) to->room = to->room ? 2 * to->room : 4096;
        to->bytes = realloc(to->bytes, to->room);
        if (!to->bytes) exit(1);
    }
    memcpy(to->bytes + to->length, bytes, length);
    to->length += length;
}

static struct block incoming, written;
static size_t place;

static size_t receive(char *into, size_t most) {
    size_t left = incoming.length - place, count = left < most ? left : most;
    memcpy(into, incoming.bytes + place, count);
    place += count;
    return count;
}

/* the length that the fields tell; -1 if a line has no colon */
static long length_told(const char *line, const char *end) {
    long length = 0;
    while (line < end) {
        const char *stop = memmem(line, end - line, "\r\n", 2);
        const char *colon = memchr(line, ':', stop - line);
        if (!colon) return -1;
        if (colon - line == 14 && strncasecmp(line, "Content-Length", 14) == 0)
            length = strtol(colon + 1, NULL, 10);
        line = stop + 2;
    }
    return length;
}

static void answer(const char *body, size_t length) {
    char head[128];
    int count = snprintf(head, sizeof head, "HTTP/1.1 200 OK\r\nContent-Type: application/json\r\nContent-Length: %zu\r\n\r\n", length);
    append(&written, head, count);
    append(&written, body, length);
}

static long serve(void) {
    static char kept[MOST];
    static char body[1 << 22];
    size_t from = 0, to = 0;
    for (long served = 0;; served++) {
        char *end;
        while (!(end = memmem(kept + from, to - from, "\r\n\r\n", 4))) {
            memmove(kept, kept + from, to - from);
            to -= from;
            from = 0;
            size_t count = receive(kept + to, MOST - to);
            if (count == 0) return to == 0 ? served : -1;
            to += count;
        }
        char *lines = memmem(kept + from, end - (kept + from), "\r\n", 2);
        long length = lines ? length_told(lines + 2, end + 2) : -1;
        if (length < 0 || (size_t)length > sizeof body) return -1;
        from = end + 4 - kept;
        size_t here = to - from < (size_t)length ? to - from : (size_t)length;
        memcpy(body, kept + from, here);
        from += here;
        while (here < (size_t)length) {
            size_t count = receive(body + here, length - here);
            if (count == 0) return -1;
            here += count;
        }
        answer(body, length);
    }
}

int main(int count, char **words) {
    char body[BODY];
    memset(body, '7', sizeof body);
    long requests = count > 1 ? atol(words[1]) : 0;
    for (long number = 0; number < requests; number++) {
        append(&incoming, head_text, sizeof head_text - 1);
        append(&incoming, body, sizeof body);
    }
    printf("%ld\n", serve());
    return 0;
}
