/* Durable commits at a store, or SET at a redis, by clients that do nothing else.

       store_load store PORT BOOT CLIENTS SECONDS    transactions of one value of 64 bytes, under the boot that `bench` drew
       store_load redis PORT CLIENTS SECONDS         SET of such a value

   Each client is a thread with a connection of its own, and sends the next command once the one before was answered. It
   prints how many were answered in the time, the seconds of processor time that the clients took, and the microseconds
   within which half of the commands were answered, and 99 of 100. */
#define _GNU_SOURCE
#include <arpa/inet.h>
#include <netinet/in.h>
#include <netinet/tcp.h>
#include <pthread.h>
#include <stdint.h>
#include <stdio.h>
#include <stdlib.h>
#include <string.h>
#include <sys/resource.h>
#include <sys/socket.h>
#include <time.h>
#include <unistd.h>

enum { MOST = 64, VALUE = 64 };

static int port, is_redis;
static uint64_t boot;
static double seconds;
static pthread_barrier_t start;

struct client {
    int part;
    unsigned long count, room;
    float *waits;
    pthread_t thread;
};

static void fail(const char *what) {
    fprintf(stderr, "store_load: %s\n", what);
    exit(1);
}

static double now(void) {
    struct timespec t;
    clock_gettime(CLOCK_MONOTONIC, &t);
    return t.tv_sec + t.tv_nsec / 1e9;
}

/* How long the client waited for an answer, in microseconds. */
static void note(struct client *me, double wait) {
    if (me->count == me->room) {
        me->room = me->room * 2 + 1024;
        me->waits = realloc(me->waits, me->room * sizeof *me->waits);
        if (!me->waits) fail("no memory");
    }
    me->waits[me->count++] = (float)(wait * 1e6);
}

static int by_size(const void *a, const void *b) {
    float x = *(const float *)a, y = *(const float *)b;
    return (x > y) - (x < y);
}

static int dial(void) {
    struct sockaddr_in at = {.sin_family = AF_INET, .sin_port = htons(port), .sin_addr.s_addr = htonl(INADDR_LOOPBACK)};
    int link = socket(AF_INET, SOCK_STREAM, 0), on = 1;
    if (link < 0 || connect(link, (struct sockaddr *)&at, sizeof at) != 0) fail("nobody listens");
    setsockopt(link, IPPROTO_TCP, TCP_NODELAY, &on, sizeof on);
    return link;
}

static void send_all(int link, const char *bytes, size_t length) {
    while (length > 0) {
        ssize_t n = write(link, bytes, length);
        if (n <= 0) fail("the connection ended");
        bytes += n;
        length -= n;
    }
}

static void read_all(int link, char *bytes, size_t length) {
    while (length > 0) {
        ssize_t n = read(link, bytes, length);
        if (n <= 0) fail("the connection ended");
        bytes += n;
        length -= n;
    }
}

static char *put(char *to, uint64_t number, int bytes) {
    for (int i = bytes - 1; i >= 0; i--) *to++ = (char)(number >> (8 * i));
    return to;
}

static char *put_name(char *to, const char *name) {
    size_t length = strlen(name);
    *to++ = (char)length;
    memcpy(to, name, length);
    return to + length;
}

/* The frame of a transaction of epoch 1; *number is where its number stands. */
static size_t transaction(char *frame, int part, char **number) {
    char id[16], *to = frame + 4;
    snprintf(id, sizeof id, "i%d", part);
    *to++ = 40;
    to = put(to, 1, 8);
    to = put_name(put_name(to, "default"), "bench");
    to = put(to, boot, 8);
    *to++ = (char)part;
    *number = to;
    to = put(to, 0, 8);
    to = put_name(put_name(put_name(to, "default"), "counter"), id);
    to = put(to, 1, 2);
    *to++ = 1;
    to = put(to, 1, 2);
    *to++ = 'k';
    to = put(to, VALUE, 4);
    memset(to, 'v', VALUE);
    to += VALUE;
    *to++ = 0;
    put(frame, to - frame - 4, 4);
    return to - frame;
}

static void *work(void *given) {
    struct client *me = given;
    char message[512], answer[8], *number = NULL;
    size_t length, wanted = is_redis ? 5 : 6;
    const char *good = is_redis ? "+OK\r\n" : "\0\0\0\2\61\1";
    int link = dial();
    if (is_redis) {
        length = snprintf(message, sizeof message, "*3\r\n$3\r\nSET\r\n$3\r\nk%02d\r\n$%d\r\n", me->part, VALUE);
        memset(message + length, 'v', VALUE);
        memcpy(message + length + VALUE, "\r\n", 2);
        length += VALUE + 2;
    } else {
        length = transaction(message, me->part, &number);
    }
    pthread_barrier_wait(&start);
    double asked = now(), end = asked + seconds;
    while (asked < end) {
        if (number) put(number, me->count + 1, 8);
        send_all(link, message, length);
        read_all(link, answer, wanted);
        if (memcmp(answer, good, wanted) != 0) fail("another answer");
        double answered = now();
        note(me, answered - asked);
        asked = answered;
    }
    close(link);
    return NULL;
}

int main(int words, char **word) {
    struct client client[MOST] = {0};
    struct rusage used;
    unsigned long count = 0;
    if (words < 2) return 2;
    is_redis = strcmp(word[1], "redis") == 0;
    if (words != (is_redis ? 5 : 6)) return 2;
    port = atoi(word[2]);
    if (!is_redis) boot = strtoull(word[3], NULL, 10);
    int clients = atoi(word[words - 2]);
    seconds = atof(word[words - 1]);
    if (clients < 1 || clients > MOST) return 2;
    pthread_barrier_init(&start, NULL, clients);
    for (int i = 0; i < clients; i++) {
        client[i].part = i;
        if (pthread_create(&client[i].thread, NULL, work, &client[i]) != 0) fail("no thread");
    }
    for (int i = 0; i < clients; i++) {
        pthread_join(client[i].thread, NULL);
        count += client[i].count;
    }
    getrusage(RUSAGE_SELF, &used);
    float *waits = malloc((count + 1) * sizeof *waits);
    if (!waits || count == 0) fail("no answers");
    unsigned long filled = 0;
    for (int i = 0; i < clients; i++) {
        memcpy(waits + filled, client[i].waits, client[i].count * sizeof *waits);
        filled += client[i].count;
    }
    qsort(waits, count, sizeof *waits, by_size);
    double took = used.ru_utime.tv_sec + used.ru_stime.tv_sec + (used.ru_utime.tv_usec + used.ru_stime.tv_usec) / 1e6;
    printf("%lu %.3f %.0f %.0f\n", count, took, waits[count / 2], waits[count * 99 / 100]);
    return 0;
}
