/* Commits of threads to one file without any store: what it costs that each thread makes its own.

       commit_threads mutex FILE THREADS SECONDS    a thread that has a request takes a mutex and commits
       commit_threads one FILE THREADS SECONDS      a thread that has a request asks one more thread, which makes all commits

   A commit is a record of 160 bytes and a byte behind it, each with a sync of its own. Each thread has a client, a thread
   too, which sends the next request over a socket once the one before was answered. It prints how many were answered. */
#define _GNU_SOURCE
#include <fcntl.h>
#include <pthread.h>
#include <semaphore.h>
#include <stdio.h>
#include <stdlib.h>
#include <string.h>
#include <sys/socket.h>
#include <time.h>
#include <unistd.h>

enum { MOST = 64, RECORD = 160, ANSWER = 6 };

struct pair {
    int client, server;
    unsigned long count;
    sem_t done;
    struct pair *next;
};

static int file, by_one;
static double end;
static const char record[RECORD];
static pthread_mutex_t turn = PTHREAD_MUTEX_INITIALIZER;
static pthread_mutex_t queue = PTHREAD_MUTEX_INITIALIZER;
static struct pair *first, **last = &first;
static sem_t asked;

static void fail(const char *what) {
    perror(what);
    exit(1);
}

static double now(void) {
    struct timespec t;
    clock_gettime(CLOCK_MONOTONIC, &t);
    return t.tv_sec + t.tv_nsec / 1e9;
}

static void commit(void) {
    if (write(file, record, RECORD) != RECORD || fsync(file) != 0) fail("record");
    if (write(file, "g", 1) != 1 || fsync(file) != 0) fail("byte behind it");
}

static void *commit_all(void *unused) {
    for (;;) {
        sem_wait(&asked);
        pthread_mutex_lock(&queue);
        struct pair *pair = first;
        first = pair->next;
        if (first == NULL) last = &first;
        pthread_mutex_unlock(&queue);
        commit();
        sem_post(&pair->done);
    }
    return unused;
}

static void ask_one(struct pair *pair) {
    pair->next = NULL;
    pthread_mutex_lock(&queue);
    *last = pair;
    last = &pair->next;
    pthread_mutex_unlock(&queue);
    sem_post(&asked);
    sem_wait(&pair->done);
}

static void *serve(void *given) {
    struct pair *pair = given;
    char bytes[RECORD];
    while (recv(pair->server, bytes, RECORD, MSG_WAITALL) == RECORD) {
        if (by_one) {
            ask_one(pair);
        } else {
            pthread_mutex_lock(&turn);
            commit();
            pthread_mutex_unlock(&turn);
        }
        if (send(pair->server, record, ANSWER, MSG_NOSIGNAL) != ANSWER) break;
    }
    return NULL;
}

static void *ask(void *given) {
    struct pair *pair = given;
    char bytes[ANSWER];
    for (; now() < end; pair->count++) {
        if (send(pair->client, record, RECORD, MSG_NOSIGNAL) != RECORD) fail("request");
        if (recv(pair->client, bytes, ANSWER, MSG_WAITALL) != ANSWER) fail("answer");
    }
    return NULL;
}

int main(int words, char **word) {
    static struct pair pair[MOST];
    pthread_t client[MOST], thread;
    unsigned long count = 0;
    if (words != 5) return 2;
    by_one = strcmp(word[1], "one") == 0;
    int threads = atoi(word[3]);
    if (threads < 1 || threads > MOST) return 2;
    file = open(word[2], O_CREAT | O_TRUNC | O_WRONLY, 0644);
    if (file < 0) fail(word[2]);
    end = now() + atof(word[4]);
    sem_init(&asked, 0, 0);
    if (by_one && pthread_create(&thread, NULL, commit_all, NULL) != 0) fail("thread");
    for (int i = 0; i < threads; i++) {
        int link[2];
        if (socketpair(AF_UNIX, SOCK_STREAM, 0, link) != 0) fail("socket");
        pair[i].client = link[0];
        pair[i].server = link[1];
        sem_init(&pair[i].done, 0, 0);
        if (pthread_create(&thread, NULL, serve, &pair[i]) != 0) fail("thread");
        if (pthread_create(&client[i], NULL, ask, &pair[i]) != 0) fail("thread");
    }
    for (int i = 0; i < threads; i++) {
        pthread_join(client[i], NULL);
        count += pair[i].count;
    }
    printf("%lu\n", count);
    return 0;
}
