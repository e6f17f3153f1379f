/*
 * c_threads FILE: threads that call the library at the same time, each with a handle of its own over the same file,
 * and on one handle that they share under a lock. All must answer alike; a call that does not ends the run with
 * status 3.
 */
#include "bplist.h"

#include <pthread.h>
#include <stdio.h>
#include <stdlib.h>
#include <string.h>

#define THREADS 4
#define ROUNDS 8
#define MOST_BYTES 65536

#define HOLDS(fact)                                                                    \
    do {                                                                               \
        if (!(fact)) {                                                                 \
            fprintf(stderr, "c_threads.c:%d: %s\n", __LINE__, #fact);                  \
            exit(3);                                                                   \
        }                                                                              \
    } while (0)

static uint8_t file[MOST_BYTES];
static size_t length;
static bplist_verdict expected;
static bplist_handle shared;
static pthread_mutex_t lock = PTHREAD_MUTEX_INITIALIZER;

static void see_top(bplist_handle *handle)
{
    bplist_found found;
    bplist_body body;

    HOLDS(bplist_find(handle, file, length, "", 0, &found) == BPLIST_OK && found.object == expected.top);
    HOLDS(bplist_face(handle, file, length, found.object, &body) == BPLIST_OK && body.kind == expected.top_kind);
}

static void see_alone(bool sorted)
{
    bplist_handle handle = {0};
    bplist_verdict verdict;
    bplist_sizes sizes;
    uint8_t certificate[4096];
    uint64_t count;

    HOLDS(bplist_lint(file, length, &verdict) == BPLIST_OK && memcmp(&verdict, &expected, sizeof verdict) == 0);
    HOLDS(bplist_open(&handle, file, length, sorted, &verdict) == BPLIST_OK);
    see_top(&handle);
    HOLDS(bplist_size(&handle, file, length, expected.top, &sizes) == BPLIST_OK && sizes.nodes >= expected.height);
    HOLDS(bplist_certificate(&handle, certificate, sizeof certificate, &count) == BPLIST_OK);
    HOLDS(bplist_close(&handle) == BPLIST_OK);
    HOLDS(bplist_open_certified(&handle, file, length, certificate, count, sorted, &verdict) == BPLIST_OK);
    see_top(&handle);
    HOLDS(bplist_close(&handle) == BPLIST_OK);
}

static void *see(void *number)
{
    for (int round = 0; round < ROUNDS; round++) {
        see_alone((round + *(int *)number) % 2 == 0);
        pthread_mutex_lock(&lock);
        see_top(&shared);
        pthread_mutex_unlock(&lock);
    }
    return NULL;
}

int main(int argc, char **argv)
{
    FILE *in = argc == 2 ? fopen(argv[1], "rb") : NULL;
    pthread_t threads[THREADS];
    int numbers[THREADS];

    HOLDS(in != NULL);
    length = fread(file, 1, sizeof file, in);
    fclose(in);
    HOLDS(bplist_open(&shared, file, length, true, &expected) == BPLIST_OK);
    for (int i = 0; i < THREADS; i++) {
        numbers[i] = i;
        HOLDS(pthread_create(&threads[i], NULL, see, &numbers[i]) == 0);
    }
    for (int i = 0; i < THREADS; i++)
        HOLDS(pthread_join(threads[i], NULL) == 0);
    HOLDS(bplist_close(&shared) == BPLIST_OK);
    return 0;
}
