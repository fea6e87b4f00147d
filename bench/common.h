/* What the measurements share: the clock, the best of several rounds, and streams under way. */
#define _POSIX_C_SOURCE 200809L
#include <stdint.h>
#include <stdio.h>
#include <stdlib.h>
#include <string.h>
#include <time.h>

enum { ROUNDS = 9 };

static inline double now(void) {
    struct timespec t;
    clock_gettime(CLOCK_MONOTONIC, &t);
    return t.tv_sec + t.tv_nsec * 1e-9;
}

/* The shortest time that the work took, of so many rounds. */
#define BEST_OF(best, rounds, work)                  \
    double best = 1e9;                               \
    for (int round = 0; round < (rounds); round++) { \
        double t = now();                            \
        work;                                        \
        __asm__ volatile("" ::: "memory");           \
        t = now() - t;                               \
        if (t < best) best = t;                      \
    }

#define BEST(best, work) BEST_OF(best, ROUNDS, work)

/* Memory that holds something already, so that no measurement has to wait for its pages. */
static inline uint8_t *memory_of(size_t length) {
    uint8_t *at = malloc(length);
    if (!at) exit(1);
    return memset(at, 1, length);
}

/* A stream under way: the bytes so far. */
struct bytes {
    uint8_t *at;
    size_t length;
};

static inline void put(struct bytes *b, const void *from, size_t n) {
    memcpy(b->at + b->length, from, n);
    b->length += n;
}

static inline void put_number(struct bytes *b, uint64_t value, int n) {
    for (int i = 0; i < n; i++)
        b->at[b->length++] = (uint8_t)(value >> (8 * i));
}

static inline void put_name(struct bytes *b, char tag, const char *name) {
    put(b, &tag, 1), put_number(b, strlen(name), 4), put(b, name, strlen(name));
}

/* w records of n bytes each, from `first` on one every `step` bytes. */
struct records {
    uint64_t count, n, first, step;
};

/* Adds a stream that leads from a name, or from no snapshot, to a name. */
static inline void put_stream(struct bytes *b, const char *from, const char *to, uint64_t size, struct records r) {
    uint8_t *payload = memory_of(r.n);
    memset(payload, to[0], r.n);
    put(b, "rbd diff v1\n", 12);
    if (from) put_name(b, 'f', from);
    put_name(b, 't', to);
    put(b, "s", 1), put_number(b, size, 8);
    for (uint64_t i = 0; i < r.count; i++) {
        put(b, "w", 1), put_number(b, r.first + i * r.step, 8), put_number(b, r.n, 8);
        put(b, payload, r.n);
    }
    put(b, "e", 1);
    free(payload);
}

/* How much memory such a stream needs at most. */
static inline size_t room_of(struct records r) { return 100 + r.count * (17 + r.n); }
