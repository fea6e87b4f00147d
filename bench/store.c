/* Writes, zeroing and resizing of images, flat and paged, as ratios to memcpy and memset of the same bytes in the same run.
 *
 * Each time is the best of several rounds. The work of one store call is found by taking away what the same call costs without it. */
#include "common.h"

/* What a store is asked to do: to write the same n bytes at each of the offsets, and to zero the whole image and to cut it to nothing and let it
 * grow again, where the flags are not 0. */
struct job {
    uint64_t size;
    const uint8_t *bytes;
    size_t n;
    const uint64_t *offsets;
    size_t count;
    uint64_t zero, grow;
};

uint64_t bench_flat(uint8_t *memory, size_t room, const struct job *job);
uint64_t bench_paged(uint32_t *map, size_t places, uint8_t *pool, size_t room, const struct job *job);

enum { PAGES = 65535, MANY = 60 };
static uint8_t *memory, *pool, *other, *bytes;
static uint32_t *map;
static uint64_t *offsets;

static uint64_t state = 88172645463325252u;
static uint64_t next(void) {
    state ^= state << 13, state ^= state >> 7, state ^= state << 17;
    return state;
}

/* Offsets of `count` writes of n bytes in an image of a size: one after the other, or anywhere. */
static void place(size_t count, size_t n, uint64_t size, int anywhere) {
    uint64_t slots = size / n;
    for (size_t i = 0; i < count; i++)
        offsets[i] = n * (anywhere ? next() % slots : i % slots);
}

static struct job writing(uint64_t size, size_t n, size_t count) {
    struct job j = {size, bytes, n, offsets, count, 0, 0};
    return j;
}

static uint64_t work(int paged, const struct job *j) {
    return paged ? bench_paged(map, PAGES, pool, (size_t)PAGES * 256, j) : bench_flat(memory, (size_t)PAGES * 256, j);
}

static double run_rounds(int paged, struct job j, int rounds) {
    uint64_t done = 0;
    BEST_OF(best, rounds, done = work(paged, &j));
    if (done != j.count + (j.zero != 0) + 2 * (j.grow != 0)) {
        fprintf(stderr, "%llu calls were accepted\n", (unsigned long long)done);
        exit(1);
    }
    return best;
}

static double run(int paged, struct job j) { return run_rounds(paged, j, ROUNDS); }

static void copy_all(size_t n, size_t count) {
    for (size_t i = 0; i < count; i++) {
        memcpy(other + offsets[i], bytes, n);
        __asm__ volatile("" ::: "memory");
    }
}

static void writes(const char *what, uint64_t size, size_t n, size_t count, int anywhere) {
    place(count, n, size, anywhere);
    BEST(base, copy_all(n, count));
    for (int paged = 0; paged < 2; paged++) {
        double t = run(paged, writing(size, n, count)) - run(paged, writing(size, n, 0));
        printf("%-6s %-28s %10.2f ns a write %8.2f times memcpy\n", paged ? "paged" : "flat", what, t / count * 1e9, t / base);
    }
}

int main(void) {
    size_t whole = (size_t)PAGES * 256;
    memory = memory_of(whole), pool = memory_of(whole), other = memory_of(whole), bytes = memory_of(65536);
    map = (uint32_t *)memory_of(PAGES * sizeof *map), offsets = (uint64_t *)memory_of((1 << 20) * sizeof *offsets);
    for (size_t i = 0; i < 65536; i++) bytes[i] = (uint8_t)(1 + i % 255);
    printf("images of %zu bytes (65,535 pages) unless a size stands there\n", whole);
    writes("64 KiB, in order", whole, 65536, whole / 65536, 0);
    writes("64 KiB, anywhere", whole, 65536, whole / 65536, 1);
    writes("64 bytes, in order", whole, 64, 200000, 0);
    writes("64 bytes, anywhere", whole, 64, 200000, 1);
    for (uint64_t size = 65536; size <= whole; size *= 8) {
        char what[40];
        snprintf(what, sizeof what, "64 bytes, size %llu", (unsigned long long)size);
        writes(what, size, 64, 200000, 1);
    }
    BEST(base, memset(other, 0, whole));
    for (int paged = 0; paged < 2; paged++) {
        place(whole / 65536, 65536, whole, 0);
        struct job full = writing(whole, 65536, whole / 65536), zero = full, grow = full;
        zero.zero = 1, grow.grow = 1;
        /* a difference of two long times: many rounds, to find the best of both */
        double fill = run_rounds(paged, full, MANY), zeroed = run_rounds(paged, zero, MANY), grown = run_rounds(paged, grow, MANY);
        printf("%-6s %-28s %10.2f us %16.2f times memset\n", paged ? "paged" : "flat", "zero the whole image", (zeroed - fill) * 1e6, (zeroed - fill) / base);
        printf("%-6s %-28s %10.2f us %16.2f times memset\n", paged ? "paged" : "flat", "cut to nothing and regrow", (grown - fill) * 1e6, (grown - fill) / base);
    }
    return 0;
}
