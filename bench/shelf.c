/* A shelf at work: put, join and settle, as ratios to memcpy of the bytes that each has to move, list, and how the cost grows with records, payload
 * and entries. Each time is the best of several rounds in one run; the time of a join, a settle or a list is what it adds to the puts before it. */
#include "common.h"

uint64_t bench_shelf(const uint8_t *streams, size_t streams_length, const uint64_t *ends, size_t count, uint8_t *bytes, size_t bytes_length, uint8_t *work, size_t work_length,
                     uint8_t *memory, size_t memory_length, uint64_t lists, uint64_t joins, uint64_t settles);

enum { LISTS = 100 };

struct chain {
    struct bytes streams;
    uint64_t ends[64];
    uint64_t entries, records, payload;
};

/* The name of the snapshot that entry k leads to. */
static const char *name_of(uint64_t k) {
    static char names[64][3];
    names[k][0] = (char)('a' + k / 16), names[k][1] = (char)('a' + k % 16);
    return names[k];
}

/* Streams that each write the same records of so many bytes, with gaps between them. */
static struct chain chain(uint64_t entries, uint64_t records, uint64_t payload) {
    struct records r = {records, payload, 0, 2 * payload};
    struct chain c = {.streams = {memory_of(entries * room_of(r)), 0}, .entries = entries, .records = records, .payload = payload};
    for (uint64_t k = 0; k < entries; k++) {
        put_stream(&c.streams, k ? name_of(k - 1) : NULL, name_of(k), 2 * records * payload, r);
        c.ends[k] = c.streams.length;
    }
    return c;
}

static uint8_t *bytes, *work, *memory, *other;
static size_t room;

/* The best time of the puts, and of so many lists, joins and settles after them. */
static double measure(const struct chain *c, uint64_t lists, uint64_t joins, uint64_t settles) {
    uint64_t done = 0;
    BEST(best, done = bench_shelf(c->streams.at, c->streams.length, c->ends, c->entries, bytes, room, work, room, memory, room, lists, joins, settles));
    if (done != c->entries + lists + joins + settles) {
        fprintf(stderr, "only %llu calls were accepted\n", (unsigned long long)done);
        exit(1);
    }
    return best;
}

/* The time of a memcpy of n bytes, in pieces of at most a piece's length. */
static double copy(size_t n, size_t piece) {
    if (piece > n) piece = n;
    BEST(best, memcpy(other, bytes, piece));
    return best * ((double)n / (double)piece);
}

static void row(uint64_t entries, uint64_t records, uint64_t payload) {
    struct chain c = chain(entries, records, payload);
    double puts = measure(&c, 0, 0, 0), lists = measure(&c, LISTS, 0, 0) - puts;
    double joins = measure(&c, 0, entries - 1, 0) - puts, settles = measure(&c, 0, 0, entries) - puts;
    /* what has to move: a put its stream; a join its result twice and what lies after it; a settle its payload and what lies after it */
    size_t one = c.streams.length / entries, moved = 0, left = 0;
    for (uint64_t k = 1; k < entries; k++) moved += 2 * one + (entries - 1 - k) * one, left += k * one;
    size_t settled = left + entries * records * payload;
    printf("| %llu | %llu | %llu | %.2f | %.1f | %.2f | %.2f | %.1f | %.2f | %.1f |\n", (unsigned long long)entries, (unsigned long long)records, (unsigned long long)payload,
           puts * 1e6 / entries, puts / copy(c.streams.length, c.streams.length), lists * 1e6 / LISTS, joins * 1e6 / (entries - 1), joins / copy(moved, c.streams.length), settles * 1e6 / entries, settles / copy(settled, c.streams.length));
    free(c.streams.at);
}

int main(void) {
    room = (size_t)160 << 20;
    bytes = memory_of(room), work = memory_of(room), memory = memory_of(room), other = memory_of(room);
    printf("| entries | records each | payload each | put, us | to memcpy | list, us | join, us | to memcpy | settle, us | to memcpy |\n|---|---|---|---|---|---|---|---|---|---|\n");
    for (uint64_t records = 8; records <= 512; records *= 4) row(8, records, 64);
    for (uint64_t payload = 16; payload <= 16384; payload *= 8) row(8, 128, payload);
    row(8, 128, 65536);
    for (uint64_t entries = 2; entries <= 64; entries *= 2) row(entries, 128, 1024);
    return 0;
}
