/* Join, check and list of streams, as ratios in one run: the join to memcpy of its output's length, check and list at small and at large
 * payloads, how the cost grows with records and payload, and, with a folder as word, the join of files to `rbd merge-diff` of the same files.
 *
 * Each time is the best of several rounds. */
#include "common.h"

#include <fcntl.h>
#include <sys/mman.h>
#include <unistd.h>

#include "lovgwarzh.h"

enum { RECORDS = 512, LARGE = 65536, SMALL = 16 };

static uint8_t *out, *other, *from, text[20000];
static size_t room;

/* A stream of so many records of n bytes, in an image where each has so much space. */
static struct bytes stream(const char *from, const char *to, uint64_t count, uint64_t n, uint64_t first, uint64_t step) {
    struct records r = {count, n, first, step};
    struct bytes b = {memory_of(room_of(r)), 0};
    put_stream(&b, from, to, step * (count + 1), r);
    return b;
}

static void accepted(struct lovgwarzh_answer a) {
    if (a.cause) {
        fprintf(stderr, "refused: cause %llu\n", (unsigned long long)a.cause);
        exit(1);
    }
}

static uint64_t join(struct bytes earlier, struct bytes later) {
    struct lovgwarzh_answer a = lovgwarzh_join(earlier.at, earlier.length, later.at, later.length, out, room);
    accepted(a);
    return a.written;
}

static void check(struct bytes b) { accepted(lovgwarzh_check(b.at, b.length)); }

static void list(struct bytes b) { accepted(lovgwarzh_list(b.at, b.length, text, sizeof text)); }

/* A call made many times over, since one may be too short for the clock. */
#define PER_CALL(best, many, call) \
    BEST(best##_all, for (uint64_t i = 0; i < (many); i++) call); \
    double best = best##_all / (double)(many);

/* The cost of streams with so many records of so many bytes; the later one's records lie over the second halves of the earlier one's. */
static void row(uint64_t records, uint64_t payload) {
    struct bytes earlier = stream("a", "b", records, payload, 0, 4 * payload), later = stream("b", "c", records, payload, payload / 2, 4 * payload);
    uint64_t many = 1 + ((uint64_t)1 << 22) / earlier.length, written = 0;
    PER_CALL(checked, many, check(earlier));
    PER_CALL(listed, many, list(earlier));
    PER_CALL(joined, many, written = join(earlier, later));
    PER_CALL(copied, many, memcpy(other, from, written));
    printf("| %llu | %llu | %.2f | %.2f | %.2f | %.1f |\n", (unsigned long long)records, (unsigned long long)payload, checked * 1e6, listed * 1e6, joined * 1e6, joined / copied);
    free(earlier.at), free(later.at);
}

static void growth(void) {
    printf("| records each | payload each | check, us | list, us | join, us | to memcpy |\n|---|---|---|---|---|---|\n");
    for (uint64_t records = 2; records <= RECORDS; records *= 4) row(records, 64);
    for (uint64_t payload = SMALL; payload <= LARGE; payload *= 8) row(128, payload);
}

static void save(const char *path, struct bytes b) {
    FILE *f = fopen(path, "wb");
    if (!f || fwrite(b.at, 1, b.length, f) != b.length || fclose(f)) exit(1);
}

/* A file's bytes, mapped; with a length, a new file of so many bytes. */
static struct bytes map(const char *path, size_t length) {
    struct bytes b = {NULL, length};
    int file = open(path, length ? O_RDWR | O_CREAT | O_TRUNC : O_RDONLY, 0600);
    if (file < 0 || (length && ftruncate(file, (off_t)length))) exit(1);
    if (!length) b.length = (size_t)lseek(file, 0, SEEK_END);
    b.at = mmap(NULL, b.length, length ? PROT_READ | PROT_WRITE : PROT_READ, length ? MAP_SHARED : MAP_PRIVATE, file, 0);
    if (b.at == MAP_FAILED || close(file)) exit(1);
    return b;
}

static void join_files(const char *first, const char *second, const char *to) {
    struct bytes a = map(first, 0), b = map(second, 0), j = map(to, room);
    struct lovgwarzh_answer answer = lovgwarzh_join(a.at, a.length, b.at, b.length, j.at, room);
    accepted(answer);
    munmap(a.at, a.length), munmap(b.at, b.length), munmap(j.at, j.length);
    if (truncate(to, (off_t)answer.written)) exit(1);
}

/* The join of two files into a third, in a folder, and Ceph's of the same files. */
static void beside_ceph(const char *folder, struct bytes earlier, struct bytes later) {
    char path[3][512], command[2400];
    const char *names[3] = {"first", "second", "joined"};
    for (int i = 0; i < 3; i++) snprintf(path[i], sizeof path[i], "%s/%s", folder, names[i]);
    save(path[0], earlier), save(path[1], later);
    BEST(ours, join_files(path[0], path[1], path[2]));
    snprintf(command, sizeof command, "rm -f %s.rbd; rbd merge-diff %s %s %s.rbd >/dev/null 2>&1", path[2], path[0], path[1], path[2]);
    BEST(theirs, if (system(command)) exit(1));
    printf("join of files: %.2f ms, rbd merge-diff %.2f ms, %.2f of its time\n", ours * 1e3, theirs * 1e3, ours / theirs);
}

int main(int count, char **words) {
    struct bytes earlier = stream("a", "b", RECORDS, LARGE, 0, 4 * LARGE), later = stream("b", "c", RECORDS, LARGE, LARGE / 2, 4 * LARGE);
    struct bytes small = stream("a", "b", RECORDS, SMALL, 0, 4 * LARGE);
    room = earlier.length + later.length;
    out = memory_of(room), other = memory_of(room), from = memory_of(room);
    uint64_t written = 0;
    BEST(joined, written = join(earlier, later));
    BEST(copied, memcpy(other, from, written));
    printf("join of two streams of 512 records of 64 KiB, %llu bytes: %.2f ms, %.2f times memcpy of its length\n", (unsigned long long)written, joined * 1e3, joined / copied);
    BEST(check_small, check(small));
    BEST(check_large, check(earlier));
    printf("check of 512 records: %.2f us at 16-byte payloads, %.2f us at 64 KiB, %.2f times\n", check_small * 1e6, check_large * 1e6, check_large / check_small);
    BEST(list_small, list(small));
    BEST(list_large, list(earlier));
    printf("list of 512 records: %.2f us at 16-byte payloads, %.2f us at 64 KiB, %.2f times\n", list_small * 1e6, list_large * 1e6, list_large / list_small);
    growth();
    if (count > 1) beside_ceph(words[1], earlier, later);
    return 0;
}
