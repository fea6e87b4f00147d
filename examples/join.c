/* Joins two difference streams and prints the list of the result.
 *
 *   (cd crates/lovgwarzh_c && rt lib) && mkdir -p target
 *   gcc -Iinclude -o target/join examples/join.c crates/lovgwarzh_c/out/liblovgwarzh_c.a && target/join
 */
#include <stdio.h>
#include <string.h>

#include "lovgwarzh.h"

/* A stream under way: the bytes so far. */
struct draft {
    uint8_t bytes[256];
    size_t length;
};

static void put(struct draft *d, const void *bytes, size_t n) {
    memcpy(d->bytes + d->length, bytes, n);
    d->length += n;
}

static void put_number(struct draft *d, uint64_t value, int n) {
    for (int i = 0; i < n; i++)
        d->bytes[d->length++] = (uint8_t)(value >> (8 * i));
}

static void put_name(struct draft *d, char tag, const char *name) {
    put(d, &tag, 1);
    put_number(d, strlen(name), 4);
    put(d, name, strlen(name));
}

static void begin(struct draft *d, const char *from, const char *to, uint64_t size) {
    d->length = 0;
    put(d, "rbd diff v1\n", 12);
    put_name(d, 'f', from);
    put_name(d, 't', to);
    put(d, "s", 1);
    put_number(d, size, 8);
}

static void put_write(struct draft *d, uint64_t offset, const char *bytes) {
    put(d, "w", 1);
    put_number(d, offset, 8);
    put_number(d, strlen(bytes), 8);
    put(d, bytes, strlen(bytes));
}

static int refused(const char *what, struct lovgwarzh_answer a) {
    if (a.cause == 0)
        return 0;
    printf("%s: refused: cause %llu, layer %llu, place %llu, record %llu, entry %llu\n", what, (unsigned long long)a.cause,
           (unsigned long long)a.layer, (unsigned long long)a.place, (unsigned long long)a.record, (unsigned long long)a.entry);
    return 1;
}

int main(void) {
    struct draft earlier, later;
    uint8_t joined[256], text[256];

    begin(&earlier, "a", "b", 4); /* cut to four bytes */
    put(&earlier, "e", 1);
    begin(&later, "b", "c", 10); /* grown again, with one byte written */
    put_write(&later, 8, "k");
    put(&later, "e", 1);

    if (refused("check", lovgwarzh_check(later.bytes, later.length)))
        return 1;
    struct lovgwarzh_answer join = lovgwarzh_join(earlier.bytes, earlier.length, later.bytes, later.length, joined, sizeof joined);
    if (refused("join", join))
        return 1;
    printf("joined: %llu bytes\n", (unsigned long long)join.written);
    struct lovgwarzh_answer list = lovgwarzh_list(joined, join.written, text, sizeof text);
    if (refused("list", list))
        return 1;
    fwrite(text, 1, list.written, stdout);

    /* the two the other way round do not meet */
    refused("join of the later and the earlier", lovgwarzh_join(later.bytes, later.length, earlier.bytes, earlier.length, joined, sizeof joined));
    /* and a buffer can be too short: the answer tells how long it has to be */
    refused("join into 40 bytes", lovgwarzh_join(earlier.bytes, earlier.length, later.bytes, later.length, joined, 40));
    return 0;
}
