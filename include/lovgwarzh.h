/* Lovgwarzh for C: checks, lists and joins difference streams.
 *
 * `rt lib` in crates/lovgwarzh_c writes out/liblovgwarzh_c.a there; link it, nothing else is needed.
 * The calls allocate nothing, keep nothing between calls, and read and write only their arguments.
 * A pointer may be NULL where its length is 0. The buffers of one call must not overlap. */
#ifndef LOVGWARZH_H
#define LOVGWARZH_H

#include <stddef.h>
#include <stdint.h>

#ifdef __cplusplus
extern "C" {
#endif

/* `cause` is 0 if the call was not refused, and then `written` is the number of bytes written. Otherwise the five
 * numbers are those of docs/REFUSALS.md, `written` is 0, and no buffer was altered. */
struct lovgwarzh_answer {
    uint64_t written;
    uint64_t cause;
    uint64_t layer;
    uint64_t place;
    uint64_t record;
    uint64_t entry;
};

/* Whether the `n` bytes are a stream that is accepted. */
struct lovgwarzh_answer lovgwarzh_check(const uint8_t *stream, size_t n);

/* Writes the list of the stream's ranges into the first bytes of `text`, which has `room` bytes. Bytes past the
 * text stay. Too short a buffer is cause 14, and `place` is then the length that the text needs. */
struct lovgwarzh_answer lovgwarzh_list(const uint8_t *stream, size_t n, uint8_t *text, size_t room);

/* Writes the join of an earlier stream and a later one into the first bytes of `out`, which has `room` bytes. Bytes
 * past the joined stream stay. A fault of the earlier stream has entry 0, one of the later entry 1; names that do
 * not meet are cause 12; too short a buffer is cause 14, and `place` is then the length that the joined stream needs.
 * A join uses a few hundred kilobytes of stack. */
struct lovgwarzh_answer lovgwarzh_join(const uint8_t *earlier, size_t n, const uint8_t *later, size_t m, uint8_t *out,
                                       size_t room);

#ifdef __cplusplus
}
#endif

#endif
