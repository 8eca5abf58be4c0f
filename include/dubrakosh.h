/* The C interface of the gateway: compile, check, merge, judge and name.
 *
 * Every function takes any bytes whatever, answers, and returns 0 or a number of document 01:
 *
 *    1  text over 16,384 bytes                    10  pool above 16,384 bytes (merging)
 *    2  syntax                                    11  output too short
 *    3  17th level of object or block             12  not a table: length, header, root
 *    4  type, name, code or string too long       13  record breaks a rule
 *    5  number, date or word impossible           14  not an object of the table; no name
 *    6  empty interval                            20  block for leaf, leaf for block, or unreadable
 *    7  17th item                                 21  type differs
 *    8  too many records                          22  member missing
 *    9  item or name repeated                     23  member present under 0..0
 *                                                 24  value not admitted
 *
 * What a caller must see to:
 *  - a pointer is not null and points to as many bytes as the length behind it says; a part of length 0 may point anywhere but at null
 *  - what one call is lent does not overlap: neither an output with another argument, nor two outputs with each other. (Parts that are only read may be the same.)
 *  - a place, a shift, a record or a length is lent as one number of its type
 *  - there is stack: 1.2 MB for dk_judge, 0.2 MB for the others (docs/ARCHITECTURE.md says what takes it)
 *
 * What a caller may rely on:
 *  - every number that is lent for an answer is set: to what the outcome names, else to 0
 *  - with a number other than 0 no byte of `out` changes; with 0 only its first `*place` bytes do
 *  - nothing else is read or written, nothing is kept between calls, and no memory is taken from the heap: calls may run side by side in threads */
#ifndef DUBRAKOSH_H
#define DUBRAKOSH_H

#include <stdbool.h>
#include <stddef.h>
#include <stdint.h>

#ifdef __cplusplus
extern "C" {
#endif

/* Compiles a constraint text into a table, big-endian or little-endian. On 0, `*place` is the table's length; else it is the refusal's place in the text (for 1 the limit, 16,384). */
uint32_t dk_compile(const uint8_t *text, size_t text_len, bool little, uint8_t *out, size_t out_len, uint64_t *place);

/* Checks a table. On 0, `*place` is 0; for 12 it is 0; for 13 it is the lowest record that breaks a rule. */
uint32_t dk_check(const uint8_t *table, size_t table_len, uint64_t *place);

/* Merges two tables, all records in the order asked. On 0, `*place` is the length, and the shifts say by how much the second table's records and pool places moved.
 * For 12 and 13 `*which` is 1 or 2, the table that is refused, and `*place` as dk_check tells it; for 8 and 10 `*place` is 0; for 11 it is the length needed. */
uint32_t dk_merge(const uint8_t *first, size_t first_len, const uint8_t *second, size_t second_len, bool little, uint8_t *out, size_t out_len, uint64_t *place, uint32_t *record_shift,
                  uint32_t *pool_shift, uint32_t *which);

/* Judges a data text by a table at a root. 0 is valid. For 20 to 24 `*record` is the constraint's record and `*place` the place in the data.
 * For a refusal `*record` is 0 and `*place` the place in the data (1 to 5, 9), the root asked (14), or as dk_check tells it (12, 13). */
uint32_t dk_judge(const uint8_t *table, size_t table_len, uint32_t root, const uint8_t *data, size_t data_len, uint32_t *record, uint64_t *place);

/* Asks for the name that a record holds: an object's type, an attribute's name, or a string item. On 0 it is the `*len` bytes of the table from `*start` on.
 * With a refusal `*len` is 0 and `*start` is its place: the record asked (14), or as dk_check tells it (12, 13). */
uint32_t dk_name(const uint8_t *table, size_t table_len, uint32_t record, uint64_t *start, uint64_t *len);

#ifdef __cplusplus
}
#endif

#endif
