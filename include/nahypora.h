/* The phrase codes library, for C. `rt lib` in crates/nahypora writes crates/nahypora/out/libnahypora.a.
 *
 * A phrase file has 256 to 4,096 rows; per row a mark C7 51, one length byte 1 to 64, then the bytes. n is the count of rows; a code is
 * a row's number. bpe_from_dictionary fills four tables of n numbers (or more) and a search area of 16,384; all other calls take the file
 * and these tables as it left them. Nothing is kept between calls, nothing is allocated, and no call writes beyond what is said here.
 *
 * Each slice is a pointer, never null, and a length in elements; a buffer that a call may write overlaps no other argument. Each call
 * returns one number:
 *     bpe_cause(result)   0 for an answer, else the number of the cause
 *     bpe_place(result)   the answer's number, or the place that belongs to the cause
 * Causes and their places:
 *      1 factor 0 (0)                              7 a table, the area, output or work buffer too short (0)
 *      2 file over 65,536 bytes (65,536), or       8 tables, head or records out of form (0)
 *        bad record (its offset)                   9 text over 4,096 bytes, or over 4,096 codes (0)
 *      3 under 256 or over 4,096 rows (n)         10 code not below n (index of the first)
 *      4 a byte value without a row (lowest)      11 interval start above end, or end above text (0)
 *      5 same bytes as an earlier row (row)       12 push or extend beyond the slice or 4,096 (length)
 *      6 longer row without parts (row)           13 same hash as an earlier row of other bytes (row)
 * After a refusal every buffer is as it was, but for 5, 13 and 6 of the build. On success output beyond the answer is unchanged; a work
 * buffer may hold anything in as many numbers as the text has bytes, and is unchanged beyond.
 */
#ifndef NAHYPORA_H
#define NAHYPORA_H

#include <stddef.h>
#include <stdint.h>

#ifdef __cplusplus
extern "C" {
#endif

#define BPE_AREA 16384u      /* numbers in the search area */
#define BPE_NONE 4294967295u /* "none" in a table, "over" of bpe_count_till_limit */

static inline uint32_t bpe_cause(uint64_t result) { return (uint32_t)(result >> 32); }
static inline uint32_t bpe_place(uint64_t result) { return (uint32_t)result; }

/* The file and the tables as bpe_from_dictionary left them, each as pointer and length. */
#define BPE_TABLES                                                                                                     \
    const uint8_t *file, size_t file_len, const uint32_t *places, size_t places_len, const uint32_t *lefts,            \
        size_t lefts_len, const uint32_t *rights, size_t rights_len, const uint32_t *prefixes, size_t prefixes_len,    \
        const uint32_t *area, size_t area_len

/* Fills the tables and the search area; the answer is n. The factor multiplies the rows' hashes: take 1, or another one where cause 13
 * comes, two different rows with one hash: both may stay. 5, two equal rows, comes under every factor. Causes in order: 1, 2, 3, 4, 7,
 * 5, 13, 6; each of 5, 13 and 6 is looked for over the whole file, so that 13 comes only where no two rows are equal. After 5, 13 and 6
 * the first n numbers of each table and the first 16,384 of the area are BPE_NONE, the rest unchanged; after the others nothing is
 * changed. */
uint64_t bpe_from_dictionary(const uint8_t *file, size_t file_len, uint64_t factor, uint32_t *places, size_t places_len,
                             uint32_t *lefts, size_t lefts_len, uint32_t *rights, size_t rights_len, uint32_t *prefixes,
                             size_t prefixes_len, uint32_t *area, size_t area_len);

/* Whether token1 and token2 may stand beside each other: 1 or 0. Causes: 8, 10 (place 0 or 1). */
uint64_t bpe_is_valid_token_pair(BPE_TABLES, uint32_t token1, uint32_t token2);

/* n. Cause: 8. */
uint64_t bpe_num_tokens(BPE_TABLES);

/* The number of bytes of a row. Causes: 8, 10. */
uint64_t bpe_token_len(BPE_TABLES, uint32_t token);

/* The codes of a text of at most 4,096 bytes, to the front of out; the answer is their number. out and work need one number per byte of
 * the text. Causes: 9, 7, 8. The first three give the same codes, those of the merge procedure. */
uint64_t bpe_encode_via_bitfield(BPE_TABLES, const uint8_t *text, size_t text_len, uint32_t *out, size_t out_len,
                                 uint32_t *work, size_t work_len);
uint64_t bpe_encode_via_backtracking(BPE_TABLES, const uint8_t *text, size_t text_len, uint32_t *out, size_t out_len,
                                     uint32_t *work, size_t work_len);
uint64_t bpe_encode_via_table(BPE_TABLES, const uint8_t *text, size_t text_len, uint32_t *out, size_t out_len,
                              uint32_t *work, size_t work_len);
/* The fewest codes; among those the longest first row, then the longest second, and so on. */
uint64_t bpe_encode_minimal(BPE_TABLES, const uint8_t *text, size_t text_len, uint32_t *out, size_t out_len,
                            uint32_t *work, size_t work_len);
/* The longest row at each place. */
uint64_t bpe_encode_greedy(BPE_TABLES, const uint8_t *text, size_t text_len, uint32_t *out, size_t out_len,
                           uint32_t *work, size_t work_len);

/* The number of codes of a text. work needs one number per byte. Causes: 9, 7, 8. */
uint64_t bpe_count(BPE_TABLES, const uint8_t *text, size_t text_len, uint32_t *work, size_t work_len);

/* The same, or BPE_NONE for "over": if the number of codes exceeds the limit, and in no other case. A text far over the limit is told
 * early. The empty text has 0 codes. */
uint64_t bpe_count_till_limit(BPE_TABLES, const uint8_t *text, size_t text_len, uint64_t limit, uint32_t *work,
                              size_t work_len);

/* The bytes of at most 4,096 codes, joined, to the front of out; the answer is their number. Causes: 9, 8, 10, 7. */
uint64_t bpe_decode_tokens(BPE_TABLES, const uint32_t *tokens, size_t tokens_len, uint8_t *out, size_t out_len);

/* The bytes of one row. Causes: 8, 10, 7. */
uint64_t bpe_token_bytes(BPE_TABLES, uint32_t token, uint8_t *out, size_t out_len);

/* Typing. A head has the number of bytes typed, and a record for each of them, in the order of typing, has the byte, the last code of the
 * bytes typed up to it and the number of their codes; in prepending, where each byte is put in front of those before, the first code. Start
 * with a length of 0 over records of any content, and let nobody else write either. A head is out of form if its length exceeds the slice
 * or 4,096. */
typedef struct {
    size_t len;
} bpe_head;

typedef struct {
    uint8_t byte;
    uint32_t code;
    uint32_t count;
} bpe_state;

/* The side of a typing call: BPE_APPEND puts bytes at the end, any other number, as BPE_PREPEND, at the front. */
#define BPE_APPEND 0u
#define BPE_PREPEND 1u

/* Types one byte; the answer is the new length. Only the record added and the head are written. Causes: 8 (tables, head or a record below
 * the length), 12 (place: the current length) if there is no record left or 4,096 bytes are typed. */
uint64_t bpe_push(BPE_TABLES, uint32_t side, uint8_t byte, bpe_head *head, bpe_state *states, size_t states_len);

/* Types bytes, the first one first, all or none; the answer is the new length. Only the records added and the head are written. Causes: 9
 * (more than 4,096 bytes), 8, 12. */
uint64_t bpe_extend(BPE_TABLES, uint32_t side, const uint8_t *bytes, size_t bytes_len, bpe_head *head,
                    bpe_state *states, size_t states_len);

/* Keeps the first so many bytes typed, or all if there are fewer; the answer is the new length. Only the head is written. Cause: 8, of the
 * head alone. It is the same on both sides. */
uint64_t bpe_truncate(size_t keep, bpe_head *head, const bpe_state *states, size_t states_len);

/* The number of codes of the bytes typed. Nothing is written. Cause: 8. */
uint64_t bpe_token_count(BPE_TABLES, uint32_t side, const bpe_head *head, const bpe_state *states, size_t states_len);

/* The four calls under a name for each side. */
#define BPE_GIVEN_TABLES                                                                                               \
    file, file_len, places, places_len, lefts, lefts_len, rights, rights_len, prefixes, prefixes_len, area, area_len

static inline uint64_t bpe_append_push(BPE_TABLES, uint8_t byte, bpe_head *head, bpe_state *states, size_t states_len) {
    return bpe_push(BPE_GIVEN_TABLES, BPE_APPEND, byte, head, states, states_len);
}
static inline uint64_t bpe_prepend_push(BPE_TABLES, uint8_t byte, bpe_head *head, bpe_state *states,
                                        size_t states_len) {
    return bpe_push(BPE_GIVEN_TABLES, BPE_PREPEND, byte, head, states, states_len);
}
static inline uint64_t bpe_append_extend(BPE_TABLES, const uint8_t *bytes, size_t bytes_len, bpe_head *head,
                                         bpe_state *states, size_t states_len) {
    return bpe_extend(BPE_GIVEN_TABLES, BPE_APPEND, bytes, bytes_len, head, states, states_len);
}
static inline uint64_t bpe_prepend_extend(BPE_TABLES, const uint8_t *bytes, size_t bytes_len, bpe_head *head,
                                          bpe_state *states, size_t states_len) {
    return bpe_extend(BPE_GIVEN_TABLES, BPE_PREPEND, bytes, bytes_len, head, states, states_len);
}
static inline uint64_t bpe_append_truncate(size_t keep, bpe_head *head, const bpe_state *states, size_t states_len) {
    return bpe_truncate(keep, head, states, states_len);
}
static inline uint64_t bpe_prepend_truncate(size_t keep, bpe_head *head, const bpe_state *states, size_t states_len) {
    return bpe_truncate(keep, head, states, states_len);
}
static inline uint64_t bpe_append_token_count(BPE_TABLES, const bpe_head *head, const bpe_state *states,
                                              size_t states_len) {
    return bpe_token_count(BPE_GIVEN_TABLES, BPE_APPEND, head, states, states_len);
}
static inline uint64_t bpe_prepend_token_count(BPE_TABLES, const bpe_head *head, const bpe_state *states,
                                               size_t states_len) {
    return bpe_token_count(BPE_GIVEN_TABLES, BPE_PREPEND, head, states, states_len);
}

#undef BPE_GIVEN_TABLES

/* Prepares the counts of pieces of a text of at most 4,096 bytes. For each of its prefixes: the last code (but for the empty prefix), the
 * tree number, one past the last tree number below it, and the number of codes. last_codes and work need one number per byte, numbers, ends
 * and depths one more; beyond that nothing is written. The answer is the text's length. Causes: 9, 7, 8. */
uint64_t bpe_interval_prepare(BPE_TABLES, const uint8_t *text, size_t text_len, uint32_t *last_codes,
                              size_t last_codes_len, uint32_t *numbers, size_t numbers_len, uint32_t *ends,
                              size_t ends_len, uint32_t *depths, size_t depths_len, uint32_t *work, size_t work_len);

/* The number of codes of the piece from start to end, the byte at the end not included. The four tables are as preparation left them for
 * this text; work needs one number per byte of the whole text. Causes: 9, 7, 8 (the four tables too), 11. */
uint64_t bpe_interval_count(BPE_TABLES, const uint8_t *text, size_t text_len, const uint32_t *last_codes,
                            size_t last_codes_len, const uint32_t *numbers, size_t numbers_len, const uint32_t *ends,
                            size_t ends_len, const uint32_t *depths, size_t depths_len, size_t start, size_t end,
                            uint32_t *work, size_t work_len);

#undef BPE_TABLES

#ifdef __cplusplus
}
#endif

#endif
