/* lintelkite.h: the C boundary of Lintelkite.
 *
 * This file fixes names, parameters and buffer lengths. What each call answers is in docs/PROMISES.md;
 * examples/search.c is a whole search.
 *
 * Every call returns 0 when it is accepted, or else a refusal number: the smallest that holds of those that are listed
 * for the call below.
 * Every buffer is a pointer and a length in bytes. The length is exact: neither shorter nor longer than stated here.
 * Numbers inside a buffer are little-endian: a float is IEEE 754 binary32, a count or an id is 32 bits. No alignment
 * is asked for. A buffer of no bytes may have any pointer, NULL too. A buffer that is written must not overlap
 * another one.
 * A call that refuses leaves every byte of every buffer as it was. No call keeps a pointer, allocates or has a
 * state of its own, so calls from several threads on buffers of their own are fine.
 * The stack that a call takes: lk_walk and the calls on a block's estimates at most 92 KiB, lk_block_sums 72 KiB,
 * every other 4 KiB.
 * A NaN that a call works out is written as the pattern 0x7FC00000. Factors are copied bit for bit.
 *
 * Names of lengths below: W(bits, dims) = ceil(dims * bits / 8); C(dims) = 16 + 8 * ceil(dims / 64);
 * B(dims) = 512 + 16 * ceil(dims / 4).
 */
#ifndef LINTELKITE_H
#define LINTELKITE_H
#include <stddef.h>
#include <stdint.h>
#ifdef __cplusplus
extern "C" {
#endif

enum lk_refusal {
    LK_ACCEPTED = 0,
    LK_BAD_DIMS = 1,     /* dims is 0 or above the limit: 65,535 for digits and the scalar quantizer, else 4,369 */
    LK_BAD_WIDTH = 2,    /* bits is not 1, 2, 4 or 8 */
    LK_BAD_LENGTH = 3,   /* a buffer is not of the length stated here, or a walk has more than 1,048,576 records */
    LK_MISSING = 4,      /* a NaN or an infinity where a finite number is asked for; of estimates and distances a NaN
                          * alone; a root of a NaN or a number below 0 */
    LK_BAD_VALUE = 5,    /* a code above the top, min above max, dis_v_2 below 0, or a metric, a layout or a mark that
                          * is none */
    LK_OUT_OF_RANGE = 6, /* an index at or past dims, a lane above 31, or a range that isn't empty and ends above n */
    LK_NO_ROOM = 7,      /* more ids than places for them */
    LK_NO_ESTIMATE = 8,  /* the number asked for is a NaN */
    LK_NOT_ASKED = 9     /* a distance for a place that is not asked for now */
};
/* The refusals that each call can give:
 *   lk_digits_size         1 2 3
 *   lk_digits_pack         1 2 3 5
 *   lk_digits_read         1 2 3 6
 *   lk_scalar_encode       1 2 3 4 5
 *   lk_scalar_table        1 2 3 4 5
 *   lk_scalar_distance     1 2 3 5 8
 *   lk_root                3 4
 *   lk_code_size           1 3
 *   lk_code_encode         1 3 4
 *   lk_code_bit            1 3 6
 *   lk_block_size          1 3
 *   lk_block_pack          1 3
 *   lk_block_lane          1 3 6
 *   lk_query_sum           1 3 5
 *   lk_code_sum            1 3 5
 *   lk_block_sums          1 3 5
 *   lk_code_rough          1 3 4 5 8
 *   lk_code_lower_bound    1 3 4 5 8
 *   lk_block_rough         1 3 4 5
 *   lk_block_lower_bounds  1 3 4 5
 *   lk_walk                1 3 4 5 6 7 8
 *   lk_rerank_next         3 4 5
 *   lk_rerank_supply       3 4 5 9
 */
/* L2 is the square of the distance, dot is the inner product with its sign flipped: less is nearer in both. */
enum lk_metric { LK_L2 = 1, LK_DOT = 2 };
enum lk_layout { LK_SINGLE = 1, LK_BLOCKS = 2 };
enum lk_mark { LK_WAITING = 0, LK_ASKED = 1, LK_GIVEN = 2 };
enum lk_answer { LK_DONE = 0, LK_ASK = 1, LK_GIVE = 2 };

/* ---- sizes, for whoever makes the buffers: a 32-bit number in out (4 bytes) */
uint32_t lk_digits_size(uint32_t dims, uint32_t bits, uint8_t *out, size_t out_len);         /* W(bits, dims) */
uint32_t lk_code_size(uint32_t dims, uint8_t *out, size_t out_len);                          /* C(dims) */
uint32_t lk_block_size(uint32_t dims, uint8_t *out, size_t out_len);                         /* B(dims) */

/* ---- module 1, digits. codes: dims bytes, one code each. packed: W(bits, dims) */
uint32_t lk_digits_pack(uint32_t dims, uint32_t bits, const uint8_t *codes, size_t codes_len,
                        uint8_t *packed, size_t packed_len);
/* the code at index, as a 32-bit number in out (4 bytes) */
uint32_t lk_digits_read(uint32_t dims, uint32_t bits, const uint8_t *packed, size_t packed_len,
                        uint32_t index, uint8_t *out, size_t out_len);

/* ---- module 2, scalar quantizer. vector, min, max: dims floats each. code: W(bits, dims).
 *      table: dims * 2^bits floats. out: one float.
 *      With top = 2^bits - 1 and del = (max - min) / top, a number x gets the code (x - min) / del, rounded (a half to
 *      the even number), then clamped to 0..top; a NaN gets 0. Code j stands for y = min + j * del. Its table entry,
 *      float i * 2^bits + j for dimension i, is (x - y) * (x - y), or x * y for dot. A distance is the sum of a code's
 *      entries, added up from dimension 0 on; for dot its sign is flipped */
uint32_t lk_scalar_encode(uint32_t dims, uint32_t bits, const uint8_t *vector, size_t vector_len,
                          const uint8_t *min, size_t min_len, const uint8_t *max, size_t max_len,
                          uint8_t *code, size_t code_len);
uint32_t lk_scalar_table(uint32_t metric, uint32_t dims, uint32_t bits, const uint8_t *vector, size_t vector_len,
                         const uint8_t *min, size_t min_len, const uint8_t *max, size_t max_len,
                         uint8_t *table, size_t table_len);
uint32_t lk_scalar_distance(uint32_t metric, uint32_t dims, uint32_t bits, const uint8_t *table, size_t table_len,
                            const uint8_t *code, size_t code_len, uint8_t *out, size_t out_len);

/* ---- module 3, square root: one float in out */
uint32_t lk_root(float x, uint8_t *out, size_t out_len);

/* ---- module 4, single code. factors: dis_u_2, factor_ppc, factor_ip, factor_err (16 bytes). The caller works them
 *      out, module 7 uses them. vector: dims floats, of which the code keeps the signs. code: C(dims) */
uint32_t lk_code_encode(uint32_t dims, const uint8_t *factors, size_t factors_len,
                        const uint8_t *vector, size_t vector_len, uint8_t *code, size_t code_len);
/* the bit of dimension index, 0 or 1, as a 32-bit number in out (4 bytes); index at or past dims is OUT_OF_RANGE */
uint32_t lk_code_bit(uint32_t dims, const uint8_t *code, size_t code_len, uint32_t index,
                     uint8_t *out, size_t out_len);

/* ---- module 5, block. codes: 32 single codes end to end, 32 * C(dims). block: B(dims). Code i becomes lane i. Who has
 *      fewer codes fills up with any: see module 8 */
uint32_t lk_block_pack(uint32_t dims, const uint8_t *codes, size_t codes_len, uint8_t *block, size_t block_len);
uint32_t lk_block_lane(uint32_t dims, const uint8_t *block, size_t block_len, uint32_t lane,
                       uint8_t *code, size_t code_len);

/* ---- module 6, sums. query: dims bytes, codes of at most 15. A sum is a 32-bit number */
uint32_t lk_query_sum(uint32_t dims, const uint8_t *query, size_t query_len, uint8_t *out, size_t out_len);
uint32_t lk_code_sum(uint32_t dims, const uint8_t *query, size_t query_len,
                     const uint8_t *code, size_t code_len, uint8_t *out, size_t out_len);
/* 32 sums, lane 0 first: out is 128 bytes */
uint32_t lk_block_sums(uint32_t dims, const uint8_t *query, size_t query_len,
                       const uint8_t *block, size_t block_len, uint8_t *out, size_t out_len);

/* ---- module 7, estimates. out: one float, or for a block 32 floats, lane 0 first (128 bytes).
 *      The query is a vector v: a code of 0 to 15 for each dimension, where b + code * k is v's number or close to it,
 *      and dis_v_2, the square of v's length. A record is a vector u: its signs, +1 for a bit of 1 and -1 for one of 0,
 *      and four factors. dis_u_2 is the square of u's length; factor_ip is -2 times the scale at which the signs stand
 *      for u; factor_ppc is factor_ip times the sum of the signs; factor_err says how far rough may be off. Any factors
 *      are taken. S is the sum of the query codes at bits of 1, Q the sum of them all. Each operation rounds once:
 *        L2:   rough = ((dis_u_2 + dis_v_2) + b * factor_ppc) + ((2 * S - Q) * factor_ip) * k
 *              err = factor_err * root(dis_v_2)
 *        dot:  rough = 0.5 * (b * factor_ppc) + 0.5 * (((2 * S - Q) * factor_ip) * k)
 *              err = 0.5 * (factor_err * root(dis_v_2))
 *        both: lower bound = rough - 1.9 * err, where 1.9 is the float 0x3FF33333 */
uint32_t lk_code_rough(uint32_t metric, uint32_t dims, float dis_v_2, float b, float k,
                       const uint8_t *query, size_t query_len, const uint8_t *code, size_t code_len,
                       uint8_t *out, size_t out_len);
uint32_t lk_code_lower_bound(uint32_t metric, uint32_t dims, float dis_v_2, float b, float k,
                             const uint8_t *query, size_t query_len, const uint8_t *code, size_t code_len,
                             uint8_t *out, size_t out_len);
uint32_t lk_block_rough(uint32_t metric, uint32_t dims, float dis_v_2, float b, float k,
                        const uint8_t *query, size_t query_len, const uint8_t *block, size_t block_len,
                        uint8_t *out, size_t out_len);
uint32_t lk_block_lower_bounds(uint32_t metric, uint32_t dims, float dis_v_2, float b, float k,
                               const uint8_t *query, size_t query_len, const uint8_t *block, size_t block_len,
                               uint8_t *out, size_t out_len);

/* ---- module 8, range walk: the lower bounds of records start to end - 1, in that order; of none where end is not
 *      above start. records: n single codes, or ceil(n / 32) blocks, n at most 1,048,576. ids: 4 bytes a
 *      place, bounds: 4 bytes a place, marks: 1 byte a place, the same number of places in each, at most 4,096.
 *      count: a 32-bit number (4 bytes), how many places were filled from the first on; the places after them stay
 *      as they were. A filled place has mark 0. Record i is lane i % 32 of block i / 32. The last block's lanes past
 *      record n - 1 give no id, and whatever they hold, a NaN too, makes no difference */
uint32_t lk_walk(uint32_t metric, uint32_t layout, uint32_t dims, float dis_v_2, float b, float k,
                 const uint8_t *query, size_t query_len, const uint8_t *records, size_t records_len,
                 uint32_t n, uint32_t start, uint32_t end,
                 uint8_t *ids, size_t ids_len, uint8_t *bounds, size_t bounds_len,
                 uint8_t *marks, size_t marks_len, uint8_t *count, size_t count_len);

/* ---- module 9, reranker. estimates and distances: 4 bytes a place, marks: 1 byte a place, one number of places
 *      from 0 to 4,096. next's out is 16 bytes: the answer (enum lk_answer), the place (0 when Done), the distance
 *      (a float at Give, else 0), and the count of asked. supply's out is 4 bytes: the count of asked.
 *      A search: lend the places that a walk has filled, or others with marks of 0. The distance of a waiting place is
 *      not read, so any will do. Call next: at Ask, supply the exact distance of that place; at Give, that place is the
 *      next one in order; and again, until enough are given or it is Done.
 *      Where no distance is below its estimate, distances never fall. Each candidate is given once in any case */
uint32_t lk_rerank_next(const uint8_t *estimates, size_t estimates_len, const uint8_t *distances, size_t distances_len,
                        uint8_t *marks, size_t marks_len, uint8_t *out, size_t out_len);
uint32_t lk_rerank_supply(const uint8_t *estimates, size_t estimates_len, uint8_t *distances, size_t distances_len,
                          uint8_t *marks, size_t marks_len, uint32_t place, float distance,
                          uint8_t *out, size_t out_len);

#ifdef __cplusplus
}
#endif
#endif
