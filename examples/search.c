/* A search from end to end. 70 references become codes of one bit a dimension, the codes become three blocks, a walk over
 * the blocks gives a lower bound of each distance, and the reranker hands out the references by exact distance. An exact
 * distance is a slow read, so it reads as few as it can. (One walk fills at most 4,096 places: index.cpp has a search over
 * more records.)
 *
 *   cc -std=c99 examples/search.c $(pkg-config --cflags --libs lintelkite) -o search
 *
 * It exits with 0 when every answer is the one it expects.
 */
#include <lintelkite.h>
#include <math.h>
#include <stdio.h>
#include <stdlib.h>
#include <string.h>

#define DIMS 100
#define RECORDS 70
#define CODE (16 + 8 * ((DIMS + 63) / 64))
#define BLOCK (512 + 16 * ((DIMS + 3) / 4))
#define BLOCKS ((RECORDS + 31) / 32)
#define WANTED 5

static float reference[RECORDS][DIMS], powder[DIMS];
static int reads = 0;
static int surprises = 0;

static void expect(const char *what, uint32_t got, uint32_t wanted)
{
    if (got != wanted) {
        printf("%s: %lu, where %lu was expected\n", what, (unsigned long)got, (unsigned long)wanted);
        surprises++;
    }
}

/* ---- numbers and floats as Lintelkite reads and writes them: little-endian, on any machine */

static uint32_t get_number(const uint8_t *from)
{
    return (uint32_t)from[0] | (uint32_t)from[1] << 8 | (uint32_t)from[2] << 16 | (uint32_t)from[3] << 24;
}

static float get_float(const uint8_t *from)
{
    float x;
    uint32_t bits = get_number(from);
    memcpy(&x, &bits, 4);
    return x;
}

static void put_floats(uint8_t *to, const float *from, size_t n)
{
    size_t i, byte;
    for (i = 0; i < n; i++) {
        uint32_t bits;
        memcpy(&bits, &from[i], 4);
        for (byte = 0; byte < 4; byte++)
            to[4 * i + byte] = (uint8_t)(bits >> 8 * byte);
    }
}

/* ---- the data */

/* A number from -1 to 1, the same sequence on every machine. */
static float noise(void)
{
    static uint32_t state = 1;
    state = state * 1664525u + 1013904223u;
    return (float)(state >> 8) / 8388608.0f - 1.0f;
}

static void make_data(void)
{
    int i, d;
    for (i = 0; i < RECORDS; i++)
        for (d = 0; d < DIMS; d++)
            reference[i][d] = noise();
    /* The powder is reference 37 with some noise. */
    for (d = 0; d < DIMS; d++)
        powder[d] = reference[37][d] + 0.3f * noise();
}

static float distance(int id)
{
    float sum = 0.0f;
    int d;
    for (d = 0; d < DIMS; d++)
        sum += (reference[id][d] - powder[d]) * (reference[id][d] - powder[d]);
    return sum;
}

/* What a cabinet does when the reranker asks: fetch the reference from the disk and measure. */
static float read_exact(uint32_t id)
{
    reads++;
    return distance((int)id);
}

static float root(float x)
{
    uint8_t out[4] = {0, 0, 0, 0};
    expect("lk_root", lk_root(x, out, sizeof out), LK_ACCEPTED);
    return get_float(out);
}

/* ---- a reference becomes a code */

static void encode(const float *x, uint8_t *code)
{
    uint8_t factors[16], vector[4 * DIMS];
    float f[4], absolutes = 0.0f, squares = 0.0f, spread = 0.0f, rest;
    int d, signs = 0;
    for (d = 0; d < DIMS; d++) {
        absolutes += x[d] < 0.0f ? -x[d] : x[d];
        squares += x[d] * x[d];
        signs += signbit(x[d]) ? -1 : 1;
    }
    /* A vector of zeros has no direction. Its factors are 0, and its estimates are exact. */
    if (absolutes > 0.0f)
        spread = root(squares) / (absolutes / root(squares * (float)DIMS));
    /* This is 0 where all numbers have one size, and rounding may take it below. There it has no root. */
    rest = spread * spread - squares;
    /* dis_u_2, factor_ppc, factor_ip, factor_err. A greater factor_err makes lower bounds: safer ones, and more reads. */
    f[0] = squares;
    f[2] = -2.0f / root((float)DIMS) * spread;
    f[1] = f[2] * (float)signs;
    f[3] = rest > 0.0f ? 3.0f / root((float)DIMS - 1.0f) * root(rest) : 0.0f;
    put_floats(factors, f, 4);
    put_floats(vector, x, DIMS);
    expect("lk_code_encode", lk_code_encode(DIMS, factors, sizeof factors, vector, sizeof vector, code, CODE), LK_ACCEPTED);
}

/* ---- the powder becomes a query: codes of at most 15 that stand for b + code * k */

static void make_query(float *dis_v_2, float *b, float *k, uint8_t *codes)
{
    float low = powder[0], high = powder[0];
    int d;
    *dis_v_2 = 0.0f;
    for (d = 0; d < DIMS; d++) {
        *dis_v_2 += powder[d] * powder[d];
        if (powder[d] < low)
            low = powder[d];
        if (high < powder[d])
            high = powder[d];
    }
    *b = low;
    *k = (high - low) / 15.0f;
    for (d = 0; d < DIMS; d++) {
        /* The nearest code. A flat powder has k 0, and codes of 0. */
        float code = *k > 0.0f ? (powder[d] - low) / *k + 0.5f : 0.0f;
        codes[d] = (uint8_t)(code < 15.0f ? code : 15.0f);
    }
}

/* ---- the reranker with a function that reads exact distances: returns the next id, or -1 when all are handed out */

struct search {
    size_t places;
    const uint8_t *ids, *estimates;
    uint8_t *distances, *marks;
    float (*exact)(uint32_t id);
};

static long next_hit(struct search *s, float *far)
{
    uint8_t out[16], count[4];
    for (;;) {
        uint32_t place, id;
        expect("lk_rerank_next",
               lk_rerank_next(s->estimates, 4 * s->places, s->distances, 4 * s->places, s->marks, s->places, out, sizeof out),
               LK_ACCEPTED);
        if (surprises != 0 || get_number(out) == LK_DONE)
            return -1;
        place = get_number(out + 4);
        id = get_number(s->ids + 4 * place);
        if (get_number(out) == LK_GIVE) {
            *far = get_float(out + 8);
            return (long)id;
        }
        expect("lk_rerank_supply",
               lk_rerank_supply(s->estimates, 4 * s->places, s->distances, 4 * s->places, s->marks, s->places, place,
                                s->exact(id), count, sizeof count),
               LK_ACCEPTED);
        expect("the count of asked", get_number(count), (uint32_t)reads);
    }
}

int main(void)
{
    uint8_t *codes = calloc(32 * BLOCKS, CODE), *blocks = malloc(BLOCKS * BLOCK), query[DIMS], size[4], count[4];
    uint8_t ids[4 * RECORDS], bounds[4 * RECORDS], marks[RECORDS], distances[4 * RECORDS], single[4 * RECORDS];
    float dis_v_2, b, k, far = 0.0f, before = 0.0f;
    int i, given = 0, seen[RECORDS] = {0};
    long id;
    struct search s;

    if (codes == NULL || blocks == NULL)
        return 1;
    make_data();

    /* References to codes, codes to blocks of 32. The last block is filled up with codes of zeros. Any codes will do: a
     * walk is told how many records there are, and gives no id past them. */
    expect("lk_code_size", lk_code_size(DIMS, size, sizeof size), LK_ACCEPTED);
    expect("the size of a code", get_number(size), CODE);
    expect("lk_block_size", lk_block_size(DIMS, size, sizeof size), LK_ACCEPTED);
    expect("the size of a block", get_number(size), BLOCK);
    for (i = 0; i < RECORDS; i++)
        encode(reference[i], codes + i * CODE);
    for (i = 0; i < BLOCKS; i++)
        expect("lk_block_pack", lk_block_pack(DIMS, codes + i * 32 * CODE, 32 * CODE, blocks + i * BLOCK, BLOCK), LK_ACCEPTED);
    printf("%d references of %d floats: %d bytes of codes, %d bytes of blocks\n", RECORDS, DIMS, RECORDS * CODE, BLOCKS * BLOCK);

    /* Lower bounds of all, over the blocks. Over the single codes they are the same, bit for bit. */
    make_query(&dis_v_2, &b, &k, query);
    expect("lk_walk",
           lk_walk(LK_L2, LK_SINGLE, DIMS, dis_v_2, b, k, query, DIMS, codes, RECORDS * CODE, RECORDS, 0, RECORDS, ids,
                   sizeof ids, single, sizeof single, marks, sizeof marks, count, sizeof count),
           LK_ACCEPTED);
    expect("lk_walk",
           lk_walk(LK_L2, LK_BLOCKS, DIMS, dis_v_2, b, k, query, DIMS, blocks, BLOCKS * BLOCK, RECORDS, 0, RECORDS, ids,
                   sizeof ids, bounds, sizeof bounds, marks, sizeof marks, count, sizeof count),
           LK_ACCEPTED);
    expect("the count of a walk", get_number(count), RECORDS);
    expect("bounds by blocks and by single codes", memcmp(bounds, single, sizeof bounds) == 0, 1);
    for (i = 0; i < RECORDS; i++)
        expect("a bound that is not above the distance", get_float(bounds + 4 * i) <= distance(i), 1);

    /* The five nearest. What stands in `distances` before a place is asked for is never read. */
    memset(distances, 0xFF, sizeof distances);
    s.places = get_number(count);
    s.ids = ids;
    s.estimates = bounds;
    s.distances = distances;
    s.marks = marks;
    s.exact = read_exact;
    while (given < WANTED && (id = next_hit(&s, &far)) >= 0) {
        printf("%d: reference %ld at %.3f, after %d reads\n", given + 1, id, (double)far, reads);
        for (i = 0; i < RECORDS; i++)
            expect("a reference that is nearer and was not handed out", !seen[i] && i != id && distance(i) < far, 0);
        seen[id]++;
        given++;
    }
    expect("the nearest", (uint32_t)seen[37], 1);
    expect("fewer reads than references", reads < RECORDS, 1);

    /* To the end: every reference once, distances never falling. */
    before = far;
    while ((id = next_hit(&s, &far)) >= 0) {
        expect("a distance that does not fall", far < before, 0);
        before = far;
        seen[id]++;
        given++;
    }
    expect("all handed out", (uint32_t)given, RECORDS);
    expect("all read", (uint32_t)reads, RECORDS);
    for (i = 0; i < RECORDS; i++)
        expect("handed out once", (uint32_t)seen[i], 1);
    printf("all %d references handed out\n", given);

    free(codes);
    free(blocks);
    return surprises == 0 ? 0 : 1;
}
