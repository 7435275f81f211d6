/* The scalar quantizer: references become codes of four bits a dimension, a query becomes a table, and the table gives
 * the distance of each code by look-up alone.
 *
 *   cc -std=c99 examples/scalar.c $(pkg-config --cflags --libs lintelkite) -o scalar
 *
 * It exits with 0 when every answer is the one it expects.
 */
#include <lintelkite.h>
#include <stdio.h>
#include <stdlib.h>
#include <string.h>

#define DIMS 6
#define REFERENCES 4
#define BITS 4
#define LEVELS 16
#define CODE ((DIMS * BITS + 7) / 8)

/* Four reference spectra of six channels, and the spectrum of a powder that is close to the third. */
static const float reference[REFERENCES][DIMS] = {
    {0.0f, 12.0f, 3.0f, 0.5f, 8.0f, 1.0f},
    {9.0f, 0.0f, 3.5f, 7.0f, 2.0f, 4.0f},
    {4.0f, 6.0f, 15.0f, 1.0f, 5.0f, 0.0f},
    {2.0f, 2.0f, 0.0f, 6.5f, 5.0f, 4.0f},
};
static const float powder[DIMS] = {4.5f, 5.5f, 14.0f, 1.5f, 5.0f, 0.5f};

static int surprises = 0;

static void expect(const char *what, uint32_t got, uint32_t wanted)
{
    if (got != wanted) {
        printf("%s: %lu, where %lu was expected\n", what, (unsigned long)got, (unsigned long)wanted);
        surprises++;
    }
}

/* Floats as Lintelkite reads and writes them: four bytes each, little-endian, on any machine. */
static void put_floats(uint8_t *to, const float *from, size_t n)
{
    size_t i, byte;
    for (i = 0; i < n; i++) {
        uint32_t bits;
        memcpy(&bits, &from[i], 4);
        for (byte = 0; byte < 4; byte++)
            to[4 * i + byte] = (uint8_t)(bits >> 8 * byte);
    }
}

static float get_float(const uint8_t *from)
{
    float x;
    uint32_t bits = (uint32_t)from[0] | (uint32_t)from[1] << 8 | (uint32_t)from[2] << 16 | (uint32_t)from[3] << 24;
    memcpy(&x, &bits, 4);
    return x;
}

int main(void)
{
    float low[DIMS], high[DIMS], damaged[DIMS], nearest = 0.0f;
    uint8_t min[4 * DIMS], max[4 * DIMS], vector[4 * DIMS], code[REFERENCES][CODE], kept[CODE], out[4];
    const size_t table_len = 4 * (size_t)DIMS * LEVELS;
    uint8_t *table = malloc(table_len);
    int i, d, best = -1;

    if (table == NULL)
        return 1;

    /* The range of each channel over all references. */
    for (d = 0; d < DIMS; d++) {
        low[d] = high[d] = reference[0][d];
        for (i = 1; i < REFERENCES; i++) {
            if (reference[i][d] < low[d])
                low[d] = reference[i][d];
            if (high[d] < reference[i][d])
                high[d] = reference[i][d];
        }
    }
    put_floats(min, low, DIMS);
    put_floats(max, high, DIMS);

    /* A code for each reference: three bytes in the place of 24. */
    for (i = 0; i < REFERENCES; i++) {
        put_floats(vector, reference[i], DIMS);
        expect("lk_scalar_encode",
               lk_scalar_encode(DIMS, BITS, vector, sizeof vector, min, sizeof min, max, sizeof max, code[i], CODE),
               LK_ACCEPTED);
        printf("reference %d: code", i);
        for (d = 0; d < CODE; d++)
            printf(" %02X", (unsigned)code[i][d]);
        printf("\n");
    }
    /* The first reference is lowest in channels 0 and 3, highest in channel 1. Lower channels take lower bits. */
    expect("the first byte of reference 0", code[0][0], 0xF0);

    /* One table for the query, then a distance for each code. */
    put_floats(vector, powder, DIMS);
    expect("lk_scalar_table",
           lk_scalar_table(LK_L2, DIMS, BITS, vector, sizeof vector, min, sizeof min, max, sizeof max, table, table_len),
           LK_ACCEPTED);
    for (i = 0; i < REFERENCES; i++) {
        float exact = 0.0f, coded, off;
        for (d = 0; d < DIMS; d++)
            exact += (powder[d] - reference[i][d]) * (powder[d] - reference[i][d]);
        expect("lk_scalar_distance",
               lk_scalar_distance(LK_L2, DIMS, BITS, table, table_len, code[i], CODE, out, sizeof out), LK_ACCEPTED);
        coded = get_float(out);
        printf("reference %d: distance %.3f by its code, %.3f exactly\n", i, (double)coded, (double)exact);
        off = coded < exact ? exact - coded : coded - exact;
        expect("a distance close to the exact one", off < 1.0f + exact / 10.0f, 1);
        if (best < 0 || coded < nearest) {
            best = i;
            nearest = coded;
        }
    }
    printf("the powder is closest to reference %d\n", best);
    expect("the closest reference", (uint32_t)best, 2);

    /* A channel that the detector lost is a NaN. It is refused, and the code keeps its bytes. */
    memcpy(damaged, powder, sizeof damaged);
    damaged[4] = get_float((const uint8_t *)"\x00\x00\xC0\x7F");
    put_floats(vector, damaged, DIMS);
    memcpy(kept, code[0], CODE);
    expect("a NaN in the vector",
           lk_scalar_encode(DIMS, BITS, vector, sizeof vector, min, sizeof min, max, sizeof max, code[0], CODE),
           LK_MISSING);
    expect("the bytes after a refusal", memcmp(kept, code[0], CODE) == 0, 1);
    printf("a lost channel is refused with %d\n", LK_MISSING);

    free(table);
    return surprises == 0 ? 0 : 1;
}
