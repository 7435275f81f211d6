/* A first program with Lintelkite: five codes of two bits each are packed into two bytes and read back.
 *
 *   make
 *   cc -std=c99 -Iinclude examples/first.c target/staticlib/liblintelkite.a -o first
 *
 * It exits with 0 when every answer is the one it expects.
 */
#include <lintelkite.h>
#include <stdio.h>
#include <string.h>

static int surprises = 0;

static void expect(const char *what, uint32_t got, uint32_t wanted)
{
    if (got != wanted) {
        printf("%s: %lu, where %lu was expected\n", what, (unsigned long)got, (unsigned long)wanted);
        surprises++;
    }
}

/* A 32-bit number as Lintelkite writes it: little-endian, on any machine. */
static uint32_t number(const uint8_t *four)
{
    return (uint32_t)four[0] | (uint32_t)four[1] << 8 | (uint32_t)four[2] << 16 | (uint32_t)four[3] << 24;
}

int main(void)
{
    const uint32_t dims = 5, bits = 2;
    const uint8_t codes[5] = {1, 2, 3, 0, 1};
    const uint8_t too_large[5] = {1, 2, 4, 0, 1};
    uint8_t packed[2] = {0, 0}, before[2], out[4] = {0, 0, 0, 0};
    uint32_t i;

    /* How many bytes do five codes take? */
    expect("lk_digits_size", lk_digits_size(dims, bits, out, sizeof out), LK_ACCEPTED);
    printf("%lu codes of %lu bits take %lu bytes\n", (unsigned long)dims, (unsigned long)bits, (unsigned long)number(out));
    expect("the size", number(out), sizeof packed);

    /* Pack them. The first code takes the lowest bits of the first byte. */
    expect("lk_digits_pack", lk_digits_pack(dims, bits, codes, sizeof codes, packed, sizeof packed), LK_ACCEPTED);
    printf("packed: 0x%02X 0x%02X\n", (unsigned)packed[0], (unsigned)packed[1]);
    expect("the first byte", packed[0], 0x39);
    expect("the second byte", packed[1], 0x01);

    /* Read them back. */
    printf("read back:");
    for (i = 0; i < dims; i++) {
        expect("lk_digits_read", lk_digits_read(dims, bits, packed, sizeof packed, i, out, sizeof out), LK_ACCEPTED);
        printf(" %lu", (unsigned long)number(out));
        expect("a code", number(out), codes[i]);
    }
    printf("\n");

    /* A code that two bits cannot hold is refused, and the buffer keeps its bytes. */
    memcpy(before, packed, sizeof packed);
    expect("a code of 4", lk_digits_pack(dims, bits, too_large, sizeof too_large, packed, sizeof packed), LK_BAD_VALUE);
    expect("the bytes after a refusal", memcmp(before, packed, sizeof packed) == 0, 1);
    printf("a code of 4 is refused with %d\n", LK_BAD_VALUE);

    return surprises == 0 ? 0 : 1;
}
