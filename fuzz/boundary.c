/* A libFuzzer target over the C boundary. The input's bytes are decoded into one call: parameters, lengths, contents.
 *
 * Every buffer is lent between pages that cannot be touched, flush with one of them, so that a byte read or written past
 * its end stops the run. Buffers that are only read are lent from a view that cannot be written. After each call:
 *   - a refusal is one that the call can give; 1, 2 and 3 are given exactly when dims, width or a length is bad;
 *   - a refusal has left every byte of every writable buffer as it was;
 *   - the bytes on the open side of a buffer are as they were.
 * What an accepted call writes is the harness's business, but for places that have to stay as they were.
 *
 * The library is not instrumented. A counter for each call and number tells the fuzzer what is new instead, and at the
 * end of a run they are printed.
 */
#define _GNU_SOURCE
#include <lintelkite.h>
#include <stdbool.h>
#include <stdio.h>
#include <stdlib.h>
#include <string.h>
#include <sys/mman.h>
#include <unistd.h>

#define PAGE ((size_t)4096)
#define ROOM (128 * PAGE)
#define SLOTS 6
#define MOST_DIMS 4369u
#define MOST_SCALAR_DIMS 65535u
#define MOST_RECORDS 1048576u
#define MOST_PLACES 4096u

/* Loops over contents are none of the fuzzer's business. */
#define UNWATCHED __attribute__((noinline, no_sanitize("coverage")))

/* ---- the calls and the refusals that each can give */

#define NUMBERS 10
#define N(number) (1u << (number))
#define CALLS(_) \
    _(digits_size, N(1) | N(2) | N(3)) \
    _(digits_pack, N(1) | N(2) | N(3) | N(5)) \
    _(digits_read, N(1) | N(2) | N(3) | N(6)) \
    _(code_size, N(1) | N(3)) \
    _(block_size, N(1) | N(3)) \
    _(scalar_encode, N(1) | N(2) | N(3) | N(4) | N(5)) \
    _(scalar_table, N(1) | N(2) | N(3) | N(4) | N(5)) \
    _(scalar_distance, N(1) | N(2) | N(3) | N(5) | N(8)) \
    _(root, N(3) | N(4)) \
    _(code_encode, N(1) | N(3) | N(4)) \
    _(code_bit, N(1) | N(3) | N(6)) \
    _(block_pack, N(1) | N(3)) \
    _(block_lane, N(1) | N(3) | N(6)) \
    _(query_sum, N(1) | N(3) | N(5)) \
    _(code_sum, N(1) | N(3) | N(5)) \
    _(block_sums, N(1) | N(3) | N(5)) \
    _(code_rough, N(1) | N(3) | N(4) | N(5) | N(8)) \
    _(code_lower_bound, N(1) | N(3) | N(4) | N(5) | N(8)) \
    _(block_rough, N(1) | N(3) | N(4) | N(5)) \
    _(block_lower_bounds, N(1) | N(3) | N(4) | N(5)) \
    _(walk, N(1) | N(3) | N(4) | N(5) | N(6) | N(7) | N(8)) \
    _(rerank_next, N(3) | N(4) | N(5)) \
    _(rerank_supply, N(3) | N(4) | N(5) | N(9))

enum call {
#define NAME(name, numbers) CALL_##name,
    CALLS(NAME)
#undef NAME
    COUNT
};
static const char *const names[COUNT] = {
#define NAME(name, numbers) "lk_" #name,
    CALLS(NAME)
#undef NAME
};
static const unsigned can_give[COUNT] = {
#define GIVES(name, numbers) N(0) | (numbers),
    CALLS(GIVES)
#undef GIVES
};

__attribute__((section("__libfuzzer_extra_counters"))) static uint8_t news[COUNT * NUMBERS];
static unsigned long counts[COUNT][NUMBERS];

static void fail(enum call call, const char *why, uint32_t number)
{
    fprintf(stderr, "%s: %s, number %lu\n", names[call], why, (unsigned long)number);
    abort();
}

static void print_counts(void)
{
    unsigned call, number, reached = 0, all = 0;
    for (call = 0; call < COUNT; call++) {
        fprintf(stderr, "%-24s", names[call]);
        for (number = 0; number < NUMBERS; number++)
            if (can_give[call] & N(number)) {
                fprintf(stderr, " %u:%lu", number, counts[call][number]);
                reached += counts[call][number] != 0;
                all++;
            }
        fprintf(stderr, "\n");
    }
    fprintf(stderr, "%u of %u answers reached\n", reached, all);
}

/* ---- the input: bytes, and zeros when they are used up */

static const uint8_t *input;
static size_t input_left;

static uint32_t draw(unsigned bytes)
{
    uint32_t n = 0;
    while (bytes-- > 0) {
        n <<= 8;
        if (input_left > 0) {
            n |= *input++;
            input_left--;
        }
    }
    return n;
}

/* Numbers without end, from a seed. */
static uint32_t state;

static uint32_t roll(void)
{
    state ^= state << 13;
    state ^= state >> 17;
    state ^= state << 5;
    return state;
}

/* ---- lent buffers */

enum contents { ANY, ZEROS, CODES, FLOATS };
struct slot {
    uint8_t *written;    /* two views of the same bytes */
    const uint8_t *read;
};
struct lent {
    const uint8_t *read; /* what the call is lent: one of the two */
    uint8_t *write;
    size_t len;
    uint8_t *bytes, *open; /* the bytes, and those on the open side, in the view that can be written */
    uint8_t *old;          /* what stood there, where the call may write */
};

/* What stands on the open side of a buffer. */
static const char beside[] = "None of these bytes is lent, so no call may write any of them.";
#define OPEN_SIDE (sizeof beside)

static struct slot slots[SLOTS];
static uint8_t *kept[SLOTS];
static struct lent lents[SLOTS];
static unsigned lent_count;
static bool bad_length;

static uint8_t *view(int file, int rights)
{
    uint8_t *at = mmap(NULL, ROOM + 2 * PAGE, PROT_NONE, MAP_PRIVATE | MAP_ANONYMOUS, -1, 0);
    if (at == MAP_FAILED || mmap(at + PAGE, ROOM, rights, MAP_SHARED | MAP_FIXED, file, 0) == MAP_FAILED) {
        perror("mmap");
        exit(1);
    }
    return at + PAGE;
}

int LLVMFuzzerInitialize(int *argc, char ***argv);
int LLVMFuzzerInitialize(int *argc, char ***argv)
{
    unsigned i;
    (void)argc;
    (void)argv;
    for (i = 0; i < SLOTS; i++) {
        int file = memfd_create("lent", 0);
        if (file < 0 || ftruncate(file, (off_t)ROOM) != 0 || (kept[i] = malloc(ROOM)) == NULL) {
            perror("memfd_create");
            exit(1);
        }
        slots[i].written = view(file, PROT_READ | PROT_WRITE);
        slots[i].read = view(file, PROT_READ);
        close(file);
    }
    atexit(print_counts);
    return 0;
}

/* A quiet and a signalling NaN, the infinities, -0.0, the least and the greatest number, -1.0. */
static const uint32_t special[8] = {0x7FC00000, 0xFF800001, 0x7F800000, 0xFF800000,
                                    0x80000000, 0x00000001, 0x7F7FFFFF, 0xBF800000};

static uint32_t a_float(unsigned wild)
{
    uint32_t r = roll(), bits;
    float mild = (float)(int32_t)(r % 2001) / 8.0f - 125.0f;
    if (wild == 255)
        return r;
    if (r >> 24 < wild)
        return special[r >> 8 & 7];
    memcpy(&bits, &mild, 4);
    return bits;
}

static float draw_float(void)
{
    uint32_t how = draw(1), bits;
    float x;
    if (how == 0)
        return 1.0f;
    state = how << 8 | 1;
    bits = how < 16 ? a_float(255) : how < 32 ? draw(4) : a_float(how < 48 ? 250 : 0);
    memcpy(&x, &bits, 4);
    return how < 128 || x >= 0.0f ? x : -x;
}

/* Numbers that fill `len` bytes, four bytes each. */
UNWATCHED static void fill_numbers(uint8_t *to, size_t len, enum contents kind, unsigned top, unsigned wild)
{
    size_t i, j;
    for (i = 0; i < len; i += 4) {
        uint32_t four = kind == FLOATS ? a_float(wild) : roll();
        if (kind == CODES) {
            uint8_t each[4];
            for (j = 0; j < 4; j++)
                each[j] = (uint8_t)((four >> 8 * j & 0xFF) % (top + 1));
            memcpy(&four, each, 4);
        }
        memcpy(to + i, &four, len - i < 4 ? len - i : 4);
    }
}

/* Fills what is lent: how from the input, and then a few places of its choice. */
static void fill(uint8_t *to, size_t len, enum contents kind, unsigned top)
{
    unsigned wild = draw(1), pokes = draw(1) % 4;
    state = draw(2) << 1 | 1;
    if (kind == ZEROS)
        memset(to, 0, len);
    else
        fill_numbers(to, len, kind, top, wild < 160 ? 0 : wild < 240 ? 2 : wild);
    while (pokes-- > 0 && len > 0) {
        size_t at = draw(2);
        uint32_t what = draw(1);
        if (kind == FLOATS && len >= 4)
            memcpy(to + at % (len / 4) * 4, &special[what % 8], 4);
        else
            to[at % len] = (uint8_t)what;
    }
}

/* Lends a buffer that should have `right` bytes, and mostly has. */
static struct lent *lend(size_t right, bool writable, enum contents kind, unsigned top)
{
    struct slot *slot = &slots[lent_count];
    struct lent *lent = &lents[lent_count];
    uint32_t how = draw(1);
    bool at_end = how & 1;
    size_t len = right;
    how >>= 1;
    if (how >= 120)
        len = how == 120 ? right + 1 : how == 121 ? right - 1 : how == 122 ? 0 : how == 123 ? 4 * right : draw(2);
    if (len > ROOM - OPEN_SIDE)
        len = right > ROOM - OPEN_SIDE ? ROOM - OPEN_SIDE : right;
    bad_length |= len != right;
    lent->len = len;
    lent->bytes = at_end ? slot->written + ROOM - len : slot->written;
    lent->open = at_end ? lent->bytes - OPEN_SIDE : lent->bytes + len;
    memcpy(lent->open, beside, OPEN_SIDE);
    fill(lent->bytes, len, kind, top);
    lent->old = NULL;
    lent->write = NULL;
    lent->read = slot->read + (lent->bytes - slot->written);
    if (writable) {
        lent->write = lent->bytes;
        lent->old = kept[lent_count];
        memcpy(lent->old, lent->bytes, len);
    }
    if (len == 0) {
        /* A buffer of no bytes may have any pointer. */
        static const uintptr_t any[] = {0, 1, UINTPTR_MAX};
        lent->read = (const uint8_t *)any[draw(1) % 3];
        lent->write = (uint8_t *)any[draw(1) % 3];
    }
    lent_count++;
    return lent;
}

#define IN(lent) (lent)->read, (lent)->len
#define OUT(lent) (lent)->write, (lent)->len

/* After a call: `early` is the number that dims, width and lengths alone decide, or 0. */
static void judge(enum call call, uint32_t early, uint32_t number)
{
    unsigned i;
    if (number >= NUMBERS || !(can_give[call] & N(number)))
        fail(call, "a number that it cannot give", number);
    if (early != 0 ? number != early : number != 0 && number < 4)
        fail(call, "not the number of dims, width and lengths", number);
    for (i = 0; i < lent_count; i++) {
        if (number != 0 && lents[i].old != NULL && memcmp(lents[i].old, lents[i].bytes, lents[i].len) != 0)
            fail(call, "a refusal has changed a buffer", number);
        if (memcmp(lents[i].open, beside, OPEN_SIDE) != 0)
            fail(call, "a byte beside a buffer has changed", number);
    }
    counts[call][number]++;
    news[(unsigned)call * NUMBERS + number] = 1;
}

/* Bytes from `from` up to `end` are as they were. */
static void stays(enum call call, const struct lent *lent, size_t from, size_t end)
{
    if (from < end && memcmp(lent->old + from, lent->bytes + from, end - from) != 0)
        fail(call, "bytes that should stay have changed", 0);
}

static uint32_t number_in(const struct lent *lent, size_t place)
{
    const uint8_t *p = lent->bytes + 4 * place;
    return (uint32_t)p[0] | (uint32_t)p[1] << 8 | (uint32_t)p[2] << 16 | (uint32_t)p[3] << 24;
}

/* ---- parameters */

static uint32_t draw_dims(uint32_t most)
{
    uint32_t how = draw(1);
    if (how < 240)
        return 1 + how;
    if (how < 248)
        return 1 + draw(2) % most;
    return how < 254 ? most - 3 + how - 248 : how == 254 ? 0 : draw(4);
}

static uint32_t draw_bits(void)
{
    uint32_t how = draw(1);
    return how < 240 ? 1u << how % 4 : how < 255 ? how - 240 : draw(4);
}

/* A metric or a layout. */
static uint32_t draw_form(void)
{
    uint32_t how = draw(1);
    return how < 240 ? 1 + how % 2 : how < 255 ? how - 240 : draw(4);
}

static uint32_t draw_index(uint32_t end)
{
    uint32_t how = draw(1);
    return how < 240 ? draw(2) % (end == 0 ? 1 : end) : how < 250 ? end - 2 + how % 5 : draw(4);
}

static bool bad_dims(uint32_t dims, uint32_t most)
{
    return dims == 0 || dims > most;
}

static bool bad_bits(uint32_t bits)
{
    return bits != 1 && bits != 2 && bits != 4 && bits != 8;
}

static uint32_t early_number(bool dims, bool bits)
{
    return dims ? 1 : bits ? 2 : bad_length ? 3 : 0;
}

static size_t digits_len(uint32_t dims, uint32_t bits)
{
    return bad_bits(bits) ? 1 : ((size_t)(dims % 100000) * bits + 7) / 8;
}

static size_t code_len(uint32_t dims)
{
    return 16 + 8 * (((size_t)(dims % 10000) + 63) / 64);
}

static size_t block_len(uint32_t dims)
{
    return 512 + 16 * (((size_t)(dims % 10000) + 3) / 4);
}

/* ---- module 1 */

static void try_digits(enum call call)
{
    uint32_t dims = draw_dims(MOST_SCALAR_DIMS), bits = draw_bits(), index, number;
    size_t len = digits_len(dims, bits);
    unsigned top = bad_bits(bits) ? 255 : (1u << bits) - 1;
    struct lent *from, *to;
    if (call == CALL_digits_size) {
        to = lend(4, true, ANY, 0);
        number = lk_digits_size(dims, bits, OUT(to));
    } else if (call == CALL_digits_pack) {
        from = lend(dims, false, CODES, top);
        to = lend(len, true, ANY, 0);
        number = lk_digits_pack(dims, bits, IN(from), OUT(to));
    } else {
        index = draw_index(dims);
        from = lend(len, false, ANY, 0);
        to = lend(4, true, ANY, 0);
        number = lk_digits_read(dims, bits, IN(from), index, OUT(to));
    }
    judge(call, early_number(bad_dims(dims, MOST_SCALAR_DIMS), bad_bits(bits)), number);
}

/* ---- module 2 */

static void try_scalar(enum call call)
{
    uint32_t metric = draw_form(), dims = draw_dims(MOST_SCALAR_DIMS), bits = draw_bits(), number;
    size_t floats = 4 * (size_t)dims, code = digits_len(dims, bits), table = bad_bits(bits) ? 4 : floats << bits;
    struct lent *vector, *min, *max, *to;
    if (call == CALL_scalar_distance) {
        vector = lend(table, false, FLOATS, 0);
        min = lend(code, false, ANY, 0);
        to = lend(4, true, ANY, 0);
        number = lk_scalar_distance(metric, dims, bits, IN(vector), IN(min), OUT(to));
    } else {
        vector = lend(floats, false, FLOATS, 0);
        min = lend(floats, false, FLOATS, 0);
        max = lend(floats, false, FLOATS, 0);
        /* Mostly no min is above its max. */
        if (draw(1) < 200)
            memset(min->bytes, 0, min->len);
        if (draw(1) < 200)
            memset(max->bytes, 0x41, max->len);
        if (call == CALL_scalar_encode) {
            to = lend(code, true, ANY, 0);
            number = lk_scalar_encode(dims, bits, IN(vector), IN(min), IN(max), OUT(to));
        } else {
            to = lend(table, true, ANY, 0);
            number = lk_scalar_table(metric, dims, bits, IN(vector), IN(min), IN(max), OUT(to));
        }
    }
    judge(call, early_number(bad_dims(dims, MOST_SCALAR_DIMS), bad_bits(bits)), number);
}

/* ---- module 3 */

static void try_root(void)
{
    float x = draw_float();
    struct lent *to = lend(4, true, ANY, 0);
    judge(CALL_root, early_number(false, false), lk_root(x, OUT(to)));
}

/* ---- modules 4 and 5 */

static void try_code(enum call call)
{
    uint32_t dims = draw_dims(MOST_DIMS), index, number;
    size_t code = code_len(dims), block = block_len(dims);
    struct lent *from, *vector, *to;
    switch (call) {
    case CALL_code_size:
        to = lend(4, true, ANY, 0);
        number = lk_code_size(dims, OUT(to));
        break;
    case CALL_block_size:
        to = lend(4, true, ANY, 0);
        number = lk_block_size(dims, OUT(to));
        break;
    case CALL_code_encode:
        from = lend(16, false, ANY, 0);
        vector = lend(4 * (size_t)dims, false, FLOATS, 0);
        to = lend(code, true, ANY, 0);
        number = lk_code_encode(dims, IN(from), IN(vector), OUT(to));
        break;
    case CALL_code_bit:
        index = draw_index(dims);
        from = lend(code, false, ANY, 0);
        to = lend(4, true, ANY, 0);
        number = lk_code_bit(dims, IN(from), index, OUT(to));
        break;
    case CALL_block_pack:
        from = lend(32 * code, false, ANY, 0);
        to = lend(block, true, ANY, 0);
        number = lk_block_pack(dims, IN(from), OUT(to));
        break;
    default:
        index = draw_index(32);
        from = lend(block, false, ANY, 0);
        to = lend(code, true, ANY, 0);
        number = lk_block_lane(dims, IN(from), index, OUT(to));
    }
    judge(call, early_number(bad_dims(dims, MOST_DIMS), false), number);
}

/* ---- module 6 */

static void try_sum(enum call call)
{
    uint32_t dims = draw_dims(MOST_DIMS), number;
    struct lent *query = lend(dims, false, CODES, 15), *record, *to;
    if (call == CALL_query_sum) {
        to = lend(4, true, ANY, 0);
        number = lk_query_sum(dims, IN(query), OUT(to));
    } else if (call == CALL_code_sum) {
        record = lend(code_len(dims), false, ANY, 0);
        to = lend(4, true, ANY, 0);
        number = lk_code_sum(dims, IN(query), IN(record), OUT(to));
    } else {
        record = lend(block_len(dims), false, ANY, 0);
        to = lend(128, true, ANY, 0);
        number = lk_block_sums(dims, IN(query), IN(record), OUT(to));
    }
    judge(call, early_number(bad_dims(dims, MOST_DIMS), false), number);
}

/* ---- module 7 */

static void try_estimate(enum call call)
{
    uint32_t metric = draw_form(), dims = draw_dims(MOST_DIMS), number;
    float dis_v_2 = draw_float(), b = draw_float(), k = draw_float();
    bool block = call == CALL_block_rough || call == CALL_block_lower_bounds;
    struct lent *query = lend(dims, false, CODES, 15);
    struct lent *record = lend(block ? block_len(dims) : code_len(dims), false, FLOATS, 0);
    struct lent *to = lend(block ? 128 : 4, true, ANY, 0);
    number = (call == CALL_code_rough          ? lk_code_rough
              : call == CALL_code_lower_bound ? lk_code_lower_bound
              : call == CALL_block_rough      ? lk_block_rough
                                              : lk_block_lower_bounds)(metric, dims, dis_v_2, b, k, IN(query), IN(record), OUT(to));
    judge(call, early_number(bad_dims(dims, MOST_DIMS), false), number);
}

/* ---- module 8 */

static void try_walk(void)
{
    uint32_t metric = draw_form(), layout = draw_form(), dims = draw_dims(MOST_DIMS), how = draw(1), n, start, end, number;
    float dis_v_2 = draw_float(), b = draw_float(), k = draw_float();
    size_t places, records;
    struct lent *query, *record, *ids, *bounds, *marks, *count;
    n = how < 240 ? how : how < 250 ? draw(2) % 2000 : how < 255 ? MOST_RECORDS - 252 + how : draw(4);
    start = draw_index(n + 1);
    end = draw(1) < 240 ? start + draw(1) % 40 : draw_index(n + 1);
    places = draw(1);
    places = places < 240 ? places : MOST_PLACES - 248 + places;
    records = layout == LK_BLOCKS ? ((size_t)n + 31) / 32 * block_len(dims) : (size_t)n * code_len(dims);
    query = lend(dims, false, CODES, 15);
    record = lend(records, false, FLOATS, 0);
    /* Now and then the first wanted record has no bound. */
    if (draw(1) >= 192 && layout == LK_SINGLE && record->len >= ((size_t)start + 1) * code_len(dims))
        memcpy(record->bytes + start * code_len(dims) + 12, &special[0], 4);
    marks = lend(places, true, ANY, 0);
    ids = lend(4 * places, true, ANY, 0);
    bounds = lend(4 * places, true, ANY, 0);
    count = lend(4, true, ANY, 0);
    /* The three lists have one number of places. What is no layout states no length. */
    bad_length = count->len != 4 || query->len != dims || n > MOST_RECORDS || marks->len > MOST_PLACES ||
                 ids->len != 4 * marks->len || bounds->len != 4 * marks->len ||
                 ((layout == LK_SINGLE || layout == LK_BLOCKS) && record->len != records);
    number = lk_walk(metric, layout, dims, dis_v_2, b, k, IN(query), IN(record), n, start, end, OUT(ids), OUT(bounds), OUT(marks), OUT(count));
    judge(CALL_walk, early_number(bad_dims(dims, MOST_DIMS), false), number);
    if (number == 0) {
        uint32_t found = number_in(count, 0), i;
        if (found != (start < end ? end - start : 0) || found > marks->len)
            fail(CALL_walk, "the count is not the range's", number);
        for (i = 0; i < found; i++)
            if (number_in(ids, i) != start + i || marks->bytes[i] != 0)
                fail(CALL_walk, "not the ids from the start on, at mark 0", number);
        stays(CALL_walk, ids, 4 * (size_t)found, ids->len);
        stays(CALL_walk, bounds, 4 * (size_t)found, bounds->len);
        stays(CALL_walk, marks, found, marks->len);
    }
}

/* ---- module 9 */

static void try_rerank(enum call call)
{
    size_t places = draw(1);
    bool next = call == CALL_rerank_next;
    uint32_t place = draw_index((uint32_t)places), number;
    float distance = draw_float();
    struct lent *estimates, *distances, *marks, *to;
    places = places < 240 ? places : MOST_PLACES - 248 + places;
    marks = lend(places, true, draw(1) < 128 ? ZEROS : CODES, 2);
    estimates = lend(4 * places, false, FLOATS, 0);
    distances = lend(4 * places, !next, FLOATS, 0);
    to = lend(next ? 16 : 4, true, ANY, 0);
    bad_length = marks->len > MOST_PLACES || estimates->len != 4 * marks->len || distances->len != 4 * marks->len ||
                 to->len != (next ? 16 : 4);
    number = next ? lk_rerank_next(IN(estimates), IN(distances), OUT(marks), OUT(to))
                  : lk_rerank_supply(IN(estimates), OUT(distances), OUT(marks), place, distance, OUT(to));
    judge(call, early_number(false, false), number);
    if (number == 0) {
        uint32_t answer = next ? number_in(to, 0) : LK_ASK, at = next ? number_in(to, 1) : place, asked = 0;
        size_t i;
        if (answer > LK_GIVE || (answer != LK_DONE ? at >= marks->len : at != 0))
            fail(call, "an answer or a place that is none", number);
        for (i = 0; i < marks->len; i++) {
            bool moves = i == at && (next ? answer == LK_GIVE : true);
            if (marks->bytes[i] != (moves ? (next ? LK_GIVEN : LK_ASKED) : marks->old[i]))
                fail(call, "a mark that is not as it should be", number);
            asked += marks->bytes[i] != LK_WAITING;
        }
        if (number_in(to, next ? 3 : 0) != asked)
            fail(call, "the count of asked is not that of the marks", number);
        if (!next) {
            stays(call, distances, 0, 4 * (size_t)at);
            stays(call, distances, 4 * (size_t)at + 4, distances->len);
        }
    }
}

int LLVMFuzzerTestOneInput(const uint8_t *data, size_t size);
int LLVMFuzzerTestOneInput(const uint8_t *data, size_t size)
{
    enum call call;
    input = data;
    input_left = size;
    lent_count = 0;
    bad_length = false;
    call = (enum call)(draw(1) % COUNT);
    if (call <= CALL_digits_read)
        try_digits(call);
    else if (call <= CALL_block_size)
        try_code(call);
    else if (call <= CALL_scalar_distance)
        try_scalar(call);
    else if (call == CALL_root)
        try_root();
    else if (call <= CALL_block_lane)
        try_code(call);
    else if (call <= CALL_block_sums)
        try_sum(call);
    else if (call <= CALL_block_lower_bounds)
        try_estimate(call);
    else if (call == CALL_walk)
        try_walk();
    else
        try_rerank(call);
    return 0;
}
