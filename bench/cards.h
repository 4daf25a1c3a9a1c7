/* Cards made by hand, for bench/run and tests/stack: `image` and `length` are the card. */
#include "../include/card.h"

static uint8_t image[65536];
static size_t length, sectors, size, entries, psi, table_size, directory, table;

static inline unsigned crc(const uint8_t *s, size_t n)
{
    unsigned r = 0xFFFF;
    for (size_t i = 0; i < n; i++) {
        r ^= s[i];
        for (int k = 0; k < 8; k++)
            r = r & 1 ? r >> 1 ^ 0x8408 : r >> 1;
    }
    return r ^ 0xFFFF;
}

/* SCT(i) becomes x. */
static inline void element(size_t i, size_t x)
{
    for (size_t k = 0; k < psi; k++) {
        size_t bit = psi * (i - 1) + k;
        uint8_t one = 0x80 >> bit % 8;
        image[table + bit / 8] = (image[table + bit / 8] & ~one) | (x >> (psi - 1 - k) & 1 ? one : 0);
    }
}

static inline size_t psi_of(size_t s)
{
    size_t p = 0;
    while ((size_t)1 << p < s)
        p++;
    return p;
}

static inline size_t table_size_of(size_t s) { return (psi_of(s) * (s - 3) + 7) / 8; }

/* S, B, e#, and a shell dataset of as many bytes; every entry empty. */
static inline void blank(size_t s, size_t b, size_t e, size_t dataset)
{
    sectors = s;
    size = b;
    entries = e;
    psi = psi_of(s);
    table_size = table_size_of(s);
    length = 4 + s * b;
    directory = 4 + (s - 2) * b;
    table = directory + 2 + 5 * e;
    for (size_t i = 0; i < length; i++)
        image[i] = 0;
    uint8_t head[24] = { length >> 8, length & 255, 1, 0, dataset, 1, 0x63, 0x35, 0x97, 0x12, 0x34, 0x12, 0x34, 0x56, 0x77, 1, 1, 1, 0, 100, b, s, e, table_size };
    for (size_t i = 0; i < 24; i++)
        image[i] = head[i];
    unsigned sum = crc(image + 4, dataset - 2);
    image[4 + dataset - 2] = sum >> 8;
    image[4 + dataset - 1] = sum & 255;
}

/* The kinds of ticket: TYP, revision, the least IPELength, which value ExpiryTime is, and the fields' widths. */
enum { TYP_23, TYP_22_1, TYP_22_2, TYP_22_3, KINDS };
static const struct { uint8_t typ, revision, blocks, expiry, count, widths[25]; } kinds[KINDS] = {
    { 23, 2, 8, 8, 22, { 8, 16, 8, 2, 6, 2, 14, 5, 11, 5, 3, 8, 8, 8, 4, 4, 32, 4, 12, 32, 8, 16 } },
    { 22, 1, 7, 6, 22, { 8, 16, 16, 2, 6, 14, 11, 1, 6, 3, 5, 24, 8, 8, 8, 8, 8, 4, 4, 16, 4, 12 } },
    { 22, 2, 7, 6, 22, { 8, 16, 16, 2, 6, 14, 11, 1, 6, 3, 5, 24, 8, 8, 8, 8, 8, 4, 4, 32, 4, 12 } },
    { 22, 3, 8, 6, 25, { 8, 16, 16, 2, 6, 14, 11, 1, 6, 3, 5, 2, 14, 5, 11, 8, 8, 8, 8, 8, 4, 4, 32, 4, 12 } },
};

/* The largest value of a field, from 0. */
static inline uint64_t limit_of(size_t kind, size_t field) { return ((uint64_t)1 << kinds[kind].widths[field]) - 1; }

/* Entry j has a product with this TYP and this header. */
static inline void product(size_t j, size_t typ, size_t revision, size_t blocks)
{
    uint8_t entry[5] = { 0, 4 | typ >> 3, (typ & 7) << 5 | 1, 0x23, j };
    for (size_t i = 0; i < 5; i++)
        image[directory + 2 + 5 * (j - 1) + i] = entry[i];
    image[4 + j * size] = blocks << 2;
    image[4 + j * size + 1] = revision;
}

/* Entry j has a ticket of this kind. */
static inline void ticket(size_t j, size_t kind) { product(j, kinds[kind].typ, kinds[kind].revision, kinds[kind].blocks); }

/* A ticket at each entry j, used where j is odd and else fresh, in a chain of counts[j - 1] sectors: j, then those above e# in turn. */
static inline void chains(const size_t *counts)
{
    size_t next = entries + 1;
    for (size_t j = 1; j <= entries; j++) {
        ticket(j, TYP_23);
        size_t at = j;
        for (size_t k = 1; k < counts[j - 1]; k++) {
            element(at, next);
            at = next++;
        }
        element(at, j % 2 ? sectors - 1 : at);
    }
}

static inline void smallest_card(void)
{
    blank(4, 32, 1, 24);
    chains((size_t[]){ 1 });
}

static inline void small_card(void)
{
    blank(16, 64, 2, 24);
    chains((size_t[]){ 2, 1 });
}

static inline void middle_card(void)
{
    blank(64, 128, 8, 24);
    chains((size_t[]){ 3, 4, 5, 6, 3, 4, 5, 6 });
}

static inline void large_card(void)
{
    blank(237, 255, 1, 24);
    chains((size_t[]){ 234 });
}

/* The sectors `from` to `to` in one chain, used. */
static inline void line(size_t from, size_t to)
{
    for (size_t i = from; i < to; i++)
        element(i, i + 1);
    element(to, sectors - 1);
}

/* ---- the worst cards: sectors of 255 bytes, the longest shell dataset, 252 bytes, and entries of which only the last byte is not zero */

static inline void last_bytes(void)
{
    for (size_t j = 1; j <= entries; j++)
        for (size_t i = 0; i < 5; i++)
            image[directory + 2 + 5 * (j - 1) + i] = i == 4;
}

/* Every entry is present and all share one chain of all sectors: 11 at entry 2. */
static inline void shared_card(size_t s, size_t e)
{
    blank(s, 255, e, 252);
    last_bytes();
    line(1, s - 3);
}

/* The same, but the last entry is in a loop of two: 10 there. */
static inline void looped_card(size_t s, size_t e)
{
    shared_card(s, e);
    element(e - 1, e + 1);
    element(s - 4, s - 1);
    element(e, s - 3);
    element(s - 3, e);
}

/* Accepted, and every sector is in a chain: 25 of 5, used. */
static inline void full_card(void)
{
    blank(128, 255, 25, 252);
    last_bytes();
    for (size_t i = 1; i <= 125; i++)
        element(i, i <= 100 ? i + 25 : 127);
}

/* Cards that are meant to be dear, for every S with as many entries as fit, all present: how the sectors are chained, and what the last entry does. */
enum { LINE_UP, LINE_DOWN, LINE_MIXED, STAR, CHAINS, SHAPES };
enum { NOTHING, ZERO, LOOP_OF_TWO, LOOP_OF_HALF, JOINS_FIRST, JOINS_LAST, TAILS };
#define SHAPE_NAMES { "1 to S-3 in one line", "S-3 to 1 in one line", "one line in mixed order", "each entry, then one line of the others", "sound chains" }
#define TAIL_NAMES { "no more", "the last entry's element 0", "the last entry in a loop of two", "half of the line in a loop", "the last entry joins sector 1", "the last entry joins sector S-3" }

static inline size_t most_entries(size_t s)
{
    size_t fit = (255 - 16 - table_size_of(s)) / 5;
    return fit < s - 3 ? fit : s - 3;
}

static inline void nasty_card(size_t s, size_t shape, size_t tail)
{
    size_t n = s - 3, e = most_entries(s), order[256], i;
    blank(s, 255, e, 252);
    last_bytes();
    for (i = 0; i < n; i++)
        order[i] = shape == LINE_DOWN ? n - i : i + 1;
    for (i = n - 1; shape == LINE_MIXED && i > 0; i--) {
        size_t k = (i * 7919 + s * 104729) % (i + 1), x = order[i];
        order[i] = order[k];
        order[k] = x;
    }
    for (i = 0; i + 1 < n; i++)
        element(order[i], order[i + 1]);
    element(order[n - 1], s - 1);
    for (size_t j = 1; j <= e && shape == STAR; j++)
        element(j, e < n ? e + 1 : s - 1);
    for (i = 1; i <= n && shape == CHAINS; i++)
        element(i, i + e <= n ? i + e : s - 1);
    if (tail == ZERO)
        element(e, 0);
    if (tail == LOOP_OF_TWO && n > 1) {
        size_t other = e < n ? n : e - 1;
        element(e, other);
        element(other, e);
    }
    for (i = n / 2; i < n && tail == LOOP_OF_HALF; i++)
        element(order[i], order[i + 1 < n ? i + 1 : n / 2]);
    if (tail == JOINS_FIRST && e > 1)
        element(e, 1);
    if (tail == JOINS_LAST && e < n)
        element(e, n);
}
