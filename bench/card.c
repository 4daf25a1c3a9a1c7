/* The calls that bench/run measures, in C: as careful as the library, for each checks the whole image, and as fast as we could write it.
   It answers as include/card.h says. */
#include "../include/card.h"

typedef uint8_t u8;
typedef uint16_t u16;
typedef uint32_t u32;
typedef uint64_t u64;

void *memset(void *, int, size_t);
int memcmp(const void *, const void *, size_t);

#define INLINE static inline __attribute__((always_inline))
#define STAGE static __attribute__((noinline))
#define RARE static __attribute__((noinline, cold))
#define UNLIKELY(x) __builtin_expect(!!(x), 0)
#define REFUSE(when, number) do { if (UNLIKELY(when)) return (number); } while (0)

/* ---- words at any address: a copy of fixed size is one load or store */

#if __BYTE_ORDER__ == __ORDER_LITTLE_ENDIAN__
#define BIG(bits, x) __builtin_bswap##bits(x)
#define LITTLE(bits, x) (x)
#else
#define BIG(bits, x) (x)
#define LITTLE(bits, x) __builtin_bswap##bits(x)
#endif

INLINE u32 be16(const u8 *p) { u16 x; __builtin_memcpy(&x, p, 2); return BIG(16, x); }
INLINE u32 be32(const u8 *p) { u32 x; __builtin_memcpy(&x, p, 4); return BIG(32, x); }
INLINE u64 be64(const u8 *p) { u64 x; __builtin_memcpy(&x, p, 8); return BIG(64, x); }
INLINE u32 le16(const u8 *p) { u16 x; __builtin_memcpy(&x, p, 2); return LITTLE(16, x); }
INLINE u64 le64(const u8 *p) { u64 x; __builtin_memcpy(&x, p, 8); return LITTLE(64, x); }
INLINE u32 le32(const u8 *p) { u32 x; __builtin_memcpy(&x, p, 4); return LITTLE(32, x); }

INLINE void put16(u8 *p, u32 v) { u16 x = BIG(16, (u16)v); __builtin_memcpy(p, &x, 2); }
INLINE void put32(u8 *p, u32 v) { u32 x = BIG(32, v); __builtin_memcpy(p, &x, 4); }
INLINE void put64(u8 *p, u64 v) { u64 x = BIG(64, v); __builtin_memcpy(p, &x, 8); }

/* ---- CRC, four bytes a step */

/* The bits of b, each with what it adds: a CRC is linear. */
#define SUM(b, x0, x1, x2, x3, x4, x5, x6, x7) \
    (((b) & 1 ? x0 : 0) ^ ((b) & 2 ? x1 : 0) ^ ((b) & 4 ? x2 : 0) ^ ((b) & 8 ? x3 : 0) \
     ^ ((b) & 16 ? x4 : 0) ^ ((b) & 32 ? x5 : 0) ^ ((b) & 64 ? x6 : 0) ^ ((b) & 128 ? x7 : 0))
#define AFTER_1(b) SUM(b, 0x1189, 0x2312, 0x4624, 0x8C48, 0x1081, 0x2102, 0x4204, 0x8408)
#define AFTER_2(b) SUM(b, 0x19D8, 0x33B0, 0x6760, 0xCEC0, 0x9591, 0x2333, 0x4666, 0x8CCC)
#define AFTER_3(b) SUM(b, 0x5ADC, 0xB5B8, 0x6361, 0xC6C2, 0x8595, 0x033B, 0x0676, 0x0CEC)
#define AFTER_4(b) SUM(b, 0x1CBB, 0x3976, 0x72EC, 0xE5D8, 0xC3A1, 0x8F53, 0x16B7, 0x2D6E)
#define OF_4(f, b) f(b), f((b) + 1), f((b) + 2), f((b) + 3)
#define OF_16(f, b) OF_4(f, b), OF_4(f, (b) + 4), OF_4(f, (b) + 8), OF_4(f, (b) + 12)
#define OF_64(f, b) OF_16(f, b), OF_16(f, (b) + 16), OF_16(f, (b) + 32), OF_16(f, (b) + 48)
#define OF_256(f) OF_64(f, 0), OF_64(f, 64), OF_64(f, 128), OF_64(f, 192)

/* crc_table[k][b]: the register b after k + 1 zero bytes. */
static const u16 crc_table[4][256] = { { OF_256(AFTER_1) }, { OF_256(AFTER_2) }, { OF_256(AFTER_3) }, { OF_256(AFTER_4) } };

/* The register after four more bytes. */
INLINE u32 crc_word(u32 r, const u8 *p)
{
    r ^= le16(p);
    return (u32)(crc_table[3][r & 255] ^ crc_table[2][r >> 8] ^ crc_table[1][p[2]] ^ crc_table[0][p[3]]);
}

/* And after two. */
INLINE u32 crc_half(u32 r, const u8 *p)
{
    r ^= le16(p);
    return (u32)(crc_table[1][r & 255] ^ crc_table[0][r >> 8]);
}

/* ---- the check */

/* Where things are in an accepted image, and the chain of the entry asked for. */
struct view {
    u32 S, B, e, psi;
    u32 entries; /* where entry 1 is */
    u32 before;  /* where the byte before the chain table is */
    u32 count;   /* the sectors of the chain asked for; 0 where it is not a product */
    u32 last;    /* its last sector */
    u32 link;    /* and that sector's element */
};

/* The element of sector s: the four bytes loaded are all in the directory, since 14 or more follow the table. */
INLINE u32 element(const u8 *before, u32 s, u32 psi)
{
    u32 end = s * psi; /* the bit after it */
    return be32(before + (end >> 3)) << (end & 7) >> 24 & ((1u << psi) - 1);
}

INLINE u32 psi_of(u32 S) { return (31 ^ (u32)__builtin_clz(S - 1)) + 1; }

INLINE u32 empty(const u8 *entry) { return (le32(entry) | entry[4]) == 0; }

/* Some chain is broken or shared: which. A sector met again is of the walk itself (a loop), or of a lower chain known to be sound. */
RARE u32 explain_chains(const u8 *entry, const u8 *before, u32 S, u32 e, u32 psi)
{
    u8 owner[256];
    u32 shared = 0;
    memset(owner, 0, sizeof owner);
    for (u32 j = 1; j <= e; j++, entry += 5) {
        if (empty(entry)) continue;
        for (u32 s = j;;) {
            if (owner[s] == j) return 10 | j << 8;
            if (owner[s] != 0) {
                if (shared == 0) shared = j;
                break;
            }
            owner[s] = (u8)j;
            u32 x = element(before, s, psi);
            if (x == s || x == S - 2 || x == S - 1) break;
            if (x == 0 || x > S - 1) return 10 | j << 8;
            s = x;
        }
    }
    return 11 | shared << 8;
}

/* Walks every chain once. Sound chains have at most S-3 sectors together and end in different sectors (chains that meet stay together): a
   count and a bit for each last sector are enough, and explain_chains names what is wrong. */
INLINE u32 walk_chains(const u8 *image, u64 want, struct view *v, int bytes)
{
    const u8 *entry = image + v->entries, *before = image + v->before;
    u64 ends[4] = { 0, 0, 0, 0 };
    size_t S = v->S, left = S - 3, e = v->e, j = 1;
    u32 psi = v->psi;
    v->count = 0;
    do {
        if (empty(entry)) continue;
        size_t s = j, x, had = left;
        for (;; s = x) {
            if (UNLIKELY(left-- == 0)) goto wrong;
            x = bytes ? before[s] : element(before, (u32)s, psi);
            if (x == s || x - 1 >= S - 3) break;
        }
        if (UNLIKELY(x - 1 >= S - 1)) goto wrong;
        u64 bit = (u64)1 << (s & 63), *at = &ends[s >> 6];
        if (UNLIKELY((*at & bit) != 0)) goto wrong;
        *at |= bit;
        if (j == want) {
            v->count = (u32)(had - left);
            v->last = (u32)s;
            v->link = (u32)x;
        }
    } while (entry += 5, j++ != e);
    return 0;
wrong:
    return explain_chains(image + v->entries, before, v->S, v->e, psi);
}

/* The second digits of the bytes and their first ones doubled, all added up but for tens: where a double is above 9, 9 less is 1 more. */
INLINE u32 luhn(u64 bytes)
{
    u64 firsts = bytes >> 4 & 0x0F0F0F0F0F0F0F0F, above = (firsts + 0x0303030303030303) >> 3 & 0x0101010101010101;
    return ((bytes & 0x0F0F0F0F0F0F0F0F) + 2 * firsts + above) * 0x0101010101010101 >> 56;
}

/* The check in stages, each ending in a call of the next, so that each has the registers to itself. 10 and 11, where Ψ is 8 and where it is less: */
STAGE u32 check_chains_of_bytes(const u8 *image, u64 want, struct view *v) { return walk_chains(image, want, v, 1); }
STAGE u32 check_chains(const u8 *image, u64 want, struct view *v) { return walk_chains(image, want, v, 0); }

/* 7, 8, 12, 9: one pass over the dataset, twenty bytes, padding and the last two. */
STAGE u32 check_data(const u8 *image, u64 want, struct view *v)
{
    const u8 *p = image + 4, *last = p + p[0] - 4;
    u32 r = 0xFFFF, padding = 0;
    r = crc_word(r, p);
    r = crc_word(r, p + 4);
    r = crc_word(r, p + 8);
    r = crc_word(r, p + 12);
    r = crc_word(r, p + 16);
    for (p += 20; p != last; p += 4) {
        padding |= le32(p);
        r = crc_word(r, p);
    }
    padding |= le16(p);
    REFUSE((crc_half(r, p) ^ 0xFFFF) != be16(p + 2), 7);

    /* the ISRN is bytes 2 to 10 of the shell, two digits to a byte: one above 9 has its 8 and its 4 or 2 set */
    u64 d = le64(image + 7);
    u32 first = image[6];
    REFUSE((d & (d << 1 | d << 2) & 0x8888888888888888) != 0, 8);
    REFUSE((first & (first << 1 | first << 2) & 0x88) != 0, 8);
    REFUSE(padding != 0, 8);
    REFUSE((luhn(d) + luhn(first)) % 10 != 0, 12);

    u32 unused = -(v->S - 3) * v->psi & 7;
    REFUSE((image[v->before + image[23]] & ((1u << unused) - 1)) != 0, 9);
    return v->psi == 8 ? check_chains_of_bytes(image, want, v) : check_chains(image, want, v);
}

RARE u32 explain_header(const u8 *image, size_t length)
{
    return length < 4 || be16(image) != length ? 1 : image[2] != 1 ? 2 : image[3] > 1 ? 3 : 4;
}

/* 1 to 8, 12 and 9 to 11 in order, as number | entry << 8; 0 if the image is accepted. */
STAGE u32 validate(const u8 *image, size_t length, u64 want, struct view *v)
{
    /* length, version 1, copy 0 or 1, in one word */
    if (UNLIKELY(length < 36) || UNLIKELY((be32(image) ^ ((u64)length << 16 | 0x100)) > 1)) return explain_header(image, length);

    const u8 *shell = image + 4;
    REFUSE((be16(shell) & 0x3F0) != 0, 5);
    u32 dataset = shell[0]; /* 4 x ShellLength, since the map is 0 */
    REFUSE(dataset < 22, 5);

    u32 B = shell[16], S = shell[17], e = shell[18], sctl = shell[19];
    REFUSE(S < 4, 6);
    REFUSE(B < 32, 6);
    REFUSE(e - 1 >= S - 3, 6);
    u32 psi = psi_of(S);
    REFUSE(sctl != ((S - 3) * psi + 7) >> 3, 6);
    REFUSE(16 + 5 * e + sctl > B, 6);
    REFUSE(dataset > B, 6);
    REFUSE(length != 4 + S * B, 6);

    v->S = S;
    v->B = B;
    v->e = e;
    v->psi = psi;
    v->entries = 6 + (S - 2 + image[3]) * B;
    v->before = v->entries + 5 * e - 1;
    return check_data(image, want, v);
}

/* ---- answers */

#define TAKEN ((card_answer){ 0, 0 })

/* A code is number | entry << 8 of the image's, or 20 to 28 of the entry asked for. */
INLINE card_answer refused(u32 code, u64 entry)
{
    return (card_answer){ code & 255, code >= 20 && code <= 28 ? entry : code >> 8 };
}

INLINE u64 mark_of(const struct view *v) { return v->link == v->S - 2 ? 2 : v->link == v->S - 1 ? 1 : 0; }

INLINE u32 entry_at(const struct view *v, u64 entry) { return v->entries + 5 * ((u32)entry - 1); }
INLINE u32 sector_at(const struct view *v, u32 sector) { return 4 + sector * v->B; }

card_answer card_check(const u8 *image, size_t length)
{
    struct view v;
    u32 code = validate(image, length, 0, &v);
    return (card_answer){ code & 255, code >> 8 };
}

/* 1 to 12, and 20. */
INLINE u32 open_entry(const u8 *image, size_t length, u64 entry, struct view *v)
{
    u32 code = validate(image, length, entry, v);
    return code != 0 ? code : v->count == 0 ? 20 : 0;
}

/* The kinds of ticket; those of TYP 22 have their revision. */
enum { TYP_23, TYP_22_1, TYP_22_2, TYP_22_3 };

/* Whether that is the entry's TYP, and the product's revision. */
INLINE u32 has_typ(const u8 *image, const struct view *v, u64 entry, u32 typ) { return (be16(image + entry_at(v, entry) + 1) & 31 << 5) == typ << 5; }
INLINE u32 has_revision(const u8 *product, u64 revision) { return (product[1] & 15u) == revision; }

/* 22, and which kind it is. */
INLINE u32 judge_kind(const u8 *image, const struct view *v, u64 entry, const u8 *product, u32 *kind)
{
    if (has_typ(image, v, entry, 23) && has_revision(product, 2)) {
        *kind = TYP_23;
        return 0;
    }
    *kind = product[1] & 15;
    return has_typ(image, v, entry, 22) && *kind - 1 < 3 ? 0 : 22;
}

/* 23; `product` is the first sector, which holds bits 0 to 231. */
INLINE u32 judge_length(const struct view *v, const u8 *product, u32 kind)
{
    u32 dataset = product[0] & 0xFC; /* 4 x IPELength */
    return dataset < (kind - 1 < 2 ? 28 : 32) || dataset > v->count * v->B ? 23 : 0;
}

/* ---- ticket read */

/* n bytes, 32 to 255, by whole words: the last may overlap those before. */
INLINE void copy_sector(u8 *to, const u8 *from, size_t n)
{
    size_t i = 0;
    if (n < 64) {
        __builtin_memcpy(to, from, 32);
        __builtin_memcpy(to + n - 32, from + n - 32, 32);
        return;
    }
    for (; i + 64 < n; i += 64) __builtin_memcpy(to + i, from + i, 64);
    __builtin_memcpy(to + n - 64, from + n - 64, 64);
}

/* Copies the product. */
INLINE void copy_product(const u8 *image, const struct view *v, u64 entry, u8 *buffer)
{
    const u8 *sectors = image + 4, *before = image + v->before;
    u32 s = (u32)entry, B = v->B, psi = v->psi, left = v->count;
    for (;;) {
        copy_sector(buffer, sectors + s * B, B);
        if (--left == 0) return;
        buffer += B;
        s = psi == 8 ? before[s] : element(before, s, psi);
    }
}

/* The values of each kind, from bit 16 of the product, and zeros after them. */
INLINE void decode_23(const u8 in[27], u64 value[25])
{
    value[0] = in[0];
    value[1] = be16(in + 1);
    value[2] = in[3];
    value[3] = in[4] >> 6;
    value[4] = in[4] & 63;
    value[5] = in[5] >> 6;
    value[6] = be32(in + 3) & 0x3FFF;
    value[7] = in[7] >> 3;
    value[8] = be32(in + 5) & 0x7FF;
    value[9] = in[9] >> 3;
    value[10] = in[9] & 7;
    value[11] = in[10];
    value[12] = in[11];
    value[13] = in[12];
    value[14] = in[13] >> 4;
    value[15] = in[13] & 15;
    value[16] = be32(in + 14);
    value[17] = in[18] >> 4;
    value[18] = be32(in + 16) & 0xFFF;
    value[19] = be32(in + 20);
    value[20] = in[24];
    value[21] = be16(in + 25);
    value[22] = value[23] = value[24] = 0;
}

/* The eleven that TYP 22 has in every revision. */
INLINE void decode_22(const u8 in[11], u64 value[11])
{
    value[0] = in[0];
    value[1] = be32(in + 1) >> 16;
    value[2] = be32(in + 1) & 0xFFFF;
    value[3] = in[5] >> 6;
    value[4] = in[5] & 63;
    value[5] = be32(in + 6) >> 18;
    value[6] = be32(in + 6) >> 7 & 0x7FF;
    value[7] = in[9] >> 6 & 1;
    value[8] = in[9] & 63;
    value[9] = in[10] >> 5;
    value[10] = in[10] & 31;
}

/* And the eight more of revisions 1 and 2. */
INLINE void decode_22_1_and_2(const u8 in[20], u64 value[19])
{
    decode_22(in, value);
    value[11] = be32(in + 10) & 0xFFFFFF;
    value[12] = in[14];
    value[13] = in[15];
    value[14] = in[16];
    value[15] = in[17];
    value[16] = in[18];
    value[17] = in[19] >> 4;
    value[18] = in[19] & 15;
}

INLINE void decode_22_1(const u8 in[24], u64 value[25])
{
    decode_22_1_and_2(in, value);
    value[19] = be32(in + 20) >> 16;
    value[20] = in[22] >> 4;
    value[21] = be32(in + 20) & 0xFFF;
    value[22] = value[23] = value[24] = 0;
}

INLINE void decode_22_2(const u8 in[26], u64 value[25])
{
    decode_22_1_and_2(in, value);
    value[19] = be32(in + 20);
    value[20] = in[24] >> 4;
    value[21] = be32(in + 22) & 0xFFF;
    value[22] = value[23] = value[24] = 0;
}

INLINE void decode_22_3(const u8 in[27], u64 value[25])
{
    decode_22(in, value);
    value[11] = in[11] >> 6;
    value[12] = be32(in + 9) & 0x3FFF;
    value[13] = in[13] >> 3;
    value[14] = be32(in + 11) & 0x7FF;
    value[15] = in[15];
    value[16] = in[16];
    value[17] = in[17];
    value[18] = in[18];
    value[19] = in[19];
    value[20] = in[20] >> 4;
    value[21] = in[20] & 15;
    value[22] = be32(in + 21);
    value[23] = in[25] >> 4;
    value[24] = be32(in + 23) & 0xFFF;
}

/* All that a read refuses; if nothing, the values and the end. */
INLINE u32 read_values(const u8 *image, size_t length, u64 entry, size_t size, struct view *v, card_ticket *t)
{
    u32 kind, code = open_entry(image, length, entry, v);
    if (code != 0) return code;
    if (size < v->count * v->B) return 21;
    const u8 *product = image + sector_at(v, (u32)entry);
    code = judge_kind(image, v, entry, product, &kind);
    if (code != 0) return code;
    code = judge_length(v, product, kind);
    if (code != 0) return code;
    u32 stamp = be16(image + entry_at(v, entry) + 3) & 0x3FFF;
    u64 midnight = (stamp != 0 ? stamp : 16384) * 1440;
    t->header[0] = product[0] >> 2;
    t->header[1] = be16(product) >> 4 & 63;
    t->header[2] = product[1] & 15;
    if (kind == TYP_23) {
        t->typ = 23;
        decode_23(product + 2, t->values);
        t->end = midnight + t->values[8];
        return 0;
    }
    t->typ = 22;
    if (kind == TYP_22_3)
        decode_22_3(product + 2, t->values);
    else if (kind == TYP_22_2)
        decode_22_2(product + 2, t->values);
    else
        decode_22_1(product + 2, t->values);
    t->end = midnight + t->values[6];
    return 0;
}

card_ticket card_read_ticket(const u8 *image, size_t length, size_t entry, u8 *buffer, size_t size)
{
    struct view v;
    card_ticket t;
    u32 code = read_values(image, length, entry, size, &v, &t);
    if (code != 0) {
        memset(&t, 0, sizeof t);
        card_answer a = refused(code, entry);
        t.number = a.number;
        t.entry = a.entry;
        return t;
    }
    t.number = 0;
    t.entry = 0;
    t.mark = mark_of(&v);
    t.sectors = v.count;
    copy_product(image, &v, entry, buffer);
    return t;
}

/* ---- steps */

/* A field in a word of eight bytes of the product, none of them past byte 28. */
struct field {
    u64 keep; /* the word's other bits */
    u32 most;
    u8 at, shift;
};

#define WINDOW(first) ((first) / 8 < 21 ? (first) / 8 : 21)
#define SHIFT(first, width) (64 + 8 * WINDOW(first) - (first) - (width))
#define MOST(width) (((u64)1 << (width)) - 1)
#define FIELD(first, width) { ~(MOST(width) << SHIFT(first, width)), (u32)MOST(width), WINDOW(first), SHIFT(first, width) },

/* The lists of all kinds. */
#define LIST_23(F) \
    F(16, 8) F(24, 16) F(40, 8) F(48, 2) F(50, 6) F(56, 2) F(58, 14) F(72, 5) F(77, 11) F(88, 5) F(93, 3) \
    F(96, 8) F(104, 8) F(112, 8) F(120, 4) F(124, 4) F(128, 32) F(160, 4) F(164, 12) F(176, 32) F(208, 8) F(216, 16)
#define LIST_22(F) F(16, 8) F(24, 16) F(40, 16) F(56, 2) F(58, 6) F(64, 14) F(78, 11) F(89, 1) F(90, 6) F(96, 3) F(99, 5)
#define LIST_22_1_AND_2(F) LIST_22(F) F(104, 24) F(128, 8) F(136, 8) F(144, 8) F(152, 8) F(160, 8) F(168, 4) F(172, 4)
#define LIST_22_1(F) LIST_22_1_AND_2(F) F(176, 16) F(192, 4) F(196, 12)
#define LIST_22_2(F) LIST_22_1_AND_2(F) F(176, 32) F(208, 4) F(212, 12)
#define LIST_22_3(F) \
    LIST_22(F) F(104, 2) F(106, 14) F(120, 5) F(125, 11) F(136, 8) F(144, 8) F(152, 8) F(160, 8) F(168, 8) F(176, 4) F(180, 4) \
    F(184, 32) F(216, 4) F(220, 12)

static const struct field fields[4][25] = { { LIST_23(FIELD) }, { LIST_22_1(FIELD) }, { LIST_22_2(FIELD) }, { LIST_22_3(FIELD) } };

INLINE u32 count_of(u32 kind) { return kind == TYP_22_3 ? 25 : 22; }

/* The bits that must be zero in each value. */
#define TOO_WIDE(first, width) ~MOST(width),
static const u64 too_wide[4][25] = { { LIST_23(TOO_WIDE) }, { LIST_22_1(TOO_WIDE) }, { LIST_22_2(TOO_WIDE) }, { LIST_22_3(TOO_WIDE) } };

INLINE u32 bad_record(const u64 value[25], u32 kind)
{
    u64 over = 0;
    for (u32 i = 0; i < count_of(kind); i++) over |= value[i] & too_wide[kind][i];
    return over != 0;
}

/* Bits 16 to 231, by four words of which each mends the one before. */
INLINE void encode_23(const u64 v[22], u8 out[27])
{
    u64 a = v[0] << 56 | v[1] << 40 | v[2] << 32 | v[3] << 30 | v[4] << 24 | v[5] << 22 | v[6] << 8;
    u64 b = v[7] << 59 | v[8] << 48 | v[9] << 43 | v[10] << 40 | v[11] << 32 | v[12] << 24 | v[13] << 16 | v[14] << 12 | v[15] << 8;
    u64 c = v[16] << 32 | v[17] << 28 | v[18] << 16;
    u64 d = v[18] << 56 | v[19] << 24 | v[20] << 16 | v[21];
    put64(out, a);
    put64(out + 7, b);
    put64(out + 14, c);
    put64(out + 19, d);
}

/* Bits 16 to 79 of every TYP 22, and of the next word those up to 103: the words meet within ExpiryTime. */
INLINE u64 first_22(const u64 v[7]) { return v[0] << 56 | v[1] << 40 | v[2] << 24 | v[3] << 22 | v[4] << 16 | v[5] << 2 | v[6] >> 9; }
INLINE u64 second_22(const u64 v[11]) { return v[6] << 55 | v[7] << 54 | v[8] << 48 | v[9] << 45 | v[10] << 40; }

INLINE void encode_22_1(const u64 v[22], u8 out[24])
{
    u64 a = first_22(v);
    u64 b = second_22(v) | v[11] << 16 | v[12] << 8 | v[13];
    u64 c = v[14] << 56 | v[15] << 48 | v[16] << 40 | v[17] << 36 | v[18] << 32 | v[19] << 16 | v[20] << 12 | v[21];
    put64(out, a);
    put64(out + 8, b);
    put64(out + 16, c);
}

INLINE void encode_22_2(const u64 v[22], u8 out[26])
{
    u64 a = first_22(v);
    u64 b = second_22(v) | v[11] << 16 | v[12] << 8 | v[13];
    u64 c = v[14] << 56 | v[15] << 48 | v[16] << 40 | v[17] << 36 | v[18] << 32 | v[19];
    u64 d = v[20] << 12 | v[21];
    put64(out, a);
    put64(out + 8, b);
    put64(out + 16, c);
    put16(out + 24, (u32)d);
}

/* The last two words have a byte of AmountPaid in common. */
INLINE void encode_22_3(const u64 v[25], u8 out[27])
{
    u64 a = first_22(v);
    u64 b = second_22(v) | v[11] << 38 | v[12] << 24 | v[13] << 19 | v[14] << 8 | v[15];
    u64 c = v[16] << 56 | v[17] << 48 | v[18] << 40 | v[19] << 32 | v[20] << 28 | v[21] << 24 | v[22] >> 8;
    u64 d = v[22] << 16 | v[23] << 12 | v[24];
    put64(out, a);
    put64(out + 8, b);
    put64(out + 16, c);
    put32(out + 23, (u32)d);
}

/* What field and record writes refuse alike, before the kind: 1 to 12, 20, 27. */
INLINE u32 open_write(const u8 *image, size_t length, u64 entry, struct view *v)
{
    u32 code = open_entry(image, length, entry, v);
    return code != 0 ? code : v->link == v->S - 2 ? 27 : 0;
}

/* 23, 25, 26, or the value is stored. */
INLINE u32 put_field(const struct view *v, u8 *product, u32 kind, u64 field, u64 value)
{
    u32 code = judge_length(v, product, kind);
    if (code != 0) return code;
    if (field - 1 >= count_of(kind)) return 25;
    const struct field *f = &fields[kind][field - 1];
    if (value > f->most) return 26;
    u8 *p = product + f->at;
    put64(p, (be64(p) & f->keep) | value << f->shift);
    return 0;
}

card_answer card_write_field(u8 *image, size_t length, size_t entry, size_t field, u64 value)
{
    struct view v;
    u32 kind, code = open_write(image, length, entry, &v);
    if (code != 0) return refused(code, entry);
    u8 *product = image + sector_at(&v, (u32)entry);
    code = judge_kind(image, &v, entry, product, &kind);
    if (code == 0) code = kind == TYP_23 ? put_field(&v, product, TYP_23, field, value) : put_field(&v, product, kind, field, value);
    return code != 0 ? refused(code, entry) : TAKEN;
}

/* 26, or the values are stored; TYP 22 in functions of its own, so that each kind has the registers to itself. */
#define STORE(where, store, kind, encode) \
    where card_answer store(const u64 value[25], u8 *out, u64 entry) \
    { \
        if (bad_record(value, kind)) return (card_answer){ 26, entry }; \
        encode(value, out); \
        return TAKEN; \
    }
STORE(INLINE, store_23, TYP_23, encode_23)
STORE(STAGE, store_22_1, TYP_22_1, encode_22_1)
STORE(STAGE, store_22_2, TYP_22_2, encode_22_2)
STORE(STAGE, store_22_3, TYP_22_3, encode_22_3)

card_answer card_write_record(u8 *image, size_t length, size_t entry, u64 typ, u64 revision, const u64 value[25])
{
    struct view v;
    u32 code = open_write(image, length, entry, &v);
    if (code != 0) return refused(code, entry);
    u8 *product = image + sector_at(&v, (u32)entry);
    if (typ == 23 && revision == 2) {
        if (!has_typ(image, &v, entry, 23) || !has_revision(product, 2)) return (card_answer){ 22, entry };
        if (judge_length(&v, product, TYP_23)) return (card_answer){ 23, entry };
        return store_23(value, product + 2, entry);
    }
    if (typ != 22 || revision - 1 >= 3 || !has_typ(image, &v, entry, 22) || !has_revision(product, revision)) return (card_answer){ 22, entry };
    if (judge_length(&v, product, (u32)revision)) return (card_answer){ 23, entry };
    if (revision == 3) return store_22_3(value, product + 2, entry);
    return revision == 2 ? store_22_2(value, product + 2, entry) : store_22_1(value, product + 2, entry);
}

card_answer card_mark(u8 *image, size_t length, size_t entry, size_t mark)
{
    struct view v;
    u32 code = open_entry(image, length, entry, &v);
    if (code != 0) return refused(code, entry);
    if (mark - 1 >= 2) return refused(28, entry);
    u32 link = v.S - (u32)mark; /* S-1 used, S-2 blocked */
    if (v.link == link) return TAKEN;
    if (v.link == v.S - 2) return refused(27, entry);
    u32 end = v.last * v.psi, shift = 8 - (end & 7);
    u8 *p = image + v.before + (end >> 3);
    put16(p, (be16(p) & ~(((1u << v.psi) - 1) << shift)) | link << shift);
    return TAKEN;
}

/* ---- which entries differ */

/* Whether the chains from sector s on are the same in both: their elements, and the bytes of their sectors. */
INLINE u32 same_chain(const u8 *before, const u8 *after, const struct view *v, u32 s)
{
    for (;;) {
        if (memcmp(before + sector_at(v, s), after + sector_at(v, s), v->B) != 0) return 0;
        u32 x = element(before + v->before, s, v->psi);
        if (x != element(after + v->before, s, v->psi)) return 0;
        if (x == s || x > v->S - 3) return 1;
        s = x;
    }
}

card_answer card_touched(const u8 *before, size_t before_length, const u8 *after, size_t after_length, u8 *flags, size_t count)
{
    struct view v, w;
    u32 code = validate(before, before_length, 0, &v);
    if (code == 0) code = validate(after, after_length, 0, &w);
    if (code != 0) return refused(code, 0);
    if (v.S != w.S || v.B != w.B || v.e != w.e || before[3] != after[3]) return (card_answer){ 90, 0 };
    if (count != v.e) return (card_answer){ 91, 0 };
    for (u32 j = 1; j <= v.e; j++) {
        const u8 *a = before + entry_at(&v, j), *b = after + entry_at(&v, j);
        u32 same = le32(a) == le32(b) && a[4] == b[4];
        flags[j - 1] = !(same && (empty(a) || same_chain(before, after, &v, j)));
    }
    return TAKEN;
}

/* ---- dates, without a list of months: in quarters of a day a year has 1,461 and February 113, seven fewer than thirty days */

card_date card_date_of(u64 stamp)
{
    if (UNLIKELY(stamp > 16383)) return (card_date){ 30, 0, 0, 0, 0 };
    u32 quarters = ((u32)(stamp + 16383) % 16384 + 1) * 4 + 2917620, past = quarters % 1461;
    u32 months = (past < 237 ? past : past + 7) / 4 * 67 + 2075;
    return (card_date){ 0, 0, quarters / 1461, months / 2048, months % 2048 / 67 + 1 };
}

#define NO_STAMP(when) do { if (UNLIKELY(when)) return (card_stamp){ 29, 0, 0 }; } while (0)

card_stamp card_stamp_of(u64 year, u64 month, u64 day)
{
    NO_STAMP(month - 1 > 11);
    u32 y = (u32)year, m = (u32)month, d = (u32)day;
    if (UNLIKELY(day - 1 > 27))
        NO_STAMP(m == 2 ? day != 29 || y % 4 != 0 : day - 1 >= (30 | (m ^ m >> 3)));
    if (UNLIKELY(year - 1998 > 42)) /* in 1997 from 2 January on, in 2041 up to 10 November */
        NO_STAMP(year == 1997 ? m + d < 3 : year != 2041 || 32 * m + d > 362);
    return (card_stamp){ 0, 0, ((1461 * y + (m < 3 ? 7 : 0)) / 4 + (489 * m - 480) / 16 + d - 729407) % 16384 };
}
