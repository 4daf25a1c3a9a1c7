/* The line protocol of the second program, spoken by the C library: commands on standard input, answers on standard output. What the protocol does
   not show and the header says, as the zeros after a record's values, is added to the answer where it does not hold. */
#include "../../include/card.h"
#include <stdio.h>
#include <stdlib.h>
#include <string.h>

static uint8_t image[65536], kept[65536], buffer[65536], scratch[65536];
static size_t image_length, kept_length;
static char line[300000];
static char *words[400];
static size_t count;
static uint64_t n[400];

static void numbers(const uint64_t *v, size_t k) { for (size_t i = 0; i < k; i++) printf(" %llu", (unsigned long long)v[i]); }
static void small(const uint8_t *v, size_t k) { for (size_t i = 0; i < k; i++) printf(" %u", v[i]); }
static void hex(const uint8_t *v, size_t k)
{
    if (k == 0)
        putchar('-');
    for (size_t i = 0; i < k; i++)
        printf("%02x", v[i]);
}
/* The kinds of ticket: how many values a record has, and how many bytes they are. A kind that is not among them has any up to the most. */
static const struct { uint64_t typ, revision; size_t values, bytes; } kinds[] = {
    { 23, 2, 22, 27 }, { 22, 1, 22, 24 }, { 22, 2, 22, 26 }, { 22, 3, 25, 27 },
};
enum { KINDS = sizeof kinds / sizeof *kinds, MOST_VALUES = 25, MOST_BYTES = 27 };

static size_t kind_of(uint64_t typ, uint64_t revision)
{
    size_t k = 0;
    while (k < KINDS && (kinds[k].typ != typ || kinds[k].revision != revision))
        k++;
    return k;
}

/* The values of a record of the kind; after them there must be zeros. */
static void record(size_t kind, const uint64_t v[MOST_VALUES])
{
    size_t k = kind < KINDS ? kinds[kind].values : 0;
    numbers(v, k);
    for (; k < MOST_VALUES; k++)
        if (v[k] != 0)
            printf(" and %llu as value %zu", (unsigned long long)v[k], k + 1);
}

static void head(size_t number, size_t entry) { printf("%zu %zu", number, entry); }
static int end(void) { putchar('\n'); return 1; }

/* Words from the first on, as numbers below 2^64. */
static int all_numbers(size_t from)
{
    for (size_t i = from; i < count; i++) {
        uint64_t x = 0;
        if (!*words[i])
            return 0;
        for (const char *p = words[i]; *p; p++) {
            if (*p < '0' || *p > '9' || x > (UINT64_MAX - (uint64_t)(*p - '0')) / 10)
                return 0;
            x = 10 * x + (uint64_t)(*p - '0');
        }
        n[i] = x;
    }
    return 1;
}

/* The bytes of a word of lower-case hex, or -1. */
static long bytes_of(const char *w)
{
    size_t k = 0;
    if (!strcmp(w, "-"))
        return 0;
    for (; *w; w += 2, k++) {
        int v = 0;
        for (int i = 0; i < 2; i++) {
            char c = w[i];
            if (c >= '0' && c <= '9')
                v = 16 * v + c - '0';
            else if (c >= 'a' && c <= 'f')
                v = 16 * v + c - 'a' + 10;
            else
                return -1;
        }
        if (k == sizeof scratch)
            return -1;
        scratch[k] = (uint8_t)v;
    }
    return k ? (long)k : -1;
}

static unsigned crc(const uint8_t *s, size_t k)
{
    unsigned r = 0xFFFF;
    for (size_t i = 0; i < k; i++) {
        r ^= s[i];
        for (int b = 0; b < 8; b++)
            r = r & 1 ? r >> 1 ^ 0x8408 : r >> 1;
    }
    return r ^ 0xFFFF;
}

static int listing(void)
{
    static const char *const marks[] = { "fresh", "used", "blocked" };
    card_answer a = card_check(image, image_length);
    if (a.number) {
        printf("refused %zu %zu\n", a.number, a.entry);
        return 1;
    }
    card_shell s = card_read_shell(image, image_length);
    printf("card %u %u %u %c\n", (unsigned)s.values[13], (unsigned)s.values[12], (unsigned)s.values[14], "AB"[image[3]]);
    for (size_t j = 1; j <= s.values[14]; j++) {
        card_entry e = card_read_entry(image, image_length, j);
        card_chain c = card_read_chain(image, image_length, j);
        if (e.number)
            continue;
        printf("%zu %u %s", j, (unsigned)e.values[2], marks[c.mark]);
        small(c.sectors, c.count);
        putchar('\n');
    }
    return 1;
}

#define IS(w) (!strcmp(words[0], w))
#define WITH(k) (count == (k) + 1 && all_numbers(1))

/* Whether TYP and revision stand at `at`, then `others` more and the values of such a record, all of them numbers. What the library takes after the
   values is filled with what must not matter. */
static int with_record(size_t at, size_t others)
{
    size_t first = at + 2 + others, kind;
    if (count < first || !all_numbers(1))
        return 0;
    kind = kind_of(n[at], n[at + 1]);
    if (kind < KINDS ? count != first + kinds[kind].values : count > first + MOST_VALUES)
        return 0;
    for (size_t i = count; i < first + MOST_VALUES; i++)
        n[i] = UINT64_MAX;
    return 1;
}

static int reads(void)
{
    if (IS("check") && WITH(0)) {
        card_answer a = card_check(image, image_length);
        head(a.number, a.entry);
        return end();
    }
    if (IS("shell") && WITH(0)) {
        card_shell r = card_read_shell(image, image_length);
        head(r.number, r.entry);
        numbers(r.values, 16);
        return end();
    }
    if (IS("directory") && WITH(0)) {
        card_directory r = card_read_directory(image, image_length);
        head(r.number, r.entry);
        numbers(r.values, 7);
        return end();
    }
    if (IS("table") && WITH(0)) {
        card_table r = card_read_table(image, image_length);
        head(r.number, r.entry);
        small(r.elements, r.count);
        return end();
    }
    if (IS("entry") && WITH(1)) {
        card_entry r = card_read_entry(image, image_length, n[1]);
        head(r.number, r.entry);
        numbers(r.values, 7);
        return end();
    }
    if (IS("chain") && WITH(1)) {
        card_chain r = card_read_chain(image, image_length, n[1]);
        head(r.number, r.entry);
        printf(" %zu %zu", r.mark, r.count);
        small(r.sectors, r.count);
        return end();
    }
    if ((IS("ticket") || IS("rest")) && (WITH(1) || (WITH(2) && n[2] <= sizeof buffer))) {
        size_t lent = count == 3 ? n[2] : sizeof buffer;
        memset(buffer, 0xA5, sizeof buffer);
        if (IS("rest")) {
            card_filled f = card_fill(image, image_length, n[1], buffer, lent);
            if (f.number)
                putchar('-');
            else if (f.from == f.end)
                putchar('=');
            else
                hex(buffer + f.from, f.end - f.from);
            return end();
        }
        card_ticket r = card_read_ticket(image, image_length, n[1], buffer, lent);
        head(r.number, r.entry);
        if (r.number == 0) {
            numbers(&r.typ, 1);
            numbers(r.header, 3);
            record(kind_of(r.typ, r.header[2]), r.values);
            printf(" %llu %zu %zu", (unsigned long long)r.end, r.mark, r.sectors);
        }
        return end();
    }
    if (IS("buffer") && WITH(1) && n[1] <= sizeof buffer) {
        hex(buffer, n[1]);
        return end();
    }
    if (IS("list") && WITH(0))
        return listing();
    return 0;
}

static int steps(void)
{
    card_answer a;
    if (IS("field") && WITH(3))
        a = card_write_field(image, image_length, n[1], n[2], n[3]);
    else if (IS("record") && with_record(2, 0))
        a = card_write_record(image, image_length, n[1], n[2], n[3], n + 4);
    else if (IS("mark") && WITH(2))
        a = card_mark(image, image_length, n[1], n[2]);
    else if (IS("touched") && WITH(0)) {
        uint8_t flags[256] = { 0 };
        size_t e = kept_length < 36 ? 0 : kept[4 + 18];
        a = card_touched(kept, kept_length, image, image_length, flags, e);
        head(a.number, a.entry);
        for (size_t j = 0; !a.number && j < e; j++)
            if (flags[j])
                printf(" %zu", j + 1);
        return end();
    } else
        return 0;
    head(a.number, a.entry);
    return end();
}

/* A record that must be of the kind it was. */
static void kept_kind(uint64_t typ, uint64_t revision, card_record r)
{
    record(kind_of(typ, revision), r.values);
    if (r.typ != typ || r.revision != revision)
        printf(" and TYP %llu revision %llu", (unsigned long long)r.typ, (unsigned long long)r.revision);
}

static int records(void)
{
    long k = count >= 2 && count <= 4 ? bytes_of(words[count - 1]) : -1;
    if (IS("set") && with_record(1, 2)) {
        card_changed r = card_record_set(n[1], n[2], n + 5, n[3], n[4]);
        head(r.number, r.entry);
        kept_kind(n[1], n[2], r.next);
    } else if (IS("value") && with_record(1, 1)) {
        card_value r = card_record_value(n[1], n[2], n + 4, n[3]);
        head(r.number, r.entry);
        numbers(&r.value, 1);
    } else if (IS("encode-ticket") && with_record(1, 0)) {
        card_ticket_bytes r = card_encode_ticket(n[1], n[2], n + 3);
        head(r.number, r.entry);
        putchar(' ');
        hex(r.bytes, r.count);
        for (size_t i = r.count; i < MOST_BYTES; i++)
            if (r.bytes[i] != 0)
                printf(" and %u as byte %zu", r.bytes[i], i + 1);
    } else if (IS("decode-ticket") && count == 4 && k >= 0 && k <= MOST_BYTES && (count = 3, all_numbers(1))) {
        size_t kind = kind_of(n[1], n[2]);
        if (kind < KINDS && (size_t)k != kinds[kind].bytes)
            return 0;
        memset(scratch + k, 0xA5, (size_t)(MOST_BYTES - k));
        card_decoded r = card_decode_ticket(n[1], n[2], scratch);
        head(r.number, r.entry);
        kept_kind(r.number == 0 ? n[1] : 0, r.number == 0 ? n[2] : 0, r.next);
    } else if (IS("date") && WITH(1)) {
        card_date r = card_date_of(n[1]);
        head(r.number, r.entry);
        printf(" %u %u %u", (unsigned)r.year, (unsigned)r.month, (unsigned)r.day);
    } else if (IS("stamp") && WITH(3)) {
        card_stamp r = card_stamp_of(n[1], n[2], n[3]);
        head(r.number, r.entry);
        printf(" %u", (unsigned)r.stamp);
    }
#define ENCODE(word, values, type, call, size) \
    else if (IS(word) && WITH(values)) { type r = call(n + 1); head(r.number, r.entry); putchar(' '); hex(r.bytes, size); }
    ENCODE("encode-entry", 7, card_entry_bytes, card_encode_entry, 5)
    ENCODE("encode-head", 3, card_head_bytes, card_encode_head, 2)
    ENCODE("encode-tail", 4, card_tail_bytes, card_encode_tail, 6)
    ENCODE("encode-header", 3, card_head_bytes, card_encode_header, 2)
    else if (IS("encode-shell") && WITH(17) && n[1] <= 4096) {
        memset(scratch, 0xA5, sizeof scratch);
        card_answer a = card_encode_shell(n + 2, scratch, n[1]);
        head(a.number, a.entry);
        putchar(' ');
        hex(scratch, n[1]);
    } else if (IS("encode-table") && count >= 3 && count <= 303 && all_numbers(1) && n[2] <= 4096) {
        memset(scratch, 0xA5, sizeof scratch);
        card_answer a = card_encode_table(n[1], n + 3, count - 3, scratch, n[2]);
        head(a.number, a.entry);
        putchar(' ');
        hex(scratch, n[2]);
    }
#define DECODE(word, size, type, call, values_count) \
    else if (IS(word) && count == 2 && k == size) { type r = call(scratch); head(0, 0); numbers(r.values, values_count); }
    DECODE("decode-entry", 5, card_entry_values, card_decode_entry, 7)
    DECODE("decode-head", 2, card_head_values, card_decode_head, 3)
    DECODE("decode-tail", 6, card_tail_values, card_decode_tail, 4)
    DECODE("decode-header", 2, card_head_values, card_decode_header, 3)
    DECODE("decode-shell", 20, card_shell_values, card_decode_shell, 16)
    else if (IS("decode-table") && count == 3 && k >= 0 && (count = 2, all_numbers(1))) {
        card_table r = card_decode_table(n[1], scratch, (size_t)k);
        head(r.number, r.entry);
        small(r.elements, r.count);
    } else if (IS("crc") && count == 2 && k >= 0)
        printf("%u", crc(scratch, (size_t)k));
    else
        return 0;
    return end();
}

static int state(void)
{
    if (IS("image") && WITH(1) && n[1] <= 65535) {
        image_length = n[1];
        memset(image, 0, sizeof image);
        printf("%zu", image_length);
        return end();
    }
    if (IS("at") && count == 3) {
        long k = bytes_of(words[2]);
        count = 2;
        if (k < 0 || !all_numbers(1) || n[1] > image_length || (size_t)k > image_length - n[1])
            return 0;
        memcpy(image + n[1], scratch, (size_t)k);
        printf("ok");
        return end();
    }
    if (IS("keep") && WITH(0)) {
        memcpy(kept, image, sizeof image);
        kept_length = image_length;
        printf("ok");
        return end();
    }
    if (IS("bytes") && WITH(0)) {
        hex(image, image_length);
        return end();
    }
    return 0;
}

int main(void)
{
    while (fgets(line, sizeof line, stdin)) {
        line[strcspn(line, "\n")] = 0;
        count = 0;
        for (char *p = line; p && count < 400;) {
            words[count++] = p;
            p = strchr(p, ' ');
            if (p)
                *p++ = 0;
        }
        if (!(reads() || steps() || records() || state()))
            puts("?");
    }
    return 0;
}
