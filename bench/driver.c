/* What bench/run measures. Each call that is counted stands between count_begin and count_end; each row prints its name, its number of counted
   calls and a sum of the answers and of the bytes they left, so that two programs can be seen to do the same work.
     driver table        each call on the small, the middle and the large card, whose tickets are of TYP 23, then some where they are of TYP 22
                         revision 3; the worst cards; two equal large cards compared
     driver growth       pairs of calls, and by how much the second has more of something
     driver nasty        a check of each nasty card
     driver dates        the date of each stamp, the stamp of each date, and each date of 1996 to 2043 that has none
     driver same FROM N  every call on N cards damaged at random, uncounted */
#include "cards.h"

extern int printf(const char *, ...), sprintf(char *, const char *, ...), atoi(const char *), strcmp(const char *, const char *);
extern void *memcpy(void *, const void *, size_t);

__attribute__((noinline)) void count_begin(void) { __asm__ volatile("" ::: "memory"); }
__attribute__((noinline)) void count_end(void) { __asm__ volatile("" ::: "memory"); }
#define COUNTED(call) (count_begin(), (call), count_end())

static uint8_t saved[65536], buffer[65536], flags[256];
static uint64_t sum;

static void add(uint64_t x) { sum = sum * 6364136223846793005u + x + 1; }

static void add_bytes(const uint8_t *p, size_t n)
{
    for (size_t i = 0; i < n; i++)
        add(p[i]);
}

static void add_ticket(const card_ticket *t)
{
    add(t->number), add(t->entry), add(t->typ), add(t->end), add(t->mark), add(t->sectors);
    for (size_t i = 0; i < 3; i++)
        add(t->header[i]);
    for (size_t i = 0; i < 25; i++)
        add(t->values[i]);
}

static uint64_t state = 1;

/* A number below n. */
static size_t any(size_t n)
{
    state = state * 6364136223846793005u + 1442695040888963407u;
    return (state >> 33) % n;
}

/* Values that fit a kind; those after its list would fit none. */
static void any_values(uint64_t values[25], size_t kind)
{
    for (size_t i = 0; i < 25; i++)
        values[i] = i < kinds[kind].count ? any(limit_of(kind, i) + 1) : state | (uint64_t)1 << 63;
}

static void row(const char *name, const char *card, size_t calls)
{
    add_bytes(image, length);
    add_bytes(buffer, sizeof buffer);
    printf("%s\t%s\t%lu\t%lx\n", name, card, calls, sum);
    sum = 0;
}

/* The stamps of the dates of 1996 to 2043, of those that have one or of those that have none. Part of main, whose instructions are not counted. */
static inline __attribute__((always_inline)) size_t count_stamps(int has_stamp)
{
    size_t calls = 0;
    for (uint64_t y = 1996; y < 2044; y++)
        for (uint64_t m = 0; m < 14; m++)
            for (uint64_t d = 0; d < 33; d++) {
                card_stamp s = card_stamp_of(y, m, d);
                if ((s.number == 0) == has_stamp) {
                    COUNTED(s = card_stamp_of(y, m, d));
                    calls++;
                }
                add(s.number), add(s.entry), add(s.stamp);
            }
    return calls;
}

/* Every entry and every field have their turn. */
enum { ROUNDS = 88 };

/* Two cards, as S, e#, products, sectors of the first product and the dataset's bytes, with `more` of something in the second; the call is c check,
   t ticket read, d touched. */
static const struct { const char *what; char call; size_t cards[2][5], more; } growths[] = {
    { "check: an element where psi is less than 8", 'c', { { 64, 1, 1, 11, 24 }, { 64, 1, 1, 61, 24 } }, 50 },
    { "check: an element where psi is 8", 'c', { { 237, 1, 1, 11, 24 }, { 237, 1, 1, 211, 24 } }, 200 },
    { "check: a product of one sector", 'c', { { 64, 1, 1, 1, 24 }, { 64, 31, 31, 1, 24 } }, 30 },
    { "check: an empty entry", 'c', { { 64, 1, 1, 1, 24 }, { 64, 31, 1, 1, 24 } }, 30 },
    { "check: a byte of the shell's dataset", 'c', { { 64, 1, 1, 1, 24 }, { 64, 1, 1, 1, 252 } }, 228 },
    { "ticket read: a sector of 255 bytes", 't', { { 237, 1, 1, 11, 24 }, { 237, 1, 1, 211, 24 } }, 200 },
    { "touched: a sector of 255 bytes, the same in both", 'd', { { 237, 1, 1, 11, 24 }, { 237, 1, 1, 211, 24 } }, 200 },
};

/* The kind that a TYP and a revision are. */
static size_t kind_of(size_t typ, size_t revision)
{
    size_t kind = 0;
    while (kind < KINDS && (typ != kinds[kind].typ || revision != kinds[kind].revision))
        kind++;
    return kind;
}

/* The TYP and the revision of what entry j names, as far as the card has such an entry. */
static void named(size_t j, size_t *typ, size_t *revision)
{
    *typ = *revision = 0;
    if (j - 1 < entries) {
        const uint8_t *entry = image + directory + 2 + 5 * (j - 1);
        *typ = (entry[1] & 3) << 3 | entry[2] >> 5;
        *revision = image[4 + j * size + 1] & 15;
    }
}

/* The field of the ticket at entry j becomes a value. */
static void put_field(size_t j, size_t kind, size_t field, uint64_t value)
{
    size_t bit = 16;
    for (size_t i = 0; i < field; i++)
        bit += kinds[kind].widths[i];
    for (size_t width = kinds[kind].widths[field]; width-- > 0; bit++) {
        uint8_t *p = image + 4 + j * size + bit / 8, one = 0x80 >> bit % 8;
        *p = (*p & ~one) | (value >> width & 1 ? one : 0);
    }
}

static void damage(void)
{
    for (size_t n = any(4); n-- > 0;) {
        size_t what = any(13), j = 1 + any(entries), typ, revision;
        if (what < 5)
            element(1 + any(sectors - 3), any(3) ? any(1 << psi) : sectors - 1 - any(2));
        if (what == 5)
            image[any(28)] ^= 1 << any(8);
        if (what == 6)
            image[directory + any(size)] = any(256);
        if (what == 7)
            image[4 + j * size + any(30)] = any(256);
        if (what == 8)
            for (size_t i = 0; i < 5; i++)
                image[directory + 2 + 5 * (j - 1) + i] = 0;
        if (what == 9)
            image[table + any(table_size)] = any(256);
        if (what == 10) { /* ExpiryTime 1,439, 1,440 or 2,047 */
            named(j, &typ, &revision);
            size_t kind = kind_of(typ, revision) % KINDS;
            put_field(j, kind, kinds[kind].expiry, any(3) ? 1439 + any(2) : 2047);
        }
        if (what == 11) /* beside the kinds that there are, and beside their lengths */
            product(j, 21 + any(4), any(5), 6 + any(4));
        if (what == 12) { /* a digit of the ISRN */
            size_t k = any(18), shift = k % 2 ? 0 : 4;
            image[6 + k / 2] = (image[6 + k / 2] & 0xF0 >> shift) | any(10) << shift;
        }
    }
    size_t dataset = image[4] & 0xFC;
    if (any(4) && dataset >= 4) {
        unsigned right = crc(image + 4, dataset - 2);
        image[4 + dataset - 2] = right >> 8;
        image[4 + dataset - 1] = right & 255;
    }
}

static void any_card(void)
{
    size_t s = 4 + any(234), what = any(10), e;
    if (what == 0)
        smallest_card();
    else if (what < 3)
        small_card();
    else if (what == 3)
        middle_card();
    else if (what == 4)
        full_card();
    else if (what == 5)
        nasty_card(s, any(SHAPES), any(TAILS));
    else {
        s = 4 + any(60);
        e = 1 + any(most_entries(s));
        size_t least = 16 + 5 * e + table_size_of(s), b = least + any(256 - least);
        blank(s, b < 36 ? 36 : b, e, any(2) ? 24 : 36);
        size_t counts[256], left = s - 3 - e;
        for (size_t j = 0; j < e; j++)
            left -= (counts[j] = 1 + any(left + 1 < 6 ? left + 1 : 6)) - 1;
        chains(counts);
    }
    for (size_t j = 1; j <= entries; j++) {
        size_t kind = any(KINDS);
        if (any(3)) {
            ticket(j, kind);
            for (size_t i = 2; i < 32; i++)
                image[4 + j * size + i] = any(256);
            if (any(4) == 0)
                image[4 + j * size] = any(64) << 2;
        }
    }
    if (any(3) == 0) { /* copy B */
        image[3] = 1;
        memcpy(image + directory + size, image + directory, size);
        directory += size;
        table += size;
    }
    damage();
}

int main(int argc, char **argv)
{
    static const char *const names[] = { "small", "middle", "large" };
    static void (*const make[])(void) = { small_card, middle_card, large_card };
    static const char *const shapes[] = SHAPE_NAMES, *const tails[] = TAIL_NAMES;
    const char *work = argc > 1 ? argv[1] : "";
    card_answer a;
    card_ticket t;
    uint64_t values[25];

    if (!strcmp(work, "table")) {
        for (size_t c = 0; c < 3; c++) {
            make[c]();
            memcpy(saved, image, length);
            for (size_t r = 0; r < ROUNDS; r++) {
                COUNTED(a = card_check(image, length));
                add(a.number), add(a.entry);
            }
            row("check", names[c], ROUNDS);
            for (size_t r = 0; r < ROUNDS; r++) {
                COUNTED(t = card_read_ticket(image, length, 1 + r % entries, buffer, sizeof buffer));
                add_ticket(&t);
            }
            row("ticket read", names[c], ROUNDS);
            for (size_t r = 0; r < ROUNDS; r++) {
                uint64_t value = any(limit_of(TYP_23, r % 22) + 1);
                COUNTED(a = card_write_field(image, length, 1 + r % entries, 1 + r % 22, value));
                add(a.number), add(a.entry);
            }
            row("field write", names[c], ROUNDS);
            for (size_t r = 0; r < ROUNDS; r++) {
                any_values(values, TYP_23);
                COUNTED(a = card_write_record(image, length, 1 + r % entries, 23, 2, values));
                add(a.number), add(a.entry);
            }
            row("record write", names[c], ROUNDS);
            for (size_t r = 0; r < ROUNDS; r++) {
                COUNTED(a = card_mark(image, length, 1 + r % entries, 1));
                add(a.number), add(a.entry);
            }
            row("mark", names[c], ROUNDS);
            for (size_t r = 0; r < ROUNDS; r++) {
                memcpy(image, saved, length);
                COUNTED(a = card_mark(image, length, 1 + r % entries, 2));
                add(a.number), add(a.entry);
            }
            row("mark, stored", names[c], ROUNDS);
        }
        for (size_t c = 0; c < 3; c++) {
            make[c]();
            for (size_t j = 1; j <= entries; j++)
                ticket(j, TYP_22_3);
            for (size_t r = 0; r < ROUNDS; r++) {
                COUNTED(t = card_read_ticket(image, length, 1 + r % entries, buffer, sizeof buffer));
                add_ticket(&t);
            }
            row("ticket read, 22/3", names[c], ROUNDS);
            for (size_t r = 0; r < ROUNDS; r++) {
                any_values(values, TYP_22_3);
                COUNTED(a = card_write_record(image, length, 1 + r % entries, 22, 3, values));
                add(a.number), add(a.entry);
            }
            row("record write, 22/3", names[c], ROUNDS);
        }
        for (size_t c = 0; c < 4; c++) {
            static const char *const worst[] = { "all share", "all share but the last, in a loop", "all share", "all sectors in chains" };
            char name[100];
            c == 0 ? shared_card(127, 26) : c == 1 ? looped_card(127, 26) : c == 2 ? shared_card(44, 41) : full_card();
            COUNTED(a = card_check(image, length));
            sprintf(name, "S %lu, e# %lu, %s: %lu at %lu", sectors, entries, worst[c], a.number, a.entry);
            row("check", name, 1);
        }
        large_card();
        memcpy(saved, image, length);
        COUNTED(a = card_touched(saved, length, image, length, flags, 1));
        add(a.number), add(a.entry), add(flags[0]);
        row("touched", "two equal large cards", 1);
    }
    if (!strcmp(work, "growth"))
        for (size_t g = 0; g < sizeof growths / sizeof *growths; g++) {
            for (size_t i = 0; i < 2; i++) {
                const size_t *c = growths[g].cards[i];
                blank(c[0], 255, c[1], c[4]);
                for (size_t j = 1; j <= c[2]; j++) {
                    ticket(j, TYP_23);
                    element(j, sectors - 1);
                }
                if (c[3] > 1) {
                    line(c[1] + 1, c[1] + c[3] - 1);
                    element(1, c[1] + 1);
                }
                memcpy(saved, image, length);
                if (growths[g].call == 'c')
                    COUNTED(a = card_check(image, length));
                if (growths[g].call == 't')
                    COUNTED(t = card_read_ticket(image, length, 1, buffer, sizeof buffer));
                if (growths[g].call == 'd')
                    COUNTED(a = card_touched(saved, length, image, length, flags, entries));
                add(growths[g].call == 't' ? t.number : a.number);
            }
            row("growth", growths[g].what, growths[g].more);
        }
    if (!strcmp(work, "nasty"))
        for (size_t s = 4; s <= 237; s++)
            for (size_t shape = 0; shape < SHAPES; shape++)
                for (size_t tail = 0; tail < TAILS; tail++) {
                    nasty_card(s, shape, tail);
                    COUNTED(a = card_check(image, length));
                    printf("S %lu, e# %lu, %s, %s: %lu at %lu\n", s, entries, shapes[shape], tails[tail], a.number, a.entry);
                }
    if (!strcmp(work, "dates")) {
        card_date d;
        for (uint64_t stamp = 0; stamp < 16384; stamp++) {
            COUNTED(d = card_date_of(stamp));
            add(d.number), add(d.entry), add(d.year), add(d.month), add(d.day);
        }
        row("date", "each stamp", 16384);
        COUNTED(d = card_date_of(16384));
        add(d.number), add(d.entry), add(d.year), add(d.month), add(d.day);
        row("date", "refused: 30", 1);
        row("stamp", "each date that has one", count_stamps(1));
        row("stamp", "refused: 29", count_stamps(0));
    }
    if (!strcmp(work, "same"))
        for (size_t from = atoi(argv[2]), n = from; n < from + atoi(argv[3]); n++) {
            state = n;
            any_card();
            memcpy(saved, image, length);
            if (any(30) == 0) { /* an image that ends early, and says so */
                length = any(80);
                image[0] = 0;
                image[1] = length;
            }
            size_t e = any(8) ? 1 + any(entries) : any(300), given = any(20) ? length : any(200), room = any(4) ? sizeof buffer : any(300);
            size_t numbers[6], field = any(28), typ, revision, kind, took[2] = { KINDS, KINDS };
            named(e, &typ, &revision);
            kind = kind_of(typ, revision);
            a = card_check(image, given);
            add(numbers[0] = a.number), add(a.entry);
            t = card_read_ticket(image, given, e, buffer, room);
            numbers[1] = t.number;
            if (t.number == 0)
                took[0] = kind;
            add_ticket(&t);
            add_bytes(buffer, 600);
            if (kind == KINDS)
                kind = any(KINDS);
            a = card_write_field(image, given, e, field, field - 1 < kinds[kind].count && any(4) ? limit_of(kind, field - 1) + any(2) : any(1 << 30));
            add(numbers[2] = a.number), add(a.entry);
            if (any(6) == 0) { /* a record of another kind, or of none */
                if (any(2))
                    kind = any(KINDS);
                typ = kinds[kind].typ;
                revision = kinds[kind].revision;
                if (any(4) == 0)
                    typ += any(2) ? 256 : any(2) ? (uint64_t)1 << 32 : any(3) - 1;
                if (any(4) == 0)
                    revision += any(2) ? 16 : any(2) ? (uint64_t)1 << 32 : any(3) - 1;
            }
            any_values(values, kind);
            for (size_t i = 0; i < kinds[kind].count; i++)
                if (any(10) == 0)
                    values[i] = limit_of(kind, i) + (any(10) == 0);
            a = card_write_record(image, given, e, typ, revision, values);
            add(numbers[3] = a.number), add(a.entry);
            if (a.number == 0)
                took[1] = kind;
            a = card_mark(image, given, e, any(4));
            add(numbers[4] = a.number), add(a.entry);
            add_bytes(image, length);
            if (any(2))
                damage();
            a = card_touched(saved, given, image, length, flags, any(8) ? entries : any(256));
            add(numbers[5] = a.number), add(a.entry);
            add_bytes(flags, sizeof flags);
            printf("%lu", n);
            for (size_t i = 0; i < 6; i++)
                printf(" %lu", numbers[i]);
            for (size_t i = 0; i < 2; i++)
                took[i] < KINDS ? printf(" %d/%d", kinds[took[i]].typ, kinds[took[i]].revision) : printf(" -");
            printf(" %lx\n", sum);
        }
    return 0;
}
