/* How many bytes of stack each function of include/card.h uses, its return address included. Each is called on a painted stack of its own, with its
   words put into the registers of the calling convention, so that nothing of ours lies on that stack; then the lowest byte that lost its paint
   is looked for. Prints for each function: its name, the bytes on the smallest and on the largest input, the most on the worst inputs. */
#include "../bench/cards.h"

extern int printf(const char *, ...), strcmp(const char *, const char *);
extern void *memcpy(void *, const void *, size_t), *memset(void *, int, size_t);
extern void exit(int);

enum { SMALLEST, LARGEST, WORST, ROOM = 1 << 18 };

static uint8_t stack[ROOM] __attribute__((aligned(64)));
static uint8_t saved[65536], buffer[65536], flags[256], bytes[256];
static uint64_t result[64], values[25], elements[252];

/* Calls f with six words on the stack that ends at `top`; its first word of answer. */
size_t call_on(void (*f)(void), uint8_t *top, const size_t *words);
__asm__(".text\n.globl call_on\n.type call_on, @function\ncall_on:\n"
        "pushq %rbx\n movq %rsp, %rbx\n movq %rdi, %rax\n movq %rsi, %rsp\n movq %rdx, %r11\n"
        "movq 0(%r11), %rdi\n movq 8(%r11), %rsi\n movq 16(%r11), %rdx\n movq 24(%r11), %rcx\n movq 32(%r11), %r8\n movq 40(%r11), %r9\n"
        "callq *%rax\n movq %rbx, %rsp\n popq %rbx\n retq\n.size call_on, . - call_on\n");

/* In two colours, since a byte may be overwritten by its own; and each twice, since the first call of memcpy is the loader's. */
static size_t used(void (*f)(void), const size_t *words, size_t *answer)
{
    size_t most = 0;
    for (int round = 0; round < 4; round++) {
        uint8_t paint = round % 2 ? 0xA5 : 0x5A;
        memcpy(image, saved, sizeof image);
        memset(stack, paint, ROOM);
        *answer = call_on(f, stack + ROOM, words);
        size_t i = 0;
        while (i < ROOM && stack[i] == paint)
            i++;
        if (round >= 2 && ROOM - i > most)
            most = ROOM - i;
    }
    return most;
}

static struct { const char *name; size_t bytes[3]; } rows[64];
static size_t count;

/* Where the number is that must be 0 but on the worst inputs: in the answer, in the result, nowhere. */
enum numbered { ANSWER, RESULT, NONE };

static void use(int column, enum numbered numbered, const char *name, void (*f)(void), const size_t *words)
{
    size_t answer, n = used(f, words, &answer), number = numbered == ANSWER ? answer : numbered == RESULT ? result[0] : 0, k = 0;
    if (number != 0 && column != WORST) {
        printf("%s refuses with %lu\n", name, number);
        exit(1);
    }
    while (k < count && strcmp(rows[k].name, name))
        k++;
    if (k == count)
        rows[count++].name = name;
    if (n > rows[k].bytes[column])
        rows[k].bytes[column] = n;
}

#define USE(numbered, f, ...) use(column, numbered, #f, (void (*)(void))f, (size_t[6]){ __VA_ARGS__ })
#define AT(p) ((size_t)(p))

/* The card's tickets, if it has any that is read, are of this kind. */
static void on_image(int column, size_t kind)
{
    memcpy(saved, image, sizeof image);
    USE(ANSWER, card_check, AT(image), length);
    USE(RESULT, card_read_shell, AT(result), AT(image), length);
    USE(RESULT, card_read_directory, AT(result), AT(image), length);
    USE(RESULT, card_read_table, AT(result), AT(image), length);
    USE(RESULT, card_read_entry, AT(result), AT(image), length, 1);
    USE(RESULT, card_read_chain, AT(result), AT(image), length, 1);
    USE(RESULT, card_read_ticket, AT(result), AT(image), length, 1, AT(buffer), sizeof buffer);
    USE(RESULT, card_fill, AT(result), AT(image), length, 1, AT(buffer), sizeof buffer);
    USE(ANSWER, card_write_field, AT(image), length, 1, 17, 250);
    USE(ANSWER, card_write_record, AT(image), length, 1, kinds[kind].typ, kinds[kind].revision, AT(values));
    USE(ANSWER, card_mark, AT(image), length, 1, 2);
    USE(ANSWER, card_touched, AT(saved), length, AT(image), length, AT(flags), entries);
}

/* Each kind of record; on the worst inputs also one of no kind. */
#define EACH_KIND \
    for (size_t kind = 0, typ, revision; typ = kind < KINDS ? kinds[kind].typ : ~0ull, revision = kind < KINDS ? kinds[kind].revision : ~0ull, \
         kind < KINDS + (column == WORST); kind++)

static void on_values(int column, size_t s, size_t blocks)
{
    for (size_t i = 0; i < 252; i++)
        elements[i] = column == WORST ? 256 : 1;
    for (size_t i = 0; i < 25; i++)
        values[i] = column == WORST ? ~0ull : 0;
    EACH_KIND USE(RESULT, card_record_set, AT(result), typ, revision, AT(values), column == WORST ? 26 : 5, 50);
    EACH_KIND USE(RESULT, card_record_value, AT(result), typ, revision, AT(values), column == WORST ? 26 : 5);
    values[0] = blocks;
    USE(ANSWER, card_encode_shell, AT(values), AT(buffer), sizeof buffer);
    values[0] = values[1];
    USE(NONE, card_decode_shell, AT(result), AT(bytes));
    USE(RESULT, card_encode_entry, AT(result), AT(values));
    USE(NONE, card_decode_entry, AT(result), AT(bytes));
    USE(RESULT, card_encode_head, AT(result), AT(values));
    USE(NONE, card_decode_head, AT(result), AT(bytes));
    USE(RESULT, card_encode_tail, AT(result), AT(values));
    USE(NONE, card_decode_tail, AT(result), AT(bytes));
    USE(RESULT, card_encode_header, AT(result), AT(values));
    USE(NONE, card_decode_header, AT(result), AT(bytes));
    EACH_KIND USE(RESULT, card_encode_ticket, AT(result), typ, revision, AT(values));
    EACH_KIND USE(RESULT, card_decode_ticket, AT(result), typ, revision, AT(bytes));
    USE(ANSWER, card_encode_table, s, AT(elements), s - 3, AT(buffer), table_size_of(s));
    USE(RESULT, card_decode_table, AT(result), s, AT(bytes), table_size_of(s));
    USE(RESULT, card_date_of, AT(result), column == WORST ? 16384 : column == LARGEST ? 16383 : 0);
    USE(RESULT, card_stamp_of, AT(result), column == SMALLEST ? 1997 : 2041, column == WORST ? 13 : 11, 9);
}

/* Uses 5,000 bytes and an unknown few: the measure must see them. */
static void known(void)
{
    volatile uint8_t deep[5000];
    for (size_t i = 0; i < sizeof deep; i++)
        deep[i] = i;
}

int main(void)
{
    size_t answer, n = used(known, (size_t[6]){ 0 }, &answer);
    if (n < 5000 || n > 5200) {
        printf("a function that uses 5,000 bytes is seen to use %lu\n", n);
        return 1;
    }
    for (size_t kind = 0; kind < KINDS; kind++) {
        smallest_card();
        ticket(1, kind);
        on_image(SMALLEST, kind);
        large_card();
        ticket(1, kind);
        on_image(LARGEST, kind);
    }
    on_values(SMALLEST, 4, 6);
    on_values(LARGEST, 255, 63);
    shared_card(127, 26);
    on_image(WORST, TYP_23);
    looped_card(127, 26);
    on_image(WORST, TYP_23);
    shared_card(44, 41);
    on_image(WORST, TYP_23);
    full_card();
    on_image(WORST, TYP_23);
    on_values(WORST, 255, 63);
    for (size_t k = 0; k < count; k++)
        printf("%s %lu %lu %lu\n", rows[k].name, rows[k].bytes[SMALLEST], rows[k].bytes[LARGEST], rows[k].bytes[WORST]);
    return 0;
}
