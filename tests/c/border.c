/* Calls every function of include/card.h at the border that the header states: a null pointer with length 0 for each slice, which the proofs do
   not know, bytes at odd addresses, one image lent twice, values after those of a record's kind, kinds that are not listed. It is C and C++ of
   every standard: tests/header compiles it as each.
     border FILE     a card whose entry 1 is a ticket; says one line where all is well, else a line for each fault, and status 1 */
#include "../../include/card.h"
#include <stdio.h>
#include <string.h>

static uint8_t room[3 * 65536];
static uint64_t values[25];
static size_t calls, faults;

/* What a call answered: its number and entry, and how many bytes of its other values, or of what it may not write, are wrong. */
static void told(const char *call, size_t number, size_t entry, size_t wanted_number, size_t wanted_entry, size_t others)
{
    calls++;
    if (number == wanted_number && entry == wanted_entry && others == 0)
        return;
    faults++;
    printf("%s: %lu %lu for %lu %lu, and %lu wrong bytes\n", call, (unsigned long)number, (unsigned long)entry, (unsigned long)wanted_number,
        (unsigned long)wanted_entry, (unsigned long)others);
}

/* How many bytes have another colour. */
static size_t other_than(uint8_t colour, const void *part, size_t size)
{
    const uint8_t *bytes = (const uint8_t *)part;
    size_t i, n = 0;
    for (i = 0; i < size; i++)
        n += bytes[i] != colour;
    return n;
}

#define OTHERS(part) other_than(0, &(part), sizeof(part))
#define TOLD(call, r, number_, entry_, others) told(call, (r).number, (r).entry, number_, entry_, others)

static size_t of_ticket(card_ticket t)
{
    return OTHERS(t.typ) + OTHERS(t.header) + OTHERS(t.values) + OTHERS(t.end) + OTHERS(t.mark) + OTHERS(t.sectors);
}

/* No image, which is 1; and no image to compare with. */
static void no_image(void)
{
    card_answer a = card_check(NULL, 0);
    card_shell shell = card_read_shell(NULL, 0);
    card_directory directory = card_read_directory(NULL, 0);
    card_table table = card_read_table(NULL, 0);
    card_entry entry = card_read_entry(NULL, 0, 1);
    card_chain chain = card_read_chain(NULL, 0, 1);
    card_ticket ticket = card_read_ticket(NULL, 0, 1, NULL, 0);
    card_filled filled = card_fill(NULL, 0, 1, NULL, 0);
    TOLD("card_check", a, 1, 0, 0);
    TOLD("card_read_shell", shell, 1, 0, OTHERS(shell.values));
    TOLD("card_read_directory", directory, 1, 0, OTHERS(directory.values));
    TOLD("card_read_table", table, 1, 0, OTHERS(table.count) + OTHERS(table.elements));
    TOLD("card_read_entry", entry, 1, 0, OTHERS(entry.values));
    TOLD("card_read_chain", chain, 1, 0, OTHERS(chain.mark) + OTHERS(chain.count) + OTHERS(chain.sectors));
    TOLD("card_read_ticket", ticket, 1, 0, of_ticket(ticket));
    TOLD("card_fill", filled, 1, 0, OTHERS(filled.from) + OTHERS(filled.end));
    a = card_write_field(NULL, 0, 1, 17, 250);
    TOLD("card_write_field", a, 1, 0, 0);
    a = card_write_record(NULL, 0, 1, 23, 2, values);
    TOLD("card_write_record", a, 1, 0, 0);
    a = card_mark(NULL, 0, 1, 2);
    TOLD("card_mark", a, 1, 0, 0);
    a = card_touched(NULL, 0, NULL, 0, NULL, 0);
    TOLD("card_touched", a, 1, 0, 0);
}

/* The lent part of the buffer and sixteen bytes after it: none changes where the call is refused, and none past the product where it is not. */
static void one_size(const uint8_t *image, size_t length, size_t product, size_t size)
{
    uint8_t *buffer = room + 65536 + size % 8;
    size_t number = size < product ? 21 : 0, entry = size < product ? 1 : 0, from = size < product ? 0 : product;
    card_ticket ticket;
    card_filled filled;
    memset(room + 65536, 0xA5, 2 * 65536);
    ticket = card_read_ticket(image, length, 1, buffer, size);
    TOLD("card_read_ticket", ticket, number, entry, other_than(0xA5, buffer + from, size - from + 16));
    memset(room + 65536, 0xA5, 2 * 65536);
    filled = card_fill(image, length, 1, buffer, size);
    TOLD("card_fill", filled, number, entry, other_than(0xA5, buffer + from, size - from + 16));
}

/* A card at an odd address, with no buffer and no flags: 21 and 91. Then buffers that are a little too short and enough, at every address. */
static void no_buffer(const uint8_t *card, size_t length)
{
    uint8_t *image = room + 1, *flags = room + 65536 + 3;
    card_shell shell;
    card_ticket ticket;
    card_filled filled;
    card_answer a;
    size_t size, product;
    memcpy(image, card, length);
    shell = card_read_shell(image, length);
    TOLD("card_read_shell at an odd address", shell, 0, 0, 0);
    ticket = card_read_ticket(image, length, 1, NULL, 0);
    TOLD("card_read_ticket without a buffer", ticket, 21, 1, of_ticket(ticket));
    filled = card_fill(image, length, 1, NULL, 0);
    TOLD("card_fill without a buffer", filled, 21, 1, OTHERS(filled.from) + OTHERS(filled.end));
    a = card_touched(image, length, image, length, NULL, 0);
    TOLD("card_touched without flags", a, 91, 0, 0);
    a = card_touched(NULL, 0, image, length, NULL, 0);
    TOLD("card_touched without a first image", a, 1, 0, 0);
    a = card_touched(image, length, NULL, 0, NULL, 0);
    TOLD("card_touched without a second image", a, 1, 0, 0);
    memset(flags, 0xA5, 256);
    a = card_touched(image, length, image, length, flags, (size_t)shell.values[14]);
    TOLD("card_touched of one image", a, 0, 0, other_than(0, flags, (size_t)shell.values[14]) + other_than(0xA5, flags + shell.values[14], 1));
    product = (size_t)shell.values[12] * card_read_chain(image, length, 1).count;
    for (size = product - 9; size <= product + 9; size++)
        one_size(image, length, product, size);
    told("the card, only read", 0, 0, 0, 0, memcmp(image, card, length) != 0);
}

/* Records, tables and dates: no elements, no bytes; values that are all 0. */
static void no_bytes(void)
{
    static const uint64_t shell[16] = { 6 };
    static uint8_t bytes[27];
    card_answer a = card_encode_shell(shell, NULL, 0);
    card_table table = card_decode_table(16, NULL, 0);
    card_changed changed = card_record_set(23, 2, values, 23, 1);
    card_value value = card_record_value(23, 2, values, 0);
    card_entry_bytes entry = card_encode_entry(values);
    card_head_bytes head = card_encode_head(values), header = card_encode_header(values);
    card_tail_bytes tail = card_encode_tail(values);
    card_ticket_bytes ticket = card_encode_ticket(23, 2, values);
    card_shell_values shell_values = card_decode_shell(bytes);
    card_entry_values entry_values = card_decode_entry(bytes);
    card_head_values head_values = card_decode_head(bytes), header_values = card_decode_header(bytes);
    card_tail_values tail_values = card_decode_tail(bytes);
    card_decoded record = card_decode_ticket(23, 2, bytes);
    card_date date = card_date_of(16384);
    card_stamp stamp = card_stamp_of(2041, 13, 1);
    TOLD("card_encode_shell without room", a, 21, 0, 0);
    TOLD("card_decode_table without bytes", table, 21, 0, OTHERS(table.count) + OTHERS(table.elements));
    TOLD("card_record_set", changed, 25, 0, (changed.next.typ != 23) + (changed.next.revision != 2) + OTHERS(changed.next.values));
    TOLD("card_record_value", value, 25, 0, OTHERS(value.value));
    TOLD("card_encode_entry", entry, 0, 0, OTHERS(entry.bytes));
    TOLD("card_encode_head", head, 0, 0, OTHERS(head.bytes));
    TOLD("card_encode_header", header, 0, 0, OTHERS(header.bytes));
    TOLD("card_encode_tail", tail, 0, 0, OTHERS(tail.bytes));
    TOLD("card_encode_ticket", ticket, 0, 0, (ticket.count != 27) + OTHERS(ticket.bytes));
    TOLD("card_decode_ticket", record, 0, 0, (record.next.typ != 23) + (record.next.revision != 2) + OTHERS(record.next.values));
    told("the decoders of the directory and the shell", 0, 0, 0, 0, OTHERS(shell_values) + OTHERS(entry_values) + OTHERS(head_values) + OTHERS(tail_values));
    told("the decoder of a ticket's header", 0, 0, 0, 0, OTHERS(header_values));
    TOLD("card_date_of", date, 30, 0, OTHERS(date.year) + OTHERS(date.month) + OTHERS(date.day));
    TOLD("card_stamp_of", stamp, 29, 0, OTHERS(stamp.stamp));
    a = card_encode_table(16, NULL, 0, NULL, 0);
    TOLD("card_encode_table without elements and room", a, 21, 0, 0);
    a = card_encode_table(16, values, 13, NULL, 0);
    TOLD("card_encode_table without room", a, 21, 0, 0);
    a = card_encode_table(16, NULL, 0, bytes, 7);
    TOLD("card_encode_table without elements", a, 21, 0, OTHERS(bytes));
}

/* The kinds of ticket: how many values, how many bytes they are, and the least 4 x IPELength. */
static const struct { uint64_t typ, revision; size_t values, bytes; uint8_t least; } kinds[4] = {
    { 23, 2, 22, 27, 32 }, { 22, 1, 22, 24, 28 }, { 22, 2, 22, 26, 28 }, { 22, 3, 25, 27, 32 }
};

/* How many things of a record are wrong: its kind, the first `count` values, the zeros after them. */
static size_t of_record(card_record r, uint64_t typ, uint64_t revision, const uint64_t *wanted, size_t count)
{
    size_t i, n = (r.typ != typ) + (r.revision != revision);
    for (i = 0; i < 25; i++)
        n += r.values[i] != (i < count ? wanted[i] : 0);
    return n;
}

/* A kind, of which all fields have their largest value, and 0 in the last: on the card at an odd address, and as a record that has more after it. */
static void one_kind(const uint8_t *card, size_t length, size_t kind)
{
    uint8_t *image = room + 1, *buffer = room + 65536 + 5, *entry, *product, before[33];
    uint64_t typ = kinds[kind].typ, revision = kinds[kind].revision, junk[25];
    size_t count = kinds[kind].values, bytes = kinds[kind].bytes, i;
    card_shell shell = card_read_shell(card, length);
    card_ticket ticket;
    card_filled filled;
    card_ticket_bytes encoded;
    card_decoded decoded;
    card_changed changed;
    card_value value;
    card_answer a;
    memcpy(image, card, length);
    entry = image + 4 + (shell.values[13] - 2 + image[3]) * shell.values[12] + 2;
    entry[1] = (uint8_t)((entry[1] & ~3) | typ >> 3);
    entry[2] = (uint8_t)((entry[2] & 31) | (typ & 7) << 5);
    product = image + 4 + shell.values[12];
    memset(product, 0xFF, 33);
    product[0] = kinds[kind].least;
    product[1] = (uint8_t)revision;

    ticket = card_read_ticket(image, length, 1, buffer, 65536);
    TOLD("card_read_ticket of a kind", ticket, 0, 0,
        (ticket.typ != typ) + (ticket.header[2] != revision) + other_than(0, ticket.values + count, 8 * (25 - count)));
    filled = card_fill(image, length, 1, buffer, 65536);
    TOLD("card_fill of a kind", filled, 0, 0, (filled.from != 2 + bytes) + (filled.end != kinds[kind].least));
    decoded = card_decode_ticket(typ, revision, product + 2);
    TOLD("card_decode_ticket of a kind", decoded, 0, 0, of_record(decoded.next, typ, revision, ticket.values, count));
    for (i = 0; i < 25; i++)
        junk[i] = i < count ? ticket.values[i] : ~(uint64_t)i;
    encoded = card_encode_ticket(typ, revision, junk);
    TOLD("card_encode_ticket of a kind", encoded, 0, 0,
        (encoded.count != bytes) + other_than(0xFF, encoded.bytes, bytes) + other_than(0, encoded.bytes + bytes, 27 - bytes));
    changed = card_record_set(typ, revision, junk, count, ticket.values[count - 1] + 1);
    TOLD("card_record_set of a value too large", changed, 26, 0, of_record(changed.next, typ, revision, junk, count));
    changed = card_record_set(typ, revision, junk, count + 1, 0);
    TOLD("card_record_set of a field after the last", changed, 25, 0, of_record(changed.next, typ, revision, junk, count));
    value = card_record_value(typ, revision, junk, count + 1);
    TOLD("card_record_value of a field after the last", value, 25, 0, OTHERS(value.value));
    value = card_record_value(typ, revision, junk, count);
    TOLD("card_record_value of the last field", value, 0, 0, value.value != junk[count - 1]);
    changed = card_record_set(typ, revision, junk, count, 0);
    junk[count - 1] = 0;
    TOLD("card_record_set of the last field", changed, 0, 0, of_record(changed.next, typ, revision, junk, count));

    memcpy(before, product, 33);
    a = card_write_field(image, length, 1, count + 1, 0);
    TOLD("card_write_field of a field after the last", a, 25, 1, memcmp(before, product, 33) != 0);
    a = card_write_record(image, length, 1, typ + 256, revision, junk);
    TOLD("card_write_record of another TYP", a, 22, 1, memcmp(before, product, 33) != 0);
    a = card_write_record(image, length, 1, typ, revision + 16, junk);
    TOLD("card_write_record of another revision", a, 22, 1, memcmp(before, product, 33) != 0);
    a = card_write_record(image, length, 1, typ, revision, junk);
    decoded = card_decode_ticket(typ, revision, product + 2);
    TOLD("card_write_record of a kind", a, 0, 0, of_record(decoded.next, typ, revision, junk, count) + other_than(0xFF, product + 2 + bytes, 31 - bytes));
}

/* A kind that is not listed. */
static void no_kind(uint64_t typ, uint64_t revision)
{
    static uint8_t bytes[27];
    uint64_t junk[25];
    card_changed changed;
    card_value value;
    card_ticket_bytes encoded;
    card_decoded decoded;
    memset(junk, 0xA5, sizeof junk);
    memset(bytes, 0xA5, sizeof bytes);
    changed = card_record_set(typ, revision, junk, 1, 1);
    TOLD("card_record_set of no kind", changed, 22, 0, of_record(changed.next, typ, revision, junk, 0));
    value = card_record_value(typ, revision, junk, 1);
    TOLD("card_record_value of no kind", value, 22, 0, OTHERS(value.value));
    encoded = card_encode_ticket(typ, revision, junk);
    TOLD("card_encode_ticket of no kind", encoded, 22, 0, OTHERS(encoded.count) + OTHERS(encoded.bytes));
    decoded = card_decode_ticket(typ, revision, bytes);
    TOLD("card_decode_ticket of no kind", decoded, 22, 0, of_record(decoded.next, 0, 0, junk, 0));
}

static void all_kinds(const uint8_t *card, size_t length)
{
    size_t kind;
    for (kind = 0; kind < 4; kind++) {
        one_kind(card, length, kind);
        no_kind(kinds[kind].typ + 256, kinds[kind].revision);
        no_kind(kinds[kind].typ, kinds[kind].revision + 16);
        no_kind(kinds[kind].typ + ((uint64_t)1 << 32), kinds[kind].revision);
        no_kind(kinds[kind].typ, kinds[kind].revision + ((uint64_t)1 << 32));
    }
    no_kind(22, 0);
    no_kind(22, 4);
    no_kind(23, 1);
    no_kind(23, 3);
    no_kind(0, 0);
}

int main(int count, char **words)
{
    static uint8_t card[65536];
    FILE *file = count == 2 ? fopen(words[1], "rb") : NULL;
    size_t length = file ? fread(card, 1, sizeof card, file) : 0;
    if (length == 0)
        return 2;
    no_image();
    no_buffer(card, length);
    no_bytes();
    all_kinds(card, length);
    if (faults == 0)
        printf("%lu calls with nothing lent, at odd addresses, one image twice, and of each kind and none: each answers as document 01 says\n",
            (unsigned long)calls);
    return faults != 0;
}
