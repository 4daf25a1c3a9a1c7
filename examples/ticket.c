/* Reads a ticket of a card, and blocks it if asked to.
     ticket FILE ENTRY            what the ticket says
     ticket FILE ENTRY block      the same, then the product is blocked and the file written again */
#include "../include/card.h"
#include <stdio.h>
#include <stdlib.h>
#include <string.h>

static const char *const MARKS[] = { "fresh", "used", "blocked" };

/* Every call answers with a number, 0 for success, and the entry concerned. */
static void need(const char *call, size_t number, size_t entry)
{
    if (number == 0)
        return;
    printf("%s: refused with %zu, entry %zu\n", call, number, entry);
    exit(1);
}

/* The numbers of some fields by kind, from the lists in card.h: IssueDate, PartySizeAdult, PartySizeChild, AmountPaid. */
static const struct { uint64_t typ, revision; size_t issued, adults, children, paid; } KINDS[] = {
    { 23, 2, 7, 12, 13, 17 }, { 22, 1, 6, 15, 16, 20 }, { 22, 2, 6, 15, 16, 20 }, { 22, 3, 6, 18, 19, 23 },
};

static void print_ticket(card_ticket t)
{
    size_t k = 0; /* one of these it is: any other kind was refused with 22 */
    while (KINDS[k].typ != t.typ || KINDS[k].revision != t.header[3 - 1])
        k++;
    card_date issued = card_date_of(t.values[KINDS[k].issued - 1]);
    need("the date of issue", issued.number, issued.entry);
    printf("kind        TYP %u revision %u\n", (unsigned)t.typ, (unsigned)t.header[3 - 1]);
    printf("issued      %04u-%02u-%02u\n", (unsigned)issued.year, (unsigned)issued.month, (unsigned)issued.day);
    printf("ends        minute %u after 1 January 1997\n", (unsigned)t.end);
    printf("adults      %u\n", (unsigned)t.values[KINDS[k].adults - 1]);
    printf("children    %u\n", (unsigned)t.values[KINDS[k].children - 1]);
    printf("paid        %u\n", (unsigned)t.values[KINDS[k].paid - 1]);
    printf("mark        %s\n", MARKS[t.mark]);
    printf("sectors     %zu\n", t.sectors);
}

int main(int count, char **words)
{
    static uint8_t image[65536], buffer[65536];
    int block = count == 4 && strcmp(words[3], "block") == 0;
    FILE *file = count == 3 || block ? fopen(words[1], block ? "r+b" : "rb") : NULL;
    if (!file) {
        fprintf(stderr, "usage: ticket FILE ENTRY [block], on a file that can be read\n");
        return 2;
    }
    size_t length = fread(image, 1, sizeof image, file), entry = strtoul(words[2], NULL, 10);

    card_answer checked = card_check(image, length);
    need("the card", checked.number, checked.entry);
    card_ticket ticket = card_read_ticket(image, length, entry, buffer, sizeof buffer);
    need("the ticket", ticket.number, ticket.entry);
    print_ticket(ticket);

    if (block) {
        card_answer marked = card_mark(image, length, entry, 2);
        need("the mark", marked.number, marked.entry);
        rewind(file);
        if (fwrite(image, 1, length, file) != length || fflush(file) != 0)
            return perror(words[1]), 1;
        puts("blocked");
    }
    return fclose(file) == 0 ? 0 : 1;
}
