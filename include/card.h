/* The card library for C. Each call checks the whole image itself, ends on every input, and answers with a number and an entry: 0 and 0 for
   success, else a number of document 01 and the entry concerned (0 where none is named).

   A refused call leaves every byte that was lent to it as it was, and every other value of its answer is 0; card_record_set alone gives back the
   record that it took. The decoders of the shell, the entry, the directory's ends and a ticket's
   header cannot refuse and have no number. After `count` elements, sectors or bytes zeros follow.

   The border. No proof reaches across it: the caller keeps these, and nothing checks them.
   - A pointer is valid for its length, for reading and, unless it is to const, for writing; an array with its size in brackets for that size.
   - A pointer is null only where its length is 0; an array with its size in brackets never is.
   - What a call may write overlaps nothing else that it is given. What it only reads may: card_touched takes one image twice.
   - An array of uint64_t is aligned as its type. Bytes stand anywhere.

   The library takes no heap and has no data that can be written, so that it keeps nothing from one call to the next: calls may run in several
   tasks at once, as long as none writes what another one uses. From outside it needs memcpy and memset, and nothing else.
   card_date_of and card_stamp_of have no constant data either: a program that takes only these gets no constants with them.

   Link with the static library that tests/c/library writes. It is for x86-64, level v2: structs are laid out, passed and returned as the System V
   interface has C do it. This header is C from C89 on, given a stdint.h, and C++. */
/* Bytes of stack that a call takes at most, its return address included, as tests/stack measures them on the smallest, the largest and
   the worst cards:
   card_check 344, card_read_shell 632, card_read_directory 360, card_read_table 872, card_read_entry 360, card_read_chain 888,
   card_read_ticket 776, card_fill 568, card_write_field 376, card_write_record 376, card_mark 360, card_touched 488, card_record_set 728,
   card_record_value 264, card_encode_shell 192, card_decode_shell 208, card_encode_entry 32, card_decode_entry 8, card_encode_head 8,
   card_decode_head 8, card_encode_tail 40, card_decode_tail 8, card_encode_header 8, card_decode_header 8, card_encode_ticket 360,
   card_decode_ticket 280, card_encode_table 96, card_decode_table 312, card_date_of 8, card_stamp_of 8. */
#ifndef CARD_H
#define CARD_H

#include <stddef.h>
#include <stdint.h>

#ifdef __cplusplus
extern "C" {
#endif

/* The kinds of ticket, by TYP and revision: TYP is the directory entry's, the revision the product's. Each has a list of fields, which meet end to
   end from bit 16 of the product on. A field's number is the one that a call takes, and values[number - 1] is its value, which is below 2 to the
   power of its bits.

         TYP 23 revision 2              TYP 22 revision 1              TYP 22 revision 2              TYP 22 revision 3
   no.   field                  bits    field                  bits    field                  bits    field                  bits
     1   RemoveDate                8    RemoveDate                8    RemoveDate                8    RemoveDate                8
     2   ProductRetailer          16    ProductRetailer          16    ProductRetailer          16    ProductRetailer          16
     3   TYP23Flags                8    TYP22Flags               16    TYP22Flags               16    TYP22Flags               16
     4   RFU                       2    RFU                       2    RFU                       2    RFU                       2
     5   PassbackTime              6    PassbackTime              6    PassbackTime              6    PassbackTime              6
     6   RFU                       2    IssueDate                14    IssueDate                14    IssueDate                14
     7   IssueDate                14    ExpiryTime               11    ExpiryTime               11    ExpiryTime               11
     8   ValidityCode              5    RFU                       1    RFU                       1    RFU                       1
     9   ExpiryTime               11    AutoRenewQuantity1        6    AutoRenewQuantity1        6    AutoRenewQuantity1        6
    10   RFU                       5    Class                     3    Class                     3    Class                     3
    11   Class                     3    ValidityCode              5    ValidityCode              5    ValidityCode              5
    12   PartySizeAdult            8    ValidityStartDTS         24    ValidityStartDTS         24    RFU                       2
    13   PartySizeChild            8    PromotionCode             8    PromotionCode             8    ValidityStartDate        14
    14   PartySizeConcession       8    ValidOnDayCode            8    ValidOnDayCode            8    RFU                       5
    15   RFU                       4    PartySizeAdult            8    PartySizeAdult            8    ValidityStartTime        11
    16   AmountPaidCurrencyCode    4    PartySizeChild            8    PartySizeChild            8    PromotionCode             8
    17   AmountPaid               32    PartySizeConcession       8    PartySizeConcession       8    ValidOnDayCode            8
    18   MethodOfPayment           4    RFU                       4    RFU                       4    PartySizeAdult            8
    19   VATSalesTax              12    AmountPaidCurrencyCode    4    AmountPaidCurrencyCode    4    PartySizeChild            8
    20   PhotocardNumber          32    AmountPaid               16    AmountPaid               32    PartySizeConcession       8
    21   PromotionCode             8    MethodOfPayment           4    MethodOfPayment           4    RFU                       4
    22   CPICC                    16    VATSalesTax              12    VATSalesTax              12    AmountPaidCurrencyCode    4
    23                                                                                                AmountPaid               32
    24                                                                                                MethodOfPayment           4
    25                                                                                                VATSalesTax              12
         bytes, from byte 2 on    27    bytes, from byte 2 on    24    bytes, from byte 2 on    26    bytes, from byte 2 on    27
         least 4 x IPELength      32    least 4 x IPELength      28    least 4 x IPELength      28    least 4 x IPELength      32

   One array of 25 values serves every kind. After the values of the kind's own list it holds zeros in every answer, and in an argument is not looked
   at there. A TYP and a revision in an argument are whole numbers of 64 bits: 278 is not 22. 22 is the answer to every kind that is not above. */

/* The answer of a check, a step, or an encoder that writes into a lent buffer. */
typedef struct { size_t number, entry; } card_answer;

/* The shell's sixteen values in the order of the record. */
typedef struct { size_t number, entry; uint64_t values[16]; } card_shell;

/* DIRLength, DIRBitMap, DIRFormatRevision, DIRS#, KID, INS#, ISAMID. */
typedef struct { size_t number, entry; uint64_t values[7]; } card_directory;

/* The count of elements of the chain table, S-3, and the elements; zeros after. */
typedef struct { size_t number, entry, count; uint8_t elements[252]; } card_table;

/* EF, OID, TYP, PTYP, VGP, IINL, EXP of one entry. */
typedef struct { size_t number, entry; uint64_t values[7]; } card_entry;

/* The mark (fresh 0, used 1, blocked 2), the number of sectors and the sectors in chain order; zeros after. */
typedef struct { size_t number, entry, mark, count; uint8_t sectors[252]; } card_chain;

/* The entry's TYP, three header values (IPELength, IPEBitMap, the revision), the values of the kind's list, the end of the ticket in minutes (at
   most 23,595,007), the mark and the number of sectors. */
typedef struct { size_t number, entry; uint64_t typ, header[3], values[25], end; size_t mark, sectors; } card_ticket;

/* The first byte after the fixed fields in the filled buffer, and the dataset's end, 4 x IPELength. */
typedef struct { size_t number, entry, from, end; } card_filled;

/* A calendar date, and a stamp. */
typedef struct { size_t number, entry; uint64_t year, month, day; } card_date;
typedef struct { size_t number, entry; uint64_t stamp; } card_stamp;

/* A record: its kind, and the values of that kind's list. */
typedef struct { uint64_t typ, revision, values[25]; } card_record;

/* A record after a step on it (refused, the record as it was; one of no kind above with zeros for its values), and one value of it. */
typedef struct { size_t number, entry; card_record next; } card_changed;
typedef struct { size_t number, entry; uint64_t value; } card_value;

/* What encoders of fixed size give: the bytes, zeros where they refuse. A ticket's are `count` bytes, 24 to 27: its bytes from byte 2 to the end of
   its fields; count is 0 where it is refused. */
typedef struct { size_t number, entry; uint8_t bytes[5]; } card_entry_bytes;
typedef struct { size_t number, entry; uint8_t bytes[2]; } card_head_bytes;
typedef struct { size_t number, entry; uint8_t bytes[6]; } card_tail_bytes;
typedef struct { size_t number, entry, count; uint8_t bytes[27]; } card_ticket_bytes;

/* What decoders of fixed size give: the values; of a ticket's fields, a record. */
typedef struct { uint64_t values[16]; } card_shell_values;
typedef struct { uint64_t values[7]; } card_entry_values;
typedef struct { uint64_t values[3]; } card_head_values;
typedef struct { uint64_t values[4]; } card_tail_values;
typedef struct { size_t number, entry; card_record next; } card_decoded;

/* Whether the image is accepted: 0, or 1 to 12. */
card_answer card_check(const uint8_t *image, size_t length);

/* Reads. 20: no such product. */
card_shell card_read_shell(const uint8_t *image, size_t length);
card_directory card_read_directory(const uint8_t *image, size_t length);
card_table card_read_table(const uint8_t *image, size_t length);
card_entry card_read_entry(const uint8_t *image, size_t length, size_t entry);
card_chain card_read_chain(const uint8_t *image, size_t length, size_t entry);

/* Copies the product into the buffer and reads its ticket: 20, 21, 22, 23. Only the first sectors x B bytes of the buffer change. */
card_ticket card_read_ticket(const uint8_t *image, size_t length, size_t entry, uint8_t *buffer, size_t size);

/* The same copy and checks; the bytes after the fixed fields are buffer[from] up to buffer[end - 1], and none where from is end: a ticket may have
   none, and only the number tells a refusal. That is what `rest` is in Rattle. */
card_filled card_fill(const uint8_t *image, size_t length, size_t entry, uint8_t *buffer, size_t size);

/* Steps: a field write 20, 27, 22, 23, 25, 26; a record write 20, 27, 22, 23, 26; a mark 20, 28, 27. The field's number is by the list of the
   product's kind. A record write is 22 also where the record's TYP or revision is not the product's. */
card_answer card_write_field(uint8_t *image, size_t length, size_t entry, size_t field, uint64_t value);
card_answer card_write_record(uint8_t *image, size_t length, size_t entry, uint64_t typ, uint64_t revision, const uint64_t values[25]);
card_answer card_mark(uint8_t *image, size_t length, size_t entry, size_t mark);

/* Which entries differ between two images: flag j - 1 becomes 1 or 0. The images' own numbers, the first image's first; then 90 for images of
   another shape, 91 for flags not one for each entry. */
card_answer card_touched(const uint8_t *before, size_t before_length, const uint8_t *after, size_t after_length, uint8_t *flags, size_t count);

/* A field of a record, set: 22, 25, 26; and read: 22, 25. Refused, the record comes back as it was; one of no kind above comes back with zeros. Only
   the value that is set is held to its width. */
card_changed card_record_set(uint64_t typ, uint64_t revision, const uint64_t values[25], size_t field, uint64_t value);
card_value card_record_value(uint64_t typ, uint64_t revision, const uint64_t values[25], size_t field);

/* The shell's dataset, with zero padding and SECR, into a lent buffer: 26, 5, 8, 12, 21. Later bytes stay. */
card_answer card_encode_shell(const uint64_t values[16], uint8_t *out, size_t size);
card_shell_values card_decode_shell(const uint8_t bytes[20]);

/* An entry, the directory's two ends and a ticket's header, between values and bytes: 26. */
card_entry_bytes card_encode_entry(const uint64_t values[7]);
card_entry_values card_decode_entry(const uint8_t bytes[5]);
card_head_bytes card_encode_head(const uint64_t values[3]);
card_head_values card_decode_head(const uint8_t bytes[2]);
card_tail_bytes card_encode_tail(const uint64_t values[4]);
card_tail_values card_decode_tail(const uint8_t bytes[6]);
card_head_bytes card_encode_header(const uint64_t values[3]);
card_head_values card_decode_header(const uint8_t bytes[2]);

/* A ticket's fields, between a record and the bytes from byte 2 of the product on: 22, 26; and back: 22. All 27 bytes must be there to read; those
   after the fields of the kind do not matter. */
card_ticket_bytes card_encode_ticket(uint64_t typ, uint64_t revision, const uint64_t values[25]);
card_decoded card_decode_ticket(uint64_t typ, uint64_t revision, const uint8_t bytes[27]);

/* A chain table of S - 3 elements into a lent buffer of SCTL bytes: 6, 21, 26. And its elements: 6, 21. */
card_answer card_encode_table(uint64_t s, const uint64_t *elements, size_t count, uint8_t *out, size_t size);
card_table card_decode_table(uint64_t s, const uint8_t *bytes, size_t size);

/* A stamp's calendar date: 30. A date's stamp: 29. */
card_date card_date_of(uint64_t stamp);
card_stamp card_stamp_of(uint64_t year, uint64_t month, uint64_t day);

#ifdef __cplusplus
}
#endif

#endif
