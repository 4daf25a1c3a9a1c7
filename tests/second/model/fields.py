"""Places and widths of all fields, and the encoders and decoders of fixed size."""

from .bits import fits, read_bits, write_bits
from .refusal import Refused

# Document 004, Table 1: the first twenty bytes of the shell.
SHELL = (
    ("ShellLength", 6), ("ShellBitMap", 6), ("ShellFormatRevision", 4),
    ("IIN", 24), ("OID", 16), ("ISSN", 28), ("CHD", 4),
    ("FVC", 8), ("KSC", 8), ("KVC", 8), ("reserved", 2), ("EXP", 14),
    ("B", 8), ("S", 8), ("e#", 8), ("SCTL", 8),
)

# Document 004, Table 9: the five bytes of an entry.
ENTRY = (("EF", 1), ("OID", 13), ("TYP", 5), ("PTYP", 5), ("VGP", 1), ("IINL", 1), ("EXP", 14))

# Document 004, Table 5: the two bytes before the entries.
HEAD = (("DIRLength", 6), ("DIRBitMap", 6), ("DIRFormatRevision", 4))

# Document 004, Table 5 and 5.2: the six bytes after the chain table.
TAIL = (("DIRS#", 8), ("KID", 4), ("INS#", 4), ("ISAMID", 32))

# Document 000, Tables 31a, 27, 27a and 3.27: the two bytes before the fields of a ticket.
HEADER = (("IPELength", 6), ("IPEBitMap", 6), ("IPEFormatRevision", 4))

# The lists of fields: name, first bit in the product, width.

# Document 000, Table 31a.
TYP_23_REVISION_2 = (
    ("RemoveDate", 16, 8),
    ("ProductRetailer", 24, 16),
    ("TYP23Flags", 40, 8),
    ("RFU", 48, 2),
    ("PassbackTime", 50, 6),
    ("RFU", 56, 2),
    ("IssueDate", 58, 14),
    ("ValidityCode", 72, 5),
    ("ExpiryTime", 77, 11),
    ("RFU", 88, 5),
    ("Class", 93, 3),
    ("PartySizeAdult", 96, 8),
    ("PartySizeChild", 104, 8),
    ("PartySizeConcession", 112, 8),
    ("RFU", 120, 4),
    ("AmountPaidCurrencyCode", 124, 4),
    ("AmountPaid", 128, 32),
    ("MethodOfPayment", 160, 4),
    ("VATSalesTax", 164, 12),
    ("PhotocardNumber", 176, 32),
    ("PromotionCode", 208, 8),
    ("CPICC", 216, 16),
)

# Document 000, Table 27.
TYP_22_REVISION_1 = (
    ("RemoveDate", 16, 8),
    ("ProductRetailer", 24, 16),
    ("TYP22Flags", 40, 16),
    ("RFU", 56, 2),
    ("PassbackTime", 58, 6),
    ("IssueDate", 64, 14),
    ("ExpiryTime", 78, 11),
    ("RFU", 89, 1),
    ("AutoRenewQuantity1", 90, 6),
    ("Class", 96, 3),
    ("ValidityCode", 99, 5),
    ("ValidityStartDTS", 104, 24),
    ("PromotionCode", 128, 8),
    ("ValidOnDayCode", 136, 8),
    ("PartySizeAdult", 144, 8),
    ("PartySizeChild", 152, 8),
    ("PartySizeConcession", 160, 8),
    ("RFU", 168, 4),
    ("AmountPaidCurrencyCode", 172, 4),
    ("AmountPaid", 176, 16),
    ("MethodOfPayment", 192, 4),
    ("VATSalesTax", 196, 12),
)

# Document 000, Table 27a.
TYP_22_REVISION_2 = (
    ("RemoveDate", 16, 8),
    ("ProductRetailer", 24, 16),
    ("TYP22Flags", 40, 16),
    ("RFU", 56, 2),
    ("PassbackTime", 58, 6),
    ("IssueDate", 64, 14),
    ("ExpiryTime", 78, 11),
    ("RFU", 89, 1),
    ("AutoRenewQuantity1", 90, 6),
    ("Class", 96, 3),
    ("ValidityCode", 99, 5),
    ("ValidityStartDTS", 104, 24),
    ("PromotionCode", 128, 8),
    ("ValidOnDayCode", 136, 8),
    ("PartySizeAdult", 144, 8),
    ("PartySizeChild", 152, 8),
    ("PartySizeConcession", 160, 8),
    ("RFU", 168, 4),
    ("AmountPaidCurrencyCode", 172, 4),
    ("AmountPaid", 176, 32),
    ("MethodOfPayment", 208, 4),
    ("VATSalesTax", 212, 12),
)

# Document 000, Table 3.27.
TYP_22_REVISION_3 = (
    ("RemoveDate", 16, 8),
    ("ProductRetailer", 24, 16),
    ("TYP22Flags", 40, 16),
    ("RFU", 56, 2),
    ("PassbackTime", 58, 6),
    ("IssueDate", 64, 14),
    ("ExpiryTime", 78, 11),
    ("RFU", 89, 1),
    ("AutoRenewQuantity1", 90, 6),
    ("Class", 96, 3),
    ("ValidityCode", 99, 5),
    ("RFU", 104, 2),
    ("ValidityStartDate", 106, 14),
    ("RFU", 120, 5),
    ("ValidityStartTime", 125, 11),
    ("PromotionCode", 136, 8),
    ("ValidOnDayCode", 144, 8),
    ("PartySizeAdult", 152, 8),
    ("PartySizeChild", 160, 8),
    ("PartySizeConcession", 168, 8),
    ("RFU", 176, 4),
    ("AmountPaidCurrencyCode", 180, 4),
    ("AmountPaid", 184, 32),
    ("MethodOfPayment", 216, 4),
    ("VATSalesTax", 220, 12),
)

TICKET_FIRST_BIT = 16
BLOCK_BYTES = 4


class Kind:
    """A kind of ticket: its TYP, its revision and its list of fields."""

    def __init__(self, typ, revision, fields):
        self.typ, self.revision, self.fields = typ, revision, fields

    def end_byte(self):
        """The bytes up to the end of the fixed fields; the first byte handed back."""
        _, first, width = self.fields[-1]
        return (first + width) // 8

    def least_dataset(self):
        """The fixed fields in whole blocks."""
        return BLOCK_BYTES * -(-self.end_byte() // BLOCK_BYTES)

    def has_field(self, number):
        """Whether a field of the list has this number."""
        return 1 <= number <= len(self.fields)

    def value_fits(self, number, value):
        """Whether a value fits the width of field `number`."""
        _, _, width = self.fields[number - 1]
        return fits(value, width)

    def record_fits(self, record):
        """Whether all values fit their fields."""
        return all(self.value_fits(number, value) for number, value in enumerate(record, 1))


KINDS = (Kind(23, 2, TYP_23_REVISION_2), Kind(22, 1, TYP_22_REVISION_1),
         Kind(22, 2, TYP_22_REVISION_2), Kind(22, 3, TYP_22_REVISION_3))


def kind_of(typ, revision, entry=0):
    """The kind on the lists; 22 if there is none."""
    for kind in KINDS:
        if (kind.typ, kind.revision) == (typ, revision):
            return kind
    raise Refused(22, entry)


def decode(layout, data):
    """The values of a layout, one field after the other from the first bit on."""
    values = []
    first = 0
    for _, width in layout:
        values.append(read_bits(data, first, width))
        first += width
    return values


def encode(layout, values):
    """The bytes of a layout; 26 if a value is too wide."""
    for (_, width), value in zip(layout, values):
        if not fits(value, width):
            raise Refused(26)
    total = sum(width for _, width in layout)
    data = bytearray(total // 8)
    first = 0
    for (_, width), value in zip(layout, values):
        write_bits(data, first, width, value)
        first += width
    return bytes(data)


def value_of(layout, values, name):
    """The value that stands under a name."""
    names = [field[0] for field in layout]
    return values[names.index(name)]


def decode_ticket(kind, data):
    """The list's values from the bytes that hold bit 16 to the list's end."""
    return [read_bits(data, first - TICKET_FIRST_BIT, width) for _, first, width in kind.fields]


def encode_ticket(kind, record):
    """The bytes of bit 16 to the list's end; 26 if a value is too wide."""
    if not kind.record_fits(record):
        raise Refused(26)
    data = bytearray(kind.end_byte() - TICKET_FIRST_BIT // 8)
    for (_, first, width), value in zip(kind.fields, record):
        write_bits(data, first - TICKET_FIRST_BIT, width, value)
    return bytes(data)
