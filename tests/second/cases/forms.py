"""The kinds of ticket as a card's maker knows them: written down apart from the model's lists."""

from collections import namedtuple

BIG = 2 ** 64 - 1
FIRST_BIT = 16
MOST_VALUES = 25
MOST_BYTES = 27

# Document 000, Table 31a; Tables 27 and 27a; Table 3.27.
WIDTHS_23_2 = (8, 16, 8, 2, 6, 2, 14, 5, 11, 5, 3, 8, 8, 8, 4, 4, 32, 4, 12, 32, 8, 16)
WIDTHS_22 = (8, 16, 16, 2, 6, 14, 11, 1, 6, 3, 5)
WIDTHS_22_1 = WIDTHS_22 + (24, 8, 8, 8, 8, 8, 4, 4, 16, 4, 12)
WIDTHS_22_2 = WIDTHS_22 + (24, 8, 8, 8, 8, 8, 4, 4, 32, 4, 12)
WIDTHS_22_3 = WIDTHS_22 + (2, 14, 5, 11, 8, 8, 8, 8, 8, 4, 4, 32, 4, 12)

# TYP, revision, widths, first byte after the fixed fields, least dataset, number and first bit of ExpiryTime.
Form = namedtuple("Form", "typ revision widths end least time time_bit")

FORMS = (Form(23, 2, WIDTHS_23_2, 29, 32, 9, 77), Form(22, 1, WIDTHS_22_1, 26, 28, 7, 78),
         Form(22, 2, WIDTHS_22_2, 28, 28, 7, 78), Form(22, 3, WIDTHS_22_3, 29, 32, 7, 78))

# TYPs and revisions that are on no list, many of them equal to a listed one but for bits that must not be cut off.
UNLISTED = ((22, 0), (22, 4), (23, 1), (23, 3), (0, 0), (0, 2), (21, 1), (21, 2), (24, 2), (24, 3), (23, 0), (22, 15), (31, 2), (7, 3),
            (278, 1), (278, 2), (278, 3), (279, 2), (22, 257), (22, 258), (22, 17), (22, 18), (23, 18), (23, 258), (54, 1), (55, 2),
            (2 ** 32 + 22, 3), (22, 2 ** 32 + 3), (2 ** 63 + 22, 1), (22, 2 ** 63 + 2), (2 ** 63 + 23, 2), (23, 2 ** 63 + 2),
            (2 ** 63, 2), (BIG, BIG), (22, BIG), (BIG, 2), (2, 23), (1, 22), (3, 22))


def form_of(typ, revision):
    """The form with this TYP and revision, or None."""
    for form in FORMS:
        if (form.typ, form.revision) == (typ, revision):
            return form
    return None


def unlisted_revisions(typ):
    """Revisions of four bits that make a TYP one that is on no list."""
    return [revision for revision in range(16) if form_of(typ, revision) is None]


def name(form):
    """TYP and revision as a command has them."""
    return "%d %d" % (form.typ, form.revision)


def most(form):
    """The largest values that the form's fields take."""
    return [2 ** width - 1 for width in form.widths]


def place(form, field):
    """First bit in the product and width of a field, by the widths of those before it."""
    return FIRST_BIT + sum(form.widths[:field - 1]), form.widths[field - 1]


def whole_place(form):
    """First bit in the product and width of all fields together."""
    return FIRST_BIT, sum(form.widths)


def packed(form, record):
    """The bytes of a record that fits, its fields written out as binary digits, one after the other."""
    digits = "".join(format(value, "0%db" % width) for value, width in zip(record, form.widths))
    return bytes(int(digits[i:i + 8], 2) for i in range(0, len(digits), 8))


def unpacked(form, data):
    """The record in these bytes, likewise."""
    digits = "".join(format(byte, "08b") for byte in data)
    record = []
    for width in form.widths:
        record.append(int(digits[:width], 2))
        digits = digits[width:]
    return record
