"""Values apart from an image: checksums, dates, records, encoders and decoders."""

from model.fields import ENTRY, HEAD, HEADER, SHELL, TAIL
from model.table import psi, table_length

from . import isrn
from .calls import words
from .cards import random_record, record_with
from .forms import BIG, FORMS, MOST_BYTES, MOST_VALUES, UNLISTED, most, name, packed, unpacked

PUBLISHED = (("000000", 0xC6CC), ("0faaff", 0xD1FC), ("0a123456", 0xF62C), (b"123456789".hex(), 0x906E))

LAYOUTS = (("entry", ENTRY, 5), ("head", HEAD, 2), ("tail", TAIL, 6), ("header", HEADER, 2))


def crc_calls(script, dice, count):
    """The published values, every single byte of a few, and random bytes."""
    for text, value in PUBLISHED:
        script.say("crc", text, expect=str(value))
    script.say("crc -", expect="0")
    for _ in range(count):
        script.say("crc", dice.data(dice.pick([1, 2, 3, 20, 22, 30, dice.between(1, 250)])).hex())
    for text in ("crc", "crc 0", "crc 0G", "crc 0A", "crc 00 00", "crc 000", "crc --"):
        script.say(text, expect="?")


def date_calls(script, dice, count):
    """29 and 30 at their boundaries, the ends of months and random dates."""
    for stamp, date in ((0, "2041 11 10"), (1, "1997 1 2"), (2, "1997 1 3"), (16383, "2041 11 9"),
                        (1153, "2000 2 28"), (1154, "2000 2 29"), (1155, "2000 3 1")):
        script.say("date", stamp, expect="0 0 " + date)
        script.say("stamp", date, expect="0 0 %d" % stamp)
    for stamp in (16384, 16385, 32768, 65535, 65536, 65537, 2 ** 32, 2 ** 32 + 1, BIG):
        script.say("date", stamp, expect="30 0 0 0 0")
    outside = ((1996, 12, 31), (1997, 1, 1), (2041, 11, 11), (2041, 12, 1), (2042, 1, 1), (1996, 11, 10),
               (0, 1, 1), (1, 1, 1), (97, 1, 2), (9999, 12, 31), (10000, 1, 1), (2 ** 32 + 2000, 1, 1),
               (2 ** 16 + 2000, 1, 1), (BIG, BIG, BIG), (BIG, 1, 1), (0, 0, 0))
    for date in outside:
        script.say("stamp", words(date), expect="29 0 0")
    for year in (1997, 2000, 2001, 2004, 2040, 2041):
        for month, day in ((0, 1), (13, 1), (1, 0), (1, 32), (2, 30), (4, 31), (6, 31), (9, 31), (12, 32),
                           (2 ** 32 + 1, 1), (256 + 1, 2), (1, 256 + 2), (2, 2 ** 32 + 1), (BIG, 1), (1, BIG)):
            script.say("stamp", year, month, day, expect="29 0 0")
        script.say("stamp", year, 2, 29)
        for month in range(1, 13):
            script.say("stamp", year, month, 1)
            script.say("stamp", year, month, dice.pick([28, 30, 31]))
    for _ in range(count):
        stamp = dice.below(16384)
        answer = script.say("date", stamp)
        if answer is not None:
            script.say("stamp", answer[4:], expect="0 0 %d" % stamp)
        script.say("stamp", dice.between(1995, 2043), dice.between(0, 13), dice.between(0, 32))
        script.number("date", dice.between(16384, 70000), expect=(30, 0))
    for text in ("date", "date 1 1", "date -1", "date +1", "date x", "date 18446744073709551616",
                 "stamp 2000 1", "stamp 2000 1 1 1", "stamp 2000  1", "date ", " date 1"):
        script.say(text, expect="?")


def layout_calls(script, dice, name, layout, size, count):
    """Encode and decode one layout, each field at its widest and one more."""
    widths = [width for _, width in layout]
    most = [2 ** width - 1 for width in widths]
    refused = "26 0 " + "00" * size
    good = [[0] * len(widths), most] + [random_values(dice, widths) for _ in range(count)]
    for values in good:
        answer = script.say("encode-" + name, words(values))
        if answer is not None:
            script.say("decode-" + name, answer[4:], expect=words([0, 0] + values))
    for i, width in enumerate(widths):
        for value in (2 ** width, dice.pick([BIG, 2 ** width + 1, 2 ** 32, 2 ** 63])):
            values = random_values(dice, widths)
            values[i] = value if value >= 2 ** width else BIG
            script.say("encode-" + name, words(values), expect=refused)
    for _ in range(count):
        answer = script.say("decode-" + name, dice.data(size).hex())
    for text in ("encode-%s" % name, "encode-%s %s" % (name, words(most[1:])),
                 "encode-%s %s" % (name, words(most + [0])), "decode-%s" % name, "decode-%s -" % name,
                 "decode-%s %s" % (name, "00" * (size - 1)), "decode-%s %s" % (name, "00" * (size + 1)),
                 "decode-%s %s" % (name, "0G" * size)):
        script.say(text, expect="?")


def random_values(dice, widths):
    """Values that fit, often at an end of the range."""
    return [dice.pick([0, 2 ** width - 1, dice.below(2 ** width), dice.below(2 ** width)]) for width in widths]


def ticket_record_calls(script, dice, form, count):
    """Encode and decode a ticket of one kind, set a field and read a field."""
    kind, fields, size = name(form), len(form.widths), form.end - 2
    around = [record_with(random_record(dice, form), form.time, time) for time in (1439, 1440, 2047)]
    for record in [[0] * fields, most(form)] + around + [random_record(dice, form) for _ in range(count)]:
        script.say("encode-ticket", kind, words(record), expect="0 0 " + packed(form, record).hex())
        script.say("decode-ticket", kind, packed(form, record).hex(), expect=words([0, 0] + record))
    for data in [b"\xff" * size] + [dice.data(size) for _ in range(count)]:
        record = unpacked(form, data)
        script.say("decode-ticket", kind, data.hex(), expect=words([0, 0] + record))
        script.say("encode-ticket", kind, words(record), expect="0 0 " + data.hex())
    for field, top in enumerate(most(form), 1):
        for value in (top + 1, BIG):
            record = random_record(dice, form)
            script.say("set", kind, field, value, words(record), expect=words([26, 0] + record))
            record[field - 1] = value
            script.say("encode-ticket", kind, words(record), expect="26 0 -")
            if dice.chance(30):
                record[dice.below(fields)] = BIG
                script.say("encode-ticket", kind, words(record), expect="26 0 -")
        for value in [0, top] + ([1439, 1440] if field == form.time else []):
            record = random_record(dice, form)
            changed = record_with(record, field, value)
            script.say("set", kind, field, value, words(record), expect=words([0, 0] + changed))
            script.say("value", kind, field, words(record), expect=words([0, 0, record[field - 1]]))
    for field in (0, fields + 1, fields + 2, 256 + 1, 2 ** 32 + 1, BIG):
        record = random_record(dice, form)
        script.say("set", kind, field, dice.pick([0, BIG]), words(record), expect=words([25, 0] + record))
        script.say("value", kind, field, words(record), expect="25 0 0")
    wide = [dice.word() | 2 ** 63 for _ in range(fields)]
    script.say("set", kind, "1 0", words(wide), expect=words([0, 0, 0] + wide[1:]))
    script.say("set", kind, "1 256", words(wide), expect=words([26, 0] + wide))
    script.say("value", kind, fields, words(wide), expect=words([0, 0, wide[-1]]))
    for values in (fields - 1, fields + 1, 0):
        for text in ("set %s 1 1", "value %s 1", "encode-ticket %s", "set %s 0 0", "value %s 0"):
            script.say(text % kind, words([0] * values) if values else "1", expect="?")
    for text in ("set " + kind, "set %s 1" % kind, "set %s 1 1" % kind, "value " + kind, "value %s 1" % kind, "encode-ticket " + kind,
                 "decode-ticket " + kind, "decode-ticket %s -" % kind, "decode-ticket %s %s" % (kind, "00" * (size - 1)),
                 "decode-ticket %s %s" % (kind, "00" * (size + 1)), "decode-ticket %s %s 0" % (kind, "00" * size),
                 "decode-ticket %s %s" % (kind, "0G" * size), "value %s 1 %s x" % (kind, words([0] * (fields - 1))),
                 "encode-ticket %s %s" % (kind, words([0] * (fields - 1) + [2 ** 64])),
                 "set %s 1 1 %s" % (kind, words([0] * (fields - 1) + [2 ** 64])),
                 "set %s %d 1 %s" % (kind, 2 ** 64, words([0] * fields))):
        script.say(text, expect="?")


def unlisted_calls(script, dice, kinds):
    """22 for a TYP and revision on no list, whatever else is given, up to the most values that a list has."""
    for typ, revision in kinds:
        kind = "%d %d" % (typ, revision)
        counts = (0, 22, MOST_VALUES) if dice.chance(20) else (dice.between(0, MOST_VALUES),)
        for count in counts:
            values, field = [dice.pick([0, BIG])] * count, dice.pick([0, 1, 26, BIG])
            script.say(words(["set", kind, field, dice.pick([0, BIG])] + values), expect="22 0")
            script.say(words(["value", kind, field] + values), expect="22 0 0")
            script.say(words(["encode-ticket", kind] + values), expect="22 0 -")
            script.say("decode-ticket", kind, "a5" * min(count, MOST_BYTES) or "-", expect="22 0")
        script.say("decode-ticket", kind, "a5" * MOST_BYTES, expect="22 0")
        if dice.chance(20):
            over = [0] * (MOST_VALUES + 1)
            for text in (["set", kind, 1, 1] + over, ["value", kind, 1] + over, ["encode-ticket", kind] + over,
                         ["decode-ticket", kind, "a5" * (MOST_BYTES + 1)], ["set", kind], ["set", kind, 1], ["value", kind],
                         ["decode-ticket", kind], ["decode-ticket", kind, "0"], ["decode-ticket", kind, "-", "-"]):
                script.say(words(text), expect="?")
    for typ, revision in ((2 ** 64, 2), (22, 2 ** 64), (2 ** 64 + 22, 1), ("x", 1), (22, "x"), ("-", 2), (22, "-1"), ("", 1), ("22", "")):
        for text in (["set", typ, revision, 1, 1], ["value", typ, revision, 1], ["encode-ticket", typ, revision],
                     ["decode-ticket", typ, revision, "-"]):
            script.say(words(text), expect="?")
    for text in ("set", "set 22", "set 21", "value", "value 22", "encode-ticket", "encode-ticket 22", "encode-ticket 21", "decode-ticket",
                 "decode-ticket 22", "decode-ticket 21", "decode-ticket -"):
        script.say(text, expect="?")


def random_shell(dice):
    """Sixteen values that the shell's encoder takes."""
    values = [dice.below(2 ** width) for _, width in SHELL]
    values[0] = dice.pick([6, 7, 63, dice.between(6, 63)])
    values[1] = 0
    return with_number(values, isrn.random_number(dice))


def number_of(values):
    """The eighteen digits of a shell's values."""
    return isrn.digits_of(values[3:7])


def with_number(values, digits):
    """A shell's values with these eighteen digits."""
    return values[:3] + isrn.values(digits) + values[7:]


def mistyped(dice, values):
    """A shell's values with one digit of the right number changed."""
    return with_number(values, isrn.one_changed(dice, number_of(values)))


def over(dice, values):
    """A shell's values with one digit of the number above 9."""
    return with_number(values, isrn.with_digit(number_of(values), dice.below(18), dice.pick(isrn.OVER)))


def shell_calls(script, dice, count):
    """26, 5, 8, 12 and 21 at their boundaries and several at once."""
    for _ in range(count):
        values = random_shell(dice)
        dataset = 4 * values[0]
        for lent in (dataset, dataset + dice.between(1, 5)):
            answer = script.number("encode-shell", lent, words(values), expect=(0, 0))
        if answer is not None:
            script.say("decode-shell", answer.split(" ")[2][:40], expect=words([0, 0] + values))
        script.say("encode-shell", dataset - 1, words(values), expect="21 0 " + "a5" * (dataset - 1))
        script.say("encode-shell", 0, words(values), expect="21 0 -")
        script.say("decode-shell", dice.data(20).hex())
    for length in (0, 1, 5, 6):
        values = random_shell(dice)
        values[0] = length
        script.number("encode-shell", 24, words(values), expect=(5, 0) if length < 6 else (0, 0))
    for bitmap in (1, 32, 63):
        values = random_shell(dice)
        values[1] = bitmap
        script.number("encode-shell 252", words(values), expect=(5, 0))
    digit_calls(script, dice)
    check_digit_calls(script, dice)
    for index, (_, width) in enumerate(SHELL):
        values = random_shell(dice)
        values[0] = 6
        values[index] = dice.pick([2 ** width, 2 ** width, BIG])
        script.say("encode-shell 24", words(values), expect="26 0 " + "a5" * 24)
    shell_orders(script, dice, count)
    good = random_shell(dice)
    script.number("encode-shell 4096", words(good), expect=(0, 0))
    for text in ("encode-shell 24", "encode-shell 4097 " + words(good), "encode-shell 24 " + words(good[1:]),
                 "encode-shell 24 " + words(good + [0]), "decode-shell " + "00" * 19, "decode-shell " + "00" * 21):
        script.say(text, expect="?")


def digit_calls(script, dice):
    """8: every digit at 10, whatever the check digit, and at 9, with the right check digit and with the old one."""
    for place in range(18):
        values = random_shell(dice)
        values[0] = 6
        digits = number_of(values)
        script.say("encode-shell 25", words(with_number(values, isrn.with_digit(digits, place, "a"))), expect="8 0 " + "a5" * 25)
        script.say("encode-shell 24", words(with_number(values, isrn.with_digit(digits, place, dice.pick(isrn.OVER)))),
                   expect="8 0 " + "a5" * 24)
        nine = isrn.with_digit(digits, place, 9)
        script.number("encode-shell 25", words(with_number(values, nine)), expect=(0, 0) if nine == digits else (12, 0))
        script.number("encode-shell 25", words(with_number(values, isrn.whole(nine[:17]))), expect=(0, 0))
    for place in isrn.OID_PLACES:
        for digit in isrn.OVER:
            values = random_shell(dice)
            digits = isrn.with_digit(number_of(values), isrn.CHD_PLACE, dice.below(10))
            script.number("encode-shell 252", words(with_number(values, isrn.with_digit(digits, place, digit))), expect=(8, 0))
    values, place = random_shell(dice), dice.below(17)
    for chd in range(16):
        digits = isrn.with_digit(isrn.with_digit(number_of(values), place, dice.pick(isrn.OVER)), isrn.CHD_PLACE, "%x" % chd)
        script.number("encode-shell 252", words(with_number(values, digits)), expect=(8, 0))


def check_digit_calls(script, dice):
    """12: every check digit of numbers by hand, every digit changed and every two neighbours exchanged, and what is not noticed."""
    for seventeen, right in isrn.BY_HAND + tuple(case for case in isrn.PUBLISHED if len(case[0]) == 17):
        for chd in range(10):
            values = random_shell(dice)
            values[0] = 6
            text = words(with_number(values, seventeen + str(chd)))
            if chd == right:
                script.number("encode-shell 24", text, expect=(0, 0))
            else:
                lent = dice.pick([0, 23, 24, 25])
                script.say("encode-shell", lent, text, expect="12 0 " + ("a5" * lent or "-"))
    values = random_shell(dice)
    digits, dataset = number_of(values), 4 * values[0]
    others = [(isrn.one_changed(dice, digits, place), (12, 0)) for place in range(18)]
    others += [(isrn.exchanged(digits, place, place + 1), (12, 0) if noticed else (0, 0)) for place, noticed in isrn.neighbours(digits)]
    others += [(isrn.exchanged(digits, place, place + 2), (0, 0)) for place in range(16)]
    for other, expect in others:
        script.number("encode-shell", dataset, words(with_number(values, other)), expect=expect)


def shell_orders(script, dice, count):
    """Every choice of 26, 5, 8, 12 and 21 at once: the first of them in this order is given."""
    for chosen in range(2 ** 5):
        numbers = [number for i, number in enumerate((26, 5, 8, 12, 21)) if chosen >> i & 1]
        for _ in range(max(1, count // 2)):
            values = random_shell(dice)
            dataset = 4 * values[0]
            lent = dice.pick([0, dataset - 1]) if 21 in numbers else dataset + dice.pick([0, 1])
            if 12 in numbers:
                values = mistyped(dice, values)
            if 8 in numbers:
                values = over(dice, values)
            if 5 in numbers:
                index, value = dice.pick([(1, dice.between(1, 63)), (0, dice.below(6))])
                values[index] = value
            if 26 in numbers:
                index = dice.below(16)
                values[index] = dice.pick([values[index] + 2 ** SHELL[index][1], BIG])
            script.number("encode-shell", lent, words(values), expect=((numbers + [0])[0], 0))


def table_calls(script, dice, sectors):
    """6, 21 and 26 at their boundaries, for these numbers of sectors."""
    for S in (0, 1, 2, 3, 256, 257, 256 + 16, 2 ** 32 + 16, BIG):
        script.say("encode-table", S, 1, 0, expect="6 0 a5")
        script.say("encode-table", S, 0, expect="6 0 -")
        script.say("decode-table", S, "00", expect="6 0")
        script.say("decode-table", S, "-", expect="6 0")
    for S in sectors:
        length, count, top = table_length(S), S - 3, 2 ** psi(S)
        elements = [dice.pick([dice.below(top), dice.below(top), top - 1, 0]) for _ in range(count)]
        answer = script.number("encode-table", S, length, words(elements), expect=(0, 0))
        if answer is not None:
            script.say("decode-table", S, answer[4:], expect=words([0, 0] + elements))
        script.say("decode-table", S, dice.data(length).hex())
        script.say("decode-table", S, "ff" * length, expect=words([0, 0] + [top - 1] * count))
        script.say("encode-table", S, length, words([top - 1] * count))
        for lent, listed in ((length - 1, count), (length + 1, count), (length, count - 1), (length, count + 1)):
            text = words([S, lent] + [dice.pick([0, BIG])] * listed)
            script.say("encode-table", text, expect="21 0 " + ("a5" * lent or "-"))
        for lent in (length - 1, length + 1):
            script.say("decode-table", S, "00" * lent or "-", expect="21 0")
        wrong = list(elements)
        wrong[dice.below(count)] = dice.pick([top, top, 2 ** 32, BIG])
        script.say("encode-table", S, length, words(wrong), expect="26 0 " + "a5" * length)
    script.say("encode-table 16 7 3 2 15 0 0 0 0 0 0 0 0 0 0", expect="0 0 32f00000000000")
    script.number("encode-table 255 252", words([1] * 300), expect=(21, 0))
    for text in ("encode-table", "encode-table 16", "encode-table 16 4097", "encode-table 16 7 x",
                 "encode-table 16 7 " + words([0] * 301), "decode-table 16", "decode-table 16 0", "decode-table x 00"):
        script.say(text, expect="?")


def record_group(script, dice, count, sectors):
    """Every encoder and decoder."""
    script.say("encode-entry 0 1 23 1 0 0 1", expect="0 0 0006e10001")
    script.say("encode-header 8 0 2", expect="0 0 2002")
    for name, layout, size in LAYOUTS:
        layout_calls(script, dice, name, layout, size, count)
    for form in FORMS:
        ticket_record_calls(script, dice, form, count)
    unlisted_calls(script, dice, UNLISTED)
    shell_calls(script, dice, max(2, count // 2))
    table_calls(script, dice, sectors)
