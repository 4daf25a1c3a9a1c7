"""The shell's reference number (ISRN) as a card's maker knows it, a text of digits; its check digit is written down apart from the model."""

# What a digit adds to the sum in the first, third, .. seventeenth place, by a table.
DOUBLED = (0, 2, 4, 6, 8, 1, 3, 5, 7, 9)

# Published: the two examples that are commonly printed for the formula, and numbers with ITSO's IIN.
PUBLISHED = (("7992739871", 3), ("4992739871", 6), ("63359700001234567", 1), ("63359712341234567", 7))

ITSO = "633597"
ZEROS, NINES = "0" * 17, "9" * 17
OVER = "abcdef"

# Where the digits of IIN, OID, ISSN and CHD lie among the eighteen.
PARTS = ((0, 6), (6, 10), (10, 17), (17, 18))
OID_PLACES = range(6, 10)
CHD_PLACE = 17

# Numbers of seventeen digits with the right eighteenth, counted by hand: all zeros, all nines, and operators at the ends of their range and
# beyond it, which is not judged.
BY_HAND = ((ZEROS, 0), (NINES, 7), (ITSO + "0000" + "0000000", 7), (ITSO + "0001" + "0000000", 6), (ITSO + "8000" + "0000000", 0),
           (ITSO + "8001" + "0000000", 9), (ITSO + "9999" + "9999999", 8), ("000000" + "0000" + "0000001", 8))


def check_digit(before):
    """What the digits before it lack to a multiple of ten."""
    last = before[::-1]
    return -(sum(DOUBLED[int(digit)] for digit in last[0::2]) + sum(int(digit) for digit in last[1::2])) % 10


def whole(seventeen):
    """The eighteen digits, the last the check digit."""
    return seventeen + str(check_digit(seventeen))


def values(digits):
    """IIN, OID, ISSN and CHD: four bits a digit."""
    return [int(digits[first:end], 16) for first, end in PARTS]


def digits_of(numbers):
    """The eighteen digits of IIN, OID, ISSN and CHD."""
    return "%06x%04x%07x%x" % tuple(numbers)


def with_digit(digits, place, digit):
    """The digits with another one in one place, counted from 0."""
    return digits[:place] + str(digit) + digits[place + 1:]


def one_changed(dice, digits, place=None):
    """The digits with another decimal digit in one place, so that the check digit is wrong if it was right."""
    place = dice.below(18) if place is None else place
    return with_digit(digits, place, (int(digits[place]) + dice.between(1, 9)) % 10)


def exchanged(digits, place, other):
    """The digits of two places changed over."""
    return with_digit(with_digit(digits, place, digits[other]), other, digits[place])


def neighbours(digits):
    """The places whose digit differs from the next one, and whether the rule notices that they are exchanged."""
    return [(place, {digits[place], digits[place + 1]} != {"0", "9"}) for place in range(17) if digits[place] != digits[place + 1]]


def random_digits(dice, count):
    """Decimal digits, often 0 or 9."""
    return "".join(str(dice.pick([0, 9, dice.below(10)])) for _ in range(count))


def random_number(dice):
    """Eighteen digits, the last the check digit."""
    kind = dice.below(10)
    if kind == 0:
        return whole(dice.pick(BY_HAND)[0])
    if kind < 4:
        return whole(ITSO + dice.pick(["0000", "0001", "8000", "8001", random_digits(dice, 4)]) + random_digits(dice, 7))
    return whole(random_digits(dice, 17))
