"""The check digit of ISO/IEC 7812-1: the Luhn formula, modulus 10 "double-add-double"."""


def luhn_sum(digits):
    """From the right, every second digit is doubled, and the digits of the doubled number are added."""
    total = 0
    doubled = False
    for digit in reversed(digits):
        if doubled:
            total += 2 * digit // 10 + 2 * digit % 10
        else:
            total += digit
        doubled = not doubled
    return total


def luhn_is_right(digits):
    """Whether the last of these digits is the check digit of those before it: the sum is a multiple of ten."""
    return luhn_sum(digits) % 10 == 0
