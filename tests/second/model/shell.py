"""The shell record: twenty bytes, zero padding and the checksum SECR."""

from .crc import crc
from .fields import SHELL, decode, encode, value_of
from .luhn import luhn_is_right
from .refusal import Refused

FIXED_BYTES = 20
SECR_BYTES = 2
BLOCK = 4

# Document 004, 4.1.4: the parts of the shell's reference number and their BCD digits, CHD the eighteenth.
REFERENCE = (("IIN", 6), ("OID", 4), ("ISSN", 7), ("CHD", 1))


def dataset_length(values):
    """The bytes of the dataset: ShellLength in blocks of four bytes."""
    return BLOCK * value_of(SHELL, values, "ShellLength")


def form_is_wrong(values):
    """The cause of number 5."""
    if value_of(SHELL, values, "ShellBitMap") != 0:
        return True
    return dataset_length(values) < FIXED_BYTES + SECR_BYTES


def reference_digits(values):
    """The digits of the shell's reference number from left to right, four bits each."""
    digits = []
    for name, count in REFERENCE:
        number = value_of(SHELL, values, name)
        digits += [(number >> (4 * place)) & 15 for place in reversed(range(count))]
    return digits


def digits_are_wrong(values):
    """The first cause of number 8: a digit of IIN, OID, ISSN or CHD above 9."""
    return any(digit > 9 for digit in reference_digits(values))


def check_digit_is_wrong(values):
    """The cause of number 12, where all digits are decimal: CHD is not the check digit of IIN, OID and ISSN."""
    return not luhn_is_right(reference_digits(values))


def decode_shell(data):
    """The sixteen values from the first twenty bytes."""
    return decode(SHELL, data)


def encode_shell(values, buffer):
    """Write the dataset into a lent buffer; 26, 5, 8, 12, 21 in this order."""
    fixed = encode(SHELL, values)
    if form_is_wrong(values):
        raise Refused(5)
    if digits_are_wrong(values):
        raise Refused(8)
    if check_digit_is_wrong(values):
        raise Refused(12)
    length = dataset_length(values)
    if len(buffer) < length:
        raise Refused(21)
    covered = fixed + bytes(length - FIXED_BYTES - SECR_BYTES)
    buffer[:length] = covered + crc(covered).to_bytes(SECR_BYTES, "big")
