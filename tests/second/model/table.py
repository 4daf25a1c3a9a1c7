"""The sector chain table and the walk along a chain."""

from .bits import fits, read_bits, write_bits
from .refusal import Refused

FRESH, USED, BLOCKED = 0, 1, 2


def psi(S):
    """The number with S <= 2^psi < 2S."""
    width = 0
    while 2 ** width < S:
        width += 1
    return width


def table_bits(S):
    """The bits of the S-3 elements."""
    return (S - 3) * psi(S)


def table_length(S):
    """SCTL: the elements' bits, to a whole byte."""
    return (table_bits(S) + 7) // 8


def padding_is_wrong(S, table):
    """The cause of number 9: a bit after the elements is not zero."""
    spare = 8 * table_length(S) - table_bits(S)
    return read_bits(table, table_bits(S), spare) != 0


def elements_of(S, table):
    """SCT(1) to SCT(S-3)."""
    width = psi(S)
    return [read_bits(table, width * i, width) for i in range(S - 3)]


def element_place(S, sector):
    """The first bit, within the table, of a sector's element."""
    return psi(S) * (sector - 1)


def decode_table(S, table):
    """The elements; 6, then 21; the padding is not judged."""
    if not 4 <= S <= 255:
        raise Refused(6)
    if len(table) != table_length(S):
        raise Refused(21)
    return elements_of(S, table)


def encode_table(S, elements, buffer):
    """Write the table into a lent buffer; 6, 21, 26 in this order."""
    if not 4 <= S <= 255:
        raise Refused(6)
    if len(elements) != S - 3 or len(buffer) != table_length(S):
        raise Refused(21)
    if not all(fits(element, psi(S)) for element in elements):
        raise Refused(26)
    buffer[:] = bytes(len(buffer))
    for sector, element in enumerate(elements, 1):
        write_bits(buffer, element_place(S, sector), psi(S), element)


def walk(S, elements, start):
    """The sectors of a chain in order and its mark, or None if it is broken."""
    sectors = [start]
    while True:
        sector = sectors[-1]
        element = elements[sector - 1]
        if element == sector:
            return sectors, FRESH
        if element == S - 2:
            return sectors, BLOCKED
        if element == S - 1:
            return sectors, USED
        if element == 0 or element > S - 1:
            return None
        if element in sectors:
            return None
        sectors.append(element)
