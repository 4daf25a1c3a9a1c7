"""The check of an image: numbers 1 to 8, 12, 9, 10 and 11 in this order."""

from .crc import crc
from .fields import SHELL, value_of
from .refusal import Refused
from .shell import (FIXED_BYTES, SECR_BYTES, check_digit_is_wrong, dataset_length, decode_shell,
                    digits_are_wrong, form_is_wrong)
from .table import elements_of, padding_is_wrong, table_length, walk

PREFIX = 4
ENTRY_BYTES = 5
HEAD_BYTES = 2
TAIL_BYTES = 6
SEAL_BYTES = 8


class Card:
    """The parts of an accepted image."""

    def __init__(self, image):
        self.image = bytes(image)
        self.copy = image[3]
        self.shell = decode_shell(image[PREFIX:PREFIX + FIXED_BYTES])
        self.S = value_of(SHELL, self.shell, "S")
        self.B = value_of(SHELL, self.shell, "B")
        self.entries = value_of(SHELL, self.shell, "e#")
        self.SCTL = value_of(SHELL, self.shell, "SCTL")
        self.chains = {}

    def place(self, sector):
        """The first byte of a sector in the image."""
        return PREFIX + sector * self.B

    def sector(self, sector):
        """The bytes of a sector."""
        return self.image[self.place(sector):self.place(sector + 1)]

    def directory_sector(self):
        """S-2 for copy A, S-1 for copy B."""
        return self.S - 2 + self.copy

    def directory(self):
        """The bytes of the directory copy in force."""
        return self.sector(self.directory_sector())

    def table_place(self):
        """The first byte of the chain table within the directory sector."""
        return HEAD_BYTES + ENTRY_BYTES * self.entries

    def table(self):
        """The bytes of the chain table."""
        return self.directory()[self.table_place():self.table_place() + self.SCTL]

    def elements(self):
        """SCT(1) to SCT(S-3)."""
        return elements_of(self.S, self.table())

    def entry(self, j):
        """The five bytes of entry j, counted from 1."""
        first = HEAD_BYTES + ENTRY_BYTES * (j - 1)
        return self.directory()[first:first + ENTRY_BYTES]

    def is_empty(self, j):
        """An entry is empty when all forty bits are zero."""
        return self.entry(j) == bytes(ENTRY_BYTES)

    def product(self, j):
        """The sectors of entry j's chain, joined in chain order."""
        sectors, _ = self.chains[j]
        return b"".join(self.sector(sector) for sector in sectors)


def sizes_are_wrong(card):
    """The causes of number 6."""
    if card.S < 4:
        return True
    if card.B < 32:
        return True
    if not 1 <= card.entries <= card.S - 3:
        return True
    if card.SCTL != table_length(card.S):
        return True
    if HEAD_BYTES + ENTRY_BYTES * card.entries + card.SCTL + TAIL_BYTES + SEAL_BYTES > card.B:
        return True
    if dataset_length(card.shell) > card.B:
        return True
    return len(card.image) != PREFIX + card.S * card.B


def open_card(image):
    """The card of an accepted image; otherwise the first number that applies."""
    if len(image) < 4:
        raise Refused(1)
    if int.from_bytes(image[0:2], "big") != len(image):
        raise Refused(1)
    if image[2] != 1:
        raise Refused(2)
    if image[3] > 1:
        raise Refused(3)
    if len(image) < 36:
        raise Refused(4)

    card = Card(image)
    if form_is_wrong(card.shell):
        raise Refused(5)
    if sizes_are_wrong(card):
        raise Refused(6)

    dataset = card.sector(0)[:dataset_length(card.shell)]
    covered, secr = dataset[:-SECR_BYTES], dataset[-SECR_BYTES:]
    if crc(covered) != int.from_bytes(secr, "big"):
        raise Refused(7)
    if digits_are_wrong(card.shell) or any(covered[FIXED_BYTES:]):
        raise Refused(8)
    if check_digit_is_wrong(card.shell):
        raise Refused(12)
    if padding_is_wrong(card.S, card.table()):
        raise Refused(9)

    elements = card.elements()
    for j in range(1, card.entries + 1):
        if card.is_empty(j):
            continue
        chain = walk(card.S, elements, j)
        if chain is None:
            raise Refused(10, j)
        card.chains[j] = chain

    lower = set()
    for j in sorted(card.chains):
        sectors, _ = card.chains[j]
        if lower.intersection(sectors):
            raise Refused(11, j)
        lower.update(sectors)
    return card
