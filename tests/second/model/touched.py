"""Which entries of a card were touched between two images."""

from .check import open_card
from .refusal import Refused


def touched(first, second):
    """The touched entries, rising; a refusal of the first image, of the second, or 90."""
    before = open_card(first)
    after = open_card(second)
    if (before.S, before.B, before.entries, before.copy) != (after.S, after.B, after.entries, after.copy):
        raise Refused(90)
    return [j for j in range(1, before.entries + 1) if entry_differs(before, after, j)]


def entry_differs(before, after, j):
    """Its forty bits, or its sectors in chain order, its mark or a byte of its product."""
    if before.entry(j) != after.entry(j):
        return True
    if before.is_empty(j):
        return False
    if before.chains[j] != after.chains[j]:
        return True
    return before.product(j) != after.product(j)
