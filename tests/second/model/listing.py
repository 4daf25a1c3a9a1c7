"""The listing of a card, as the listing program prints it."""

from .check import open_card
from .fields import ENTRY, decode, value_of
from .refusal import Refused

LARGEST_IMAGE = 60439
MARKS = ("fresh", "used", "blocked")


def listing(image):
    """The lines: a header and one line for each product, or the refusal."""
    if len(image) > LARGEST_IMAGE:
        return ["refused 1 0"]
    try:
        card = open_card(image)
    except Refused as refusal:
        return ["refused %d %d" % (refusal.number, refusal.entry)]
    lines = ["card %d %d %d %s" % (card.S, card.B, card.entries, "AB"[card.copy])]
    for j in sorted(card.chains):
        sectors, mark = card.chains[j]
        typ = value_of(ENTRY, decode(ENTRY, card.entry(j)), "TYP")
        words = [str(j), str(typ), MARKS[mark]] + [str(sector) for sector in sectors]
        lines.append(" ".join(words))
    return lines
