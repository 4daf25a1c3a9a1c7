"""The steps on a product: field write, record write and mark."""

from .bits import write_bits
from .check import open_card
from .fields import TICKET_FIRST_BIT, encode_ticket
from .reads import require_entry, require_kind, require_length
from .refusal import Refused
from .table import BLOCKED, USED, element_place, psi


def require_writable(card, j):
    """20, then 27: what both writes ask first."""
    require_entry(card, j)
    _, mark = card.chains[j]
    if mark == BLOCKED:
        raise Refused(27, j)


def write_field(image, j, number, value):
    """Store one field's bits; 20, 27, 22, 23, 25, 26 in this order."""
    card = open_card(image)
    require_writable(card, j)
    kind = require_kind(card, j)
    require_length(card, j, kind)
    if not kind.has_field(number):
        raise Refused(25, j)
    if not kind.value_fits(number, value):
        raise Refused(26, j)
    _, first, width = kind.fields[number - 1]
    # Sector j is the first of the chain, and all fields lie in its first 32 bytes.
    write_bits(image, 8 * card.place(j) + first, width, value)


def write_record(image, j, typ, revision, record):
    """Store bit 16 to the list's end; 20, 27, 22, 23, 26 in this order, 22 also for a record of another kind or revision."""
    card = open_card(image)
    require_writable(card, j)
    kind = require_kind(card, j)
    if (typ, revision) != (kind.typ, kind.revision):
        raise Refused(22, j)
    require_length(card, j, kind)
    if not kind.record_fits(record):
        raise Refused(26, j)
    start = card.place(j)
    image[start + TICKET_FIRST_BIT // 8:start + kind.end_byte()] = encode_ticket(kind, record)


def set_mark(image, j, mark):
    """Store the chain's last element in the copy in force; 20, 28, 27 in this order."""
    card = open_card(image)
    require_entry(card, j)
    if mark not in (USED, BLOCKED):
        raise Refused(28, j)
    sectors, old = card.chains[j]
    if old == BLOCKED and mark == USED:
        raise Refused(27, j)
    element = card.S - 1 if mark == USED else card.S - 2
    table = card.place(card.directory_sector()) + card.table_place()
    write_bits(image, 8 * table + element_place(card.S, sectors[-1]), psi(card.S), element)
