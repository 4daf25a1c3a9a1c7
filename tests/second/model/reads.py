"""The reads of shell, directory, table, entry, chain and ticket."""

from .check import HEAD_BYTES, TAIL_BYTES, open_card
from .dates import end_of_ticket
from .fields import (BLOCK_BYTES, ENTRY, HEAD, HEADER, TAIL, TICKET_FIRST_BIT, decode, decode_ticket,
                     kind_of, value_of)
from .refusal import Refused


def read_shell(image):
    """The sixteen values of the shell."""
    return open_card(image).shell


def read_directory(image):
    """The three leading values and DIRS# to ISAMID."""
    card = open_card(image)
    directory = card.directory()
    tail = card.table_place() + card.SCTL
    return decode(HEAD, directory[:HEAD_BYTES]) + decode(TAIL, directory[tail:tail + TAIL_BYTES])


def read_table(image):
    """SCT(1) to SCT(S-3)."""
    return open_card(image).elements()


def require_entry(card, j):
    """20: entry 0, above e#, or empty."""
    if j == 0 or j > card.entries or card.is_empty(j):
        raise Refused(20, j)


def dataset_length(product):
    """The bytes of the dataset: IPELength in blocks of four bytes."""
    return BLOCK_BYTES * value_of(HEADER, decode(HEADER, product[:2]), "IPELength")


def require_kind(card, j):
    """22: the kind of the product, TYP from its entry and the revision from its header."""
    typ = value_of(ENTRY, decode(ENTRY, card.entry(j)), "TYP")
    revision = value_of(HEADER, decode(HEADER, card.product(j)[:2]), "IPEFormatRevision")
    return kind_of(typ, revision, j)


def require_length(card, j, kind):
    """23: the dataset holds the kind's fixed fields and lies within the product."""
    product = card.product(j)
    if not kind.least_dataset() <= dataset_length(product) <= len(product):
        raise Refused(23, j)


def read_entry(image, j):
    """The seven values of an entry."""
    card = open_card(image)
    require_entry(card, j)
    return decode(ENTRY, card.entry(j))


def read_chain(image, j):
    """The sectors of an entry's chain in order, and its mark."""
    card = open_card(image)
    require_entry(card, j)
    return card.chains[j]


def checked_ticket(image, j, lent):
    """The card, the product and its kind, after 20, 21, 22 and 23."""
    card = open_card(image)
    require_entry(card, j)
    product = card.product(j)
    if lent < len(product):
        raise Refused(21, j)
    kind = require_kind(card, j)
    require_length(card, j, kind)
    return card, product, kind


def read_ticket(image, j, buffer):
    """Copy the product; give TYP, header, record, end of the ticket, mark and number of sectors."""
    card, product, kind = checked_ticket(image, j, len(buffer))
    buffer[:len(product)] = product
    record = decode_ticket(kind, product[TICKET_FIRST_BIT // 8:kind.end_byte()])
    exp = value_of(ENTRY, decode(ENTRY, card.entry(j)), "EXP")
    sectors, mark = card.chains[j]
    end = end_of_ticket(exp, value_of(kind.fields, record, "ExpiryTime"))
    return [kind.typ] + decode(HEADER, product[:2]) + record + [end, mark, len(sectors)]


def read_rest(image, j, buffer):
    """Copy the product likewise; give the part after the fixed fields up to the dataset's end, which may be empty."""
    _, product, kind = checked_ticket(image, j, len(buffer))
    buffer[:len(product)] = product
    return bytes(buffer[kind.end_byte():dataset_length(product)])
