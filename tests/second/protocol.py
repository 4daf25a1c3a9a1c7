"""The line protocol: one command a line, answered by the model."""

import re

from model.check import open_card
from model.crc import crc
from model.dates import date_of, stamp_of
from model.fields import (ENTRY, HEAD, HEADER, KINDS, TAIL, TICKET_FIRST_BIT, decode, decode_ticket, encode,
                          encode_ticket, kind_of)
from model.listing import listing
from model.reads import (read_chain, read_directory, read_entry, read_rest, read_shell, read_table,
                         read_ticket)
from model.record import field_value, set_field
from model.refusal import Refused
from model.shell import decode_shell, encode_shell
from model.steps import set_mark, write_field, write_record
from model.table import decode_table, encode_table
from model.touched import touched

IMAGE_MOST = 65535
BUFFER_BYTES = 65536
LENT_MOST = 4096
ELEMENTS_MOST = 300
VALUES_MOST = max(len(kind.fields) for kind in KINDS)
TICKET_BYTES_MOST = max(kind.end_byte() for kind in KINDS) - TICKET_FIRST_BIT // 8
FILL = 0xA5

NUMBER = re.compile(r"[0-9]+\Z")
HEX = re.compile(r"([0-9a-f][0-9a-f])+\Z")

# Which group of commands a word belongs to; the others only load and show images.
GROUPS = {
    "crc": ("crc",),
    "dates": ("date", "stamp"),
    "records": ("set", "value", "encode-entry", "encode-head", "encode-tail", "encode-header",
                "encode-ticket", "encode-shell", "encode-table", "decode-entry", "decode-head",
                "decode-tail", "decode-header", "decode-ticket", "decode-shell", "decode-table"),
    "check": ("check",),
    "list": ("list",),
    "reads": ("shell", "directory", "table", "entry", "chain", "ticket", "rest", "buffer"),
    "steps": ("field", "record", "mark"),
    "touched": ("touched", "keep"),
}


class NotACommand(Exception):
    """A line that is answered by a question mark."""


def number(word, most=2 ** 64 - 1):
    """A decimal number of at most this value."""
    if not NUMBER.match(word):
        raise NotACommand
    digits = word.lstrip("0") or "0"
    if len(digits) > 20 or int(digits) > most:
        raise NotACommand
    return int(digits)


def numbers(words):
    """Several decimal numbers."""
    return [number(word) for word in words]


def from_hex(word, length=None):
    """Bytes in lower case hex, `-` for none, of a wanted length if one is given."""
    if word != "-" and not HEX.match(word):
        raise NotACommand
    data = b"" if word == "-" else bytes.fromhex(word)
    if length is not None and len(data) != length:
        raise NotACommand
    return data


def to_hex(data):
    """Lower case hex, `-` for no bytes."""
    return bytes(data).hex() or "-"


def line(*parts):
    """One line of numbers and texts; lists stand for their parts."""
    words = []
    for part in parts:
        words += [str(item) for item in part] if isinstance(part, list) else [str(part)]
    return " ".join(words)


def answered(call, otherwise):
    """`0 0` and what the call gives, or the refusal and what stands in its place."""
    try:
        return line(0, 0, call())
    except Refused as refusal:
        return line(refusal.number, refusal.entry, otherwise)


class Talk:
    """The state of the protocol and its commands."""

    def __init__(self):
        self.image = bytearray()
        self.kept = bytes()
        self.buffer = bytearray(BUFFER_BYTES)

    def answer(self, text):
        """The lines that answer one command line."""
        words = text.split(" ")
        command = getattr(self, "say_" + words[0].replace("-", "_"), None)
        if command is None or not re.match(r"[a-z]+(-[a-z]+)?\Z", words[0]):
            return ["?"]
        try:
            given = command(words[1:])
        except NotACommand:
            return ["?"]
        return given if isinstance(given, list) else [given]

    # The image.

    def say_image(self, words):
        size = number(exactly(words, 1)[0], IMAGE_MOST)
        self.image = bytearray(size)
        return str(size)

    def say_at(self, words):
        place, data = exactly(words, 2)
        place, data = number(place), from_hex(data)
        if place + len(data) > len(self.image):
            raise NotACommand
        self.image[place:place + len(data)] = data
        return "ok"

    def say_keep(self, words):
        exactly(words, 0)
        self.kept = bytes(self.image)
        return "ok"

    def say_bytes(self, words):
        exactly(words, 0)
        return to_hex(self.image)

    def say_check(self, words):
        exactly(words, 0)
        return answered(lambda: nothing(open_card(self.image)), [])

    def say_list(self, words):
        exactly(words, 0)
        return listing(self.image)

    def say_touched(self, words):
        exactly(words, 0)
        return answered(lambda: touched(self.kept, self.image), [])

    # The reads.

    def say_shell(self, words):
        exactly(words, 0)
        return answered(lambda: read_shell(self.image), zeros(16))

    def say_directory(self, words):
        exactly(words, 0)
        return answered(lambda: read_directory(self.image), zeros(7))

    def say_table(self, words):
        exactly(words, 0)
        return answered(lambda: read_table(self.image), [])

    def say_entry(self, words):
        j, = numbers(exactly(words, 1))
        return answered(lambda: read_entry(self.image, j), zeros(7))

    def say_chain(self, words):
        j, = numbers(exactly(words, 1))

        def call():
            sectors, mark = read_chain(self.image, j)
            return [mark, len(sectors)] + sectors
        return answered(call, zeros(2))

    def lend(self, words):
        """The entry, and a lent part of the ticket buffer, freshly filled."""
        if len(words) not in (1, 2):
            raise NotACommand
        j = number(words[0])
        length = number(words[1], BUFFER_BYTES) if len(words) == 2 else BUFFER_BYTES
        self.buffer = bytearray([FILL]) * BUFFER_BYTES
        return j, self.buffer[:length]

    def give_back(self, lent):
        """What the call left in the lent part stands in the ticket buffer."""
        self.buffer[:len(lent)] = lent

    def say_ticket(self, words):
        j, lent = self.lend(words)
        text = answered(lambda: read_ticket(self.image, j, lent), [])
        self.give_back(lent)
        return text

    def say_rest(self, words):
        j, lent = self.lend(words)
        try:
            text = read_rest(self.image, j, lent).hex() or "="
        except Refused:
            text = "-"
        self.give_back(lent)
        return text

    def say_buffer(self, words):
        length = number(exactly(words, 1)[0], BUFFER_BYTES)
        return to_hex(self.buffer[:length])

    # The steps.

    def say_field(self, words):
        j, field, value = numbers(exactly(words, 3))
        return answered(lambda: nothing(write_field(self.image, j, field, value)), [])

    def say_record(self, words):
        (j,), typ, revision, record = self.record_of(words, 1, 0)
        return answered(lambda: nothing(write_record(self.image, j, typ, revision, record)), [])

    def say_mark(self, words):
        j, mark = numbers(exactly(words, 2))
        return answered(lambda: nothing(set_mark(self.image, j, mark)), [])

    # Values apart from an image.

    def record_of(self, words, before, between):
        """Numbers before TYP and revision and between them and the values, the kind's number of values, or any number of an unlisted kind."""
        given = numbers(words)
        if len(given) < before + 2 + between:
            raise NotACommand
        others = given[:before] + given[before + 2:before + 2 + between]
        (typ, revision), record = given[before:before + 2], given[before + 2 + between:]
        kind = listed(typ, revision)
        if len(record) > VALUES_MOST if kind is None else len(record) != len(kind.fields):
            raise NotACommand
        return others, typ, revision, record

    def say_set(self, words):
        (field, value), typ, revision, record = self.record_of(words, 0, 2)
        kept = record if listed(typ, revision) else []
        return answered(lambda: set_field(typ, revision, record, field, value), kept)

    def say_value(self, words):
        (field,), typ, revision, record = self.record_of(words, 0, 1)
        return answered(lambda: [field_value(typ, revision, record, field)], [0])

    def say_date(self, words):
        stamp, = numbers(exactly(words, 1))
        return answered(lambda: date_of(stamp), zeros(3))

    def say_stamp(self, words):
        year, month, day = numbers(exactly(words, 3))
        return answered(lambda: [stamp_of(year, month, day)], [0])

    def say_crc(self, words):
        return str(crc(from_hex(exactly(words, 1)[0])))

    # The encoders.

    def encoded(self, words, count, size, call):
        """A fixed number of values to a fixed number of bytes."""
        values = numbers(exactly(words, count))
        return answered(lambda: [to_hex(call(values))], [to_hex(bytes(size))])

    def say_encode_entry(self, words):
        return self.encoded(words, 7, 5, lambda values: encode(ENTRY, values))

    def say_encode_head(self, words):
        return self.encoded(words, 3, 2, lambda values: encode(HEAD, values))

    def say_encode_tail(self, words):
        return self.encoded(words, 4, 6, lambda values: encode(TAIL, values))

    def say_encode_header(self, words):
        return self.encoded(words, 3, 2, lambda values: encode(HEADER, values))

    def say_encode_ticket(self, words):
        _, typ, revision, record = self.record_of(words, 0, 0)
        return answered(lambda: [to_hex(encode_ticket(kind_of(typ, revision), record))], ["-"])

    def filled(self, length, call):
        """An answer and the whole lent buffer after it."""
        buffer = bytearray([FILL]) * length
        text = answered(lambda: nothing(call(buffer)), [])
        return line(text, to_hex(buffer))

    def say_encode_shell(self, words):
        length, *values = exactly(words, 17)
        length, values = number(length, LENT_MOST), numbers(values)
        return self.filled(length, lambda buffer: encode_shell(values, buffer))

    def say_encode_table(self, words):
        if not 2 <= len(words) <= 2 + ELEMENTS_MOST:
            raise NotACommand
        S, length, elements = number(words[0]), number(words[1], LENT_MOST), numbers(words[2:])
        return self.filled(length, lambda buffer: encode_table(S, elements, buffer))

    # The decoders.

    def say_decode_entry(self, words):
        return line(0, 0, decode(ENTRY, from_hex(exactly(words, 1)[0], 5)))

    def say_decode_head(self, words):
        return line(0, 0, decode(HEAD, from_hex(exactly(words, 1)[0], 2)))

    def say_decode_tail(self, words):
        return line(0, 0, decode(TAIL, from_hex(exactly(words, 1)[0], 6)))

    def say_decode_header(self, words):
        return line(0, 0, decode(HEADER, from_hex(exactly(words, 1)[0], 2)))

    def say_decode_ticket(self, words):
        typ, revision, data = exactly(words, 3)
        typ, revision, data = number(typ), number(revision), from_hex(data)
        kind = listed(typ, revision)
        if len(data) > TICKET_BYTES_MOST if kind is None else len(data) != kind.end_byte() - TICKET_FIRST_BIT // 8:
            raise NotACommand
        return answered(lambda: decode_ticket(kind_of(typ, revision), data), [])

    def say_decode_shell(self, words):
        return line(0, 0, decode_shell(from_hex(exactly(words, 1)[0], 20)))

    def say_decode_table(self, words):
        S, table = exactly(words, 2)
        S, table = number(S), from_hex(table)
        return answered(lambda: decode_table(S, table), [])


def exactly(words, count):
    """The words, if there are as many as wanted."""
    if len(words) != count:
        raise NotACommand
    return words


def listed(typ, revision):
    """The kind on the lists, or None."""
    try:
        return kind_of(typ, revision)
    except Refused:
        return None


def zeros(count):
    """What a refusal gives in place of values."""
    return [0] * count


def nothing(_):
    """A call that gives only its answer."""
    return []
