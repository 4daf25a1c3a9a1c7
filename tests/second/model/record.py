"""Steps on a record of one kind's values, apart from any image."""

from .fields import kind_of
from .refusal import Refused


def set_field(typ, revision, record, number, value):
    """The record with one field changed; 22, 25, then 26, all of entry 0."""
    kind = kind_of(typ, revision)
    if not kind.has_field(number):
        raise Refused(25)
    if not kind.value_fits(number, value):
        raise Refused(26)
    return record[:number - 1] + [value] + record[number:]


def field_value(typ, revision, record, number):
    """The value of one field; 22, then 25, both of entry 0."""
    if not kind_of(typ, revision).has_field(number):
        raise Refused(25)
    return record[number - 1]
