"""Bits of bytes, numbered from the most significant bit of the first byte."""


def read_bits(data, first, width):
    """The unsigned number in `width` bits of `data` from bit `first` on."""
    start = first // 8
    end = (first + width + 7) // 8
    number = int.from_bytes(data[start:end], "big")
    after = 8 * end - first - width
    return (number >> after) & ((1 << width) - 1)


def write_bits(data, first, width, value):
    """Store `value` in these bits of the bytearray `data` and leave all others."""
    start = first // 8
    end = (first + width + 7) // 8
    number = int.from_bytes(data[start:end], "big")
    after = 8 * end - first - width
    mask = ((1 << width) - 1) << after
    number = (number & ~mask) | (value << after)
    data[start:end] = number.to_bytes(end - start, "big")


def fits(value, width):
    """Whether the unsigned value fits this many bits."""
    return 0 <= value < 2 ** width
