"""Numbers in bytes, the lowest byte or bit first."""
from .parameters import Q


def words(data):
    """Of 64 bits each."""
    return [int.from_bytes(data[i:i + 8], "little") for i in range(0, len(data), 8)]


def word_bytes(words):
    return b"".join(w.to_bytes(8, "little") for w in words)


def number_bytes(n):
    """32 bits."""
    return n.to_bytes(4, "little")


def coefficient_bytes(coefficients):
    """16 bits for each."""
    return b"".join(x.to_bytes(2, "little") for x in coefficients)


def mask_coefficients(data):
    """Of 16 bits each, modulo q."""
    return [int.from_bytes(data[i:i + 2], "little") % Q for i in range(0, len(data), 2)]


def key_masks(data):
    """For a split key: coefficients, and at the end four words."""
    return mask_coefficients(data[:-32]), words(data[-32:])


def coefficients(data):
    """Of 12 bits each, as they stand."""
    bits = int.from_bytes(data, "little")
    return [bits >> 12 * i & 4095 for i in range(len(data) * 2 // 3)]


def with_coefficient(data, i, value):
    """The same with coefficient i of 12 bits set."""
    bits = int.from_bytes(data, "little")
    return (bits & ~(4095 << 12 * i) | value << 12 * i).to_bytes(len(data), "little")
