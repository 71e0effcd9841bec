"""The split key: the split that import makes of a decapsulation key (document 01, The work and its edge), its use limit and count, and refreshing
(document 02, ask 5). An answer is 0, or the number of the refusal, by which nothing changes."""
from .numbers import coefficient_bytes, coefficients, key_masks, number_bytes, word_bytes, words
from .parameters import Q

MOST_USES = 1_000_000


def split(p, dk, mask_coeffs, mask_words):
    """With the masks as first shares: s0, s1, z0, z1, and the public key and h as they stand."""
    s1 = [(x % Q - mask) % Q for x, mask in zip(coefficients(p.secret(dk)), mask_coeffs)]
    z1 = [x ^ mask for x, mask in zip(words(p.z(dk)), mask_words)]
    return mask_coeffs, s1, mask_words, z1, p.public(dk)


def joined(split):
    """The coefficients of the secret, and the words of z."""
    s0, s1, z0, z1, _ = split
    return [(x + y) % Q for x, y in zip(s0, s1)], [x ^ y for x, y in zip(z0, z1)]


# ---- the use limit and the count, which import sets to 0
def import_answer(limit):
    """By the limit."""
    return 0 if 1 <= limit <= MOST_USES else 10


def counted(limit, count):
    """Decapsulation's answer by the limit and the count, and the count after it, where nothing else is refused."""
    return (11, count) if count >= limit else (0, count + 1)


# ---- refreshing, which sets the count to 0
def refresh_answer(split, mask_coeffs):
    """By the ranges: of the masks, then of the shares."""
    s0, s1, *_ = split
    if max(mask_coeffs) >= Q:
        return 5
    return 6 if max(*s0, *s1) >= Q else 0


def moved(s, z, mask_coeffs, mask_words):
    """Shares of the secret and of z with masks added to them."""
    return [(x + mask) % Q for x, mask in zip(s, mask_coeffs)], [x ^ mask for x, mask in zip(z, mask_words)]


def refreshed(split, mask_coeffs, mask_words):
    """The masks added to the first shares and taken from the second."""
    s0, s1, z0, z1, public = split
    s0, z0 = moved(s0, z0, mask_coeffs, mask_words)
    s1, z1 = moved(s1, z1, [-mask for mask in mask_coeffs], mask_words)
    return s0, s1, z0, z1, public


# ---- in bytes
def share_bytes(split):
    s0, s1, z0, z1, _ = split
    return coefficient_bytes([*s0, *s1]) + word_bytes([*z0, *z1])


def file_bytes(split, limit, count):
    return share_bytes(split) + split[4] + number_bytes(limit) + number_bytes(count)


def in_file(p, data):
    """The split of a file, whose coefficients are below q."""
    half, end = 2 * p.coefficients, 2 * p.mask_bytes
    s0, z0 = key_masks(data[:half] + data[2 * half:2 * half + 32])
    s1, z1 = key_masks(data[half:2 * half] + data[2 * half + 32:end])
    return s0, s1, z0, z1, data[end:end + p.public_bytes]
