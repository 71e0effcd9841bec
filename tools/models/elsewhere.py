"""Keys made elsewhere: coefficients of 12 bits that aren't all below q, which FIPS 203 reads modulo q (algorithm 6)."""
from hashlib import sha3_256
from .numbers import coefficients, with_coefficient
from .parameters import Q


def with_secret(p, dk, secret):
    """The key with another secret part."""
    return secret + p.public(dk) + p.z(dk)


def with_public(p, dk, t):
    """The key with another t-hat, and the hash made to fit."""
    ek = t + p.rho(dk)
    return p.secret(dk) + ek + sha3_256(ek).digest() + p.z(dk)


def with_both(p, dk, change):
    return with_secret(p, with_public(p, dk, change(p.t(dk))), change(p.secret(dk)))


def raised(vector):
    """Each coefficient plus q where 12 bits hold the sum: modulo q the same."""
    for i, c in enumerate(coefficients(vector)):
        if c + Q < 4096:
            vector = with_coefficient(vector, i, c + Q)
    return vector


def edged(vector):
    """Raised, with 3329 first and 4095 last."""
    return with_coefficient(with_coefficient(raised(vector), 0, Q), len(coefficients(vector)) - 1, 4095)
