"""A plain model of Kyber round 3's CCAKEM, written down from its specification (v3.02) over K-PKE: for expected values, neither fast nor for keys
that matter."""
from hashlib import sha3_256, sha3_512, shake_256
from .kpke import compared, encrypted, kem_keys


# algorithm 7, CCAKEM.KeyGen, with rho and sigma as in algorithm 4, CPAPKE.KeyGen
def keygen(p, d, z):
    return kem_keys(p, sha3_512(d).digest(), z)


def secret(k, c):
    """Of K', or of z in its place."""
    return shake_256(k + sha3_256(c).digest()).digest(32)


# algorithm 8, CCAKEM.Enc
def encaps(p, ek, m):
    c, k = encrypted(p, ek, sha3_256(m).digest())
    return c, secret(k, c)


# algorithm 9, CCAKEM.Dec
def decaps(p, dk, c):
    k, equal = compared(p, dk, c)
    return secret(k if equal else p.z(dk), c)
