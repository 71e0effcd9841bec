"""A plain model of ML-KEM, written down from FIPS 203 over K-PKE: for expected values, neither fast nor for keys that matter."""
from hashlib import sha3_512, shake_256
from .kpke import compared, encrypted, kem_keys


# algorithm 16, with line 1 of algorithm 13
def keygen(p, d, z):
    return kem_keys(p, sha3_512(d + bytes([p.k])).digest(), z)


# algorithm 17
def encaps(p, ek, m):
    return encrypted(p, ek, m)


# algorithm 18
def decaps(p, dk, c):
    k, equal = compared(p, dk, c)
    return k if equal else shake_256(p.z(dk) + c).digest(32)
