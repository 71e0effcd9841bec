"""Key making, encapsulation and decapsulation of a parameter set, by the plain model of its edition."""
from . import fips203, kyber
from .parameters import Edition

MODELS = {Edition.ML_KEM: fips203, Edition.KYBER: kyber}


def keygen(p, d, z):
    return MODELS[p.edition].keygen(p, d, z)


def encaps(p, ek, m):
    return MODELS[p.edition].encaps(p, ek, m)


def decaps(p, dk, c):
    return MODELS[p.edition].decaps(p, dk, c)
