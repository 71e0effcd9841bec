"""OpenSSL's ML-KEM (Python's cryptography). It has neither ML-KEM-512 nor Kyber round 3: there the plain model of the set's edition takes its place,
which tools/model_check holds to published values."""
from cryptography.hazmat.primitives.asymmetric.mlkem import MLKEM768PrivateKey, MLKEM1024PrivateKey
from models import kem
from models.parameters import ML_KEM_768, ML_KEM_1024

PRIVATE_KEYS = {ML_KEM_768: MLKEM768PrivateKey, ML_KEM_1024: MLKEM1024PrivateKey}


def key_pair(p, seed):
    """Of the seed, d and z: the public key, and the function that decapsulates."""
    if p in PRIVATE_KEYS:
        key = PRIVATE_KEYS[p].from_seed_bytes(seed)
        return key.public_key().public_bytes_raw(), key.decapsulate
    ek, dk = kem.keygen(p, seed[:32], seed[32:])
    return ek, lambda ct: kem.decaps(p, dk, ct)
