"""Our key calls and OpenSSL's (Python's cryptography) timed in turns: bench/kem runs it on our library. OpenSSL has neither ML-KEM-512 nor Kyber round 3.

Both go through Python, and a call of ours that is refused at once shows what a call itself costs. OpenSSL's encapsulation draws its own m, and it works
out the matrix when it reads the public key, where ours does so in encapsulation: so that one is timed with the reading too.
"""
import ctypes, os, sys

sys.dont_write_bytecode = True
sys.path.append(os.path.join(os.path.dirname(os.path.abspath(__file__)), "..", "tools"))
from cryptography.hazmat.primitives.asymmetric.mlkem import MLKEM768PublicKey, MLKEM1024PublicKey
from models.parameters import ALL_SETS, ML_KEM_768, ML_KEM_1024
from openssl import PRIVATE_KEYS
from turns import compare, ready

PUBLIC_KEYS = {ML_KEM_768: MLKEM768PublicKey, ML_KEM_1024: MLKEM1024PublicKey}
lib = ctypes.CDLL(sys.argv[1])


def openssl_calls(p, seed, ek, ct, k):
    """Key making, encapsulation, and that with the public key read first; none where OpenSSL hasn't the set."""
    if p not in PRIVATE_KEYS:
        return None, None, None
    key = PRIVATE_KEYS[p].from_seed_bytes(seed)
    public = key.public_key()
    assert ek == public.public_bytes_raw() and key.decapsulate(ct) == k
    return lambda: PRIVATE_KEYS[p].from_seed_bytes(seed), public.encapsulate, lambda: PUBLIC_KEYS[p].from_public_bytes(ek).encapsulate()


def time_set(p):
    d, z, m = (bytes([i]) * 32 for i in (1, 2, 3))
    ek, dk, ct, k = (ctypes.create_string_buffer(n) for n in (p.ek_bytes, p.dk_bytes, p.ct_bytes, 32))
    keygen, encaps = ready(lib, p, "keygen", d, z, ek, dk), ready(lib, p, "encaps", ek, m, ct, k)
    refused = ready(lib, p, "keygen", d[1:], z, ek, dk)
    assert keygen() == 0 and encaps() == 0 and refused() == 1
    other_keygen, other_encaps, other_reading = openssl_calls(p, d + z, ek.raw, ct.raw, k.raw)
    compare(f"{p.name}, key from a seed", keygen, other_keygen)
    compare(f"{p.name}, encapsulation", encaps, other_encaps)
    if other_reading:
        compare(f"{p.name}, public key read and encapsulation", encaps, other_reading)
    compare(f"{p.name}, a refused call", refused)


for p in ALL_SETS:
    time_set(p)
