"""Masked decapsulation and a trace against OpenSSL's plain decapsulation (Python's cryptography), timed in turns: bench/decaps runs it on our library.

OpenSSL's key holds the matrix worked out, where ours is worked out from the public key in each call. It has neither ML-KEM-512 nor Kyber round 3.
"""
import ctypes, os, sys
from array import array

sys.dont_write_bytecode = True
sys.path.append(os.path.join(os.path.dirname(os.path.abspath(__file__)), "..", "tools"))
from models.numbers import mask_coefficients
from models.parameters import ALL_SETS
from openssl import PRIVATE_KEYS, key_pair
from turns import compare, ready

CALLS, LIMIT = 2, 1000000
lib = ctypes.CDLL(sys.argv[1])


def words(n):
    return (ctypes.c_uint64 * n).from_buffer_copy(array("Q", os.urandom(8 * n)))


def coefficients(n):
    return (ctypes.c_uint16 * n)(*mask_coefficients(os.urandom(2 * n)))


def time_set(p):
    d, z, m, step = os.urandom(32), os.urandom(32), os.urandom(32), p.steps // 2
    ek, dk, ct, k, public = (ctypes.create_string_buffer(n) for n in (p.ek_bytes, p.dk_bytes, p.ct_bytes, 32, p.public_bytes))
    split = *((ctypes.c_uint16 * p.coefficients)() for _ in (0, 1)), *((ctypes.c_uint64 * 4)() for _ in (0, 1)), public
    strip, shares, value = (words(p.strip_words), coefficients(p.strip_coeffs)), (words(4), words(4)), ctypes.c_uint64()
    assert ready(lib, p, "keygen", d, z, ek, dk)() == 0 and ready(lib, p, "encaps", ek, m, ct, k)() == 0
    limit, count = ctypes.c_uint32(), ctypes.c_uint32()
    masks, uses = (coefficients(p.coefficients), words(4)), (ctypes.byref(limit), ctypes.byref(count))
    assert ready(lib, p, "import", dk, *masks, ctypes.c_uint32(LIMIT), *split, *uses)() == 0
    decaps = ready(lib, p, "decaps", *split, limit, ctypes.byref(count), ct, *strip, *shares)
    trace = ready(lib, p, "trace", *split, ct, *strip, ctypes.c_uint64(step), ctypes.byref(value))
    assert decaps() == 0 and trace() == 0 and count.value == 1
    true_ct, (_, other_decaps) = ct.raw, key_pair(p, d + z)
    assert other_decaps(true_ct) == k.raw == b"".join((a ^ b).to_bytes(8, "little") for a, b in zip(*shares))
    other = (lambda: other_decaps(true_ct)) if p in PRIVATE_KEYS else None
    compare(f"{p.name}, masked decapsulation", decaps, other, CALLS)
    compare(f"{p.name}, trace of step {step}", trace, other, CALLS)


for p in ALL_SETS:
    time_set(p)
