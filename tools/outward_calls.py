"""The outward calls on keys from Python, on the shared library that tools/sharedlib builds. A buffer is a ctypes array and passes with its length; a number
that a call may write is lent as a pointer."""
import ctypes, os, subprocess
from array import array
from hashlib import shake_256
from models.numbers import mask_coefficients

os.chdir(os.path.join(os.path.dirname(os.path.abspath(__file__)), ".."))
subprocess.run(["tools/sharedlib"], check=True)
LIB = ctypes.CDLL("target/sharedlib/libcapi.so")


def u8(data):
    return (ctypes.c_uint8 * len(data)).from_buffer_copy(bytes(data))


def u16(values):
    return (ctypes.c_uint16 * len(values)).from_buffer_copy(array("H", values))


def u64(values):
    return (ctypes.c_uint64 * len(values)).from_buffer_copy(array("Q", values))


def is_buffer(x):
    return isinstance(x, ctypes.Array)


def call(p, name, *lent, rank=None):
    """The answer of a call in the set's edition, told the set's rank or another."""
    words = [word for x in lent for word in ((x, ctypes.c_size_t(len(x))) if is_buffer(x) else (x,))]
    return getattr(LIB, p.c_name(name))(ctypes.c_uint32(p.k if rank is None else rank), *words)


# ---- what a call is lent, in order; limit_out, count and value are c_uint32 or c_uint64
def for_import(dk, masks, limit, split, limit_out, count):
    return [dk, *masks, ctypes.c_uint32(limit), *split, ctypes.pointer(limit_out), ctypes.pointer(count)]


def for_decaps(buffers, limit, count):
    """buffers: split key, ciphertext, strip, and the shares of the secret."""
    return [*buffers[:5], ctypes.c_uint32(limit), ctypes.pointer(count), *buffers[5:]]


def for_trace(buffers, step, value):
    """buffers: split key, ciphertext and strip."""
    return [*buffers, ctypes.c_uint64(step), ctypes.pointer(value)]


def for_refresh(masks, split, count):
    return [*masks, *split[:4], ctypes.pointer(count)]


class Stream:
    """SHAKE256 of a seed, drawn from in order."""

    def __init__(self, seed, length):
        self.data, self.at = shake_256(seed).digest(length), 0

    def bytes(self, n):
        self.at += n
        assert self.at <= len(self.data)
        return self.data[self.at - n:self.at]

    def words(self, n):
        return u64(array("Q", self.bytes(8 * n)))

    def coefficients(self, n):
        return u16(mask_coefficients(self.bytes(2 * n)))

    def masks(self, p):
        """For a split key: coefficients and words."""
        return self.coefficients(p.coefficients), self.words(4)


def draw_strip(p, seed):
    draws = Stream(seed, p.strip_bytes)
    return draws.words(p.strip_words), draws.coefficients(p.strip_coeffs)


def keygen(p, d, z):
    ek, dk = u8(bytes(p.ek_bytes)), u8(bytes(p.dk_bytes))
    assert call(p, "keygen", u8(d), u8(z), ek, dk) == 0
    return ek, dk


def encaps(p, ek, m):
    ct, k = u8(bytes(p.ct_bytes)), u8(bytes(32))
    assert call(p, "encaps", ek, u8(m), ct, k) == 0
    return ct, k


def no_split(p):
    return [*(u16([0] * p.coefficients) for _ in (0, 1)), *(u64([0] * 4) for _ in (0, 1)), u8(bytes(p.public_bytes))]


def split_key(p, dk, mask_coeffs, mask_words, limit=1):
    """s0, s1, z0, z1, and the public key and h."""
    split, limit_out, count = no_split(p), ctypes.c_uint32(77), ctypes.c_uint32(77)
    assert call(p, "import", *for_import(dk, (mask_coeffs, mask_words), limit, split, limit_out, count)) == 0
    assert (limit_out.value, count.value) == (limit, 0)
    return split


def decaps(p, split, ct, strip):
    """The two shares of the secret, by the first use of one."""
    k0, k1, count = u64([0] * 4), u64([0] * 4), ctypes.c_uint32(0)
    assert call(p, "decaps", *for_decaps([*split, ct, *strip, k0, k1], 1, count)) == 0
    assert count.value == 1
    return k0, k1


def traced(p, split, ct, strip, step):
    value = ctypes.c_uint64()
    assert call(p, "trace", *for_trace([*split, ct, *strip], step, value)) == 0
    return value.value


def joined(w0, w1):
    """The bytes of words on two shares."""
    return b"".join((a ^ b).to_bytes(8, "little") for a, b in zip(w0, w1))
