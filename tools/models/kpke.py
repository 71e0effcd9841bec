"""A plain model of K-PKE, which ML-KEM and Kyber round 3 are both built on, written down from FIPS 203 (sections 4 and 5) with hashlib's hashes: for
expected values, neither fast nor for keys that matter.

What depends on the parameter set takes it first."""
from hashlib import sha3_256, sha3_512, shake_128, shake_256
from .parameters import N, Q


def reversed7(i):
    return int(f"{i:07b}"[::-1], 2)


ROOTS = [pow(17, reversed7(i), Q) for i in range(128)]
PRODUCT_ROOTS = [pow(17, 2 * reversed7(i) + 1, Q) for i in range(128)]


# algorithms 9 to 12
def ntt(f):
    f, i, size = list(f), 1, 128
    while size >= 2:
        for start in range(0, N, 2 * size):
            for j in range(start, start + size):
                t = ROOTS[i] * f[j + size]
                f[j + size], f[j] = (f[j] - t) % Q, (f[j] + t) % Q
            i += 1
        size //= 2
    return f


def inverse_ntt(f):
    f, i, size = list(f), 127, 2
    while size <= 128:
        for start in range(0, N, 2 * size):
            for j in range(start, start + size):
                low, high = f[j], f[j + size]
                f[j], f[j + size] = (low + high) % Q, ROOTS[i] * (high - low) % Q
            i -= 1
        size *= 2
    return [x * 3303 % Q for x in f]


def multiply(f, g):
    h = []
    for i, root in enumerate(PRODUCT_ROOTS):
        a, b, c, d = f[2 * i], f[2 * i + 1], g[2 * i], g[2 * i + 1]
        h += [(a * c + b * d * root) % Q, (a * d + b * c) % Q]
    return h


def add(f, g):
    return [(a + b) % Q for a, b in zip(f, g)]


def subtract(f, g):
    return [(a - b) % Q for a, b in zip(f, g)]


def dot(v, w):
    total = [0] * N
    for f, g in zip(v, w):
        total = add(total, multiply(f, g))
    return total


# algorithms 5 and 6, section 4.2.1
def encode(d, f):
    return sum(x << d * i for i, x in enumerate(f)).to_bytes(32 * d, "little")


def decode(d, data):
    bits = int.from_bytes(data, "little")
    values = [bits >> d * i & (1 << d) - 1 for i in range(len(data) * 8 // d)]
    return [x % Q for x in values] if d == 12 else values


def compress(d, f):
    return [((x << d + 1) + Q) // (2 * Q) % (1 << d) for x in f]


def decompress(d, f):
    return [(2 * Q * y + (1 << d)) >> d + 1 for y in f]


def vector(p, d, data):
    return [decode(d, data[32 * d * i:32 * d * (i + 1)]) for i in range(p.k)]


# algorithms 7 and 8
def sample_ntt(stream):
    """The first 256 coefficients, or None where the stream holds fewer."""
    f = []
    for a, b, c in zip(stream[::3], stream[1::3], stream[2::3]):
        f += [x for x in (a + 256 * (b % 16), b // 16 + 16 * c) if x < Q]
    return f[:N] if len(f) >= N else None


def sample_cbd(eta, data):
    bits = decode(1, data)
    groups = [bits[2 * eta * i:2 * eta * (i + 1)] for i in range(N)]
    return [(sum(g[:eta]) - sum(g[eta:])) % Q for g in groups]


def noise(eta, seed, n):
    return sample_cbd(eta, shake_256(seed + bytes([n])).digest(64 * eta))


def matrix(p, rho):
    return [[sample_ntt(shake_128(rho + bytes([j, i])).digest(840)) for j in range(p.k)] for i in range(p.k)]


# algorithm 13 from line 2 on, with rho and sigma as the edition makes them; algorithms 14 and 15
def pke_keys(p, rho, sigma):
    s = [ntt(noise(p.eta1, sigma, i)) for i in range(p.k)]
    e = [ntt(noise(p.eta1, sigma, p.k + i)) for i in range(p.k)]
    t = [add(dot(row, s), e[i]) for i, row in enumerate(matrix(p, rho))]
    return b"".join(encode(12, f) for f in t) + rho, b"".join(encode(12, f) for f in s)


def pke_encrypt(p, ek, m, r):
    a, t = matrix(p, ek[p.vector_bytes:]), vector(p, 12, ek[:p.vector_bytes])
    y = [ntt(noise(p.eta1, r, i)) for i in range(p.k)]
    e1, e2 = [noise(p.eta2, r, p.k + i) for i in range(p.k)], noise(p.eta2, r, 2 * p.k)
    mu = decompress(1, decode(1, m))
    u = [add(inverse_ntt(dot(column, y)), e1[i]) for i, column in enumerate(zip(*a))]
    v = add(add(inverse_ntt(dot(t, y)), e2), mu)
    return b"".join(encode(p.du, compress(p.du, f)) for f in u) + encode(p.dv, compress(p.dv, v))


def noisy_message(p, s, c):
    u = [ntt(decompress(p.du, f)) for f in vector(p, p.du, c[:p.u_bytes])]
    return subtract(decompress(p.dv, decode(p.dv, c[p.u_bytes:])), inverse_ntt(dot(s, u)))


def pke_decrypt(p, dk, c):
    w = noisy_message(p, vector(p, 12, dk), c)
    return encode(1, compress(1, w))


# ---- around it, the same in both editions
def kem_keys(p, seeds, z):
    """Of rho and sigma, and z: the public key and the decapsulation key."""
    ek, dk = pke_keys(p, seeds[:32], seeds[32:])
    return ek, dk + ek + sha3_256(ek).digest() + z


def encrypted(p, ek, m):
    """The ciphertext of m, and K'."""
    g = sha3_512(m + sha3_256(ek).digest()).digest()
    return pke_encrypt(p, ek, m, g[32:]), g[:32]


def compared(p, dk, c):
    """K' of what c decrypts to, and whether that encrypts to c again."""
    m = pke_decrypt(p, p.secret(dk), c)
    g = sha3_512(m + p.public(dk)[p.ek_bytes:]).digest()
    return g[:32], pke_encrypt(p, p.ek(dk), m, g[32:]) == c
