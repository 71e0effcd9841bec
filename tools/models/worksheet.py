"""A plain model of masked decapsulation, written down from the gadgets and the stages: every entry of the worksheet, in order.

A value on two shares is a pair. Slow, and for comparison only.
"""
from hashlib import sha3_256
from .kpke import add, decode, decompress, dot, inverse_ntt, matrix, ntt, subtract, vector
from .parameters import Edition, N, Q

ALL = 2**64 - 1
COLUMNS = [(x, y) for y in range(5) for x in range(5)]


def rotate(v, n):
    return (v << n | v >> 64 - n) & ALL


def offsets():
    rho, x, y = {(0, 0): 0}, 1, 0
    for t in range(24):
        rho[x, y] = (t + 1) * (t + 2) // 2 % 64
        x, y = y, (2 * x + 3 * y) % 5
    return rho


def constants():
    r, out = 1, []
    for _ in range(24):
        word = 0
        for j in range(7):
            word |= (r & 1) << 2**j - 1
            r = r << 1 ^ (0x171 if r >> 7 else 0)
        out.append(word)
    return out


RHO, CONSTANTS = offsets(), constants()


def linear(a):
    """Theta, rho and pi."""
    c = [a[x] ^ a[x + 5] ^ a[x + 10] ^ a[x + 15] ^ a[x + 20] for x in range(5)]
    d = [c[x - 1] ^ rotate(c[(x + 1) % 5], 1) for x in range(5)]
    out = [0] * 25
    for x, y in COLUMNS:
        out[y + 5 * ((2 * x + 3 * y) % 5)] = rotate(a[x + 5 * y] ^ d[x], RHO[x, y])
    return out


class Worksheet:
    def __init__(self, words, coeffs):
        self.entries, self.words, self.coeffs = [], iter(words), iter(coeffs)

    def enter(self, value):
        self.entries.append(value)
        return value

    def xor(self, u, v):
        return self.enter(u[0] ^ v[0]), self.enter(u[1] ^ v[1])

    def complement(self, u, ones=ALL):
        return self.enter(u[0] ^ ones), u[1]

    def and_(self, u, v, ones=ALL):
        r, e = next(self.words) & ones, self.enter
        cross = e(e(u[0] & v[1]) ^ r)
        z0 = e(e(u[0] & v[0]) ^ cross)
        cross = e(e(u[1] & v[0]) ^ r)
        return z0, e(e(u[1] & v[1]) ^ cross)

    def or_(self, u, v, ones=ALL):
        u = self.complement(u, ones)
        return self.complement(self.and_(u, self.complement(v, ones), ones), ones)

    def coefficient(self, bit, weight):
        r = next(self.coeffs)
        table = [self.enter(((i ^ bit[1]) * weight + r) % Q) for i in (0, 1)]
        return self.enter(table[bit[0]]), self.enter((Q - r) % Q)

    def total(self, values):
        sum = values[0]
        for v in values[1:]:
            sum = self.enter((sum + v) % Q)
        return sum

    def sample(self, bits):
        eta = len(bits) // 2
        parts = [self.coefficient(b, w) for b, w in zip(bits, eta * [1] + eta * [Q - 1])]
        return tuple(self.total([p[i] for p in parts]) for i in (0, 1))

    def masked(self, planes):
        out = []
        for p in planes:
            r = next(self.words)
            out.append((self.enter(p ^ r), r))
        return out

    def adder(self, a, b):
        a = self.masked(a)
        b = self.masked(b)
        carries = [(0, 0)]
        for x, y in zip(a[:-1], b[:-1]):
            left = self.xor(x, y)
            carries.append(self.xor(x, self.and_(left, self.xor(x, carries[-1]))))
        return [tuple(self.enter(x[i] ^ y[i] ^ c[i]) for i in (0, 1)) for x, y, c in zip(a, b, carries)]

    def compress(self, d, f):
        """256 coefficients: d planes for each group of 64."""
        out = []
        for g in range(0, N, 64):
            numbers = [[self.enter((((x << d + 13) // Q) + 4096 * i) % (1 << d + 13)) for x in f[i][g:g + 64]] for i in (0, 1)]
            out += self.adder(*([sum((x >> j & 1) << k for k, x in enumerate(n)) for j in range(d + 13)] for n in numbers))[-d:]
        return out

    def permute(self, s):
        for constant in CONSTANTS:
            s = [[self.enter(v) for v in linear(a)] for a in s]
            lanes = [(s[0][i], s[1][i]) for i in range(25)]
            out = []
            for x, y in COLUMNS:
                a, b, c = (lanes[5 * y + (x + k) % 5] for k in range(3))
                out.append(self.xor(a, self.and_(self.complement(b), c)))
            s = [[v[i] for v in out] for i in (0, 1)]
            s[0][0] = self.enter(s[0][0] ^ constant)
        return s

    def hash(self, rate, last, shared, public, length):
        """Of words on two shares, then public bytes: the first words, as many as length says."""
        data = [b"".join(v[i].to_bytes(8, "little") for v in shared) for i in (0, 1)]
        return self.sponge(rate, last, (data[0] + public, data[1]), length)

    def sponge(self, rate, last, data, length):
        """The same of two shares in bytes; where the second ends, the rest is public."""
        size = (len(data[0]) // rate + 1) * rate
        data = [d.ljust(size, b"\0") for d in (data[0] + bytes([last]), data[1])]
        data[0] = data[0][:-1] + bytes([data[0][-1] ^ 0x80])
        start = [next(self.words) for _ in range(25)]
        s = [list(start), list(start)]
        for at in range(0, size, rate):
            for lane in range(rate // 8):
                for i in (0, 1):
                    s[i][lane] = self.enter(s[i][lane] ^ int.from_bytes(data[i][at + 8 * lane:][:8], "little"))
            s = self.permute(s)
        out = list(zip(*s))[:rate // 8]
        while len(out) < length:
            s = self.permute(s)
            out += list(zip(*s))[:rate // 8]
        return out[:length]

    def all_zero(self, words):
        word = words[0]
        for v in words[1:]:
            word = self.or_(word, v)
        for n in (32, 16, 8, 4, 2, 1):
            ones = (1 << n) - 1
            word = self.or_((word[0] & ones, word[1] & ones), (word[0] >> n, word[1] >> n), ones)
        return self.complement(word, 1)

    def select(self, copies, words, others):
        """The words where all copies of the bit are 1, else the others."""
        return [self.xor(r, self.and_(copies, self.xor(v, r))) for v, r in zip(words, others)]


def bits(words):
    return [(v[0] >> j & 1, v[1] >> j & 1) for v in words for j in range(64)]


def planes(d, data):
    f = decode(d, data)
    return [sum((x >> j & 1) << k for k, x in enumerate(f[g:g + 64])) for g in range(0, len(f), 64) for j in range(d)]


def pairs(f):
    return [x[0] for x in f], [x[1] for x in f]


def polynomial(sheet, *shares):
    return tuple([sheet.enter(x) for x in f] for f in shares)


def noisy_message(p, sheet, s, ct):
    """w."""
    u = [ntt(decompress(p.du, f)) for f in vector(p, p.du, ct[:p.u_bytes])]
    v = decompress(p.dv, decode(p.dv, ct[p.u_bytes:]))
    products = [inverse_ntt(dot([list(s[i][N * j:N * (j + 1)]) for j in range(p.k)], u)) for i in (0, 1)]
    return polynomial(sheet, subtract(v, products[0]), subtract([0] * N, products[1]))


def encrypt(p, sheet, ek, m, coins):
    """u and v."""
    mu = pairs([sheet.coefficient(b, 1665) for b in bits(m)])
    noise = []
    for n in range(2 * p.k + 1):
        eta = p.eta1 if n < p.k else p.eta2
        b = bits(sheet.hash(136, 0x1f, coins, bytes([n]), 8 * eta))
        noise.append(pairs([sheet.sample(b[2 * eta * i:2 * eta * (i + 1)]) for i in range(N)]))
    a, t = matrix(p, ek[p.vector_bytes:]), vector(p, 12, ek[:p.vector_bytes])
    y = [[ntt(noise[j][i]) for j in range(p.k)] for i in (0, 1)]
    e1, e2 = noise[p.k:2 * p.k], noise[2 * p.k]
    u = [polynomial(sheet, *(add(inverse_ntt(dot(column, y[i])), e1[j][i]) for i in (0, 1))) for j, column in enumerate(zip(*a))]
    return u + [polynomial(sheet, *(add(add(inverse_ntt(dot(t, y[i])), e2[i]), mu[i]) for i in (0, 1)))]


def compared(p, sheet, s, public, ct):
    """Stages 1 to 8: K', and copies of the equal bit."""
    m = sheet.compress(1, noisy_message(p, sheet, s, ct))
    g = sheet.hash(72, 6, m, public[p.ek_bytes:], 8)
    uv = encrypt(p, sheet, public[:p.ek_bytes], m, g[4:])
    words = [v for d, f in zip(p.k * [p.du] + [p.dv], uv) for v in sheet.compress(d, f)]
    size = 32 * p.du
    theirs = [plane for i in range(p.k) for plane in planes(p.du, ct[size * i:size * (i + 1)])] + planes(p.dv, ct[p.u_bytes:])
    equal = sheet.all_zero([(sheet.enter(v[0] ^ c), v[1]) for v, c in zip(words, theirs)])
    return g[:4], tuple(ALL * b for b in equal)


# ---- what follows stage 8
def mlkem_ending(sheet, k, copies, z, ct):
    """Stages 9 and 10."""
    return sheet.select(copies, k, sheet.hash(136, 0x1f, z, ct, 4))


def kyber_ending(sheet, k, copies, z, ct):
    """Selection, and the last hash."""
    return sheet.hash(136, 0x1f, sheet.select(copies, k, z), sha3_256(ct).digest(), 4)


ENDINGS = {Edition.ML_KEM: mlkem_ending, Edition.KYBER: kyber_ending}


def worksheet(p, key, ct, strip):
    """Entries, and the shares of K."""
    s0, s1, z0, z1, public = key
    ct, sheet = bytes(ct), Worksheet(*strip)
    k = ENDINGS[p.edition](sheet, *compared(p, sheet, (s0, s1), bytes(public), ct), list(zip(z0, z1)), ct)
    assert next(sheet.words, None) is None and next(sheet.coeffs, None) is None
    return sheet.entries, k
