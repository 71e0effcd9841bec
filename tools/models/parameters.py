"""The parameter sets of FIPS 203 and of Kyber round 3, and what follows from one by formula: lengths of keys, ciphertexts and split keys, what each
call is lent, and, by document 01's gadgets, the entries and masks of each stage of the worksheet."""
from dataclasses import dataclass, replace
from enum import Enum

Q, N = 3329, 256


class Edition(Enum):
    """By what the names of its calls begin with in C."""

    ML_KEM = "tifo_"
    KYBER = "tifo_kyber_"


@dataclass(frozen=True)
class Use:
    """Entries made, and mask words and mask coefficients drawn."""

    entries: int = 0
    words: int = 0
    coeffs: int = 0

    def __add__(self, other):
        return Use(self.entries + other.entries, self.words + other.words, self.coeffs + other.coeffs)

    def __rmul__(self, times):
        return Use(times * self.entries, times * self.words, times * self.coeffs)


# ---- the gadgets
AND, XOR, ENTRY, COEFFICIENT = Use(8, 1), Use(2), Use(1), Use(4, 0, 1)
OR = 3 * ENTRY + AND
POLYNOMIAL = 2 * N * ENTRY
CHI = ENTRY + AND + XOR
SELECTION = 2 * XOR + AND
PERMUTATION = 24 * (50 * ENTRY + 25 * CHI + ENTRY)


def adder(planes):
    return 2 * planes * Use(1, 1) + (planes - 1) * (3 * XOR + AND) + planes * XOR


def compressed(depth):
    """A polynomial, in four groups of 64."""
    return 4 * (128 * ENTRY + adder(depth + 13))


def sampled(eta):
    return N * (2 * eta * COEFFICIENT + 2 * (2 * eta - 1) * ENTRY)


def hashed(rate, length, words):
    """Of so many bytes, with so many words of output."""
    return Use(0, 25) + (length // rate + 1) * (rate // 8 * XOR + PERMUTATION) + (words - 1) // (rate // 8) * PERMUTATION


def last_steps(start, gadget):
    """The last two steps of a gadget for each of four words, which run one after the other."""
    ends = [start + gadget.entries * (word + 1) for word in range(4)]
    return [(end - 2, end - 1) for end in ends]


@dataclass(frozen=True)
class Parameters:
    name: str
    k: int  # the rank
    eta1: int
    eta2: int
    du: int
    dv: int
    edition: Edition = Edition.ML_KEM

    @property
    def coefficients(self):
        return N * self.k

    # ---- lengths in bytes
    @property
    def vector_bytes(self):
        return 384 * self.k

    @property
    def ek_bytes(self):
        return self.vector_bytes + 32

    @property
    def public_bytes(self):
        """The public key, then its hash."""
        return self.ek_bytes + 32

    @property
    def dk_bytes(self):
        return self.vector_bytes + self.public_bytes + 32

    @property
    def u_bytes(self):
        return 32 * self.du * self.k

    @property
    def ct_bytes(self):
        return self.u_bytes + 32 * self.dv

    # ---- lengths of files: masks, a split key, a strip
    @property
    def mask_bytes(self):
        return 2 * self.coefficients + 8 * 4

    @property
    def split_bytes(self):
        """With the limit and the count."""
        return 2 * self.mask_bytes + self.public_bytes + 2 * 4

    @property
    def strip_bytes(self):
        return 8 * self.strip_words + 2 * self.strip_coeffs

    # ---- the buffers of each call, in order, by their counts of elements
    @property
    def lent(self):
        masks, shares = (self.coefficients, 4), (self.coefficients, self.coefficients, 4, 4)
        split = *shares, self.public_bytes
        run = *split, self.ct_bytes, self.strip_words, self.strip_coeffs
        return {
            "keygen": (32, 32, self.ek_bytes, self.dk_bytes),
            "encaps": (self.ek_bytes, 32, self.ct_bytes, 32),
            "import": (self.dk_bytes, *masks, *split),
            "refresh": (*masks, *shares),
            "decaps": (*run, 4, 4),
            "trace": run,
        }

    def c_name(self, call):
        """The call's in C. Import and refreshing are one for both editions."""
        return (Edition.ML_KEM if call in ("import", "refresh") else self.edition).value + call

    @property
    def defines(self):
        """For the compiler, where a C program uses tools/evidence/masked_run.h."""
        numbers = {"KYBER": int(self.edition == Edition.KYBER), "RANK": self.k, "CT_BYTES": self.ct_bytes}
        numbers |= {"STRIP_WORDS": self.strip_words, "STRIP_COEFFS": self.strip_coeffs}
        return [f"-D{name}={n}" for name, n in numbers.items()]

    # ---- the parts of a decapsulation key
    def secret(self, dk):
        return dk[:self.vector_bytes]

    def ek(self, dk):
        return dk[self.vector_bytes:][:self.ek_bytes]

    def t(self, dk):
        """t-hat, encoded."""
        return self.ek(dk)[:self.vector_bytes]

    def rho(self, dk):
        return self.ek(dk)[self.vector_bytes:]

    def public(self, dk):
        return dk[self.vector_bytes:][:self.public_bytes]

    def z(self, dk):
        return dk[self.dk_bytes - 32:]

    # ---- the worksheet
    @property
    def plane_words(self):
        return 4 * (self.k * self.du + self.dv)

    @property
    def stages(self):
        """What each stage uses: 1 to 8, which are alike in both editions, and those of the ending."""
        noise = {eta: hashed(136, 33, 8 * eta) + sampled(eta) for eta in (self.eta1, self.eta2)}
        return [
            POLYNOMIAL,
            compressed(1),
            hashed(72, 64, 8),
            N * COEFFICIENT,
            self.k * noise[self.eta1] + (self.k + 1) * noise[self.eta2],
            (self.k + 1) * POLYNOMIAL,
            self.k * compressed(self.du) + compressed(self.dv),
            self.plane_words * ENTRY + (self.plane_words - 1 + 6) * OR + ENTRY,
            *self.ending,
        ]

    @property
    def ending(self):
        """Stages 9 and 10, a hash and selection; in round 3 selection, and then the last hash."""
        if self.edition == Edition.ML_KEM:
            return hashed(136, 32 + self.ct_bytes, 4), 4 * SELECTION
        return 4 * SELECTION, hashed(136, 32 + 32, 4)

    @property
    def use(self):
        return sum(self.stages, Use())

    @property
    def starts(self):
        """The first step of each stage."""
        return [sum(self.stages[:i], Use()).entries for i in range(len(self.stages))]

    @property
    def steps(self):
        return self.use.entries

    @property
    def secret_steps(self):
        """For each word of the secret the steps that enter its two shares: selection's, and in round 3 those of the last hash's last round, which
        enters share 0 of the first word anew with the round constant."""
        if self.edition == Edition.ML_KEM:
            return last_steps(self.starts[9], SELECTION)
        (_, share1), *others = last_steps(self.steps - (25 * CHI + ENTRY).entries, CHI)
        return [(self.steps - 1, share1), *others]

    @property
    def strip_words(self):
        return self.use.words

    @property
    def strip_coeffs(self):
        return self.use.coeffs


ML_KEM_512 = Parameters("ML-KEM-512", k=2, eta1=3, eta2=2, du=10, dv=4)
ML_KEM_768 = Parameters("ML-KEM-768", k=3, eta1=2, eta2=2, du=10, dv=4)
ML_KEM_1024 = Parameters("ML-KEM-1024", k=4, eta1=2, eta2=2, du=11, dv=5)
SETS = ML_KEM_512, ML_KEM_768, ML_KEM_1024
KYBER_SETS = tuple(replace(p, name=f"Kyber{p.coefficients}", edition=Edition.KYBER) for p in SETS)
ALL_SETS = SETS + KYBER_SETS
NAMED = {p.name.lower(): p for p in ALL_SETS}  # as the program mlkem names them


def sisters(p):
    """The edition's other sets."""
    return [sister for sister in ALL_SETS if sister.edition == p.edition and sister != p]


def twin(p):
    """The other edition's set of the same rank."""
    return next(other for other in ALL_SETS if other.edition != p.edition and other.k == p.k)
