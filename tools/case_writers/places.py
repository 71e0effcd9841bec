"""One value at each place of a key, of shares or of masks: a digest over what each call leaves. Import's limits at their edges, and its rows one
fault after the other. The key is that of d = 0 and z = 1 in each byte, the masks are fixed."""
from models.numbers import coefficient_bytes, word_bytes
from models.parameters import Q
from models.split_key import import_answer
from edges import LIMITS
from . import format as f
from .book import POOL
from .hashes import NOTHING
from .key_book import KeyFile
from .layout import PAST, place

MASK_WORDS = [0x0123456789abcdef, 0xffffffffffffffff, 0, 0xfedcba9876543210]
KEY, MASKS, STRIP = (place("area") + at for at in (0, 10000, 20000))  # as they should be
CHANGED = place("area") + 50000  # masks or a strip with the value, and the string that a hash is joined with


def made(file):
    p = file.p
    file.case(f"{p.name}, the key and the fixed masks")
    file.fill_pool()
    for call in "keygen", "encaps", "import", "decaps", "trace":
        file.fresh(call)
    file.fill(place("z"), 32, 1)
    file.call("keygen")
    file.left("keygen")
    file.copy(KEY, place("dk"), p.dk_bytes)
    file.fill(place("m"), 32, 7)
    file.write(MASKS, coefficient_bytes((3328 + 1300 * i) % Q for i in range(p.coefficients)))
    file.load("mask_coeffs", MASKS, p.coefficients)
    file.write(place("constants"), word_bytes(MASK_WORDS))
    file.load("mask_words", place("constants"), 4)
    file.call("import")
    file.left("import")


# ---- at each place
def at_each(file, name, places, change, call, wanted=0, **how):
    """change: what is done at a place before the call."""
    file.case(f"{file.p.name}, {name}: {'refused ' + str(wanted) if wanted else 'done'} at {places} places")
    file.number("counter", 0)
    file.start_digest()
    with file.repeat(places):
        change(file)
        if call in ("encaps", "import"):
            file.fresh(call)
        file.call(call, wanted, **how)
        absorb_left(file, call)
        file.count("counter")
    file.want_digest()


def absorb_left(file, call):
    """What a call leaves in the lent buffers, and some elements past them."""
    p = file.p
    if call == "encaps":
        file.absorb(place("ct"), p.ct_bytes + PAST)
        file.absorb(place("k"), 32 + PAST)
        return
    if call == "import":
        file.absorb(place("public"), p.public_bytes + PAST)
    parts = {"s0": p.coefficients + PAST, "s1": p.coefficients + PAST, "z0": 4 + PAST, "z1": 4 + PAST, "limit": 1, "count": 1}
    if call == "decaps":
        parts = {"count": 1, "k0": 4 + PAST, "k1": 4 + PAST}
    end = place("scratch")
    for name, n in parts.items():
        file.store(end, name, n)
        end += n * (2 if name in ("s0", "s1") else 8)
    file.absorb(place("scratch"), end - place("scratch"))


def set_public(value):
    """A coefficient of the public key, with the hash that fits."""

    def change(file):
        p, ek = file.p, place("dk") + file.p.vector_bytes
        file.copy(place("dk"), KEY, p.dk_bytes)
        file.set(ek, 12, value, p.coefficients)
        file.add(f.HASH, (0, 0), (ek + p.ek_bytes, 32), *NOTHING, (0, 0), (ek, p.ek_bytes))

    return change


def set_hash(bits):
    """A byte of the stored hash, exclusive or the bits."""

    def change(file):
        p = file.p
        file.copy(place("dk"), KEY, p.dk_bytes)
        file.fill(CHANGED, 32, 0)
        file.set(CHANGED, 8, bits, 32)
        file.join(place("dk") + p.vector_bytes + p.ek_bytes, CHANGED, 32)

    return change


def set_secret(value):
    def change(file):
        file.copy(place("dk"), KEY, file.p.dk_bytes)
        file.set(place("dk"), 12, value, file.p.coefficients)

    return change


def set_coefficient(name, right, n, value):
    """In the other arena: right is where all n stand in bytes as they should be."""

    def change(file):
        file.copy(CHANGED, right, 2 * n)
        file.set(CHANGED, 16, value, n)
        file.load(name, CHANGED, n)

    return change


def key_places(file):
    n, lent_ek = file.p.coefficients, {"ek": place("dk") + file.p.vector_bytes}
    for value, answer in (3328, 0), (3329, 2), (4095, 2):
        at_each(file, f"encaps, each coefficient of the public key {value}", n, set_public(value), "encaps", answer, at=lent_ek)
    for value in 3328, 3329, 4095:
        at_each(file, f"import, each coefficient of the public key {value}", n, set_public(value), "import")
    for bits, answer in (0, 0), (1, 3), (128, 3):
        at_each(file, f"import, each byte of the hash xor {bits}", 32, set_hash(bits), "import", answer)
    for value in 3328, 3329, 4095:
        at_each(file, f"import, each coefficient of the secret part {value}", n, set_secret(value), "import")
    restore_key(file)
    for value, answer in (3328, 0), (3329, 5), (65535, 5):
        at_each(file, f"import, each mask coefficient {value}", n, set_coefficient("mask_coeffs", MASKS, n, value), "import", answer)
    restore_key(file)


def restore_key(file):
    file.copy(place("dk"), KEY, file.p.dk_bytes)
    file.load("mask_coeffs", MASKS, file.p.coefficients)


# ---- import's limits and rows
def limits(file):
    for limit in (*LIMITS, 2, 999999, 2**20, 2**31):
        file.case(f"{file.p.name}, import, limit {limit}")
        file.fresh("import")
        file.call("import", import_answer(limit), limit=limit)
        file.left("import")


def rows(file):
    """Coefficients of 3329 and more are no fault, in either part. A mask and the limit are, and then the hash, a length and the rank."""
    p = file.p
    file.case(f"{p.name}, import, coefficients of 3329 and more")
    file.number("counter", 5)
    set_public(4095)(file)
    file.number("counter", 9)
    file.set(place("dk"), 12, Q, p.coefficients)
    file.fresh("import")
    file.call("import", limit=1000000)
    file.left("import")
    file.fresh("import")
    file.case(f"{p.name}, import, and mask_coeffs[100] is {Q}")
    file.set_one("mask_coeffs", 100, Q)
    file.call("import", 5, limit=1000000)
    file.left("import")
    file.tried("and the limit", "import", wanted=10, limit=1000001)
    file.case(f"{p.name}, import, and the hash")
    file.write(place("constants"), b"\x80")
    file.join(place("dk") + p.vector_bytes + p.ek_bytes + 31, place("constants"), 1)
    file.call("import", 3, limit=1000001)
    file.left("import")
    file.tried("and a length", "import", wanted=1, limit=1000001, lengths={"dk": p.dk_bytes - 1})
    file.tried("and the rank", "import", wanted=9, limit=1000001, lengths={"dk": p.dk_bytes - 1}, rank=1)
    restore_key(file)


# ---- the shares and the strip, which refreshing and decapsulation refuse
def share_places(file):
    """Of each place 3329: of the masks, of either share, and of a strip."""
    p, n = file.p, file.p.coefficients
    file.case(f"{p.name}, import, to have its shares and a strip changed")
    file.call("import")
    file.left("import")
    file.strip(9)
    file.store(STRIP, "coeffs", p.strip_coeffs)
    shares = {"s0": POOL, "s1": POOL + 2 * n}
    for name, at in shares.items():
        file.store(at, name, n)
    at_each(file, f"refresh, each mask coefficient {Q}", n, set_coefficient("mask_coeffs", MASKS, n, Q), "refresh", 5)
    restore_key(file)
    for call in "refresh", "decaps":
        for name, at in shares.items():
            at_each(file, f"{call}, each coefficient of {name} {Q}", n, set_coefficient(name, at, n, Q), call, 6)
            file.load(name, at, n)
    strip = set_coefficient("coeffs", STRIP, p.strip_coeffs, Q)
    at_each(file, f"decaps, each coefficient of the strip {Q}", p.strip_coeffs, strip, "decaps", 5)


def places(p):
    file = KeyFile(p, "places")
    made(file)
    key_places(file)
    limits(file)
    rows(file)
    share_places(file)
    return file
