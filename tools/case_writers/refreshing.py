"""Refreshing: what it leaves of drawn shares and of the count, coefficients that it refuses, and decapsulation under a limit of 1, before and after
it."""
from models.kem import decaps, encaps, keygen
from models.parameters import Q
from .key_book import SECRET, KeyFile
from .layout import place

COUNTS = 0, 1, 2**32 - 1
KINDS = "zero", "full", 2
FAULTS = ("mask_coeffs",), ("s0",), ("s1",), ("s1", "mask_coeffs")
ALL = "s0", "s1", "mask_coeffs"


def named(kind):
    return kind if kind in ("zero", "full") else "drawn"


# ---- what it leaves
def draw_shares(file):
    n = file.p.coefficients
    for i, (s, z) in enumerate((("s0", "z0"), ("s1", "z1"))):
        file.coefficients(s, n, i, b"s")
        file.words(z, 4, i, b"z")


def refresh_masks(file, kind):
    file.key_masks(kind, (b"m", b"w"))


def kept(file):
    for kind in KINDS:
        for count in COUNTS:
            file.case(f"{file.p.name}, refresh, masks {named(kind)}, count {count} to 0")
            file.fresh("refresh")
            draw_shares(file)
            refresh_masks(file, kind)
            file.number("count", count)
            file.call("refresh")
            file.left("refresh")


def fault(file, parts, at, value):
    answer = 5 if "mask_coeffs" in parts else 6
    file.case(f"{file.p.name}, refresh, {' and '.join(parts)}[{at}] {value}")
    for part in parts:
        file.set_one(part, at, value)
    file.call("refresh", answer)
    file.left("refresh")


def faults(file):
    n = file.p.coefficients
    file.prepare()
    draw_shares(file)
    refresh_masks(file, 2)
    for parts in FAULTS:
        for at in 0, n - 1:
            for value in Q, 65535:
                file.number("count", 1)
                fault(file, parts, at, value)
                draw_shares(file)
                refresh_masks(file, 2)
    file.case(f"{file.p.name}, refresh, {' and '.join(ALL)} {Q} everywhere")
    for part in ALL:
        file.set_all(part, n, Q.to_bytes(2, "little"))
    file.call("refresh", 5)
    file.left("refresh")


# ---- decapsulation before and after it
def seeded(file):
    """d, z and m are the bytes 0 to 31, 32 to 63 and 64 to 95."""
    seeds = bytes(range(96))
    for i, name in enumerate(("d", "z", "m")):
        file.write(place(name), seeds[32 * i:32 * i + 32])
    file.make_key()
    ek, dk = keygen(file.p, seeds[:32], seeds[32:64])
    ct, k = encaps(file.p, ek, seeds[64:])
    assert decaps(file.p, dk, ct) == k
    return dk


def used(file, dk):
    """Carried out: the count, and the secret that the shares stand for."""
    file.call("decaps")
    file.join_shares()
    file.want(SECRET, decaps(file.p, dk, file.memory.get(place("ct"), file.p.ct_bytes)))
    want_count(file, 1)


def used_up(file):
    """Refused: neither the count nor the shares change."""
    file.fresh("decaps")
    file.number("count", 1)
    file.call("decaps", 11)
    file.left("decaps")


def want_count(file, count):
    file.store(place("constants"), "count", 1)
    file.want(place("constants"), count.to_bytes(8, "little"))


def calls(file, name, kind, dk):
    p = file.p
    file.case(f"{p.name}, {name} ciphertext, masks {named(kind)}: decaps, refused, refresh, decaps")
    file.fresh("import")
    file.key_masks(9, words_kind="zero")
    file.call("import")
    file.left("import")
    used(file, dk)
    used_up(file)
    refresh_masks(file, kind)
    file.call("refresh")
    file.left("refresh")
    used(file, dk)


def secrets(file):
    file.case(f"{file.p.name}, a key and its ciphertext, and a strip")
    dk = seeded(file)
    file.strip(9)
    for name in "true", "false":
        for kind in KINDS:
            calls(file, name, kind, dk)
        file.write(place("constants"), b"\1")
        file.join(place("ct"), place("constants"), 1)


def refreshing(p):
    file = KeyFile(p, "refreshing", exact=False)
    file.fill_pool()
    for call in "keygen", "encaps", "import", "decaps":
        file.fresh(call)
    kept(file)
    faults(file)
    secrets(file)
    return file
