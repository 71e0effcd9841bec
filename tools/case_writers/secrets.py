"""Secrets of true, damaged and random ciphertexts, and of keys with coefficients of 3329 and more, under four splits of the key, each with four
strips, and under one more of both."""
from hashlib import shake_128
from models.elsewhere import raised, with_both, with_public, with_secret
from models.kem import decaps, encaps, keygen
from openssl import key_pair
from .key_book import SECRET, KeyFile
from .layout import STRIPS, place

KEYS, KINDS, LAST = 3, ("zero", "full", 2, 3), 4
SPLITS, WANTED = (place("area") + at for at in (10000, 40000))


def strips(file):
    file.draw_turns(KEYS)
    for kind, at in zip(KINDS, STRIPS):
        file.strip(kind, at)


def split_bytes(p):
    return 4 * p.coefficients + 64


def split_ways(file):
    """The key under each kind of masks, kept in bytes; and under one more in the arenas."""
    n = file.p.coefficients
    for i, kind in enumerate((*KINDS, LAST)):
        file.import_as(kind)
        at = SPLITS + i * split_bytes(file.p)
        for behind, name, count in (0, "s0", n), (2 * n, "s1", n), (4 * n, "z0", 4), (4 * n + 32, "z1", 4):
            file.store(at + behind, name, count)


def take_split(file):
    """Of the number counter."""
    n, size, scratch = file.p.coefficients, split_bytes(file.p), place("scratch")
    file.copy(scratch, SPLITS, size, since_stride=size)
    for behind, name, count in (0, "s0", n), (2 * n, "s1", n), (4 * n, "z0", 4), (4 * n + 32, "z1", 4):
        file.load(name, scratch + behind, count)


def each_split_and_strip(file, secret):
    """Each split with each strip, and, on another strip in the place of the last, the fifth split: 17 times the secret."""
    file.write(WANTED, secret)
    file.number("counter", 0)
    with file.repeat(len(KINDS)):
        take_split(file)
        for at in STRIPS:
            file.opened(at=at)
            file.same(SECRET, WANTED, 32)
        file.count("counter")
    take_split(file)
    file.strip(LAST, STRIPS[-1])
    file.opened(at=STRIPS[-1])
    file.want(SECRET, secret)
    file.strip(KINDS[-1], STRIPS[-1])


def changed(file, at, bits):
    """A byte of the ciphertext; the same again undoes it."""
    file.write(place("constants"), bytes([bits]))
    file.join(place("ct") + at, place("constants"), 1)


def ciphertexts(p):
    """What becomes of the true one, by name: place and bits of its change."""
    return {"true": (0, 0), "first byte": (0, 255), "last byte": (p.ct_bytes - 1, 255), "one bit": (500, 16)}


def own_secrets(file, turn, other_decaps):
    """Of the ciphertext in the memory, as it is and changed."""
    p, dk = file.p, file.memory.get(place("dk"), file.p.dk_bytes)
    for name, (at, bits) in ciphertexts(p).items():
        file.case(f"{p.name}, key {turn}, {name}: 17 times the secret")
        changed(file, at, bits)
        ct = file.memory.get(place("ct"), p.ct_bytes)
        assert other_decaps(ct) == decaps(p, dk, ct)
        each_split_and_strip(file, decaps(p, dk, ct))
        changed(file, at, bits)


def key_secrets(file, turn):
    p = file.p
    file.case(f"{p.name}, key {turn} and its splits")
    file.seeds_of(turn)
    file.make_key()
    split_ways(file)
    draw = shake_128().digest((turn + 1) * file.turn_bytes)[-file.turn_bytes:]
    _, other_decaps = key_pair(p, draw[:64])
    own_secrets(file, turn, other_decaps)
    file.case(f"{p.name}, key {turn}, random: 17 times the secret")
    file.random_ciphertext(turn)
    secret = decaps(p, file.memory.get(place("dk"), p.dk_bytes), draw[96:])
    assert other_decaps(draw[96:]) == secret
    each_split_and_strip(file, secret)


def raised_keys(p, dk):
    return {
        "secret": with_secret(p, dk, raised(p.secret(dk))), "public": with_public(p, dk, raised(p.t(dk))), "both": with_both(p, dk, raised),
    }


def raised_secrets(file):
    """Key 0 with its coefficients raised by 3329; in its secret part alone it is the same key. The ciphertexts are the model's: encapsulation refuses
    such public keys."""
    p, draw = file.p, shake_128().digest(96)
    _, other_decaps = key_pair(p, draw[:64])
    for name, key in raised_keys(p, keygen(p, draw[:32], draw[32:64])[1]).items():
        ct, k = encaps(p, p.ek(key), draw[64:])
        assert decaps(p, key, ct) == k and (name != "secret" or other_decaps(ct) == k)
        file.case(f"{p.name}, key 0, raised {name}: 17 times the secret")
        file.write(place("dk"), key)
        file.write(place("ct"), ct)
        split_ways(file)
        each_split_and_strip(file, k)


def secrets(p):
    file = KeyFile(p, "secrets", exact=False)
    strips(file)
    for turn in range(KEYS):
        key_secrets(file, turn)
    raised_secrets(file)
    return file
