"""A thousand decapsulations of one split key under a limit of 7, every other one of a false ciphertext: where the limit is reached, the call is
refused, the key refreshed, and the call made again. A digest takes up what each call leaves.

d, z and m are the bytes 0 to 31, 32 to 63 and 64 to 95. The masks of import (0) and of refreshing j are SHAKE256 of 'refresh' and j in 4 bytes: 16
bits modulo q for each coefficient, then four words. The ciphertext of turn i is true where i is even; else byte i, modulo its length, is changed in
its lowest bit. The digest starts as 32 zero bytes and becomes SHA3-256 of itself and of what a call leaves: after a decapsulation the secret and the
count in 4 bytes, after a refreshing both shares of the secret key, 16 bits for each coefficient, and of z. Numbers have their low byte first."""
from . import format as f
from .book import SHAKE256
from .key_book import SECRET, KeyFile
from .layout import place
from .refreshing import seeded

LIMIT, TURNS = 7, 1000
BLOCK = 2 * LIMIT  # turns after which everything comes again
MASK_SEED, STRIP_SEEDS = place("seed"), {"words": place("seed") + 24, "coeffs": place("seed") + 40}
CHANGE = place("area")  # zeros, and the bit that a false ciphertext is changed by


def masks(file):
    """Under the number of the refreshing, which stands in the word step."""
    n, scratch = file.p.coefficients, place("scratch")
    file.store(MASK_SEED + 7, "step", 1)
    file.add(f.SQUEEZE, (scratch, file.p.mask_bytes), (SHAKE256, 0), (MASK_SEED, 11))
    file.load("mask_coeffs", scratch, n, reduced=True)
    file.load("mask_words", scratch + 2 * n, 4)
    file.count("step")


def strip(file):
    """Under the turn's number modulo 256."""
    p = file.p
    for name, n, size in ("words", p.strip_words, 8), ("coeffs", p.strip_coeffs, 2):
        seed = STRIP_SEEDS[name]
        file.store(seed + 1, "counter", 1)
        file.add(f.SQUEEZE, (place("scratch"), n * size), (SHAKE256, 0), (seed, 2))
        file.load(name, place("scratch"), n, reduced=True)


def refresh(file):
    n, scratch = file.p.coefficients, place("scratch")
    masks(file)
    file.call("refresh")
    for at, name, count in (0, "s0", n), (2 * n, "s1", n), (4 * n, "z0", 4), (4 * n + 32, "z1", 4):
        file.store(scratch + at, name, count)
    file.absorb(scratch, 4 * n + 64)


def take_turn(file, turn):
    n = file.p.ct_bytes
    if turn % 2:
        file.fill(CHANGE, n, 0)
        file.set(CHANGE, 8, 1, n)
        file.join(place("ct"), CHANGE, n)
    strip(file)
    if turn and turn % LIMIT == 0:
        file.call("decaps", 11, limit=LIMIT)
        refresh(file)
    file.call("decaps", limit=LIMIT)
    file.join_shares()
    file.store(SECRET + 32, "count", 1)
    file.absorb(SECRET, 36)
    if turn % 2:
        file.join(place("ct"), CHANGE, n)
    file.count("counter")


def take_turns(file, start, end):
    for turn in range(start, end):
        take_turn(file, turn)


def thousand(p):
    """The digest is tried behind the first turns too, behind those that come again and again, and at the end."""
    file = KeyFile(p, "thousand", exact=False)
    file.case(f"{p.name}, the key, its ciphertext and its split")
    seeded(file)
    for at, letter in (MASK_SEED, b"refresh"), (STRIP_SEEDS["words"], b"w"), (STRIP_SEEDS["coeffs"], b"c"):
        file.write(at, letter)
    masks(file)
    file.call("import", limit=LIMIT)
    file.left("import")
    blocks = (TURNS - LIMIT) // BLOCK
    repeated = LIMIT + blocks * BLOCK
    file.case(f"{p.name}, turns 0 to {LIMIT - 1}")
    file.start_digest()
    take_turns(file, 0, LIMIT)
    file.want_digest()
    file.case(f"{p.name}, turns {LIMIT} to {repeated - 1}, {2 * blocks} refreshings among them")
    with file.repeat(blocks):
        take_turns(file, LIMIT, LIMIT + BLOCK)
    file.want_digest()
    file.case(f"{p.name}, turns {repeated} to {TURNS - 1}, the last refreshings among them")
    take_turns(file, repeated, TURNS)
    file.want_digest()
    return file
