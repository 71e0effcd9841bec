"""The accumulated test: key making, encapsulation and import on the seeds of ten turns, each in a case of its own, and a hundred turns in one hash,
masked decapsulation among them."""
from hashlib import shake_128
from models.numbers import coefficient_bytes, word_bytes
from models.parameters import ML_KEM_768, Q
from openssl import key_pair
from . import format as f
from .book import SHAKE128, SHAKE256
from .key_book import SECRET, KeyFile
from .layout import place
from .places import MASK_WORDS

TURNS = 100
PUBLISHED = {ML_KEM_768: "1114b1b6699ed191734fa339376afa7e285c9e6acf6ff0177d346696ce564415"}
MASK_NAMES = {"mask_coeffs": b"s", "mask_words": b"z", "words": b"w", "coeffs": b"c"}


def ten_turns(file):
    p = file.p
    file.draw_turns(TURNS)
    file.write(place("scratch"), coefficient_bytes((3328 + 1300 * i) % Q for i in range(p.coefficients)))
    file.load("mask_coeffs", place("scratch"), p.coefficients)
    file.write(place("constants"), word_bytes(MASK_WORDS))
    file.load("mask_words", place("constants"), 4)
    for turn in range(10):
        file.case(f"{p.name}, turn {turn}: keygen, encaps, import")
        file.seeds_of(turn)
        file.make_key()
        for name, n in ("ek", p.ek_bytes), ("dk", p.dk_bytes), ("ct", p.ct_bytes), ("k", 32):
            file.want_as_is(place(name), n)
        file.call("import")
        file.left("import")


def draw_masks(file):
    """Under the turn's number: SHAKE256 of a letter and the number."""
    p, seed = file.p, place("seed")
    for i, (name, letter) in enumerate(MASK_NAMES.items()):
        n, size = {"mask_coeffs": (p.coefficients, 2), "mask_words": (4, 8), "words": (p.strip_words, 8), "coeffs": (p.strip_coeffs, 2)}[name]
        file.store(seed + 1 + 16 * i, "counter", 1)
        file.add(f.SQUEEZE, (place("scratch"), n * size), (SHAKE256, 0), (seed + 16 * i, 2))
        file.load(name, place("scratch"), n, reduced=True)


def letters(file):
    for i, letter in enumerate(MASK_NAMES.values()):
        file.write(place("seed") + 16 * i, letter)


def take_turn(file, feed):
    """The feed gets ek, ct, K and the secret of the random ciphertext; of the turn's own ciphertext the secret is K again."""
    p = file.p
    n, since = p.ek_bytes + p.ct_bytes + 64, place("area")
    file.copy_seeds(since, file.turn_bytes)
    file.call("keygen")
    file.call("encaps")
    draw_masks(file)
    file.call("import")
    file.opened()
    file.same(SECRET, place("k"), 32)
    for at, name, size in (0, "ek", p.ek_bytes), (p.ek_bytes, "ct", p.ct_bytes), (n - 64, "k", 32):
        file.copy(feed + at, place(name), size, stride=n)
    file.copy(place("ct"), since + 96, p.ct_bytes, since_stride=file.turn_bytes)
    file.opened()
    file.copy(feed + n - 32, SECRET, 32, stride=n)
    file.count("counter")


def hundred_turns(file):
    p, feed = file.p, place("area") + TURNS * file.turn_bytes
    file.case(f"{p.name}, {TURNS} turns in one hash")
    letters(file)
    file.number("counter", 0)
    with file.repeat(TURNS):
        take_turn(file, feed)
    n = TURNS * (p.ek_bytes + p.ct_bytes + 64)
    file.add(f.SQUEEZE, (place("digest"), 32), (SHAKE128, 0), (feed, n))
    value = shake_128(file.memory.get(feed, n)).digest(32)
    assert value.hex() == PUBLISHED.get(p, value.hex())
    file.want(place("digest"), value)
    return file.memory.get(feed, n)


def check_openssl(file, feed):
    """Where OpenSSL has the set: public keys, our ciphertexts opened, and the secrets of random ciphertexts."""
    p, n = file.p, len(feed) // TURNS
    draws = shake_128().digest(TURNS * file.turn_bytes)
    for i in range(TURNS):
        draw, left = draws[i * file.turn_bytes:][:file.turn_bytes], feed[n * i:n * (i + 1)]
        ek, decaps = key_pair(p, draw[:64])
        assert left[:p.ek_bytes] == ek
        assert decaps(left[p.ek_bytes:-64]) == left[-64:-32] and decaps(draw[96:]) == left[-32:]


def turns(p):
    file = KeyFile(p, "turns", exact=False)
    ten_turns(file)
    check_openssl(file, hundred_turns(file))
    return file
