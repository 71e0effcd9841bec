"""The known answers of Kyber round 3's reference implementation, ten turns to a case, the decapsulations masked."""
from hashlib import sha3_256
from known_answers import check_answer_file, turns
from . import format as f
from .hashes import NOTHING
from .key_book import SECRET, KeyFile
from .layout import place
from .nist import STRIP_KINDS, three_strips

TOGETHER = 10
FIELDS = "d", "z", "m", "ek", "dk", "c", "k"  # of a turn, 32 bytes each: ek, dk and c by their SHA3-256
TURN = 32 * len(FIELDS)
TURNS, FIELD = place("area"), place("area") + 2 * TURN * TOGETHER  # of the case, and one turn's


def turn_bytes(turn):
    return b"".join(sha3_256(turn[name]).digest() if name in ("ek", "dk", "c") else turn[name] for name in FIELDS)


def field(name):
    return FIELD + 32 * FIELDS.index(name)


def same_hash(file, name, buffer, n):
    file.add(f.HASH, (0, 0), (place("out"), 32), *NOTHING, (0, 0), (place(buffer), n))
    file.same(place("out"), field(name), 32)


def take_turn(file):
    p = file.p
    file.copy(FIELD, TURNS, TURN, since_stride=TURN)
    file.copy_seeds(FIELD)
    file.call("keygen")
    same_hash(file, "ek", "ek", p.ek_bytes)
    same_hash(file, "dk", "dk", p.dk_bytes)
    file.call("encaps")
    same_hash(file, "c", "ct", p.ct_bytes)
    file.same(place("k"), field("k"), 32)
    file.call("import")
    for at in STRIP_KINDS:
        file.opened(at)
        file.same(SECRET, field("k"), 32)
    file.count("counter")


def known_answers(p):
    """The answers are the model's, which make an answer file that has the published SHA-256."""
    done = list(turns(p))
    check_answer_file(p, done)
    file = KeyFile(p, "known-answers", exact=False)
    for start in range(0, len(done), TOGETHER):
        file.case(f"{p.name}, known answers, turns {start} to {start + TOGETHER - 1}")
        if start == 0:
            three_strips(file)
            file.key_masks(1)
        file.write(TURNS, b"".join(turn_bytes(turn) for turn in done[start:start + TOGETHER]))
        file.number("counter", 0)
        with file.repeat(TOGETHER):
            take_turn(file)
    return file
