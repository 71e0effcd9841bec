"""Refusals 1 and 9: each lent buffer at wrong lengths, the others having their lengths; all as in another set; ranks that the buffers don't fit, and
ranks that no set has. Keys, shares, masks, limit and step are out of range: a wrong rank and a wrong length are refused before them."""
from edges import NO_RANKS
from models.parameters import ALL_SETS, KYBER_SETS, ML_KEM_768, sisters
from .book import POOL, CaseFile
from .key_book import LENT, OUTPUTS, KeyFile, right_lengths
from .layout import LENT_BYTES, LENT_COEFFICIENTS, LENT_WORDS, SIZES, arena_of, place

MOST = {"bytes": LENT_BYTES, "coefficients": LENT_COEFFICIENTS, "words": LENT_WORDS}


def at_edges(name, n, changed, others=()):
    """Lengths that aren't n, by what they are. others: names and lengths that other sets have."""
    arena = arena_of(name)
    huge = MOST[arena] if changed else n + 65536 if arena == "bytes" else SIZES[arena] - place(name)
    edges = {"empty": 0, "one short": n - 1, "one long": n + 1, **dict(others), "256 more": n + 256, "twice as long": 2 * n, "huge": huge}
    seen = {n}
    for edge, length in edges.items():
        if length not in seen and length <= huge:
            seen.add(length)
            yield edge, length


def out_of_range(file):
    """Contents that a call with right lengths would refuse, and outputs that show a store."""
    file.fill_pool()
    for call in LENT:
        file.fresh(call)
    file.fill(place("scratch"), 2 * 9480, 255)
    file.load("mask_coeffs", place("scratch"), 1032)
    file.load("coeffs", place("scratch"), 9480)
    file.load("mask_words", POOL, 8)
    file.load("words", POOL, 2000)
    file.number("step", 2**64 - 1)


def lengths_of(p, call):
    for name, n in right_lengths(p, call).items():
        others = [(f"as in {other.name}", right_lengths(other, call)[name]) for other in ALL_SETS]
        yield name, at_edges(name, n, name in OUTPUTS[call], others)


def one_wrong(file):
    for call in LENT:
        for name, edges in lengths_of(file.p, call):
            for edge, length in edges:
                file.tried(f"{name} {edge}", call, wanted=1, limit=0, lengths={name: length})


def all_wrong(file):
    p = file.p
    for other in ALL_SETS:
        for call in LENT:
            if p.lent[call] != other.lent[call]:
                file.tried(f"all buffers as in {other.name}", call, wanted=1, limit=0, lengths=right_lengths(other, call))
    for sister in sisters(p):
        for call in LENT:
            file.tried(f"told rank {sister.k}", call, wanted=1, limit=0, rank=sister.k)


def lengths(p):
    file = KeyFile(p, "lengths")
    out_of_range(file)
    one_wrong(file)
    all_wrong(file)
    return file


class RankFile(KeyFile):
    """Of an edition, with buffers as its set of rank 3 asks for."""

    def __init__(self, p):
        CaseFile.__init__(self, f"{'kyber' if p in KYBER_SETS else 'ml-kem'}-no-such-rank")
        self.p = p


def no_such_rank(p):
    file = RankFile(p)
    out_of_range(file)
    for rank in NO_RANKS:
        for call in LENT:
            file.tried(f"rank {rank}", call, wanted=9, limit=0, rank=rank)
            file.tried(f"rank {rank}, buffers empty", call, wanted=9, limit=0, rank=rank, lengths=dict.fromkeys(LENT[call], 0))
    return file


RANK_SETS = ML_KEM_768, KYBER_SETS[1]
