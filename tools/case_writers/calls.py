"""The calls as the case files have them, by the plain models: each carries itself out on the memory and hands back its answer, 0 or the number of the
refusal, by which nothing changes. outputs: b0, b1, c0, c1, w0, w1, n0, n1, each a place and a number of elements."""
from functools import lru_cache
from hashlib import sha3_256, sha3_512, shake_128, shake_256
from models import kem
from models.kpke import encode, sample_ntt
from models.numbers import coefficients, word_bytes, words
from models.parameters import ALL_SETS, N, Q, Edition
from models.split_key import counted, import_answer, joined, refresh_answer, refreshed, split
from models.worksheet import Worksheet, worksheet
from . import format as f

EDITIONS = Edition.ML_KEM, Edition.KYBER
BY_RANK = {(EDITIONS.index(p.edition), p.k): p for p in ALL_SETS}
LENGTH, PUBLIC_KEY, HASH, MASK, SHARE, STREAM, STEP, RANK = 1, 2, 3, 5, 6, 7, 8, 9
# the model of decapsulation, which is asked for the same secret under many masks
decaps_model = lru_cache(64)(kem.decaps)


def sizes(*lent):
    return tuple(n for _, n in lent)


def in_32_bits(memory, *places):
    for place in places:
        memory.words[place] %= 2**32


# ---- keys
def keygen(memory, outputs, inputs):
    (ek, dk), (edition, rank), d, z = outputs[:2], *inputs
    p = BY_RANK.get((edition, rank))
    if p is None:
        return RANK
    if sizes(d, z, ek, dk) != p.lent["keygen"]:
        return LENGTH
    for at, data in zip((ek, dk), kem.keygen(p, memory.get(*d), memory.get(*z))):
        memory.put(at[0], data)
    return 0


def encaps(memory, outputs, inputs):
    (ct, k), (edition, rank), ek, m = outputs[:2], *inputs
    p = BY_RANK.get((edition, rank))
    if p is None:
        return RANK
    if sizes(ek, m, ct, k) != p.lent["encaps"]:
        return LENGTH
    key = memory.get(*ek)
    if max(coefficients(key[:p.vector_bytes])) >= Q:
        return PUBLIC_KEY
    for at, data in zip((ct, k), kem.encaps(p, key, memory.get(*m))):
        memory.put(at[0], data)
    return 0


def sample(memory, outputs, inputs):
    out, [stream] = outputs[2], inputs
    if sizes(stream, out) != (840, N):
        return LENGTH
    sampled = sample_ntt(memory.get(*stream))
    if sampled is None:
        return STREAM
    memory.put_coefficients(out[0], sampled)
    return 0


# ---- split keys
def put_shares(memory, places, key):
    s0, s1, z0, z1 = places
    memory.put_coefficients(s0[0], key[0])
    memory.put_coefficients(s1[0], key[1])
    memory.put_words(z0[0], key[2])
    memory.put_words(z1[0], key[3])


def get_split(memory, s0, s1, z0, z1, public):
    return (
        list(memory.get_coefficients(*s0)), list(memory.get_coefficients(*s1)), list(memory.get_words(*z0)), list(memory.get_words(*z1)),
        memory.get(*public),
    )


def import_refusal(p, dk, limit, masks):
    """0 where there is none."""
    ek, h = p.ek(dk), p.public(dk)[p.ek_bytes:]
    if sha3_256(ek).digest() != h:
        return HASH
    return import_answer(limit) or (MASK if max(masks) >= Q else 0)


def import_key(memory, outputs, inputs):
    public, _, s0, s1, z0, z1, (limit_at, _), (count_at, _) = outputs
    (limit, rank), dk, mask_coeffs, mask_words = inputs
    p = BY_RANK.get((0, rank))
    in_32_bits(memory, limit_at, count_at)
    if p is None:
        return RANK
    if sizes(dk, mask_coeffs, mask_words, s0, s1, z0, z1, public) != p.lent["import"]:
        return LENGTH
    key, masks = memory.get(*dk), memory.get_coefficients(*mask_coeffs)
    refusal = import_refusal(p, key, limit, masks)
    if refusal:
        return refusal
    parts = split(p, key, masks, memory.get_words(*mask_words))
    put_shares(memory, (s0, s1, z0, z1), parts)
    memory.put(public[0], parts[4])
    memory.words[limit_at], memory.words[count_at] = limit, 0
    return 0


def refresh(memory, outputs, inputs):
    _, _, s0, s1, z0, z1, _, (count_at, _) = outputs
    (_, rank), mask_coeffs, mask_words = inputs
    p = BY_RANK.get((0, rank))
    in_32_bits(memory, count_at)
    if p is None:
        return RANK
    if sizes(mask_coeffs, mask_words, s0, s1, z0, z1) != p.lent["refresh"]:
        return LENGTH
    key, masks = get_split(memory, s0, s1, z0, z1, (0, 0)), memory.get_coefficients(*mask_coeffs)
    answer = refresh_answer(key, masks)
    if answer == 0:
        put_shares(memory, (s0, s1, z0, z1), refreshed(key, masks, memory.get_words(*mask_words)))
        memory.words[count_at] = 0
    return answer


# ---- decapsulation and its trace
@lru_cache(4)
def sheet(p, key, ct, strip):
    """Entries, and the shares of K."""
    entries, k = worksheet(p, key, ct, strip)
    assert word_bytes(x ^ y for x, y in k) == plain_secret(p, key, ct)
    return entries, k


def plain_secret(p, key, ct):
    """By the model of the edition, of the key that the shares join to."""
    s, z = joined(key)
    secret = b"".join(encode(12, s[i:i + N]) for i in range(0, len(s), N))
    return decaps_model(p, secret + key[4] + word_bytes(z), ct)


def run_of(memory, run):
    """What a run gets, in a form that can be kept in a cache."""
    *key, ct, mask_words, mask_coeffs = run
    split = tuple(x if isinstance(x, bytes) else tuple(x) for x in get_split(memory, *key))
    return split, memory.get(*ct), (tuple(memory.get_words(*mask_words)), tuple(memory.get_coefficients(*mask_coeffs)))


def range_refusal(memory, run):
    s0, s1, *_, coeffs = run
    if max(memory.get_coefficients(*coeffs)) >= Q:
        return MASK
    return SHARE if max(*memory.get_coefficients(*s0), *memory.get_coefficients(*s1)) >= Q else 0


def decaps(memory, outputs, inputs):
    _, _, _, _, k0, k1, _, (count_at, _) = outputs
    (edition, rank), (limit, _), *run = inputs
    p = BY_RANK.get((edition, rank))
    in_32_bits(memory, count_at)
    if p is None:
        return RANK
    if sizes(*run, k0, k1) != p.lent["decaps"]:
        return LENGTH
    answer, after = counted(limit, memory.words[count_at])
    answer = answer or range_refusal(memory, run)
    if answer:
        return answer
    key, ct, strip = run_of(memory, run)
    shares = sheet(p, key, ct, strip)[1] if memory.exact else [(word, 0) for word in words(plain_secret(p, key, ct))]
    memory.put_words(k0[0], [x for x, _ in shares])
    memory.put_words(k1[0], [y for _, y in shares])
    memory.words[count_at] = after
    return 0


def trace(memory, outputs, inputs):
    value_at = outputs[6][0]
    (edition, rank), (step_at, _), *run = inputs
    p = BY_RANK.get((edition, rank))
    if p is None:
        return RANK
    if sizes(*run) != p.lent["trace"]:
        return LENGTH
    answer, step = range_refusal(memory, run), memory.words[step_at]
    if answer or step >= p.steps:
        return answer or STEP
    memory.words[value_at] = sheet(p, *run_of(memory, run))[0][step]
    return 0


# ---- hashes
HASHES = sha3_256, sha3_512, shake_128, shake_256


def digest(hash, message, n):
    """Of n bytes, which is a SHA3's own length."""
    return HASHES[hash](message).digest(*[n] * (hash >= 2))


def hash_call(memory, outputs, inputs):
    out, (hash, _), message = outputs[0], *inputs
    if hash < 2 and out[1] != (32, 64)[hash]:
        return LENGTH
    memory.put(out[0], digest(hash, memory.get(*message), out[1]))
    return 0


def hash_masks(rate, n, d):
    """Words that a masked hash of n bytes draws for d bytes of output."""
    return 25 + 600 * (n // rate + 1 + max(d - 1, 0) // rate)


MASKED = (72, 6, sha3_512), (136, 0x1f, shake_256)


def masked_hash(memory, outputs, inputs):
    out0, out1, (hash, _), in0, in1, masks = *outputs[:2], *inputs
    rate, last, plain = MASKED[hash]
    n, d = in0[1], out0[1]
    if in1[1] != n or out1[1] != d or masks[1] != hash_masks(rate, n, d) or hash == 0 and d != 64:
        return LENGTH
    message = [memory.get(*in0), memory.get(*in1)]
    if memory.exact:
        sheet = Worksheet(memory.get_words(*masks), ())
        pairs = sheet.sponge(rate, last, message, -(-d // 8))
        shares = [word_bytes(pair[i] for pair in pairs)[:d] for i in (0, 1)]
    else:
        joined = bytes(x ^ y for x, y in zip(*message))
        shares = [plain(joined).digest(*[d] * hash), bytes(d)]
    memory.put(out0[0], shares[0])
    memory.put(out1[0], shares[1])
    return 0


CALLS = {
    f.KEYGEN: keygen, f.ENCAPS: encaps, f.SAMPLE: sample, f.IMPORT: import_key, f.REFRESH: refresh, f.DECAPS: decaps, f.TRACE: trace,
    f.HASH: hash_call, f.MASKED_HASH: masked_hash,
}
