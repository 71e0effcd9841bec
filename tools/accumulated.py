"""Hashes over many turns of our calls, with the secrets from masked decapsulation, held to known values: the accumulated test of ML-KEM, and the answer
files of Kyber round 3's reference implementation."""
from hashlib import shake_128
from known_answers import FILES, TURNS, check_answer_file, turns
from models.parameters import ML_KEM_512, ML_KEM_768, ML_KEM_1024
from outward_calls import Stream, decaps, draw_strip, encaps, joined, keygen, split_key, u8

# By the set and the number of turns: without the decapsulation key, and with it after the public key. Those for ML-KEM-768 are published; of the others,
# which the model of FIPS 203 gives, the beginnings are known to be published, 705dcffc and e3bf82b0.
EXPECTED = {
    (ML_KEM_768, 100): ("1114b1b6699ed191734fa339376afa7e285c9e6acf6ff0177d346696ce564415", None),
    (ML_KEM_512, 10000): (None, "705dcffc87f4e67e35a09dcaa31772e86f3341bd3ccf1e78a5fef99ae6a35a13"),
    (ML_KEM_768, 10000): (
        "8a518cc63da366322a8e7a818c7a0d63483cb3528d34a4cf42f35d5ad73f22fc",
        "f959d18d3d1180121433bf0e05f11e7908cf9d03edc150b2b07cb90bef5bc1c1",
    ),
    (ML_KEM_1024, 10000): (None, "e3bf82b013307b2e9d47dde791ff6dfc82e694e6382404abdb948b908b75bad5"),
}


def opened(p, dk, seed, *ciphertexts):
    """Their secrets from our shares, under a split and strips drawn from the seed."""
    draws = Stream(seed, p.mask_bytes)
    split = split_key(p, dk, draws.coefficients(p.coefficients), draws.words(4))
    return [joined(*decaps(p, split, c, draw_strip(p, seed + bytes([i])))) for i, c in enumerate(ciphertexts)]


# ---- ML-KEM
def turn(p, number, draw):
    """ek, dk, and then ct, k and the secret of a random ciphertext, both secrets from our shares."""
    ek, dk = keygen(p, draw[:32], draw[32:64])
    ct, k = encaps(p, ek, draw[64:96])
    secret, rejected = opened(p, dk, b"turn" + number.to_bytes(8, "little"), ct, u8(draw[96:]))
    assert secret == bytes(k)
    return bytes(ek), bytes(dk), bytes(ct) + secret + rejected


def accumulated(p, turns):
    size = 3 * 32 + p.ct_bytes
    draws, without, with_dk = shake_128(b"").digest(size * turns), shake_128(), shake_128()
    for i in range(turns):
        ek, dk, rest = turn(p, i, draws[size * i:size * (i + 1)])
        without.update(ek + rest)
        with_dk.update(ek + dk + rest)
    source = ", as published" if p == ML_KEM_768 else ", as the model's; it begins as published"
    for name, hash, expected in zip(("without dk", "with dk"), (without, with_dk), EXPECTED.get((p, turns), (None, None))):
        value = hash.hexdigest(32)
        assert expected in (None, value), f"{p.name}, {name}: {value}"
        print(f"{p.name}, {turns} turns, {name}: {value}{source if expected else ''}", flush=True)


# ---- Kyber round 3
def by_calls(p, d, z, m):
    """ek, dk, ct, and k from our shares."""
    ek, dk = keygen(p, d, z)
    ct, k = encaps(p, ek, m)
    [secret] = opened(p, dk, b"answer" + m, ct)
    assert secret == bytes(k)
    return bytes(ek), bytes(dk), bytes(ct), secret


def known_answers(p):
    check_answer_file(p, turns(p, by_calls))
    print(f"{p.name}, {TURNS} turns, SHA-256 of the answer file: {FILES[p.name]}, as published", flush=True)
