"""The known answers of Kyber round 3's reference implementation: its answer files made again, turn by turn."""
from hashlib import sha256

from cryptography.hazmat.primitives.ciphers import Cipher, algorithms, modes
from models.kem import encaps, keygen
from published import held, read

TURNS = 100
# SHA-256 of the published answer files
FILES = {
    "Kyber512": "e9c2bd37133fcb40772f81559f14b1f58dccd1c816701be9ba6214d43baf4547",
    "Kyber768": "a1e122cad3c24bc51622e4c242d8b8acbcd3f618fee4220400605ca8f9ea02c2",
    "Kyber1024": "89248f2f33f7f4f7051729111f3049c409a933ec904aedadf035f30fa5646cd5",
}


class Generator:
    """The generator that NIST's call for proposals hands out: CTR_DRBG (SP 800-90A) with AES-256, from 48 bytes."""

    def __init__(self, seed):
        self.key, self.counter = bytes(32), 0
        self.update(seed)

    def blocks(self, n):
        counters = [(self.counter + i) % 2**128 for i in range(1, n + 1)]
        self.counter = counters[-1]
        return Cipher(algorithms.AES(self.key), modes.ECB()).encryptor().update(b"".join(c.to_bytes(16, "big") for c in counters))

    def update(self, data):
        state = bytes(x ^ y for x, y in zip(self.blocks(3), data))
        self.key, self.counter = state[:32], int.from_bytes(state[32:], "big")

    def draw(self, n):
        drawn = self.blocks(-(-n // 16))[:n]
        self.update(bytes(48))
        return drawn


def by_model(p, d, z, m):
    ek, dk = keygen(p, d, z)
    return ek, dk, *encaps(p, ek, m)


def turns(p, answers=by_model):
    """Each turn's seed, what is drawn from it, and the answers: ek, dk, c and K of d, z and m."""
    seeds = Generator(bytes(range(48)))
    for _ in range(TURNS):
        seed = seeds.draw(48)
        draws = Generator(seed)
        d, z, m = (draws.draw(32) for _ in range(3))
        ek, dk, c, k = answers(p, d, z, m)
        yield {"seed": seed, "d": d, "z": z, "m": m, "ek": ek, "dk": dk, "c": c, "k": k}


# ---- as published
def answer_file(p, turns):
    text = f"# {p.name}\n\n"
    for i, turn in enumerate(turns):
        values = {"seed": turn["seed"], "pk": turn["ek"], "sk": turn["dk"], "ct": turn["c"], "ss": turn["k"]}
        text += f"count = {i}\n" + "".join(f"{name} = {value.hex().upper()}\n" for name, value in values.items()) + "\n"
    return text.encode()


def check_answer_file(p, turns):
    held(f"{p.name}, SHA-256 of the answer file", FILES[p.name], sha256(answer_file(p, turns)).hexdigest())


def check_hashes(folder, p, turns):
    """Turn by turn, by the hashes in kyber-r3/kat.txt."""
    text = read(folder, "kyber-r3", "kat.txt").decode().split(f"[{p.name}]\n")[1].split("\n[")[0]
    published = [dict(line.split(" = ") for line in part.split("\n")) for part in text.strip().split("\n\n")]
    held(f"{p.name}, answer file", {"file": FILES[p.name]}, published[0])
    held(f"{p.name}, turns", len(turns), len(published) - 1)
    for i, (turn, want) in enumerate(zip(turns, published[1:])):
        hashes = {name: sha256(turn[field]) for name, field in (("pk", "ek"), ("sk", "dk"), ("ct", "c"))}
        has = {"d": turn["d"].hex(), "z": turn["z"].hex(), "m": turn["m"].hex(), "ss": turn["k"].hex()}
        held(f"{p.name}, turn {i}", want, {"count": str(i), **has, **{name: hash.hexdigest() for name, hash in hashes.items()}})
