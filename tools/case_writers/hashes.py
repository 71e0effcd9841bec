"""The four hashes on published messages and at the edges of their rates and outputs, and the two masked ones; hashlib (OpenSSL) has the values."""
from hashlib import shake_256
from . import format as f
from .book import POOL, CaseFile
from .calls import MASKED, digest, hash_masks
from .format import HASHES
from .layout import place
from .lengths import at_edges

LENGTHS = 32, 64, 32, 64
MESSAGES = {
    "the empty message": b"",
    "abc": b"abc",
    "448 bits": b"abcdbcdecdefdefgefghfghighijhijkijkljklmklmnlmnomnopnopq",
    "896 bits": b"abcdefghbcdefghicdefghijdefghijkefghijklfghijklmghijklmnhijklmnoijklmnopjklmnopqklmnopqrlmnopqrsmnopqrstnopqrstu",
    "200 bytes a3": b"\xa3" * 200,
}
RATES = 72, 136, 168
LEGIBLE = 256  # bytes of output that are wanted as they are; all of it is wanted by its hash
EDGES = sorted({0, 1, *(n for rate in RATES for n in (rate - 1, rate, rate + 1, 2 * rate - 1, 2 * rate, 2 * rate + 1))})
MESSAGE, SHARES = place("area"), (place("area"), place("area") + 1000)
NOTHING = [(0, 0)] * 7  # outputs that a hash hasn't, behind b0


class HashFile(CaseFile):
    def call(self, hash, n, size, wanted=0, message=MESSAGE, out=place("out")):
        self.add(f.HASH, (wanted, 0), (out, size), *NOTHING, (hash, 0), (message, n))

    def masked(self, hash, lent, wanted=0):
        """lent: in0, in1, masks, out0 and out1, by their places and numbers of elements."""
        in0, in1, masks, out0, out1 = lent
        self.add(f.MASKED_HASH, (wanted, 0), out0, out1, *NOTHING[1:], (hash, 0), in0, in1, masks)

    def tried(self, name, hash, message, size, wanted=0):
        """From drawn contents; the digest, and all of the output."""
        self.case(name)
        self.fresh("hash")
        if message:
            self.write(MESSAGE, message)
        self.call(hash, len(message), size, wanted)
        if not wanted and 0 < size <= LEGIBLE:
            self.want(place("out"), digest(hash, message, size))
        self.left("hash")


# ---- plain
def counted(n):
    """0, 1, 2, .., 250, 0, 1, .."""
    return bytes(i % 251 for i in range(n))


def hashes():
    file = HashFile("hashes")
    file.fill_pool()
    for name, message in MESSAGES.items():
        for hash, size in enumerate(LENGTHS):
            file.tried(f"{HASHES[hash]} of {name}", hash, message, size)
    for n in EDGES:
        for hash, size in enumerate(LENGTHS):
            file.tried(f"{HASHES[hash]} of {n} bytes", hash, counted(n), size)
    for size in 0, 1, 135, 136, 137, 167, 168, 169, 272, 336, 1000, 4096:
        for hash in 2, 3:
            file.tried(f"{HASHES[hash]} of abc, {size} bytes", hash, b"abc", size)
    for hash in 0, 1:
        for size in 0, 1, 31, 32, 33, 63, 64, 65, 128, 256, 256 + LENGTHS[hash], 4096:
            if size != LENGTHS[hash]:
                file.tried(f"{HASHES[hash]} into {size} bytes", hash, b"abc", size, 1)
            else:
                file.tried(f"{HASHES[hash]} into its {size} bytes", hash, b"abc", size)
    return file


# ---- on two shares
def shared(file, message):
    """Two shares of it: the second is SHAKE256 of 'shares'."""
    n = len(message)
    if n:
        second = shake_256(b"shares").digest(n)
        file.write(SHARES[0], bytes(x ^ y for x, y in zip(message, second)))
        file.write(SHARES[1], second)


def lent(hash, n, size):
    """Right numbers of elements, by buffer."""
    return {
        "in0": (SHARES[0], n), "in1": (SHARES[1], n), "words": (place("words"), hash_masks(MASKED[hash][0], n, size)),
        "out0": (place("out0"), size), "out1": (place("out1"), size),
    }


def masked_tried(file, name, hash, kind, message, size):
    """The shares as the model of the worksheet makes them, and what they join to."""
    file.case(name)
    file.fresh("masked hash")
    shared(file, message)
    buffers = lent(hash, len(message), size)
    file.words("words", buffers["words"][1], kind, b"h")
    file.masked(hash, buffers.values())
    file.left("masked hash")
    if size:
        file.join(place("out0"), place("out1"), size)
        file.want(place("out0"), MASKED[hash][2](message).digest(*[size] * hash))


def masked_refused(file, hash):
    """Each length wrong, of one buffer or of two alike; for three bytes of message and, of SHAKE256, 64 of output."""
    right, name = lent(hash, 3, 64), HASHES[(1, 3)[hash]]
    for buffer, (at, n) in right.items():
        for edge, length in at_edges({"in0": "m", "in1": "m"}.get(buffer, buffer), n, buffer.startswith("out")):
            refused(file, hash, f"masked {name}, {buffer} {edge}", {**right, buffer: (at, length)})
    for first, second, n in ("in0", "in1", 136), ("out0", "out1", 137):
        both = {buffer: (right[buffer][0], n) for buffer in (first, second)}
        refused(file, hash, f"masked {name}, {first} and {second} of {n} bytes", {**right, **both})
    refused(file, hash, f"masked {name}, words of one permutation more", {**right, "words": (place("words"), right["words"][1] + 600)})


def refused(file, hash, name, buffers):
    file.case(name)
    file.masked(hash, buffers.values(), 1)
    file.left("masked hash")


def masked_hashes():
    file = HashFile("masked-hashes")
    file.fill_pool()
    for kind in "zero", "full", 0:
        what = kind if kind else "drawn"
        for name, message in MESSAGES.items():
            masked_tried(file, f"masked SHA3-512 of {name}, masks {what}", 0, kind, message, 64)
            masked_tried(file, f"masked SHAKE256 of {name}, masks {what}", 1, kind, message, 200)
    for n in EDGES:
        masked_tried(file, f"masked SHA3-512 of {n} bytes", 0, 1, counted(n), 64)
        masked_tried(file, f"masked SHAKE256 of {n} bytes", 1, 1, counted(n), 32)
    for size in 0, 1, 7, 8, 9, 135, 136, 137, 272, 273, 1000:
        masked_tried(file, f"masked SHAKE256 of abc, {size} bytes", 1, 1, b"abc", size)
    file.prepare()
    file.fresh("masked hash")
    shared(file, b"abc")
    file.load("words", POOL, 2000)
    for hash in 0, 1:
        masked_refused(file, hash)
    return file
