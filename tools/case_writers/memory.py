"""The memory of the program crates/test_cases and what each record does to it, the calls by the plain models: a record that is written is carried out
here first, and has to hold."""
from array import array
from hashlib import sha3_256
from models.numbers import with_coefficient
from models.parameters import Q
from . import format as f
from .calls import CALLS, digest
from .layout import SIZES


class Memory:
    def __init__(self, exact):
        self.bytes, self.coefficients = bytearray(SIZES["bytes"]), array("H", bytes(2 * SIZES["coefficients"]))
        self.words = array("Q", bytes(8 * SIZES["words"]))
        self.exact = exact  # whether the models make both shares, or only what they join to

    # ---- parts of it: a place and a number of elements
    @staticmethod
    def part(arena, place, n):
        assert place + n <= len(arena), (place, n)
        return slice(place, place + n)

    def get(self, place, n):
        return bytes(self.bytes[self.part(self.bytes, place, n)])

    def put(self, place, data):
        self.bytes[self.part(self.bytes, place, len(data))] = data

    def get_coefficients(self, place, n):
        return self.coefficients[self.part(self.coefficients, place, n)]

    def put_coefficients(self, place, values):
        self.coefficients[self.part(self.coefficients, place, len(values))] = array("H", values)

    def get_words(self, place, n):
        return self.words[self.part(self.words, place, n)]

    def put_words(self, place, values):
        self.words[self.part(self.words, place, len(values))] = array("Q", values)

    # ---- records
    def holds(self, record):
        """Carries it out. What doesn't hold is kept, with the answer that the models give a call."""
        if record.kind == f.REPEAT:
            return all(self.holds(inner) for _ in range(record.operands[0][0]) for inner in record.body)
        body = [record.body] * (record.kind in f.WITH_BYTES)
        if record.is_call:
            (wanted, _), *operands = record.operands
            answer = CALLS[record.kind](self, operands[:8], operands[8:])
            self.differs = record, answer
            return answer == wanted
        if record.kind in TESTS:
            self.differs = record, None
            return TESTS[record.kind](self, *record.operands, *body)
        CHANGES[record.kind](self, *record.operands, *body)
        return True


# ---- kinds that change the memory
def write(memory, at, data):
    assert at[1] == len(data)
    memory.put(at[0], data)


def fill(memory, at, byte):
    memory.put(at[0], bytes([byte[0]]) * at[1])


def copy(memory, at, by, source):
    (place, n), (stride, counter), (origin, origin_stride) = at, by, source
    turn = memory.words[counter]
    to, since = place + stride * turn, origin + origin_stride * turn
    assert n <= 4096
    memory.put(to, memory.get(since, n))


def xor(x, y):
    return (int.from_bytes(x, "little") ^ int.from_bytes(y, "little")).to_bytes(len(x), "little")


def join(memory, at, other):
    assert at[1] <= 4096
    memory.put(at[0], xor(memory.get(*at), memory.get(other[0], at[1])))


def set_element(memory, at, by, modulus):
    (place, bits), (counter, value) = at, by
    i = memory.words[counter] % modulus[0]
    if bits == 12:
        place += i // 2 * 3
        memory.put(place, with_coefficient(memory.get(place, 3), i % 2, value))
    else:
        memory.put(place + i * bits // 8, value.to_bytes(bits // 8, "little"))


def squeeze(memory, at, hash, message):
    assert at[1] <= 170000
    memory.put(at[0], digest(hash[0], memory.get(*message), at[1]))


def load_coefficients(memory, at, source):
    values = array("H", memory.get(source[0], 2 * at[1]))
    memory.put_coefficients(at[0], [x % Q for x in values] if source[1] else values)


def load_words(memory, at, source):
    memory.put_words(at[0], array("Q", memory.get(source[0], 8 * at[1])))


def store_coefficients(memory, to, source):
    memory.put(to[0], memory.get_coefficients(*source).tobytes())


def store_words(memory, to, source):
    memory.put(to[0], memory.get_words(*source).tobytes())


def count(memory, at):
    memory.words[at[0]] = (memory.words[at[0]] + at[1]) % 2**32


def absorb(memory, at, source):
    assert source[1] <= 16000
    memory.put(at[0], sha3_256(memory.get(at[0], 32) + memory.get(*source)).digest())


def chain(memory, at, ends, by):
    (place, length), (least, most), (state, hash) = at, ends, by
    last, size = memory.words[state], memory.words[state + 1]
    message = memory.get(place, min(last, length)).ljust(length, b"\0")
    output = digest(hash, message, size)
    memory.put(place, output)
    memory.put_words(state, [size, least + int.from_bytes(output[-2:], "big") % (most - least + 1)])


# ---- kinds that test it
def want(memory, at, data):
    return memory.get(*at) == data


def want_hash(memory, at, data):
    return sha3_256(memory.get(*at)).digest() == data


def same(memory, at, other):
    return memory.get(*at) == memory.get(other[0], at[1])


CHANGES = {
    f.WRITE: write, f.FILL: fill, f.COPY: copy, f.JOIN: join, f.SET: set_element, f.SQUEEZE: squeeze, f.LOAD_COEFFICIENTS: load_coefficients,
    f.LOAD_WORDS: load_words, f.STORE_COEFFICIENTS: store_coefficients, f.STORE_WORDS: store_words, f.COUNT: count, f.ABSORB: absorb,
    f.CHAIN: chain,
}
TESTS = {f.WANT: want, f.WANT_HASH: want_hash, f.SAME: same}
