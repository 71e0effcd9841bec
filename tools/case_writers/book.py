"""A case file as it is written: its cases, and the memory, on which each record is carried out by the models and has to hold."""
from contextlib import contextmanager
from hashlib import sha3_256
from models.parameters import Q
from . import format as f
from .layout import ARENAS, BYTES, arena_of, place, room
from .memory import Memory
from .printing import differing

SHAKE128, SHAKE256 = 2, 3
# what a call changes: a run of buffers in each arena
CHANGES = {
    "keygen": (("ek", "dk"), (), ()),
    "encaps": (("ct", "k"), (), ()),
    "sample": ((), ("sampled",), ()),
    "import": (("public",), ("s0", "s1"), ("z0", "z1", "limit", "count")),
    "refresh": ((), ("s0", "s1"), ("z0", "z1", "limit", "count")),
    "decaps": ((), (), ("count", "k0", "k1")),
    "trace": ((), (), ("value",)),
    "hash": (("out",), (), ()),
    "masked hash": (("out0", "out1"), (), ()),
}
POOL = place("area") + 400000  # bytes that buffers are filled from, so that each call has to change what it changes
POOL_BYTES = 16664
MOST_COPIED = 4096


def run(buffers):
    """The place and the size of neighbours together."""
    return place(buffers[0]), sum(map(room, buffers))


class CaseFile:
    def __init__(self, name, exact=True):
        """exact: the models make both shares of what masked calls hand back, not only what they join to."""
        self.name, self.cases, self.memory, self.body = name, [], Memory(exact), None
        self.prepare()

    def case(self, name):
        """It begins with what is prepared for it. Its name stands for it alone."""
        if name in dict(self.cases):
            raise AssertionError(f"{self.name} has a case {name} already")
        if self.under_way:
            self.prepare()
        self.cases.append((name, self.records))
        self.under_way = name

    def prepare(self):
        """What is added from here on tries nothing by itself: the next case begins with it."""
        self.records, self.under_way = [], None

    def add(self, kind, *operands, body=b""):
        record = f.Record(kind, operands, body)
        if self.body is not None:
            self.body.append(record)
            return
        if not self.memory.holds(record):
            raise AssertionError(f"{self.name}, {self.under_way}: {differing(*self.memory.differs)}")
        self.records.append(record)

    @contextmanager
    def repeat(self, times):
        """What is added is carried out so often."""
        self.body = []
        yield
        body, self.body = tuple(self.body), None
        self.add(f.REPEAT, (times, 0), body=body)

    # ---- bytes, by their place
    def write(self, at, data):
        self.add(f.WRITE, (at, len(data)), body=data)

    def fill(self, at, n, byte):
        self.add(f.FILL, (at, n), (byte, 0))

    def copy(self, to, since, n, stride=0, since_stride=0):
        """Strides are times the word counter. A record copies 4,096 bytes at most."""
        for at in range(0, n, MOST_COPIED):
            part = min(MOST_COPIED, n - at)
            self.add(f.COPY, (to + at, part), (stride, place("counter")), (since + at, since_stride))

    def join(self, at, other, n):
        self.add(f.JOIN, (at, n), (other, 0))

    def set(self, at, bits, value, elements):
        """Element number counter of a string of so many."""
        self.add(f.SET, (at, bits), (place("counter"), value), (elements, 0))

    def squeeze(self, at, n, hash, seed):
        self.write(place("seed"), seed)
        self.add(f.SQUEEZE, (at, n), (hash, 0), (place("seed"), len(seed)))

    # ---- the other arenas, by a buffer's name
    def load(self, name, since, n, behind=0, reduced=False):
        """n elements; where they are reduced, modulo q."""
        if arena_of(name) == "coefficients":
            self.add(f.LOAD_COEFFICIENTS, (place(name) + behind, n), (since, int(reduced)))
        else:
            self.add(f.LOAD_WORDS, (place(name) + behind, n), (since, 0))

    def store(self, to, name, n, behind=0):
        kind = f.STORE_COEFFICIENTS if arena_of(name) == "coefficients" else f.STORE_WORDS
        self.add(kind, (to, 0), (place(name) + behind, n))

    def number(self, name, value):
        """A word."""
        self.write(place("constants"), value.to_bytes(8, "little"))
        self.load(name, place("constants"), 1)

    def count(self, name, by=1):
        self.add(f.COUNT, (place(name), by))

    def draw(self, name, n, seed):
        """SHAKE256 of the seed: words, or coefficients modulo q."""
        self.squeeze(place("scratch"), n * ARENAS[arena_of(name)][1], SHAKE256, seed)
        self.load(name, place("scratch"), n, reduced=True)

    def set_all(self, name, n, element):
        """Each of the buffer's n elements becomes the element, which is given in bytes."""
        scratch, size = place("scratch"), len(element)
        if len(set(element)) == 1:
            self.fill(scratch, size * n, element[0])
        else:
            self.write(place("constants") + 8, element)
            self.number("counter", 0)
            with self.repeat(n):
                self.copy(scratch, place("constants") + 8, size, stride=size)
                self.count("counter")
        self.load(name, scratch, n)

    def set_one(self, name, at, value):
        """Coefficient `at`; what it was is kept, for restore_one."""
        self.store(place("kept"), name, 1, at)
        self.write(place("constants"), value.to_bytes(2, "little"))
        self.load(name, place("constants"), 1, at)

    def restore_one(self, name, at):
        self.load(name, place("kept"), 1, at)

    # ---- masks of a kind: zero, full (as large as they may be), or drawn by a number, which all masks are drawn anew under
    def words(self, name, n, kind, letter):
        if kind in ("zero", "full"):
            self.set_all(name, n, bytes([255 * (kind == "full")] * 8))
        else:
            self.draw(name, n, letter + bytes([kind]))

    def coefficients(self, name, n, kind, letter):
        if kind in ("zero", "full"):
            self.set_all(name, n, ((Q - 1) * (kind == "full")).to_bytes(2, "little"))
        else:
            self.draw(name, n, letter + bytes([kind]))

    # ---- what is wanted
    def want(self, at, data):
        self.add(f.WANT, (at, len(data)), body=data)

    def want_as_is(self, at, n):
        """What the models have left in the memory."""
        data = self.memory.get(at, n)
        if n <= 64:
            self.want(at, data)
        else:
            self.add(f.WANT_HASH, (at, n), body=sha3_256(data).digest())

    def same(self, at, other, n):
        self.add(f.SAME, (at, n), (other, 0))

    def left(self, call):
        """All that the call may change, past what it was lent too."""
        in_bytes, in_coefficients, in_words = CHANGES[call]
        start = end = place("scratch")
        if in_bytes:
            start, n = run(in_bytes)
            end = start + n
        for buffers in in_coefficients, in_words:
            if buffers:
                at, n = run(buffers)
                self.store(end, buffers[0], n)
                end += n * ARENAS[arena_of(buffers[0])][1]
        self.want_as_is(start, end - start)

    # ---- a digest over many turns
    def start_digest(self):
        self.fill(place("digest"), 32, 0)

    def absorb(self, at, n):
        self.add(f.ABSORB, (place("digest"), 0), (at, n))

    def want_digest(self):
        self.want_as_is(place("digest"), 32)

    # ---- drawn contents
    def fill_pool(self):
        self.squeeze(POOL, POOL_BYTES, SHAKE256, b"contents")

    def fresh(self, call):
        """What the call changes gets drawn contents, limit and count those of 32 bits."""
        for buffers in CHANGES[call]:
            if not buffers:
                continue
            at, n = run(buffers)
            if buffers[0] in BYTES:
                self.copy(at, POOL, n)
            else:
                self.load(buffers[0], POOL, n)
        for name in "limit", "count":
            if name in CHANGES[call][2]:
                self.number(name, 0x9e3779b9)
