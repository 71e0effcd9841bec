"""A case file of a parameter set: the calls on keys and split keys, each buffer lent as the set asks for it, or otherwise where that is said."""
from models.parameters import Edition
from . import format as f
from .book import SHAKE128, CaseFile
from .layout import place, room

RUN = "s0", "s1", "z0", "z1", "public", "ct", "words", "coeffs"
# the buffers of each call, in the order of Parameters.lent
LENT = {
    "keygen": ("d", "z", "ek", "dk"),
    "encaps": ("ek", "m", "ct", "k"),
    "import": ("dk", "mask_coeffs", "mask_words", "s0", "s1", "z0", "z1", "public"),
    "refresh": ("mask_coeffs", "mask_words", "s0", "s1", "z0", "z1"),
    "decaps": (*RUN, "k0", "k1"),
    "trace": RUN,
}
# b0, b1, c0, c1, w0, w1, n0, n1
OUTPUTS = {
    "keygen": ("ek", "dk", None, None, None, None, None, None),
    "encaps": ("ct", "k", None, None, None, None, None, None),
    "import": ("public", None, "s0", "s1", "z0", "z1", "limit", "count"),
    "refresh": (None, None, "s0", "s1", "z0", "z1", None, "count"),
    "decaps": (None, None, None, None, "k0", "k1", None, "count"),
    "trace": (None, None, None, None, None, None, "value", None),
}
INPUTS = {
    "keygen": ("d", "z"),
    "encaps": ("ek", "m"),
    "import": ("dk", "mask_coeffs", "mask_words"),
    "refresh": ("mask_coeffs", "mask_words"),
    "decaps": RUN,
    "trace": RUN,
}
KINDS = {"keygen": f.KEYGEN, "encaps": f.ENCAPS, "import": f.IMPORT, "refresh": f.REFRESH, "decaps": f.DECAPS, "trace": f.TRACE}
BUFFERS = 6  # outputs that are buffers; the others are numbers
SECRET = place("scratch")  # what the shares of K join to


def right_lengths(p, call):
    return dict(zip(LENT[call], p.lent[call]))


class KeyFile(CaseFile):
    def __init__(self, p, subject, exact=True):
        super().__init__(f"{p.name.lower()}-{subject}", exact)
        self.p = p

    def heading(self, call, rank, limit):
        """The operands before a call's inputs."""
        edition = int(self.p.edition == Edition.KYBER)
        return {
            "keygen": [(edition, rank)], "encaps": [(edition, rank)], "import": [(limit, rank)], "refresh": [(0, rank)],
            "decaps": [(edition, rank), (limit, 0)], "trace": [(edition, rank), (place("step"), 0)],
        }[call]

    def call(self, call, wanted=0, rank=None, limit=1, lengths=None, at=None):
        """lengths: other numbers of elements, by buffer; at: other places."""
        lent = right_lengths(self.p, call) | (lengths or {})
        places = {name: place(name) for name in lent} | (at or {})
        outputs = OUTPUTS[call]
        buffers = [(places[name], lent[name]) if name else (0, 0) for name in outputs[:BUFFERS]]
        words = [(place(name), 1) if name else (0, 0) for name in outputs[BUFFERS:]]
        heading = self.heading(call, self.p.k if rank is None else rank, limit)
        inputs = [(places[name], lent[name]) for name in INPUTS[call]]
        self.add(KINDS[call], (wanted, 0), *buffers, *words, *heading, *inputs)

    def tried(self, name, call, **how):
        """A case of one call and all that it may change."""
        self.case(f"{self.p.name}, {call}, {name}")
        self.call(call, **how)
        self.left(call)

    # ---- keys of turns: the draws are SHAKE128 of the empty string, for each turn d, z, m and a random ciphertext
    @property
    def turn_bytes(self):
        return 96 + self.p.ct_bytes

    def draw_turns(self, n):
        self.squeeze(place("area"), n * self.turn_bytes, SHAKE128, b"")

    def seeds_of(self, turn):
        self.copy_seeds(place("area") + turn * self.turn_bytes)

    def copy_seeds(self, since, stride=0):
        for i, name in enumerate(("d", "z", "m")):
            self.copy(place(name), since + 32 * i, 32, since_stride=stride)

    def random_ciphertext(self, turn):
        self.copy(place("ct"), place("area") + turn * self.turn_bytes + 96, self.p.ct_bytes)

    def make_key(self):
        """Keys, ciphertext and secret of d, z and m."""
        for call in "keygen", "encaps":
            self.call(call)
            self.left(call)

    # ---- masks
    def key_masks(self, kind, letters=(b"s", b"z"), words_kind=None):
        self.coefficients("mask_coeffs", self.p.coefficients, kind, letters[0])
        self.words("mask_words", 4, kind if words_kind is None else words_kind, letters[1])

    def strip(self, kind, at=""):
        self.words("words" + at, self.p.strip_words, kind, b"w")
        self.coefficients("coeffs" + at, self.p.strip_coeffs, kind, b"c")

    def import_as(self, kind, limit=1):
        self.key_masks(kind)
        self.call("import", limit=limit)
        self.left("import")

    def first_turn(self):
        """A case: turn 0's key and ciphertext, the split and the strip, under masks drawn by the number 9."""
        self.case(f"{self.p.name}, the key of turn 0, its ciphertext, split and strip")
        self.fill_pool()
        for call in "keygen", "encaps", "import", "decaps", "trace":
            self.fresh(call)
        self.draw_turns(1)
        self.seeds_of(0)
        self.make_key()
        self.import_as(9)
        self.strip(9)

    # ---- the secret that two shares stand for
    def opened(self, at=""):
        """Decapsulation, on a strip that lies elsewhere and whatever the count is; what the shares join to is put to SECRET."""
        self.fresh("decaps")
        self.call("decaps", limit=2**32 - 1, at={"words": place("words" + at), "coeffs": place("coeffs" + at)})
        self.join_shares()

    def join_shares(self):
        self.store(SECRET, "k0", room("k0") + 4)
        self.join(SECRET, SECRET + 8 * room("k0"), 32)
