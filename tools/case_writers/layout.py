"""Where the buffers of the case files lie. What calls change has 8 elements more than can be lent, so that a store past the lent part shows; the
buffers that one call changes lie side by side."""

PAST = 8
LENT_BYTES, LENT_COEFFICIENTS, LENT_WORDS = 4096, 4096, 512  # at most, of what a call may change
STRIP_WORDS, STRIP_COEFFS = 15192, 9472  # the largest set's
STRIPS = "", "_zero", "_full", "_other"


def placed(sizes):
    """Each buffer's place and size, one behind the other."""
    places, at = {}, 0
    for name, size in sizes.items():
        places[name] = at, size
        at += size
    return places


CHANGED = ("ek", "dk", "ct", "k", "out", "out0", "out1", "public")
BYTES = placed({
    **{name: LENT_BYTES + PAST for name in CHANGED},
    "scratch": 8 * (STRIP_WORDS + PAST),  # behind public: what is drawn, or stored to be wanted
    "d": 40, "z": 40, "m": 40, "seed": 64, "digest": 32, "secret": 64, "constants": 64, "kept": 8, "area": 500000,
})
COEFFICIENTS = placed({
    "s0": LENT_COEFFICIENTS + PAST, "s1": LENT_COEFFICIENTS + PAST, "sampled": LENT_COEFFICIENTS + PAST, "mask_coeffs": 1032,
    **{"coeffs" + strip: STRIP_COEFFS + PAST for strip in STRIPS},
})
WORDS = placed({
    "z0": LENT_WORDS + PAST, "z1": LENT_WORDS + PAST, "limit": 1, "count": 1, "k0": LENT_WORDS + PAST, "k1": LENT_WORDS + PAST,
    "value": 1, "step": 1, "counter": 1, "state": 2, "mask_words": PAST,
    **{"words" + strip: STRIP_WORDS + PAST for strip in STRIPS},
})
ARENAS = {"bytes": (BYTES, 1), "coefficients": (COEFFICIENTS, 2), "words": (WORDS, 8)}
SIZES = {"bytes": 655360, "coefficients": 65536, "words": 65536}
for arena, (buffers, _) in ARENAS.items():
    assert sum(size for _, size in buffers.values()) <= SIZES[arena]


def arena_of(name):
    for arena, (buffers, _) in ARENAS.items():
        if name in buffers:
            return arena
    raise KeyError(f"there is no buffer {name}")


def place(name):
    return ARENAS[arena_of(name)][0][name][0]


def room(name):
    return ARENAS[arena_of(name)][0][name][1]


def named(arena, at):
    """The buffer that a place is in, and how far behind its start."""
    buffers = ARENAS[arena][0]
    name = max((name for name in buffers if buffers[name][0] <= at), key=lambda name: buffers[name][0])
    return name, at - buffers[name][0]
