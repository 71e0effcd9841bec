"""Traced values of one key, split and strip, for its true and its random ciphertext, and with 3329, 4095 and other such coefficients in the key; and
the shares of K, which decapsulation hands back and the trace shows where they are entered."""
from hashlib import shake_128
from models.elsewhere import edged, with_both
from models.kem import encaps
from models.numbers import word_bytes
from .key_book import KeyFile
from .layout import place

STRIDE = 359
STEPS, VALUES = (place("area") + at for at in (200000, 210000))


def trace_to(file):
    """The step's value, to place number counter of the values."""
    file.call("trace")
    file.store(place("constants"), "value", 1)
    file.copy(VALUES, place("constants"), 8, stride=8)
    file.count("counter")


def trace_listed(file, steps):
    """The steps stand in the memory."""
    file.write(STEPS, word_bytes(steps))
    file.number("counter", 0)
    with file.repeat(len(steps)):
        file.copy(place("constants") + 8, STEPS, 8, since_stride=8)
        file.load("step", place("constants") + 8, 1)
        trace_to(file)


def trace_apart(file, steps):
    """The steps of a range: their values have the hash that SHA3-256 gives."""
    file.number("step", 0)
    file.number("counter", 0)
    with file.repeat(len(steps)):
        trace_to(file)
        file.count("step", steps.step)
    file.want_as_is(VALUES, 8 * len(steps))


def traced(file, name):
    p = file.p
    ends = [step for start, end in zip(p.starts, p.starts[1:] + [p.steps]) for step in (start, end - 1)]
    file.case(f"{p.name}, trace, {name}: the first and the last step of each stage")
    trace_listed(file, ends)
    file.want(VALUES, file.memory.get(VALUES, 8 * len(ends)))
    file.case(f"{p.name}, trace, {name}: steps 0 to {p.starts[1] - 1}")
    trace_apart(file, range(0, p.starts[1], 1))
    file.case(f"{p.name}, trace, {name}: each step divisible by {STRIDE}")
    trace_apart(file, range(0, p.steps, STRIDE))
    file.case(f"{p.name}, trace, {name}: the shares of K where they are entered")
    file.fresh("decaps")
    file.number("count", 0)
    file.call("decaps")
    file.left("decaps")
    trace_listed(file, [step for share in zip(*p.secret_steps) for step in share])
    file.store(place("secret"), "k0", 4)
    file.store(place("secret") + 32, "k1", 4)
    file.same(VALUES, place("secret"), 64)


def traces(p):
    file = KeyFile(p, "traces")
    file.first_turn()
    traced(file, "true ciphertext")
    file.prepare()
    file.random_ciphertext(0)
    traced(file, "random ciphertext")
    key = with_both(p, file.memory.get(place("dk"), p.dk_bytes), edged)
    file.case(f"{p.name}, the key with 3329 and more in both parts, its ciphertext and split")
    file.write(place("dk"), key)
    file.write(place("ct"), encaps(p, p.ek(key), shake_128().digest(96)[64:])[0])
    file.import_as(9)
    traced(file, "coefficients of 3329 and more")
    return file
