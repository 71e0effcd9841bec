"""What masked decapsulation and its trace refuse by coefficients, steps, limits and counts, and the order of their rows, on a right key: turn 0's,
split and run under masks drawn by the number 9."""
from models.parameters import Q
from models.split_key import counted
from edges import LIMITS, counts
from .key_book import KeyFile
from .layout import place

CALLS = "decaps", "trace"
MOST = 2**32 - 1


def tried(file, name, call, limit=MOST, wanted=0, before=lambda file: None, **how):
    """One case, from drawn contents of what the call changes."""
    file.case(f"{file.p.name}, {call}, {name}")
    before(file)
    file.fresh(call)
    file.call(call, wanted, limit=limit, **how)
    file.left(call)


def ranges(file):
    """A coefficient of the strip or of a share at the first and at the last place."""
    last = file.p.coefficients - 1
    for buffer, end, answer in ("coeffs", file.p.strip_coeffs - 1, 5), ("s0", last, 6), ("s1", last, 6):
        for at in 0, end:
            for value in Q, 65535:
                for call in CALLS:
                    tried(file, f"{buffer}[{at}] is {value}", call, MOST, answer, lambda file: file.set_one(buffer, at, value))
                    file.restore_one(buffer, at)


def steps(file):
    """A trace's steps; decapsulation has none."""
    n = file.p.steps
    for step in 0, n - 1, n, n + 1, 2**32, 2**32 + n - 1, 2**63, 2**64 - 2, 2**64 - 1:
        tried(file, f"step {step}", "trace", wanted=0 if step < n else 8, before=lambda file: file.number("step", step))


def rows(file):
    """From the step past the end on, one fault after the other; the first row answers. A trace has no limit."""
    file.number("step", file.p.steps)
    short = {"ct": file.p.ct_bytes - 1}
    rows = (
        ("no fault but the step", (0, 8), MOST, {}),
        (f"and s1[100] is {Q}", (6, 6), MOST, {"before": lambda file: file.set_one("s1", 100, Q)}),
        (f"and coeffs[100] is {Q}", (5, 5), MOST, {"before": lambda file: file.set_one("coeffs", 100, Q)}),
        ("and the limit reached", (11, 5), 0, {}),
        ("and a length", (1, 1), 0, {"lengths": short}),
        ("and the rank", (9, 9), 0, {"lengths": short, "rank": 5}),
    )
    for name, answers, limit, how in rows:
        for call, answer in zip(CALLS, answers):
            tried(file, name, call, limit, answer, **how)


def restored(file):
    """The split and the strip again, and that a trace asks for no limit."""
    file.import_as(9)
    file.strip(9)
    file.number("step", file.p.steps - 1)
    tried(file, "limit reached", "decaps", 0, 11)
    tried(file, "limit reached, which it has none of", "trace", 0)


def uses(file):
    """Limits with counts below, at and above them. A call that is carried out is counted, whatever its ciphertext is."""
    for kind in "true", "false":
        for limit in (*LIMITS, 2, 2**31):
            for count in counts(limit):
                answer, after = counted(limit, count)
                file.case(f"{file.p.name}, decaps, limit {limit}, count {count} to {after}, {kind} ciphertext")
                file.fresh("decaps")
                file.number("count", count)
                file.call("decaps", answer, limit=limit)
                file.left("decaps")
        file.write(place("constants"), b"\1")
        file.join(place("ct"), place("constants"), 1)


def refusals(p):
    file = KeyFile(p, "refusals")
    file.first_turn()
    ranges(file)
    steps(file)
    rows(file)
    restored(file)
    uses(file)
    return file
