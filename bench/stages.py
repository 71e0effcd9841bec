"""Instructions of each part of one masked decapsulation, for bench/decaps, from what callgrind dumped at the borders of stages.

usage: bench/stages.py --options      callgrind's, for the dumps
       bench/stages.py SET FILE       of a parameter set's run

The stage functions are inlined into `decapsulate`. Four functions that aren't inlined, each called at known places, mark the borders. What little is inlined
between a border and the next stage counts with that stage: the end of stage 3 with stage 4, the start of stage 9's state with stage 8, its end with stage 10.
In round 3 none of the four stands between stage 8 and selection: they are one part, with the ciphertext's plain hash and the start of the last hash's state.
"""
import os, re, sys
from itertools import islice

sys.dont_write_bytecode = True
sys.path.append(os.path.join(os.path.dirname(os.path.abspath(__file__)), "..", "tools"))
from models.parameters import NAMED, Edition, Use

EXPAND, COMPRESS, NOISE, ABSORB = MARKS = (
    "kpke::matrix::expand",
    "masked_polynomials::groups::compress_groups",
    "masked_noise::noise_polys",
    "masked_sponge::absorb::masked_absorb",
)
# a part's name, how many stages it has, and where it ends: at which event, the so-manieth
PARTS = [
    ("refusals", 0, "before", EXPAND, 1),
    ("matrix", 0, "after", EXPAND, 1),
    ("stage 1", 1, "before", COMPRESS, 1),
    ("stage 2", 1, "after", COMPRESS, 1),
    ("stage 3", 1, "after", ABSORB, 1),
    ("stage 4", 1, "before", NOISE, 1),
    ("stage 5", 1, "after", NOISE, 2),
    ("stage 6", 1, "before", COMPRESS, 1),
    ("stage 7", 1, "after", COMPRESS, 2),
]
LAST_PARTS = {
    Edition.ML_KEM: [("stage 8", 1, "before", ABSORB, 1), ("stage 9", 1, "after", ABSORB, 1), ("stage 10", 1, "at", "end", 1)],
    Edition.KYBER: [("stage 8, selection", 2, "before", ABSORB, 1), ("last hash", 1, "at", "end", 1)],
}


def parts_of(p):
    """What ends where, and its entries."""
    stages = iter(p.stages)
    return [(name, *end, sum(islice(stages, count), Use()).entries) for name, count, *end in PARTS + LAST_PARTS[p.edition]]


def options():
    """By a function's last name: callgrind loses patterns that begin alike."""
    return [f"--dump-{when}=*{f.split('::')[-1]}" for f in MARKS for when in ("before", "after")]


def dumps(text):
    """Each dump's event and instructions, from the first that has any."""
    events = re.findall(r"^desc: Trigger: (?:--dump-(before|after)=(\S+)|Program termination)$.*?^totals: (\d+)$", text, re.M | re.S)
    found = [(when or "at", f or "end", int(n)) for when, f, n in events]
    return found[next(i for i, e in enumerate(found) if e[2]):]


def costs(p, found):
    """Name, entries and instructions of each part. Found are events along a run, each with the instructions since the one before."""
    parts, out, cost, times = iter(parts_of(p)), [], 0, 0
    name, when, f, wanted, entries = next(parts)
    for event in found:
        cost += event[2]
        times += event[:2] == (when, f)
        if times == wanted:
            out.append((name, entries, cost))
            name, when, f, wanted, entries = next(parts, (None, None, None, None, None))
            cost = times = 0
    if name:
        sys.exit(f"no border for {name}: one of the marking functions is inlined or called elsewhere now")
    return out


def main():
    if sys.argv[1:] == ["--options"]:
        return print(*options())
    name, file = sys.argv[1:]
    out = costs(NAMED[name], dumps(open(file).read()))
    total = sum(cost for _, _, cost in out)
    for name, entries, cost in out:
        each = f"   for each of {entries:6} entries {cost / entries:7.2f}" if entries else ""
        print(f"{name:<18} {cost:8} instructions {100 * cost / total:5.1f} %{each}")


if __name__ == "__main__":
    main()
