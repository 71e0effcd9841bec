"""What masked decapsulation and its trace have to refuse, one fault and several at once, and what each call refuses by its rank and by lengths; nothing
that is lent changes."""
import ctypes
from models.parameters import ALL_SETS, Q, sisters
from outward_calls import call, for_decaps, for_trace, is_buffer, u64
from edges import NO_RANKS

# limits with counts that have reached them
USED_UP = (0, 0), (0, 2**32 - 1), (1, 1), (1, 2), (1000000, 1000000), (1000001, 2**32 - 1), (2**32 - 1, 2**32 - 1)


# ---- of any call
def held(lent):
    """What buffers hold, and numbers that are lent."""
    return [bytes(x.contents if hasattr(x, "contents") else x) for x in lent]


def refuse(p, number, name, lent, rank=None):
    before = held(lent)
    assert call(p, name, *lent, rank=rank) == number
    assert held(lent) == before


def refuse_ranks(p, name, lent):
    """Right buffers of p: refused 9 where there is no such rank, nor one in its low 8 or 16 bits alone, empty ones too, and 1 by the rank of
    a sister set."""
    empty = [(x._type_ * 0)() if is_buffer(x) else x for x in lent]
    for rank in NO_RANKS:
        refuse(p, 9, name, lent, rank)
        refuse(p, 9, name, empty, rank)
    for sister in sisters(p):
        refuse(p, 1, name, lent, sister.k)


def resized(buffer, n):
    """A copy with n elements, cut or filled up."""
    copy = (buffer._type_ * n)(*[1] * n)
    ctypes.memmove(copy, buffer, min(ctypes.sizeof(copy), ctypes.sizeof(buffer)))
    return copy


def refuse_lengths(p, name, lent):
    """Each buffer with one element less, one more, and as in the other sets of both editions."""
    for at, i in enumerate(i for i, x in enumerate(lent) if is_buffer(x)):
        right = len(lent[i])
        for n in {right - 1, right + 1, *(p.lent[name][at] for p in ALL_SETS)} - {right}:
            refuse(p, 1, name, [*lent[:i], resized(lent[i], n), *lent[i + 1:]])


# ---- of decapsulation and trace
class Case:
    """The ten buffers of decapsulation, of which a trace has eight, its limit and count, and the word for a trace's value."""

    def __init__(self, p, split, ct, strip):
        self.p, self.buffers = p, [*split, ct, *strip, u64(range(1, 5)), u64(range(5, 9))]
        self.limit, self.count, self.value = 1, ctypes.c_uint32(0), ctypes.c_uint64(77)

    def lent(self, name, step=0):
        return for_decaps(self.buffers, self.limit, self.count) if name == "decaps" else for_trace(self.buffers[:8], step, self.value)

    def refused(self, number, step=0, calls=("decaps", "trace")):
        for name in calls:
            refuse(self.p, number, name, self.lent(name, step))


def refuse_rank_and_lengths(case):
    """The count has reached the limit: that is asked later."""
    case.limit = 0
    for name in "decaps", "trace":
        refuse_ranks(case.p, name, case.lent(name))
        refuse_lengths(case.p, name, case.lent(name))
    case.limit = 1


def refuse_used_up(case):
    for case.limit, case.count.value in USED_UP:
        case.refused(11, calls=("decaps",))
    case.limit, case.count.value = 1, 0


def refuse_steps(case):
    steps = case.p.steps
    for step in (steps, steps + 1, 2**32, 2**64 - 2, 2**64 - 1):
        case.refused(8, step, calls=("trace",))


def refuse_ranges(case, draws):
    for at, number in ((7, 5), (0, 6), (1, 6)):
        buffer, place = case.buffers[at], draws.words(1)[0] % len(case.buffers[at])
        right = buffer[place]
        for wrong, step in ((Q, 0), (65535, case.p.steps)):
            buffer[place] = wrong
            case.refused(number, step)
        buffer[place] = right


def refuse_decaps(p, split, ct, strip, draws):
    case = Case(p, [resized(b, len(b)) for b in split], ct, [resized(b, len(b)) for b in strip])
    refuse_rank_and_lengths(case)
    refuse_used_up(case)
    refuse_steps(case)
    refuse_ranges(case, draws)
    # several faults: the first row answers
    case.buffers[1][0], case.buffers[7][p.strip_coeffs - 1] = Q, Q
    case.refused(5, p.steps)
    refuse_used_up(case)
    case.limit, case.buffers[5] = 0, resized(case.buffers[5], p.ct_bytes + 1)
    case.refused(1, p.steps)
