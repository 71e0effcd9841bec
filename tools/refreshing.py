"""The use limit, the count and refreshing, by the outward calls and by the model, tools/models/split_key.py: answers, what a call leaves, and that a
refused one changes nothing."""
import ctypes
from decaps_refusals import held, refuse, refuse_lengths, refuse_ranks, resized
from models import kem, split_key as model
from models.parameters import Q, twin
from models.worksheet import worksheet
from outward_calls import Stream, call, draw_strip, for_decaps, for_import, for_refresh, joined, no_split, split_key, traced, u8, u16, u64
from edges import LIMITS, counts

CALLS = 12  # of a sequence


def copied(buffers):
    return [resized(b, len(b)) for b in buffers]


def listed(split):
    return [list(b) for b in split]


# ---- import's limit
def compare_limits(p, dk, masks, split):
    """split: as import makes it under these masks."""
    for limit in LIMITS:
        out, limit_out, count = no_split(p), ctypes.c_uint32(77), ctypes.c_uint32(77)
        lent, number = for_import(dk, masks, limit, out, limit_out, count), model.import_answer(limit)
        if number:
            refuse(p, number, "import", lent)
            continue
        assert call(p, "import", *lent) == 0
        assert held(out) == held(split) and (limit_out.value, count.value) == (limit, 0)


# ---- one decapsulation
def compare_uses(p, split, ct, strip, shares, limit, drawn):
    """shares: of the secret, as another decapsulation gave them. drawn: any count, tried below the limit too."""
    for before in counts(limit, drawn, drawn % (limit or 1)):
        k, count = [u64(range(4)), u64(range(4))], ctypes.c_uint32(before)
        lent, (number, after) = for_decaps([*split, ct, *strip, *k], limit, count), model.counted(limit, before)
        if number:
            refuse(p, number, "decaps", lent)
            continue
        assert call(p, "decaps", *lent) == 0
        assert held(k) == held(shares) and count.value == after


# ---- one refreshing
def compare_refresh(p, split, masks, before):
    """Hands back the fresh split."""
    fresh, count = copied(split), ctypes.c_uint32(before)
    assert call(p, "refresh", *for_refresh(masks, fresh, count)) == 0
    assert listed(fresh) == listed(model.refreshed(split, *masks)) and count.value == 0
    return fresh


def refuse_ranges(p, masks, split, count, draws):
    """A coefficient of a share, then one of the masks too: the first row answers."""
    place, *bad = draws.words(3)
    place, wrong = place % p.coefficients, [max(Q, x % 65536) for x in bad]
    for at in 0, 1:
        for value in Q, wrong[at]:
            shares, coeffs = copied(split), resized(masks[0], p.coefficients)
            shares[at][place] = value
            refuse(p, model.refresh_answer(shares, coeffs), "refresh", for_refresh((coeffs, masks[1]), shares, count))
            coeffs[p.coefficients - 1 - place] = value
            refuse(p, model.refresh_answer(shares, coeffs), "refresh", for_refresh((coeffs, masks[1]), shares, count))


def refuse_refresh(p, masks, split, draws):
    """Whatever the count is."""
    count = ctypes.c_uint32(draws.words(1)[0] % 2**32)
    lent = for_refresh((u16([Q] * p.coefficients), masks[1]), split, count)
    refuse_ranks(p, "refresh", lent)
    refuse_lengths(p, "refresh", lent)
    refuse_ranges(p, masks, split, count, draws)


def compare_refreshing(p, split, seed):
    draws = Stream(seed + b"refreshing", p.mask_bytes + 64)
    masks, drawn = draws.masks(p), draws.words(1)[0] % 2**32
    none, largest = (u16([0] * p.coefficients), u64([0] * 4)), (u16([Q - 1] * p.coefficients), u64([2**64 - 1] * 4))
    assert held(compare_refresh(p, split, none, drawn)) == held(split)
    for by, count in (masks, drawn), (largest, 0), (masks, 2**32 - 1):
        assert model.joined(compare_refresh(p, split, by, count)) == model.joined(split)
    refuse_refresh(p, masks, split, draws)


# ---- a sequence of calls, each given what the last one left
class Host:
    """A split key with its limit and count, beside the model's."""

    def __init__(self, p, dk, limit, draws):
        masks = draws.masks(p)
        self.dk, self.limit, self.count, self.draws = bytes(dk), limit, ctypes.c_uint32(0), draws
        self.split, self.model, self.model_count = split_key(p, dk, *masks, limit), model.split(p, self.dk, *masks), 0

    def compare(self):
        assert listed(self.split) == listed(self.model) and self.count.value == self.model_count

    def decaps(self, p, ct):
        """In the edition of p."""
        k, strip = [u64([0] * 4), u64([0] * 4)], draw_strip(p, self.draws.bytes(8))
        number, self.model_count = model.counted(self.limit, self.model_count)
        assert call(p, "decaps", *for_decaps([*self.split, ct, *strip, *k], self.limit, self.count)) == number
        assert joined(*k) == (bytes(32) if number else kem.decaps(p, self.dk, bytes(ct)))
        self.compare()

    def refresh(self, p, wrong=False):
        """With a mask out of range where it is to be refused."""
        coeffs, words = self.draws.masks(p)
        if wrong:
            coeffs[self.draws.bytes(1)[0]] = Q
        number = model.refresh_answer(self.model, coeffs)
        assert call(p, "refresh", *for_refresh((coeffs, words), self.split, self.count)) == number
        if not number:
            self.model, self.model_count = model.refreshed(self.model, coeffs, words), 0
        self.compare()

    def trace(self, p, ct):
        """Whatever the count is."""
        strip = draw_strip(p, self.draws.bytes(8))
        entries, _ = worksheet(p, self.model, ct, strip)
        for step in 0, p.steps // 2, p.steps - 1:
            assert traced(p, self.split, ct, strip, step) == entries[step]
        self.compare()


def compare_sequence(p, dk, ct, seed):
    """Of decapsulations in both editions and refreshings, some of them refused; then one more of each, and a trace."""
    draws = Stream(seed + b"sequence", (CALLS + 4) * (p.mask_bytes + 16))
    changed = u8(ct)
    changed[0] ^= 1
    host = Host(p, dk, 1 + draws.bytes(1)[0] % 4, draws)
    for kind in draws.bytes(CALLS):
        if kind % 4 == 3:
            host.refresh(p, wrong=kind >= 192)
        else:
            host.decaps((p, twin(p))[kind // 4 % 2], (ct, changed)[kind // 8 % 2])
    host.refresh(p)
    host.decaps(p, ct)
    host.trace(p, ct)
    assert model.joined(host.split) == model.joined(model.split(p, host.dk, [0] * p.coefficients, [0] * 4))
