"""Two calls timed in turns, in one process, by the smallest of their times."""
import ctypes, time

TURNS, CALLS = 201, 20


def ready(lib, p, name, *lent):
    """A call in the set's edition, as a function of nothing: it is told the rank, each buffer with its length, and numbers as they are."""
    call, words = getattr(lib, p.c_name(name)), [ctypes.c_uint32(p.k)]
    for x in lent:
        words += (x, ctypes.c_size_t(len(x))) if isinstance(x, (bytes, ctypes.Array)) else (x,)
    return lambda: call(*words)


def microseconds(f, calls=CALLS):
    start = time.perf_counter()
    for _ in range(calls):
        f()
    return (time.perf_counter() - start) / calls * 1e6


def compare(name, ours, other=None, calls=CALLS):
    """With no other, ours alone."""
    times = [[microseconds(f, calls) for f in (ours, other) if f] for _ in range(TURNS)]
    a, *b = map(min, zip(*times))
    print(f"{name:<46} ours {a:6.1f} us" + "".join(f"   OpenSSL {x:6.1f} us   ratio {a / x:.2f}" for x in b))
