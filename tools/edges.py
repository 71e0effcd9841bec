"""Numbers at the edges of their ranges: ranks that no set has, use limits and counts."""
# some are a set's rank in their low 8 or 16 bits alone, or but for the highest bit
NO_RANKS = 0, 1, 5, 255, 2**8 + 2, 2**8 + 3, 2**16 + 3, 2**16 + 4, 2**31 + 3, 2**32 - 1
LIMITS = 0, 1, 1000000, 1000001, 2**32 - 1


def counts(limit, *more):
    """The least and the largest, those next to the limit, and more, each once."""
    return sorted(n for n in {0, limit - 1, limit, limit + 1, 2**32 - 1, *more} if 0 <= n < 2**32)
