"""Sampling from streams at the edges: full, one coefficient short, and with wrong lengths."""
from hashlib import shake_128
from . import format as f
from .book import CaseFile
from .layout import place
from .lengths import at_edges

STREAM, STREAM_BYTES = place("area"), 840
SKIPPED = b"\xff"


def padded(pattern, n):
    """The pattern up to byte n, and bytes 255 from there on, which no coefficient is taken of."""
    return (pattern * STREAM_BYTES)[:n].ljust(STREAM_BYTES, SKIPPED)


# Of zeros 256 coefficients take 384 bytes; of the group that keeps 3328 and drops 3329 they take 768.
ZEROS, GROUP = b"\0", b"\0\x1d\xd0"
STREAMS = {
    "256 zeros in 384 bytes": padded(ZEROS, 384),
    "255 zeros in 383 bytes": padded(ZEROS, 383),
    "256 of 3328 in 768 bytes": padded(GROUP, 768),
    "255 of 3328 in 765 bytes": padded(GROUP, 765),
    "256 zeros in the last 384 bytes": SKIPPED * 456 + bytes(384),
    "255 coefficients in the last 382 bytes": SKIPPED * 458 + bytes(382),
    "no coefficient at all": SKIPPED * STREAM_BYTES,
    "zeros alone": bytes(STREAM_BYTES),
    "a drawn stream": shake_128(b"stream").digest(STREAM_BYTES),
}


def tried(file, name, n=STREAM_BYTES, out=256, stream=None, wanted=0):
    file.case(f"sample, {name}")
    file.fresh("sample")
    if stream:
        file.write(STREAM, stream)
    file.add(f.SAMPLE, (wanted, 0), *[(0, 0)] * 2, (place("sampled"), out), *[(0, 0)] * 5, (STREAM, n))
    file.left("sample")


def sampling():
    file = CaseFile("sampling")
    file.fill_pool()
    for name, stream in STREAMS.items():
        tried(file, name, stream=stream, wanted=7 if name.startswith(("255", "no")) else 0)
    for edge, n in at_edges("area", STREAM_BYTES, False):
        tried(file, f"stream {edge}", n=n, wanted=1)
    for edge, n in at_edges("sampled", 256, True):
        tried(file, f"output {edge}", out=n, wanted=1)
    return file
