"""The format of the case files, as crates/test_cases/README.md has it: records, cases and files to bytes and back."""
import struct
from typing import NamedTuple

WRITE, FILL, COPY, JOIN, SET, SQUEEZE, LOAD_COEFFICIENTS, LOAD_WORDS, STORE_COEFFICIENTS, STORE_WORDS = range(1, 11)
COUNT, WANT, WANT_HASH, SAME, ABSORB, CHAIN, REPEAT = range(11, 18)
KEYGEN, ENCAPS, SAMPLE, IMPORT, REFRESH, DECAPS, TRACE, HASH, MASKED_HASH = range(32, 41)

HASHES = "SHA3-256", "SHA3-512", "SHAKE128", "SHAKE256"  # by their numbers

# by kind: its name and its number of operands
KINDS = {
    WRITE: ("write", 1), FILL: ("fill", 2), COPY: ("copy", 3), JOIN: ("join", 2), SET: ("set", 3), SQUEEZE: ("squeeze", 3),
    LOAD_COEFFICIENTS: ("load coefficients", 2), LOAD_WORDS: ("load words", 2), STORE_COEFFICIENTS: ("store coefficients", 2),
    STORE_WORDS: ("store words", 2), COUNT: ("count", 1), WANT: ("want", 1), WANT_HASH: ("want hash", 1), SAME: ("same", 2),
    ABSORB: ("absorb", 2), CHAIN: ("chain", 3), REPEAT: ("repeat", 1),
    KEYGEN: ("keygen", 12), ENCAPS: ("encaps", 12), SAMPLE: ("sample", 10), IMPORT: ("import", 13), REFRESH: ("refresh", 12),
    DECAPS: ("decaps", 19), TRACE: ("trace", 19), HASH: ("hash", 11), MASKED_HASH: ("masked hash", 13),
}
WITH_BYTES = WRITE, WANT, WANT_HASH
MOST_RECORDS, MOST_NAME = 262144, 256  # bytes of a case


class Record(NamedTuple):
    """The body of a REPEAT is its records; of other kinds it is the bytes behind the operands."""

    kind: int
    operands: tuple
    body: object = b""

    @property
    def is_call(self):
        return self.kind >= KEYGEN


class Damaged(Exception):
    """A file that isn't in the format."""


def numbers(*values):
    return struct.pack(f"<{len(values)}I", *values)


# ---- to bytes
def encoded_record(record):
    behind = b"".join(map(encoded_record, record.body)) if record.kind == REPEAT else record.body
    body = numbers(record.kind, *(n for pair in record.operands for n in pair)) + behind
    return numbers(4 + len(body)) + body


def encoded_case(name, records):
    body = b"".join(map(encoded_record, records))
    assert len(body) <= MOST_RECORDS and len(name) <= MOST_NAME, name
    return numbers(len(name)) + name.encode("ascii") + numbers(len(body)) + body


def encoded_file(cases):
    """cases: pairs of a name and its records."""
    return numbers(len(cases)) + b"".join(encoded_case(*case) for case in cases)


# ---- back
class Reader:
    def __init__(self, data):
        self.data, self.at = data, 0

    def take(self, n):
        if self.at + n > len(self.data):
            raise Damaged(f"ends within {n} bytes at {self.at}")
        self.at += n
        return self.data[self.at - n:self.at]

    def number(self):
        return int.from_bytes(self.take(4), "little")

    @property
    def left(self):
        return len(self.data) - self.at


def decoded_record(data):
    """data: without its length."""
    reader = Reader(data)
    kind = reader.number()
    if kind not in KINDS:
        raise Damaged(f"no kind {kind}")
    operands = tuple((reader.number(), reader.number()) for _ in range(KINDS[kind][1]))
    rest = reader.take(reader.left)
    if rest and kind not in (*WITH_BYTES, REPEAT):
        raise Damaged(f"{len(rest)} bytes behind a {KINDS[kind][0]}")
    return Record(kind, operands, tuple(decoded_records(rest)) if kind == REPEAT else rest)


def decoded_records(data):
    reader = Reader(data)
    while reader.left:
        n = reader.number()
        if n < 8:
            raise Damaged(f"a record of {n} bytes")
        yield decoded_record(reader.take(n - 4))


def decoded_file(data):
    reader, cases = Reader(data), []
    for _ in range(reader.number()):
        name = reader.take(reader.number()).decode("ascii")
        cases.append((name, list(decoded_records(reader.take(reader.number())))))
    if reader.left:
        raise Damaged(f"{reader.left} bytes behind the last case")
    return cases
