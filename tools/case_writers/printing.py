"""Case files for people: a line for each record."""
from hashlib import sha3_256
from . import format as f
from .calls import EDITIONS
from .format import HASHES
from .layout import named
from models.parameters import Edition

LEGIBLE = 32  # bytes that are printed as they are
HEADINGS = {
    f.KEYGEN: 1, f.ENCAPS: 1, f.SAMPLE: 0, f.IMPORT: 1, f.REFRESH: 1, f.DECAPS: 2, f.TRACE: 2, f.HASH: 1, f.MASKED_HASH: 1,
}
OUTPUT_ARENAS = "bytes", "bytes", "coefficients", "coefficients", "words", "words"
RUN_ARENAS = "coefficients", "coefficients", "words", "words", "bytes", "bytes", "words", "coefficients"
INPUT_ARENAS = {
    f.KEYGEN: ("bytes",) * 2, f.ENCAPS: ("bytes",) * 2, f.SAMPLE: ("bytes",), f.IMPORT: ("bytes", "coefficients", "words"),
    f.REFRESH: ("coefficients", "words"), f.DECAPS: RUN_ARENAS, f.TRACE: RUN_ARENAS, f.HASH: ("bytes",), f.MASKED_HASH: ("bytes", "bytes", "words"),
}


# ---- operands
def at(arena, place):
    name, behind = named(arena, place)
    return f"{name}+{behind}" if behind else name


def lent(arena, operand):
    return f"{at(arena, operand[0])} ({operand[1]})"


def in_bytes(operand):
    return lent("bytes", operand)


def hexed(data):
    if len(data) <= LEGIBLE:
        return data.hex()
    return f"{data[:8].hex()}.. (SHA3-256 {sha3_256(data).hexdigest()})"


# ---- records
def copied(to, by, since):
    strides = f", strides {by[0]} and {since[1]} times {at('words', by[1])}" if by[0] or since[1] else ""
    return f"{in_bytes(to)} from {at('bytes', since[0])}{strides}"


def chained(out, ends, by):
    return f"{HASHES[by[1]]} at {at('bytes', out[0])}, messages of {out[1]}, outputs of {ends[0]} to {ends[1]}, state at {at('words', by[0])}"


TEXTS = {
    f.WRITE: lambda to: in_bytes(to),
    f.FILL: lambda to, byte: f"{in_bytes(to)} with {byte[0]}",
    f.COPY: copied,
    f.JOIN: lambda to, other: f"{in_bytes(to)} with {at('bytes', other[0])}",
    f.SET: lambda to, by, modulus: f"{at('bytes', to[0])}, of {modulus[0]} elements of {to[1]} bits number {at('words', by[0])} to {by[1]}",
    f.SQUEEZE: lambda to, hash, message: f"{in_bytes(to)}, {HASHES[hash[0]]} of {in_bytes(message)}",
    f.LOAD_COEFFICIENTS: lambda to, since: f"{lent('coefficients', to)} from {at('bytes', since[0])}{', modulo q' * since[1]}",
    f.LOAD_WORDS: lambda to, since: f"{lent('words', to)} from {at('bytes', since[0])}",
    f.STORE_COEFFICIENTS: lambda to, since: f"{lent('coefficients', since)} to {at('bytes', to[0])}",
    f.STORE_WORDS: lambda to, since: f"{lent('words', since)} to {at('bytes', to[0])}",
    f.COUNT: lambda word: f"{at('words', word[0])} by {word[1]}",
    f.WANT: lambda has: in_bytes(has),
    f.WANT_HASH: lambda has: in_bytes(has),
    f.SAME: lambda has, other: f"{in_bytes(has)} as {at('bytes', other[0])}",
    f.ABSORB: lambda to, since: f"{in_bytes(since)} into {at('bytes', to[0])}",
    f.CHAIN: chained,
    f.REPEAT: lambda times: f"{times[0]} times",
}


def heading_text(kind, heading):
    """What a call is told."""
    if kind == f.HASH:
        return HASHES[heading[0][0]]
    if kind == f.MASKED_HASH:
        return HASHES[(1, 3)[heading[0][0]]]
    if not heading:
        return ""
    first, rank = heading[0]
    if kind == f.IMPORT:
        return f"limit {first}, rank {rank}"
    edition = "" if kind == f.REFRESH else f"{'ML-KEM' if EDITIONS[first] == Edition.ML_KEM else 'Kyber'}, "
    more = {f.DECAPS: lambda n: f", limit {n}", f.TRACE: lambda n: f", step in {at('words', n)}"}.get(kind, lambda n: "")
    return f"{edition}rank {rank}{more(heading[-1][0])}"


def answered(answer):
    return f"refused {answer}" if answer else "done"


def call_text(kind, operands):
    (wanted, _), outputs, inputs = operands[0], operands[1:9], operands[9:]
    told = heading_text(kind, inputs[:HEADINGS[kind]])
    changed = [lent(arena, operand) for arena, operand in zip(OUTPUT_ARENAS, outputs) if operand != (0, 0)]
    changed += [at("words", place) for place, n in outputs[6:] if n]
    given = [lent(arena, operand) for arena, operand in zip(INPUT_ARENAS[kind], inputs[HEADINGS[kind]:])]
    return f"{told}: {answered(wanted)}; given {', '.join(given)}; changes {', '.join(changed) or 'nothing'}"


def record_lines(record, indent="    "):
    name = f.KINDS[record.kind][0]
    text = call_text(record.kind, record.operands) if record.is_call else TEXTS[record.kind](*record.operands)
    if record.kind in f.WITH_BYTES:
        text += f": {record.body.hex() if record.kind == f.WANT_HASH else hexed(record.body)}"
    yield f"{indent}{name} {text}"
    if record.kind == f.REPEAT:
        for inner in record.body:
            yield from record_lines(inner, indent + "    ")


def differing(record, answer):
    """A record that doesn't hold; of a call, what the models answer."""
    return "\n".join(record_lines(record, "")) + (" doesn't hold" if answer is None else f": the models say {answered(answer)}")


def print_case(name, records):
    print(name)
    for record in records:
        print("\n".join(record_lines(record)))
