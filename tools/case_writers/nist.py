"""NIST's published vectors: CAVP's of the hashes, SHA3-512's and SHAKE256's short messages and variable outputs on two shares too, and ACVP's of
ML-KEM, the decapsulations masked. Every value in them is as published; the models have to give it."""
import re
from hashlib import shake_256
from itertools import groupby
from models.parameters import SETS
from published import EACH, ONCE, held, published, read
from . import format as f
from .format import HASHES
from .hashes import SHARES, HashFile
from .calls import MASKED, hash_masks
from .key_book import SECRET, KeyFile
from .layout import place

PUBLISHED = dict(zip(HASHES, ("SHA3_256", "SHA3_512", "SHAKE128", "SHAKE256")))
MASKED_NUMBER = {"SHA3-512": 0, "SHAKE256": 1}
PARTS = {"short": "ShortMsg", "long": "LongMsg", "variable": "VariableOut", "monte-carlo": "Monte"}
MOST_MESSAGE, MOST_OUTPUT = 272, 250  # of masked hashes
FUNCTIONS = {"keyGen": "keygen", "encapsulation": "encaps", "decapsulation": "decaps"}
MANY_MESSAGES, MANY_OUTPUTS = (place("area") + at for at in (10000, 30000))
FIELDS = {"d": "d", "z": "z", "m": "m", "ek": "ek", "dk": "dk", "ct": "c", "k": "k"} | {"scratch": "k"}  # where a field lies
STRIP_KINDS = {"": 2, "_zero": "zero", "_full": "full"}


def hash_file_name(name, part):
    return f"cavp-{name.lower()}-{part}"


def parts_of(name):
    return [part for part in PARTS if part != "variable" or name.startswith("SHAKE")]


# ---- CAVP, as published
def lines(folder, name):
    """What a file says: keys and values, line by line."""
    text = read(folder, "sha3-cavp", name + ".rsp").decode()
    return re.findall(r"^\[?([A-Z][A-Za-z() ]*) = ([0-9a-f]+)\]?\s*$", text, re.M)


def messages(folder, name):
    """Messages and outputs. An empty message is published as one byte of length 0."""
    pairs, bits, message = [], None, b""
    for key, value in lines(folder, name):
        if key == "Len":
            bits = int(value)
        elif key == "Msg":
            message = b"" if bits == 0 else bytes.fromhex(value)
            if bits is not None:
                held(name, bits, 8 * len(message))
        elif key in ("MD", "Output"):
            pairs.append((message, bytes.fromhex(value)))
    return pairs


def chain(folder, name):
    """The seed, the least and the most length of an output, and each thousandth output."""
    ends, bits, seed, outputs = {}, None, b"", []
    for key, value in lines(folder, name):
        if key == "L":
            ends = {"Minimum": int(value) // 8, "Maximum": int(value) // 8}
        elif key.startswith(("Minimum", "Maximum")):
            ends[key[:7]] = int(value) // 8
        elif key == "Outputlen":
            bits = int(value)
        elif key in ("Seed", "Msg"):
            seed = bytes.fromhex(value)
        elif key in ("MD", "Output"):
            outputs.append(bytes.fromhex(value))
            if bits is not None:
                held(name, bits, 8 * len(outputs[-1]))
    return seed, ends["Minimum"], ends["Maximum"], outputs


# ---- CAVP, as cases
def masked_twice(file, hash, n, size, wanted):
    """The message in the memory becomes its first share; under zero and drawn masks the shares join to the output that is wanted."""
    if n:
        file.join(SHARES[0], SHARES[1], n)
    count = hash_masks(MASKED[hash][0], n, size)
    for masks in "words_zero", "words":
        file.masked(hash, ((SHARES[0], n), (SHARES[1], n), (place(masks), count), (place("out0"), size), (place("out1"), size)))
        file.join(place("out0"), place("out1"), size)
        file.same(place("out0"), wanted, size)


def masked_masks(file):
    file.draw("words", hash_masks(72, MOST_MESSAGE, MOST_OUTPUT), b"h\1")
    file.write(SHARES[1], shake_256(b"shares").digest(MOST_MESSAGE))


def message_file(folder, name, part):
    pairs, hash = messages(folder, PUBLISHED[name] + PARTS[part]), HASHES.index(name)
    file, masked = HashFile(hash_file_name(name, part), exact=False), part == "short" and name in MASKED_NUMBER
    for i, (message, output) in enumerate(pairs):
        file.case(f"{name}, {part} {i}: {len(message)} bytes to {len(output)}")
        if masked and i == 0:
            masked_masks(file)
        if message:
            file.write(SHARES[0], message)
        file.call(hash, len(message), len(output), message=SHARES[0])
        file.want(place("out"), output)
        if masked:
            masked_twice(file, MASKED_NUMBER[name], len(message), len(output), place("out"))
    return file


def together(pairs):
    """Vectors behind each other whose messages and outputs are alike in length, with their numbers."""
    return [list(group) for _, group in groupby(enumerate(pairs), lambda pair: tuple(map(len, pair[1])))]


def variable_file(folder, name):
    """Messages and outputs of one length stay in the memory; where there is a masked hash, they are put through it behind them."""
    file, hash = HashFile(hash_file_name(name, "variable"), exact=False), HASHES.index(name)
    for group in together(messages(folder, PUBLISHED[name] + PARTS["variable"])):
        n, size = (len(part) for part in group[0][1])
        for i, (number, (message, output)) in enumerate(group):
            file.case(f"{name}, variable {number}: {n} bytes to {size}")
            file.write(MANY_MESSAGES + n * i, message)
            file.call(hash, n, size, message=MANY_MESSAGES + n * i, out=MANY_OUTPUTS + size * i)
            file.want(MANY_OUTPUTS + size * i, output)
        if name in MASKED_NUMBER:
            file.case(f"masked {name}, variable {group[0][0]} to {group[-1][0]}: {n} bytes to {size}")
            if group[0][0] == 0:
                masked_masks(file)
            masked_group(file, MASKED_NUMBER[name], n, size, len(group))
    return file


def masked_group(file, hash, n, size, count):
    file.number("counter", 0)
    with file.repeat(count):
        file.copy(SHARES[0], MANY_MESSAGES, n, since_stride=n)
        file.copy(place("out"), MANY_OUTPUTS, size, since_stride=size)
        masked_twice(file, hash, n, size, place("out"))
        file.count("counter")


def chain_file(folder, name):
    """Each message is the start of the output before, the first the seed's; words state and the next are the lengths of the last output and of the
    next."""
    seed, least, most, outputs = chain(folder, PUBLISHED[name] + PARTS["monte-carlo"])
    file, state = HashFile(hash_file_name(name, "monte-carlo")), place("state")
    for i, output in enumerate(outputs):
        file.case(f"{name}, Monte Carlo {i}: a thousand hashes, the last of {len(output)} bytes")
        if i == 0:
            file.write(place("out"), seed)
            file.write(place("constants"), len(seed).to_bytes(8, "little") + most.to_bytes(8, "little"))
            file.load("state", place("constants"), 2)
        with file.repeat(1000):
            file.add(f.CHAIN, (place("out"), len(seed)), (least, most), (state, HASHES.index(name)))
        file.want(place("out"), output)
        file.store(place("constants"), "state", 1)
        file.want(place("constants"), len(output).to_bytes(8, "little"))
    return file


def hash_files(folder):
    for name in HASHES:
        for part in parts_of(name):
            if part == "monte-carlo":
                yield chain_file(folder, name)
            else:
                yield variable_file(folder, name) if part == "variable" else message_file(folder, name, part)


# ---- ACVP
def key_file_name(p, function):
    return f"acvp-{p.name.lower()}-{FUNCTIONS[function]}"


class PublishedKeyFile(KeyFile):
    def __init__(self, p, function):
        super().__init__(p, function, exact=False)
        self.name = key_file_name(p, function)

    def starting(self, i):
        """A case's name; the first one has the strips too."""
        self.case(f"{self.p.name}, ACVP {self.name.split('-')[-1]} {i}")


def keygen_file(p, cases):
    """The public key is a part of the decapsulation key."""
    file = PublishedKeyFile(p, "keyGen")
    for i, case in enumerate(cases):
        held(f"{p.name}, ek in dk", case["ek"], p.ek(case["dk"]))
        file.starting(i)
        file.write(place("d"), case["d"])
        file.write(place("z"), case["z"])
        file.call("keygen")
        file.want(place("dk"), case["dk"])
        file.same(place("ek"), place("dk") + p.vector_bytes, p.ek_bytes)
    return file


def encaps_file(p, cases):
    file = PublishedKeyFile(p, "encapsulation")
    for i, case in enumerate(cases):
        file.starting(i)
        file.write(place("ek"), case["ek"])
        file.write(place("m"), case["m"])
        file.call("encaps")
        file.want(place("ct"), case["c"])
        file.want(place("k"), case["k"])
    return file


def three_strips(file):
    for at, kind in STRIP_KINDS.items():
        file.strip(kind, at)


def opened_thrice(file, secret):
    """On a strip of zeros, on one as large as may be, and on a drawn one."""
    for at in STRIP_KINDS:
        file.opened(at=at)
        file.want(SECRET, secret)


def decaps_file(p, cases):
    """All ciphertexts are for one key."""
    file = PublishedKeyFile(p, "decapsulation")
    held(f"{p.name}, keys", 1, len({case["dk"] for case in cases}))
    for i, case in enumerate(cases):
        file.starting(i)
        if i == 0:
            three_strips(file)
            file.write(place("dk"), case["dk"])
            file.import_as(1)
        file.write(place("ct"), case["c"])
        opened_thrice(file, case["k"])
    return file


KEY_FILES = {"keyGen": keygen_file, "encapsulation": encaps_file, "decapsulation": decaps_file}


def key_files(folder):
    for p in SETS:
        for function in EACH:
            yield KEY_FILES[function](p, published(folder, p, function))


def fields(p, records):
    """What a case gives and wants, by the field of the published file: the place says which it is."""
    found = {record.operands[0][0]: record.body for record in records if record.kind in (f.WRITE, f.WANT)}
    at = {place(name): field for name, field in FIELDS.items()}
    case = {at[start]: data for start, data in found.items() if start in at}
    return {**case, "ek": case.get("ek") or p.ek(case["dk"])} if "dk" in case else case


def stored(p, function, read_cases):
    """NIST's cases as the case files have them; the key of the decapsulations stands in the first alone."""
    cases = [fields(p, records) for _, records in read_cases(key_file_name(p, function))]
    kept = {name: value for name, value in cases[0].items() if name in ONCE[function]}
    return [{name: (case | kept)[name] for name in ONCE[function] + EACH[function]} for case in cases]


def names():
    hashes = [hash_file_name(name, part) for name in HASHES for part in parts_of(name)]
    return hashes + [key_file_name(p, function) for p in SETS for function in EACH]
