"""All case files in their order, and how they are written to crates/test_cases, with args, the names of all, and stdout, what the program has to
print."""
import os, sys
from models.parameters import ALL_SETS, KYBER_SETS, ML_KEM_768
from published import ROOT
from . import format as f
from .hashes import hashes, masked_hashes
from .known_answers import known_answers
from .lengths import RANK_SETS, lengths, no_such_rank
from .nist import names as nist_names
from .places import places
from .refreshing import refreshing
from .refusals import refusals
from .sampling import sampling
from .secrets import secrets
from .thousand import thousand
from .traces import traces
from .turns import turns

CRATE = os.path.join(ROOT, "crates", "test_cases")
DATA = os.path.join(CRATE, "data")
SUBJECTS = {
    "lengths": lengths, "refusals": refusals, "places": places, "turns": turns, "secrets": secrets, "traces": traces, "refreshing": refreshing,
}


def of_sets(subject, writer, sets):
    return {f"{p.name.lower()}-{subject}": (writer, p) for p in sets}


def by_models():
    """Each file's writer and what it takes."""
    files = {"hashes": (hashes,), "masked-hashes": (masked_hashes,), "sampling": (sampling,)}
    for p in ALL_SETS:
        for subject, writer in SUBJECTS.items():
            files |= of_sets(subject, writer, [p])
    files |= of_sets("thousand", thousand, (ML_KEM_768, KYBER_SETS[0]))
    files |= {"ml-kem-no-such-rank": (no_such_rank, RANK_SETS[0]), "kyber-no-such-rank": (no_such_rank, RANK_SETS[1])}
    return files | of_sets("known-answers", known_answers, KYBER_SETS)


def names():
    return [*by_models(), *nist_names()]


# ---- files
def path(name):
    return os.path.join(DATA, name)


def read_cases(name):
    """As pairs of a name and its records."""
    with open(path(name), "rb") as file:
        return f.decoded_file(file.read())


def write_file(file):
    data = f.encoded_file(file.cases)
    assert f.decoded_file(data) == file.cases
    os.makedirs(DATA, exist_ok=True)
    with open(path(file.name), "wb") as out:
        out.write(data)


def write_named(name):
    writer, *taken = by_models()[name]
    file = writer(*taken)
    assert file.name == name
    write_file(file)
    return name, len(file.cases)


def count(name):
    with open(path(name), "rb") as file:
        return int.from_bytes(file.read(4), "little")


def write_lists():
    """args and stdout; all files have to be there, and no others."""
    there = set(os.listdir(DATA))
    missing, unknown = set(names()) - there, there - set(names())
    if missing or unknown:
        sys.exit(f"crates/test_cases/data: {len(missing)} files are missing, {len(unknown)} unknown: {' '.join(sorted(missing | unknown))}")
    with open(os.path.join(CRATE, "args"), "w") as out:
        out.writelines(f"{name}\n" for name in names())
    with open(os.path.join(CRATE, "stdout"), "w") as out:
        out.writelines(f"{name}: {count(name)} of {count(name)}\n" for name in names())
