"""The numbers of the parameter sets in include/tifolanzo.h, docs/worksheet.md and examples/decaps.c, held to the
formulas of tools/models/parameters.py."""
import os, re, sys

from models.parameters import ALL_SETS, KYBER_SETS, SETS, Use
from published import ROOT, held

HEADER, WORKSHEET, EXAMPLE = "include/tifolanzo.h", "docs/worksheet.md", "examples/decaps.c"
BOTH, ML_KEM, KYBER = (SETS, KYBER_SETS), (SETS,), (KYBER_SETS,)
# the rows of the header's table, each with the editions that it is for
ROWS = {
    "rank": (BOTH, lambda p: p.k),
    "public key, bytes": (BOTH, lambda p: p.ek_bytes),
    "decapsulation key, bytes": (BOTH, lambda p: p.dk_bytes),
    "ciphertext, bytes": (BOTH, lambda p: p.ct_bytes),
    "s0, s1, mask_coeffs, coefficients": (BOTH, lambda p: p.coefficients),
    "pub, bytes": (BOTH, lambda p: p.public_bytes),
    "strip, coefficients": (BOTH, lambda p: p.strip_coeffs),
    "strip, words, ML-KEM": (ML_KEM, lambda p: p.strip_words),
    "strip, words, Kyber": (KYBER, lambda p: p.strip_words),
    "steps of the worksheet, ML-KEM": (ML_KEM, lambda p: p.steps),
    "steps of the worksheet, Kyber": (KYBER, lambda p: p.steps),
}
# the example's constants that are numbers, which it tells for the other sets too, and those that follow from the rank
CHOSEN = {
    "CT_BYTES": lambda p: p.ct_bytes,
    "STRIP_WORDS": lambda p: p.strip_words,
    "STRIP_COEFFS": lambda p: p.strip_coeffs,
    "STEPS": lambda p: p.steps,
}
FOLLOWING = {
    "RANK": lambda p: p.k,
    "COEFFS": lambda p: p.coefficients,
    "EK_BYTES": lambda p: p.ek_bytes,
    "PUB_BYTES": lambda p: p.public_bytes,
    "DK_BYTES": lambda p: p.dk_bytes,
}


def text_of(path):
    return open(os.path.join(ROOT, path), encoding="utf-8").read()


def found(path, pattern):
    match = re.search(pattern, text_of(path), re.M)
    return match or sys.exit(f"{path}: there is nothing of the form {pattern}")


# ---- the header
def check_header():
    start = found(HEADER, "\n".join(r"^ \* +" + " +".join(p.name for p in sets) + "$" for sets in BOTH))
    table = start.string[start.end():].split("The ranks have names")[0]
    rows = re.findall(r"^ \*   (\S.*?) {2,}(\S+) +(\S+) +(\S+)$", table, re.M)
    held(f"{HEADER}, rows", list(ROWS), [row[0] for row in rows])
    for row, *numbers in rows:
        editions, of = ROWS[row]
        for sets in editions:
            held(f"{HEADER}, {row}", [f"{of(p):,}" for p in sets], numbers)
    ranks = re.findall(r"^#define TIFO_ML_KEM_(\d+) (\d+)$", start.string, re.M)
    held(f"{HEADER}, names of ranks", [(str(p.coefficients), str(p.k)) for p in SETS], ranks)
    ranks = re.findall(r"^#define TIFO_KYBER(\d+) (\d+)$", start.string, re.M)
    held(f"{HEADER}, Kyber's names of ranks", [(str(p.coefficients), str(p.k)) for p in KYBER_SETS], ranks)


# ---- docs/worksheet.md
def masks(use):
    return ", ".join([f"{use.words:,}"] * (use.words > 0) + [f"{use.coeffs:,} c"] * (use.coeffs > 0))


def stage_cells(p, first, last):
    use = sum(p.stages[first - 1:last], Use())
    return [f"{p.starts[first - 1]:,}", f"{use.entries:,}", masks(use)]


def all_cells(p):
    return ["", f"**{p.use.entries:,}**", f"**{masks(p.use)}**"]


def cells(line):
    return [cell.strip() for cell in line.strip("|").split("|")]


def check_row(sets, row, want):
    name, has = row[0], row[1:]
    held(f"{WORKSHEET}, {name}, columns", 3 * len(sets), len(has))
    for i, p in enumerate(sets):
        held(f"{WORKSHEET}, {name}, {p.name} (first step, entries, masks)", want(p), has[3 * i:3 * i + 3])


def check_worksheet_table(sets, parts):
    """parts: what each row begins with, and the stages that it has, from the first to the last."""
    start = found(WORKSHEET, r"^\| stage \|" + "".join(rf" *\| *{p.name} *\| *\|" for p in sets) + "$")
    rows = [cells(line) for line in start.string[start.end():].split("\n\n")[0].strip().split("\n")]
    held(f"{WORKSHEET}, columns", ["first step", "entries", "masks"] * len(sets), rows[1][1:])
    *stages, last = rows[2:]
    held(f"{WORKSHEET}, number of rows", len(parts), len(stages))
    for (name, part), row in zip(parts.items(), stages):
        held(f"{WORKSHEET}, row", name, row[0][:len(name)])
        check_row(sets, row, lambda p: stage_cells(p, *part))
    held(f"{WORKSHEET}, last row", "**all**", last[0])
    check_row(sets, last, all_cells)


# ---- examples/decaps.c
def constants():
    """As the compiler works them out."""
    lines = re.findall(r"^enum \{ (.+) \};$", text_of(EXAMPLE), re.M)
    values = {f"TIFO_ML_KEM_{p.coefficients}": p.k for p in SETS}
    for name, formula in re.findall(r"(\w+) = ([\w +*]+)", ", ".join(lines)):
        try:
            values[name] = eval(formula, {}, values)
        except NameError as unknown:
            sys.exit(f"{EXAMPLE}, {name}: {unknown}")
    return values


def check_example():
    pattern = r"/\* (ML-KEM-\d+)\. For (ML-KEM-\d+) [a-z ]+ ([\d, ]+), and for (ML-KEM-\d+) ([\d, ]+)\.$"
    chosen, second, second_numbers, third, third_numbers = found(EXAMPLE, pattern).groups()
    held(f"{EXAMPLE}, sets", ["ML-KEM-768", "ML-KEM-512", "ML-KEM-1024"], [chosen, second, third])
    by_name, values = {p.name: p for p in ALL_SETS}, constants()
    for name, of in {**CHOSEN, **FOLLOWING}.items():
        held(f"{EXAMPLE}, {name}", of(by_name[chosen]), values.get(name))
    for name, numbers in (second, second_numbers), (third, third_numbers):
        held(f"{EXAMPLE}, {name}", ", ".join(str(of(by_name[name])) for of in CHOSEN.values()), numbers)
    kyber = re.findall(r"(\d+), (\d+) for (Kyber\d+)", text_of(EXAMPLE))
    held(f"{EXAMPLE}, words and steps of round 3", [(str(p.strip_words), str(p.steps), p.name) for p in KYBER_SETS], kyber)


def check_documents():
    check_header()
    check_worksheet_table(SETS, {f"{i} ": (i, i) for i in range(1, 11)})
    check_worksheet_table(KYBER_SETS, {"1 to 8": (1, 8), "selection": (9, 9), "last hash": (10, 10)})
    check_example()
    print(f"{HEADER}, {WORKSHEET}, {EXAMPLE}: the sets' numbers are the formulas'")
