"""NIST's ACVP values for ML-KEM, case by case, from the published files; and what the tools on published values share."""
import gzip, json, os, sys

ROOT = os.path.dirname(os.path.dirname(os.path.abspath(__file__)))
MODES = {"keyGen": "keyGen", "encapsulation": "encapDecap", "decapsulation": "encapDecap"}  # the published file that has a function's cases
ONCE = {"keyGen": (), "encapsulation": (), "decapsulation": ("dk",)}  # the fields that are the same in all cases of a function and set
EACH = {"keyGen": ("d", "z", "ek", "dk"), "encapsulation": ("ek", "m", "c", "k"), "decapsulation": ("c", "k")}


def read(*path):
    path = os.path.join(*path)
    if os.path.exists(path):
        return open(path, "rb").read()
    return gzip.open(path + ".gz").read()


def held(name, want, has):
    if want != has:
        sys.exit(f"{name}: {has} where {want} should be")


def length(p, field):
    return {"ek": p.ek_bytes, "dk": p.dk_bytes, "c": p.ct_bytes}.get(field, 32)


# ---- as published
def tests(folder, mode):
    """Each test with its group's fields, what it asks and what NIST answers. A group of a function that isn't known here is told, not left out."""
    prompt, expected = (
        json.loads(read(folder, "ml-kem-acvp", f"ML-KEM-{mode}-FIPS203", name))["testGroups"]
        for name in ("prompt.json", "expectedResults.json")
    )
    held(mode, [group["tgId"] for group in prompt], [group["tgId"] for group in expected])
    for asked, answered in zip(prompt, expected):
        held(mode, [test["tcId"] for test in asked["tests"]], [test["tcId"] for test in answered["tests"]])
        if asked.get("function", mode) not in MODES:
            sys.exit(f"{mode}: there is no check for the function {asked['function']}")
        for test, answer in zip(asked["tests"], answered["tests"]):
            yield {"function": mode, **asked, **test, **answer}


def published(folder, p, function):
    """A function's cases for a set, each with its fields by name."""
    cases = []
    for test in tests(folder, MODES[function]):
        if (test["parameterSet"], test["function"]) == (p.name, function):
            case = {name: bytes.fromhex(test[name]) for name in ONCE[function] + EACH[function]}
            held(function, {name: length(p, name) for name in case}, {name: len(value) for name, value in case.items()})
            cases.append(case)
    return cases
