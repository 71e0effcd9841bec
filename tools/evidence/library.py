"""The library for the tools that look at the compiled code: as it is built, and, for controls, with an operand opened."""
import os, pathlib, re, shutil, subprocess, sys

ROOT = pathlib.Path(__file__).resolve().parents[2]
LIBRARY = ROOT / "target/staticlib/libcapi.a"
WARNINGS = ["-O2", "-Wall", "-Wextra", "-no-pie", f"-I{ROOT}/include", f"-I{ROOT}/tools/evidence"]
# what each control opens: the function, and which parameter of the compiler's module is the sharing's first share; the second comes behind it
OPENED = {"open-and": ("worksheet::gates::masked_and", 5), "open-equal-bit": ("masked_comparison::selection::copies", 0)}


def need(header, package):
    """Ends with one line where a header is missing."""
    if subprocess.run(["cc", "-fsyntax-only", "-include", header, "-x", "c", "/dev/null"], capture_output=True).returncode:
        sys.exit(f"{header} is missing: install Debian's package {package}")


def run(*words, **more):
    done = subprocess.run([str(w) for w in words], capture_output=True, text=True, **more)
    if done.returncode:
        sys.exit(f"{' '.join(map(str, words))}\n{done.stdout}{done.stderr}")
    return done.stdout


def build():
    print("proving and building the library, if that isn't done yet", file=sys.stderr, flush=True)
    run("tools/staticlib", "capi", cwd=ROOT)
    return LIBRARY


def compiled(program, sources, library, *words):
    """A program of tools/evidence over the library. The words are the set's definitions and what else the compiler needs."""
    program.parent.mkdir(parents=True, exist_ok=True)
    run("cc", *WARNINGS, "-o", program, *(ROOT / "tools/evidence" / s for s in sources), library, *words)
    return program


# ---- a library with an operand opened
def recording_kit(where):
    """Rattle's kit with a clang that keeps, beside it, the module and the words it is given, and does what the kit's own does. Hands back the kit's own tools."""
    shutil.rmtree(where, ignore_errors=True)
    kit = pathlib.Path(run("rt", "doc").strip()).parent
    tools = kit / "toolchain/bin"
    for folder in (pathlib.Path(), pathlib.Path("toolchain"), pathlib.Path("toolchain/bin")):
        (where / folder).mkdir(parents=True)
        for part in os.listdir(kit / folder):
            if folder / part not in (pathlib.Path("bin"), pathlib.Path("toolchain"), pathlib.Path("toolchain/bin"), pathlib.Path("toolchain/bin/clang")):
                os.symlink(kit / folder / part, where / folder / part)
    # rt takes the kit that its own file lies in
    shutil.copytree(kit / "bin", where / "bin")
    clang = where / "toolchain/bin/clang"
    keep = f'cp module.bc "{where.parent}/module.bc"\nprintf "%s\\n" "$@" >"{where.parent}/words"'
    clang.write_text(f'#!/bin/sh\n{keep}\nexec "{tools}/clang" "$@"\n')
    clang.chmod(0o755)
    return tools


def with_opened_operand(module, function, place):
    """The same module, in which the shares of the function's operand, the parameters at that place and behind it, become their exclusive or and 0 before the
    function runs."""
    head = re.search(rf'^define internal ([^@]*)@"{function}"\(([^)]*)\)([^{{]*){{', module, re.M)
    if not head:
        sys.exit(f"the library's module has no function {function}")
    result = head.group(1).replace("noundef", "").strip()
    parameters = [re.sub(r"%\w+$", f"%p{i}", p) for i, p in enumerate(head.group(2).split(", "))]
    passed = [re.sub(r" noundef", "", p) for p in parameters]
    if passed[place:place + 2] != [f"i64 %p{place}", f"i64 %p{place + 1}"]:
        sys.exit(f"{function} takes no two shares at {place}")
    passed[place:place + 2] = ["i64 %joined", "i64 0"]
    called = f'call {result} @"{function} on shares"({", ".join(passed)})'
    body = [
        f'define internal {result} @"{function}"({", ".join(parameters)}){head.group(3)}{{',
        f"%joined = xor i64 %p{place}, %p{place + 1}",
        *([called, "ret void"] if result == "void" else [f"%answer = {called}", f"ret {result} %answer"]),
        "}",
    ]
    renamed = head.group(0).replace(f'@"{function}"', f'@"{function} on shares"')
    return module[:head.start()] + renamed + module[head.end():] + "\n" + "\n".join(body) + "\n"


def opened(control):
    """The library that a compiler would make which opens this operand: the compiler's module of the proved code, changed after the proof."""
    where = ROOT / "target/opened"
    tools = recording_kit(where / "kit")
    run(where / "kit/bin/rt", "lib", cwd=ROOT / "crates/capi")
    words = (where / "words").read_text().split("\n")[:-1]
    run(tools / "clang", words[0], "-x", "ir", "module.bc", "-S", "-emit-llvm", "-Xclang", "-disable-llvm-passes", "-o", "module.ll", cwd=where)
    (where / "opened.ll").write_text(with_opened_operand((where / "module.ll").read_text(), *OPENED[control]))
    run(tools / "clang", *({"module.bc": "opened.ll", "module.o": "opened.o"}.get(w, w) for w in words), cwd=where)
    run(tools / "llvm-ar", "rcs", f"{control}.a", "opened.o", cwd=where)
    return where / f"{control}.a"
