#!/usr/bin/env python3
"""tools/proved.py NAME [FILE.wasm]

Proves the static library NAME and builds crates/NAME/out/libNAME.a, or a module for the browser, over the libraries that `rt ci`
has proved here. `rt lib` builds the same, but takes no library that `rt ci` made, and proves each of them again. So it is called
only where a library isn't there, is older than a source or than a library below it, or doesn't fit those below it. A library or
module that is newer than all that it is made from isn't built again. tools/bench builds its programs in the same way."""
import os
import shutil
import subprocess
import sys
import tempfile

TOP = os.path.dirname(os.path.dirname(os.path.realpath(__file__)))
LINUX, WASM = "x86_64-unknown-linux-gnu", "wasm64-unknown-unknown"
# The memory of a module, in bytes.
MEMORY = "1310720"


class NotBuilt(Exception):
    """What wasn't built, and the end of what the toolchain said."""


def kit():
    """The folder of the toolchain."""
    return os.path.dirname(os.path.dirname(os.path.realpath(shutil.which("rt") or "rt")))


def crates():
    """What each crate depends on, and which crates are static libraries."""
    with open(f"{TOP}/crates.txt") as file:
        lines = [line.split("#")[0].split(":") for line in file]
    lines = [(*head.split(), tail.split()) for head, tail in (it for it in lines if len(it) == 2)]
    return {it[0]: it[-1] for it in lines}, [it[0] for it in lines if "staticlib" in it]


USES, STATIC = crates()


def below(names):
    """These crates of the repository and those that they depend on, the lowest first; names of the toolchain's are left out."""
    found = []
    for name in names:
        if name in USES:
            found += [it for it in [*below(USES[name]), name] if it not in found]
    return found


def library(name):
    return f"{TOP}/crates/{name}/out/rlib/{name}.rlib"


def time_of(path):
    """The time of a file's or folder's last change, or 0 if it isn't there."""
    return os.path.getmtime(path) if os.path.exists(path) else 0


def newest(folder):
    """The time of the last change of a crate's sources."""
    files = [f"{at}/{name}" for part in ("src", "specs", "proofs") for at, _, names in os.walk(f"{folder}/{part}") for name in names]
    return max(map(os.path.getmtime, files))


def are_fresh(names):
    """Whether the libraries of these crates, the lowest first, are newer than their sources and than each other."""
    listed = time_of(f"{TOP}/crates.txt")
    for name in names:
        made = time_of(library(name))
        under = [time_of(library(it)) for it in below(USES[name])]
        if made < max([listed, newest(f"{TOP}/crates/{name}"), *under]):
            return False
    return True


def ran(words, folder):
    """What a command says in the end, if it fails."""
    done = subprocess.run(words, cwd=folder, stdin=subprocess.DEVNULL, stdout=subprocess.PIPE, stderr=subprocess.STDOUT, text=True, errors="replace")
    return done.stdout[-3000:] if done.returncode else None


def compile_over(name, folder, uses, to, more):
    """Proves the crate of this name in this folder, which depends on these, over the libraries as they stand, and compiles it."""
    top = kit()
    words = [f"{top}/bin/rattle", "build", "--crate-name", name, "src/main.rt" if os.path.exists(f"{folder}/src/main.rt") else "src/lib.rt"]
    for it in ["std", *uses]:
        words += ["--extern", f"{it}={library(it) if it in USES else f'{top}/rlibs/{it}.rlib'}"]
    words += ["-L", f"dependency={top}/rlibs"]
    for it in below(uses):
        words += ["-L", f"dependency={os.path.dirname(library(it))}"]
    words += ["--antt-project", f"{top}/rattle/logic/antt-project.json", "--logic-built", f"{top}/logic_built"]
    words += ["--jobs", str(min(2, len(os.sched_getaffinity(0)))), "--links", f"{name}=", *more]
    return ran([*words, "--toolchain", f"{top}/toolchain", "--backend", "llvm", "-o", to], folder)


def build(name, folder, uses, to, more):
    """The same. Where a library below isn't there or doesn't fit, `rt lib` proves it first."""
    if are_fresh(below(uses)) and compile_over(name, folder, uses, to, more) is None:
        return
    for it in uses:
        said = ran(["rt", "lib"], f"{TOP}/crates/{it}") if it in USES else None
        if said is not None:
            raise NotBuilt(f"{it} was not built: {said}")
    said = compile_over(name, folder, uses, to, more)
    if said is not None:
        raise NotBuilt(f"{name} was not built: {said}")


def link(made, to, target=LINUX, more=()):
    said = ran([f"{kit()}/bin/rattle-link", "--target", target, "--toolchain", f"{kit()}/toolchain", *more, "-o", to, *made], TOP)
    if said is not None:
        raise NotBuilt(f"{to} was not linked: {said}")


def program(name, folder, uses):
    """Proves and builds the program in this folder, which depends on these crates, and returns the program."""
    os.makedirs(f"{folder}/out", exist_ok=True)
    made, to = f"{folder}/out/{name}.o", f"{folder}/out/{name}"
    build(name, folder, uses, made, [])
    link([made, f"{kit()}/c/libos_c.a", f"{kit()}/c/liblibc_c.a"], to)
    return to


def static_library(name, module=None):
    """Proves and builds a static library of the repository, or the module from it, unless it is newer than what it is made from."""
    folder = f"{TOP}/crates/{name}"
    to = module or f"{folder}/out/lib{name}.a"
    under = below(USES[name])
    if are_fresh(under) and time_of(to) > max([newest(folder), *(time_of(library(it)) for it in under)]):
        return to
    os.makedirs(f"{folder}/out", exist_ok=True)
    if not module:
        build(name, folder, USES[name], to, ["--crate-type", "staticlib"])
        return to
    with tempfile.TemporaryDirectory() as made:
        build(name, folder, USES[name], f"{made}/lib.a", ["--crate-type", "staticlib", "--target", WASM])
        link([f"{made}/lib.a"], to, WASM, ["--memory", MEMORY])
    return to


def main(words):
    if len(words) not in (1, 2) or words[0] not in STATIC or not shutil.which("rt"):
        sys.exit("tools/proved.py: give the name of a static library in crates.txt, and maybe a file for a module; it needs `rt`")
    try:
        print(static_library(words[0], *map(os.path.abspath, words[1:])))
    except NotBuilt as it:
        sys.exit(f"tools/proved.py: {it}")


if __name__ == "__main__":
    main(sys.argv[1:])
