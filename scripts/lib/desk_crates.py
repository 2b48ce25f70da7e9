"""The tree of the repository, and its crates: what the scripts share that read crates.txt."""
import functools
import os
import re
import sys

ROOT = os.path.dirname(os.path.dirname(os.path.dirname(os.path.realpath(__file__))))


def text_of(path):
    """The text of a file of the tree, or of one elsewhere."""
    with open(os.path.join(ROOT, path), encoding='utf-8') as it:
        return it.read()


def written(path, text):
    """Puts a page that a script makes into its place where the script is given `--write`, else prints it."""
    if sys.argv[1:] == ['--write']:
        with open(os.path.join(ROOT, path), 'w', encoding='utf-8') as it:
            it.write(text)
    else:
        print(text, end='')


def named_crates():
    """What each crate names in crates.txt: crates of the repository, and libraries of the toolchain."""
    rows = re.findall(r'^(\w+)[^:\n]*:(.*)$', text_of('crates.txt'), re.M)
    return {crate: names.split() for crate, names in rows}


def row_of(crate):
    """The row of a crate in crates.txt."""
    return re.search(rf'^{crate}\b.*$', text_of('crates.txt'), re.M)[0]


def is_program(crate):
    return os.path.isfile(f'{ROOT}/crates/{crate}/src/main.rt')


@functools.lru_cache(None)
def named():
    """What each crate stands on: crates of the repository, and libraries of the toolchain."""
    crates = named_crates()
    split = lambda names: ([it for it in names if it in crates], [it for it in names if it not in crates])
    return {crate: split(names) for crate, names in crates.items()}


def with_all_below(crate):
    """A crate, after all that it stands on."""
    found = []
    for below in named()[crate][0]:
        found += [it for it in with_all_below(below) if it not in found]
    return [*found, crate]


def sources(crate):
    """The paths of the sources of a crate's library or program: neither its tests nor wrong bodies."""
    for folder, folders, files in os.walk(f"{ROOT}/crates/{crate}"):
        folders[:] = [it for it in folders if it not in ("out", "tests", "must-fail", "wrong-bodies")]
        yield from (f"{folder}/{it}" for it in files if it.endswith((".rt", ".antt")) and it != "tests.rt")


@functools.lru_cache(None)
def table():
    """Of each crate, by scripts/lib/crate_seconds.txt: the seconds of its proof and of the compiler."""
    rows = re.findall(r"^(\w+) +(\d+) +[-\d]+ +([-\d]+)$", text_of("scripts/lib/crate_seconds.txt"), re.M)
    return {crate: int(proof) + int(compiler.strip("-") or 0) for crate, proof, compiler in rows}


def backend():
    """What compiles the program: Rattle's own compiler, or LLVM where the environment says so."""
    return "llvm" if os.environ.get("RT_BACKEND") == "llvm" else "rattle"


def backends():
    """Those whose program will do: any where the environment names none."""
    return [backend()] if os.environ.get("RT_BACKEND") else ["rattle", "llvm"]


def seconds(crate):
    return table().get(crate, 60)


def minutes(passed):
    return f"{passed / 60:.0f} min" if passed >= 90 else f"{passed:.0f} s"
