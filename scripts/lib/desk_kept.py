"""The libraries of proved crates that scripts/build/first-build keeps in out/libraries, and the programs that it built:
each with a key beside it of all that it was made from."""
import functools
import hashlib
import os
import shutil
import subprocess

from desk_crates import ROOT, backend, backends, named, row_of, sources, text_of

KEPT = f"{ROOT}/out/libraries"


def said_by(*words):
    return subprocess.run(words, stdout=subprocess.PIPE, text=True, check=True).stdout.strip()


@functools.lru_cache(None)
def toolchain():
    return said_by("rt", "version")


def digest(crate):
    """A digest of all that a crate is made from: its sources, the crates below it, and the toolchain."""
    parts = [toolchain(), row_of(crate), *map(key, named()[crate][0])]
    for path in sorted(sources(crate)):
        parts += [os.path.relpath(path, ROOT), text_of(path)]
    return hashlib.sha256("\0".join(parts).encode()).hexdigest()


@functools.lru_cache(None)
def key(crate):
    """The digest of a crate when the build began."""
    return digest(crate)


def read_key(made):
    path = f"{made}.key"
    return text_of(path) if os.path.exists(path) else None


def write_key(made, text):
    with open(f"{made}.key", "w", encoding="utf-8") as it:
        it.write(text)


def remove_key(made):
    if os.path.exists(f"{made}.key"):
        os.remove(f"{made}.key")


def library(crate):
    return f"{KEPT}/{crate}.rlib"


@functools.lru_cache(None)
def was_kept(crate):
    """Whether the library of a crate was kept when the build began, made from what stands there now, and so were those
    below it: the compiler takes no library that was proved over another build of these."""
    return read_key(library(crate)) == key(crate) and all(map(was_kept, named()[crate][0]))


def forget_changed(crates):
    """Takes their keys from the libraries that are to be proved again: some may stand above what this build proves, and
    not be part of it."""
    for crate in crates:
        if not was_kept(crate):
            remove_key(library(crate))


def is_unedited(crate):
    """Whether a crate that is proved, and those below it, are what they were when the build began."""
    return digest(crate) == key(crate) and all(read_key(library(it)) == key(it) for it in named()[crate][0])


def keep(crate, made):
    """Keeps the library of a crate that is proved. Where it was edited meanwhile, nobody knows what was proved, and the
    next build proves it again."""
    remove_key(library(crate))
    shutil.rmtree(library(crate), ignore_errors=True)
    os.rename(made, library(crate))
    if is_unedited(crate):
        write_key(library(crate), key(crate))


def program_key(crate, program, compiler):
    """The key of a program: that of its crate, its compiler, and a digest of its bytes, since others write it too."""
    with open(program, "rb") as it:
        return f"{key(crate)} {compiler} {hashlib.sha256(it.read()).hexdigest()}"


def is_built(crate, program):
    """Whether a program is there, made from what stands there now, by a compiler that will do."""
    if not os.path.exists(program):
        return False
    return read_key(program) in [program_key(crate, program, it) for it in backends()]


def note_program(crate, program, keys):
    """Notes of what a program is made that another command proved and built. These were the keys of all its crates when
    that began; where one was edited meanwhile, nothing is noted."""
    remove_key(program)
    if all(digest(it) == keys[it] for it in keys):
        write_key(program, program_key(crate, program, backend()))


def keep_program(crate, made, program, began):
    """Puts a program that is linked in its place, as old as the begin of the build, for what is edited during the build
    is newer."""
    os.makedirs(os.path.dirname(program), exist_ok=True)
    remove_key(program)
    shutil.copy2(made, f"{program}.new")
    os.utime(f"{program}.new", (began, began))
    os.replace(f"{program}.new", program)
    if is_unedited(crate):
        write_key(program, program_key(crate, program, backend()))
