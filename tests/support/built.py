"""What the gate built: programs, and the library for C, as a static and as a shared one, and callers of it.

BUILT names a repository whose crates/NAME/out is taken in place of this one's, as `package/unproved --programs` leaves
one without proofs."""
import atexit
import functools
import os
import shutil
import sys
import tempfile
from pathlib import Path

from .tools import Failed, compiler, run

TOP = Path(__file__).resolve().parent.parent.parent
BUILT = Path(os.environ.get("BUILT", TOP)).resolve()
sys.dont_write_bytecode = True
if str(TOP / "python") not in sys.path:
    sys.path.insert(0, str(TOP / "python"))


def made(crate, name):
    """A file that the gate left for a crate."""
    path = BUILT / "crates" / crate / "out" / name
    if not path.is_file():
        raise Failed(f"{path} is not there: `rt ci` builds it")
    return path


def program(name):
    """The program that a crate is."""
    return made(name, name)


def archive():
    """The static library."""
    return made("der_c", "libder_c.a")


@functools.lru_cache(maxsize=None)
def heap():
    """The kit's heap over malloc, realloc and free, beside the page that `rt doc` names."""
    page = run("rt", "doc").decode().split()[0]
    return Path(page).parent / "c/liblibc_c.a"


@functools.lru_cache(maxsize=None)
def room():
    """A folder for what tests share, which goes at the end."""
    folder = tempfile.mkdtemp()
    atexit.register(shutil.rmtree, folder, ignore_errors=True)
    return Path(folder)


@functools.lru_cache(maxsize=None)
def shared():
    """The shared library, with all that the static one has, over the kit's heap."""
    path = room() / "libder.so"
    run(compiler(), "-shared", "-Wl,--whole-archive", archive(), "-Wl,--no-whole-archive", heap(), "-o", path)
    return path


@functools.lru_cache(maxsize=None)
def library():
    """The module der over the shared library."""
    from vuyhanip import der

    return der.Library(str(shared()))


def use_shared():
    """Has the package vuyhanip take the shared library, here and in programs that this process starts."""
    os.environ["VUYHANIP_LIBRARY"] = str(shared())


@functools.lru_cache(maxsize=None)
def in_c(source, *words, by=None):
    """A program in C over the static library."""
    by = by or compiler()
    path = room() / f"{Path(source).stem}.{Path(by).name}"
    flags = ["-std=c11", "-O2", "-Wall", "-Wextra", "-Werror", f"-I{TOP / 'c'}"]
    run(by, *flags, source, archive(), heap(), *words, "-o", path)
    return path


@functools.lru_cache(maxsize=None)
def in_rust(source, edition="2024", *words):
    """A program in Rust over the static library."""
    folder, path = room(), room() / f"{Path(source).stem}.rustc"
    shutil.copy(archive(), folder / "libder_c.a")
    shutil.copy(heap(), folder / "liblibc_c.a")
    run("rustc", f"--edition={edition}", "-O", "-L", folder, *words, "-lstatic=der_c", "-lstatic=libc_c", source, "-o", path)
    return path


@functools.lru_cache(maxsize=None)
def rust_example(name):
    """An example of the crate for Rust."""
    folder = room()
    source = TOP / "rust/src/lib.rs"
    run("rustc", "--edition=2021", "-O", "--crate-name=vuyhanip", "--crate-type=rlib", source, "--out-dir", folder)
    return in_rust(TOP / f"rust/examples/{name}.rs", "2021", f"--extern=vuyhanip={folder / 'libvuyhanip.rlib'}")
