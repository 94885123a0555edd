"""Makes the library for C of the crate `blossom_c`, over crates below it that are proved already:
by the toolchain's compiler, its linker and nothing else."""
import os
import subprocess

from compiling import compiled, kit
from targets import SONAME

SYMBOLS = (
    "blossom_call",
    "blossom_solve_arrays",
    "blossom_check_arrays",
    "blossom_certificate_size",
    "blossom_join_arrays",
    "blossom_abi",
)


def tool(name, *words):
    """Runs a tool of the toolchain's LLVM, by its name: they are one file."""
    subprocess.run(
        [name, *words], executable=os.path.join(kit(), "toolchain", "bin", "clang"), check=True
    )


def link(made, room):
    """Links the archive with the toolchain's calls for memory, and keeps the symbols of the calls
    alone. Answers the paths of the static library and of the shared object."""
    home, symbols, whole = kit(), os.path.join(room, "symbols"), os.path.join(room, "blossom.o")
    shared, static = os.path.join(room, "libblossom.so"), os.path.join(room, "libblossom.a")
    memory = os.path.join(home, "c", "liblibc_c.a")
    with open(symbols, "w", encoding="ascii") as file:
        file.write("{ global: %s; local: *; };\n" % "; ".join(SYMBOLS))
    whole_archive = ["--whole-archive", made, "--no-whole-archive", memory]
    system = os.path.join(home, "toolchain", "lib", "libc.so.6")
    how = "-z defs -z text -z now -z relro -z noexecstack --gc-sections".split()
    how += ["-soname", SONAME, "--version-script=" + symbols]
    tool("ld.lld", "-shared", "-o", shared, *whole_archive, system, *how)
    tool("ld.lld", "-r", "-o", whole, *whole_archive)
    tool("llvm-objcopy", *("--keep-global-symbol=" + name for name in SYMBOLS), whole)
    tool("llvm-ar", "rcsD", static, whole)
    return static, shared


def libraries(folder, below, room):
    """The static library and the shared object of a repository whose crates `rt ci` has just
    proved."""
    words = ["--crate-type", "staticlib", "src/lib.rt", "-o", "out/libblossom_c.a"]
    return link(compiled(folder, "blossom_c", below, words), room)
