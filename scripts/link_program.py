"""Makes the program of the crate `blossom`, over crates below it that are proved already: by the
kit's compiler and its linker. `rt ci` would compile it a second time, by Rattle's own compiler, and
run both; CI does."""
import os
import subprocess

from compiling import compiled, kit


def programs(folder, below, room):
    """The program of a repository whose crates `rt ci` has just proved, in a list."""
    made = compiled(folder, "blossom", below, ["src/main.rt", "-o", "out/blossom.o"])
    home, program = kit(), os.path.join(room, "blossom")
    words = ["--target", "x86_64-unknown-linux-gnu", "--toolchain", home + "/toolchain"]
    words += ["-o", program, made, home + "/c/libos_c.a", home + "/c/liblibc_c.a"]
    subprocess.run([os.path.join(home, "bin", "rattle-link"), *words], check=True)
    return [program]
