"""A program's code as `rt try` makes it, before the sanitizer: kept, compiled with other flags, and linked.

The stand-in for the kit has a compiler that keeps what it is to compile with the sanitizer, and ends the try there.
"""
import os
import re
import subprocess
import sys

ROOT = os.path.dirname(os.path.dirname(os.path.abspath(__file__)))
KEEPS = """#!/bin/sh
case "$*" in *-fsanitize=address*) cp module.bc "%s"; exit 1;; esac
exec "%s" "$@"
"""
FLAGS = """--target=x86_64-unknown-linux-gnu -march=x86-64 -mllvm -no-trap-after-noreturn -ffunction-sections -fdata-sections
    -mllvm -trap-unreachable -mllvm -no-x86-call-frame-opt -mllvm -disable-machine-licm -mllvm -disable-postra-machine-licm
    -mllvm -sink-common-insts=false --no-default-config -no-canonical-prefixes -fintegrated-cc1 -fPIE""".split()
LINKED = """-m elf_x86_64 -pie --dynamic-linker /lib64/ld-linux-x86-64.so.2 --as-needed -z relro -z now -z noexecstack
    --eh-frame-hdr --gc-sections --no-dependent-libraries --build-id=sha1 --threads=1""".split()


def kit_folder():
    """Where the kit is."""
    page = subprocess.run(["rt", "doc"], capture_output=True, text=True, check=True).stdout.strip()
    return os.path.dirname(page)


def stand_in(kit, room):
    """A folder that is the kit but for the compiler, and where that leaves what it was given."""
    made, kept = os.path.join(room, "kit"), os.path.join(room, "module.bc")
    os.makedirs(os.path.join(made, "toolchain", "bin"))
    for name in os.listdir(kit):
        if name != "toolchain":
            os.symlink(os.path.join(kit, name), os.path.join(made, name))
    os.symlink(os.path.join(kit, "toolchain", "lib"), os.path.join(made, "toolchain", "lib"))
    for name in os.listdir(os.path.join(kit, "toolchain", "bin")):
        if name != "clang":
            os.symlink(os.path.join(kit, "toolchain", "bin", name), os.path.join(made, "toolchain", "bin", name))
    compiler = os.path.join(made, "toolchain", "bin", "clang")
    with open(compiler, "w", encoding="utf-8") as file:
        file.write(KEEPS % (kept, os.path.join(kit, "toolchain", "bin", "clang")))
    os.chmod(compiler, 0o755)
    return made, kept


def code_of(crate, kit, room):
    """Where the code of a crate's program is; none, after what the try said, where it has none."""
    sys.dont_write_bytecode = True
    sys.path.insert(0, os.path.join(kit, "bin"))
    import rtlib
    rtlib.KIT, kept = stand_in(kit, room)
    os.chdir(os.path.join(ROOT, "crates", crate))
    with open(os.path.join(room, "said"), "wb") as said:
        before = os.dup(2)
        os.dup2(said.fileno(), 2)
        try:
            rtlib.one("try", ["--seconds", "20", "--", "help"])
        finally:
            os.dup2(before, 2)
    if os.path.isfile(kept):
        return kept
    with open(os.path.join(room, "said"), "rb") as said:
        sys.stderr.buffer.write(said.read())
    return None


def without_sanitizer(kit, code, room):
    """The same code, as text, in which no function is to have the sanitizer."""
    text = os.path.join(room, "module.ll")
    clang = os.path.join(kit, "toolchain", "bin", "clang")
    subprocess.run([clang, "-x", "ir", code, "-S", "-emit-llvm", "-Xclang", "-disable-llvm-passes", "-o", text], check=True)
    with open(text, encoding="utf-8") as file:
        lines = re.sub(r"\bsanitize_address\b", "nounwind", file.read())
    with open(text, "w", encoding="utf-8") as file:
        file.write(lines.replace('"target-cpu"="x86-64"', '"target-cpu"="x86-64-v2"'))
    return text


def compiled(kit, code, room, out, flags, *more):
    """Compiles code with flags, and links it with more parts, which go before those of the kit."""
    tools, made = os.path.join(kit, "toolchain"), os.path.join(room, "module.o")
    subprocess.run([os.path.join(tools, "bin", "clang"), *FLAGS, *flags, "--sysroot=" + tools, "-c", "-x", "ir", code, "-o", made], check=True)
    library = lambda *names: [os.path.join(tools, "lib", it) for it in names]
    parts = [*library("Scrt1.o", "crti.o", "crtbeginS.o"), made, *more, os.path.join(kit, "c", "libos_c.a"), os.path.join(kit, "c", "liblibc_c.a")]
    parts += library("libm.so.6", "libc.so.6", "libc_nonshared.a", "ld-linux-x86-64.so.2", "libgcc.a", "libgcc_s.so.1", "crtendS.o", "crtn.o")
    subprocess.run([os.path.join(tools, "bin", "ld.lld"), *LINKED, "-o", out, *parts], check=True)
