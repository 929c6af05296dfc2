"""Which blocks of a built program its runs reach, by covered.c beside this file. It needs gcc and objdump."""
import os
import re
import struct
import subprocess

HERE = os.path.dirname(os.path.abspath(__file__))


def blocks_of(program):
    """Where blocks begin: a place that is jumped to, and what stands behind a jump or a return, or first in a function."""
    ran = subprocess.run(["objdump", "-d", "--no-show-raw-insn", "-j", ".text", program], capture_output=True, text=True, check=True)
    begun, targets, known, opens = set(), set(), set(), False
    for line in ran.stdout.split("\n"):
        found = re.match(r" +([0-9a-f]+):\t(\S+) *(\S*)", line)
        if not found:
            opens = opens or line.endswith(">:")
            continue
        at, word, target = int(found[1], 16), found[2], found[3]
        known.add(at)
        if opens and not word.startswith("nop") and word not in ("xchg", "data16", "cs"):
            begun.add(at)
            opens = False
        if word.startswith("j") and re.fullmatch("[0-9a-f]+", target):
            targets.add(int(target, 16))
        opens = opens or word.startswith(("j", "ret")) or word in ("ud2", "int3", "hlt")
    return begun | targets & known


class Covered:
    """From now on each program that this process runs tells its blocks."""

    def __init__(self, program, folder):
        library = os.path.join(folder, "covered.so")
        subprocess.run(["gcc", "-O2", "-shared", "-fPIC", "-o", library, os.path.join(HERE, "covered.c")], check=True)
        self.blocks = blocks_of(program)
        self.sought, self.told = os.path.join(folder, "blocks"), os.path.join(folder, "reached")
        with open(self.told, "wb") as file:
            file.write(bytes(1 << 22))
        self.seek(self.blocks)
        os.environ.update(BLOCKS=self.sought, REACHED=self.told, LD_PRELOAD=library)

    def seek(self, places):
        with open(self.sought, "wb") as file:
            file.write(struct.pack("=%dI" % len(places), *sorted(places)))

    def reached(self):
        """The sought places that were reached since the last time."""
        with open(self.told, "r+b") as file:
            (count,) = struct.unpack("=I", file.read(4))
            places = struct.unpack("=%dI" % count, file.read(4 * count))
            file.seek(0)
            file.write(bytes(4))
        return set(places)
