"""A bench's program, proved and built in a folder of its own with the crates that it stands on, and run."""
import os
import shutil
import subprocess
import sys
import tempfile

ROOT = os.path.dirname(os.path.dirname(os.path.abspath(__file__)))
SOURCES = (".rt.txt", ".antt.txt")


def below(listed, names):
    """The lines of crates.txt for these crates and all that they stand on."""
    needs = {line.split(":")[0]: line for line in listed}
    wanted = []

    def take(name):
        if name in needs and name not in wanted:
            for other in needs[name].split(":")[1].split():
                take(other)
            wanted.append(name)

    for name in names:
        take(name)
    return wanted, [needs[name] for name in wanted]


def repository(folder, here, name, names):
    """The crates below and the program, in a repository of their own."""
    with open(os.path.join(ROOT, "crates.txt"), encoding="utf-8") as file:
        listed = [line for line in file.read().splitlines() if ":" in line and not line.startswith("#")]
    crates, lines = below(listed, names)
    with open(os.path.join(folder, "crates.txt"), "w", encoding="utf-8") as file:
        file.write("\n".join(lines + ["%s: %s" % (name, " ".join(names))]) + "\n")
    for crate in crates:
        shutil.copytree(os.path.join(ROOT, "crates", crate), os.path.join(folder, "crates", crate), symlinks=True)
    program = os.path.join(folder, "crates", name)
    for place, _, files in os.walk(here):
        for file in files:
            if file.endswith(SOURCES):
                inside = os.path.relpath(os.path.join(place, file), here)
                to = os.path.join(program, inside[: -len(".txt")] if inside.endswith(".antt.txt") else os.path.join("src", inside[: -len(".txt")]))
                os.makedirs(os.path.dirname(to), exist_ok=True)
                shutil.copyfile(os.path.join(place, file), to)
    return program


def outputs(here, name, names, repeats):
    """What so many runs of the program print, a list of lines each."""
    with tempfile.TemporaryDirectory() as folder:
        crate = repository(folder, here, name, names)
        built = subprocess.run([os.environ.get("RT", "rt"), "run"], cwd=crate, stdout=subprocess.PIPE, stderr=subprocess.STDOUT)
        program = os.path.join(crate, "out", name)
        if not os.path.isfile(program):
            sys.exit("the program was not built:\n" + built.stdout.decode()[-4000:])
        for _ in range(repeats):
            done = subprocess.run([program], stdout=subprocess.PIPE, check=True)
            yield done.stdout.decode().splitlines()
