"""Proves and builds a program of bench/ over the proved crates: part of sched_bench.py, policy_bench.py and ledger_bench.py."""
import os
import shutil
import subprocess
import sys

HERE = os.path.dirname(os.path.realpath(__file__))
ROOT = os.path.dirname(HERE)
OUT = os.path.join(HERE, "out")


def build(folder, libraries):
    """Proves and builds a folder of bench/ as a crate beside the others, which is taken out again; the program is bench/out/FOLDER. Its files end in .txt,
    since the gate takes a .rt file for one of a crate that crates.txt names."""
    name, program = f"{folder}_bench", os.path.join(OUT, folder)
    listed, crate = os.path.join(ROOT, "crates.txt"), os.path.join(ROOT, "crates", name)
    with open(listed) as file:
        before = file.read()
    if os.path.exists(crate) or name in before:
        sys.exit(f"{crate} or its line in crates.txt is there already; remove both")
    os.makedirs(OUT, exist_ok=True)
    try:
        os.makedirs(os.path.join(crate, "src"))
        for it in os.listdir(os.path.join(HERE, folder)):
            shutil.copy(os.path.join(HERE, folder, it), os.path.join(crate, "src", it[: -len(".txt")] if it.endswith(".txt") else it))
        with open(listed, "a") as file:
            file.write(f"{name}: {libraries}\n")
        # called with no words it ends with status 2, once it is built
        subprocess.run(["rt", "run"], cwd=crate, stdin=subprocess.DEVNULL)
        built = os.path.join(crate, "out", name)
        if not os.path.exists(built):
            sys.exit(f"bench/{folder} is not proved or not built")
        shutil.copy(built, program)
    finally:
        with open(listed, "w") as file:
            file.write(before)
        shutil.rmtree(crate, ignore_errors=True)


def build_plain(name, *words):
    """Compiles bench/NAME.rs into bench/out/NAME, with more words for rustc."""
    os.makedirs(OUT, exist_ok=True)
    words = ["rustc", "--edition", "2021", "-C", "opt-level=3", *words, "-o", os.path.join(OUT, name), os.path.join(HERE, f"{name}.rs")]
    if subprocess.run(words).returncode:
        sys.exit(f"{name}.rs doesn't compile")
