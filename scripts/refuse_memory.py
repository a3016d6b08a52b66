#!/usr/bin/env python3
"""Refuses each request for memory in turn: the first in one run, the second in the next, until a run meets no refusal.

usage: refuse_memory.py [--built] [CRATE ...]

Of each crate that has it, it runs the test `want_of_memory`, which makes each call again that is refused, and must pass every time.
It runs each program too, on the shipped logs and pools: it must end with the status of want of memory, and what it has written be the
front of the whole output, or do without the memory and write all. The tests are built by `rt test`, and the programs by `rt run`; with
--built they are taken as they are.

The toolchain's `rt try --fail-alloc N` does the same to a test, but builds it anew for each number.
"""

import glob
import os
import re
import subprocess
import sys
import tempfile

ROOT = os.path.dirname(os.path.dirname(os.path.abspath(__file__)))
TEST = "want_of_memory"
EXAMPLE = f"{ROOT}/examples"
# Other calls of the C library by which memory is had.
OTHERS = r"\b(?:calloc|reallocarray|aligned_alloc|posix_memalign|memalign|p?valloc|mmap(?:64)?|mremap|s?brk|strn?dup|getline|getdelim|v?asprintf|f(?:d)?open|open_memstream)\b"
# Each program with its status for want of memory, and what it is run on.
PROGRAMS = {
    "vt_replay": (1, (["seeder.log"], ["hide.log", "--pool", "pool.iop", "--owner", "80"], ["pool.iop", "--report"])),
    "segyolant": (2, (["check", "many-faults.iop"], ["why", "pool.iop", "1000:3"], ["needs", "pool.iop", "--size", "60x25"],
                      ["why", "sprayer.iop", "--format", "json"], ["needs", "sprayer.iop", "--format", "json"],
                      ["diff", "pool.iop", "refusal-03-missing.iop"], ["diff", "pool.iop", "refusal-05-too-deep.iop", "--format", "json"],
                      ["draw", "kinds.iop"], ["report", "pool.iop"],
                      ["draw", "pool.iop", "--state", "hide.log", "--owner", "80"])),
    "segyolant_log": (2, (["pools", "seeder.log"], ["operator", "seeder.log"], ["trace", "seeder.log"], ["compare", "seeder.log"],
                          ["trace", "seeder.log", "--object", "400"], ["compare", "cab.log", "--only", "to=80"],
                          ["stats", "seeder.log", "--format", "json"], ["test", "seeder.log"])),
}


def built_library(folder):
    library = f"{folder}/refuse_memory.so"
    words = ["cc", "-O1", "-shared", "-fPIC", "-o", library, f"{ROOT}/scripts/refuse_memory.c", "-ldl"]
    subprocess.run(words, check=True)
    return library


def run_refused(library, number, words, folder):
    """Runs a program, and tells its status, what it wrote, and whether a request was refused."""
    reading, writing = os.pipe()
    env = {**os.environ, "LD_PRELOAD": library, "REFUSED": str(number), "REFUSED_TO": str(writing)}
    how = {"env": env, "cwd": folder, "pass_fds": [writing], "stdin": subprocess.DEVNULL, "capture_output": True, "timeout": 300}
    ran = subprocess.run(words, **how)
    os.close(writing)
    with os.fdopen(reading, "rb") as it:
        refused = it.read() != b""
    return ran.returncode, ran.stdout, refused


def stop_on_other_requests(program):
    """Ends this run where the program can ask for memory by calls that the library does not refuse."""
    words = ["nm", "--dynamic", "--undefined-only", program]
    names = subprocess.run(words, capture_output=True, text=True, check=True).stdout
    others = re.findall(OTHERS, names)
    if others:
        sys.exit(f"{program} asks for memory by {', '.join(others)} too, which no run would refuse")


def tests_of(program):
    listed = subprocess.run([program, "--list"], capture_output=True, text=True, check=True).stdout
    names = (line.rsplit(": ", 1)[0] for line in listed.splitlines())
    return [name for name in names if name.endswith(f"::{TEST}")]


def sweep_test(library, program, name):
    """Runs a test until no request is refused, and tells at which numbers it failed."""
    failed, number = [], 1
    while True:
        status, _, refused = run_refused(library, number, [program, name], ROOT)
        if status != 0:
            failed.append(number)
        if not refused:
            return number - 1, failed
        number += 1


def sweep_program(library, program, words, status_of_want):
    ran = subprocess.run([program, *words], cwd=EXAMPLE, capture_output=True, stdin=subprocess.DEVNULL)
    whole = ran.stdout
    failed, number = [], 1
    while True:
        status, text, refused = run_refused(library, number, [program, *words], EXAMPLE)
        is_whole = status == ran.returncode and text == whole
        is_ended = refused and status == status_of_want and whole.startswith(text)
        if not (is_whole or is_ended):
            failed.append(number)
        if not refused:
            return number - 1, failed
        number += 1


def tell(what, count, failed):
    """Prints what came of a sweep, and tells whether it is wrong: so it is too where no request was met."""
    print(f"{what}: {count} requests refused, {len(failed)} wrong{f', at {failed}' if failed else ''}", flush=True)
    return bool(failed) or count == 0


def main():
    words = sys.argv[1:]
    is_built = "--built" in words
    with open(f"{ROOT}/crates.txt", encoding="utf-8") as it:
        crates = [line.split()[0].rstrip(":") for line in it if line.strip() and not line.startswith("#")]
    chosen = [word for word in words if word != "--built"] or crates
    is_wrong = False
    with tempfile.TemporaryDirectory() as folder:
        library = built_library(folder)
        for crate in chosen:
            where = f"{ROOT}/crates/{crate}"
            if not glob.glob(f"{where}/src/**/{TEST}.rt", recursive=True):
                if crate in words and crate not in PROGRAMS:
                    print(f"{crate} has no test {TEST}", file=sys.stderr)
                    is_wrong = True
                continue
            program = f"{where}/out/{crate}_tests"
            if not is_built:
                subprocess.run(["rt", "test", "--", TEST], cwd=where, check=True, stdout=subprocess.DEVNULL)
            stop_on_other_requests(program)
            found = tests_of(program)
            if not found:
                print(f"{program} lists no test {TEST}", file=sys.stderr)
                is_wrong = True
            for name in found:
                is_wrong |= tell(f"{crate} {name}", *sweep_test(library, program, name))
        for name in [name for name in PROGRAMS if name in chosen]:
            where, (status, runs) = f"{ROOT}/crates/{name}", PROGRAMS[name]
            if not is_built:
                subprocess.run(["rt", "run", "--", "--version"], cwd=where, check=True, stdout=subprocess.DEVNULL)
            stop_on_other_requests(f"{where}/out/{name}")
            for run in runs:
                is_wrong |= tell(f"{name} {' '.join(run)}", *sweep_program(library, f"{where}/out/{name}", run, status))
    return 1 if is_wrong else 0


if __name__ == "__main__":
    sys.exit(main())
