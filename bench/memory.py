#!/usr/bin/env python3
"""Refuses memory to commands, one call for memory a run: each run has to end well.

For every number N the command runs once with the Nth call for memory refused. Each run either says `out of memory` with
status 10 and has written nothing, or writes what the command always writes (a thread that cannot be made, for example,
is done without). It ends at the first N that no call reaches. It needs a C compiler, and is no part of the gate.
"""
import os
import pathlib
import subprocess
import sys
import tempfile

HERE = pathlib.Path(__file__).resolve().parent.parent
RHODIUM = os.environ.get("RHODIUM", HERE / "crates/rh_cli/out/rh_cli")
CASES = ("add_zero", "escaped_variable", "prove_sum_with_zero", "audit_output_of_prove")

# Stands before the C library's functions, and tells on standard error when it has refused.
REFUSING = r"""
#define _GNU_SOURCE
#include <dlfcn.h>
#include <stdlib.h>
#include <unistd.h>

static unsigned long calls, refused;

static int is_refused(void) {
    if (!refused) refused = strtoul(getenv("REFUSED_CALL"), 0, 10);
    if (__sync_add_and_fetch(&calls, 1) != refused) return 0;
    if (write(2, "refused\n", 8)) {}
    return 1;
}

void *malloc(size_t size) {
    static void *(*next)(size_t);
    if (!next) next = dlsym(RTLD_NEXT, "malloc");
    return is_refused() ? 0 : next(size);
}

void *realloc(void *old, size_t size) {
    static void *(*next)(void *, size_t);
    if (!next) next = dlsym(RTLD_NEXT, "realloc");
    return is_refused() ? 0 : next(old, size);
}
"""


def run(case, library, number):
    """The status, output and errors of a case whose call for memory with this number is refused."""
    folder = HERE / "tests/cases" / case
    words = (folder / "words").read_text().splitlines()
    refusing = {**os.environ, "LD_PRELOAD": str(library), "REFUSED_CALL": str(number)}
    run = subprocess.run([RHODIUM, *words], cwd=folder, capture_output=True, env=refusing)
    return run.returncode, run.stdout, run.stderr.decode()


def tried(case, library):
    """How many runs ended out of memory, and how many were done all the same."""
    wanted = (HERE / "tests/cases" / case / "stdout").read_bytes()
    refused, done = 0, 0
    for number in range(1, 1_000_000):
        status, output, errors = run(case, library, number)
        if not errors.startswith("refused\n"):
            return refused, done
        if (status, output) == (10, b"") and errors in ("refused\n", "refused\nrhodium: out of memory\n"):
            refused += 1
        elif (status, output, errors) == (0, wanted, "refused\n"):
            done += 1
        else:
            sys.exit(f"{case}, call {number}: status {status}, {output!r}, {errors!r}")


def main():
    with tempfile.TemporaryDirectory() as folder:
        library = pathlib.Path(folder) / "refusing.so"
        compiler = ["cc", "-shared", "-fPIC", "-O1", "-x", "c", "-", "-o", library, "-ldl"]
        subprocess.run(compiler, input=REFUSING, text=True, check=True)
        for case in CASES:
            refused, done = tried(case, library)
            print(f"{case:24} {refused:6} runs out of memory, {done:4} done all the same", flush=True)


if __name__ == "__main__":
    main()
