#!/usr/bin/env python3
"""Times `opt` with the standard rules on made programs, and the parts of it that find the facts.

The programs are made by a linear congruential generator: N procedures of forty statements and a `main` that calls
each, for 0 to 255; then one procedure of 256, 512 and 1,024 statements, and one of 1,024 statements and 16
variables; with more than 38 a procedure has too many facts. For each program `opt` runs: seconds, and how many facts
it finds. For the smaller ones `rh_bench facts` then solves the sparse system and all bits, by 1, 2 and 4 workers:
milliseconds and turns. It is no part of the gate.
"""
import os
import pathlib
import re
import subprocess
import sys
import tempfile
import time

HERE = pathlib.Path(__file__).resolve().parent.parent
RHODIUM = HERE / "bin/rhodium"
RULES = HERE / "examples/standard.rules"
BENCH = HERE / "crates/rh_bench"
CALL = re.compile(r"(?:sparse|ground), solve(?:_hinted)?$")
TIME = re.compile(r"  (\d+) us: (.*)")
RUN = re.compile(r"  (\d+) us, (\d+) turns, workers: (\d+)")


class Draws:
    """The numbers of the generator."""

    def __init__(self, seed):
        self.state = seed

    def draw(self, limit):
        self.state = (self.state * 6364136223846793005 + 1442695040888963407) % 2**64
        return (self.state >> 33) % limit


def statement(draws, number, last, procedures, variables):
    """The statement with this number of a procedure whose last has the number `last`."""
    kind = draws.draw(10)
    variable = lambda: f"v{draws.draw(variables)}"
    target = lambda: number + 1 + draws.draw(last - number)
    x = variable()
    if kind == 0:
        return f"{x} := {draws.draw(8)}"
    if kind == 1:
        return f"{x} := {variable()}"
    if kind in (2, 3):
        y, z = variable(), variable()
        return f"{x} := {y} {'+<'[kind - 2]} {z}"
    if kind == 4:
        return f"{x} := &{variable()}"
    if kind == 5:
        return f"{x} := *{variable()}"
    if kind == 6:
        return f"*{x} := {variable()}"
    if kind == 7:
        return f"{x} := new"
    if kind == 8:
        yes, no = target(), target()
        return f"if {x} goto {yes} else {no}"
    callee = 1 + draws.draw(procedures)
    return f"{x} := p{callee}({variable()})"


def program(procedures, statements=40, variables=8):
    """So many procedures of so many statements over so many variables, and `main`."""
    draws = Draws(procedures)
    head = f"(v0) var {', '.join(f'v{k}' for k in range(1, variables))} {{"
    lines = []
    for procedure in range(1, procedures + 1):
        lines.append(f"p{procedure}{head}")
        last = statements - 1
        lines += [f"  {statement(draws, n, last, procedures, variables)};" for n in range(last)]
        lines += ["  return v1;", "}"]
    lines.append(f"main{head}")
    lines += [f"  v1 := p{k}(v0);" for k in range(1, procedures + 1)]
    lines += ["  return v1;", "}"]
    return "\n".join(lines) + "\n"


def time_opt(title, path, workers):
    """Runs `opt` once, and prints how long it took."""
    start = time.perf_counter()
    run = subprocess.run([RHODIUM, "opt", f"--workers={workers}", RULES, path], capture_output=True)
    seconds = time.perf_counter() - start
    if run.returncode:
        sys.exit(run.stderr.decode())
    facts = run.stdout.count(b"\n# fact ")
    print(f"{title:36} {workers} workers {seconds:8.3f} s {facts:8} facts", flush=True)


def tell(what, micros, more=""):
    print(f"    {what:36} {int(micros) / 1000:12.1f} ms {more}".rstrip(), flush=True)


def time_parts(path):
    """Runs the parts of `opt` that find the facts, and prints times and turns as they come."""
    words = ["rt", "run", "--", "facts", RULES, path]
    run = subprocess.Popen(words, cwd=BENCH, stdout=subprocess.PIPE, stderr=subprocess.PIPE, text=True)
    errors, call = [], ""
    for line in run.stderr:
        errors.append(line)
        if CALL.match(line):
            call = line.strip()
        elif found := TIME.match(line):
            tell(found[2], found[1])
        elif found := RUN.match(line):
            tell(f"{call}, {found[3]} workers", found[1], f"{found[2]:>6} turns")
    output = run.stdout.read()
    if run.wait():
        sys.exit("".join(errors))
    if "the same words: false" in output:
        sys.exit(output)
    print(f"    {output.partition(chr(10))[0]}", flush=True)


def main():
    print(f"{os.cpu_count()} processors, load average {os.getloadavg()[0]:.1f}\n")
    programs = [(f"{n} procedures", program(n), n <= 50) for n in (0, 11, 50, 100, 255)]
    programs += [(f"a procedure of {n} statements", program(1, n), n == 1024) for n in (256, 512, 1024)]
    programs += [("1024 statements, 16 variables", program(1, 1024, 16), False)]
    subprocess.run([RHODIUM], capture_output=True)
    with tempfile.TemporaryDirectory() as folder:
        path = pathlib.Path(folder) / "program"
        for title, text, is_small in programs:
            path.write_text(text)
            for workers in (1, 2, 4):
                time_opt(title, path, workers)
            if is_small:
                time_parts(path)


main()
