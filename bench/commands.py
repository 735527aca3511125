#!/usr/bin/env python3
"""Times the commands on files that it makes, and prints a Markdown table.

    python3 bench/commands.py

Each row is the median of three runs with the shortest and the longest, how many bytes the command printed, and the
load of the machine before the first run. It is no part of the gate.
"""
import itertools
import os
import pathlib
import statistics
import subprocess
import tempfile
import time

TOP = pathlib.Path(__file__).resolve().parent.parent
RHODIUM = TOP / "bin/rhodium"
STANDARD = TOP / "examples/standard.rules"
RUNS = 3

TEXT_LIMIT = 1 << 20
LOG_LIMIT = 16 << 20

LOOP = "main(a) var y {\n  y := y + 1;\n  goto 0;\n}\n"
CELLS = "main(a) var p {\n  p := new;\n  goto 0;\n}\n"


def sums(count):
    """So many rules with a short proof each: a sum is turned round."""
    return "".join(
        f"rule r{n}(var X, var A) {{ X := A + {n} => transform X := {n} + A }}\n" for n in range(count)
    )


def splits(count, names="ABCDE"):
    """So many rules with a long proof each: it goes over all ways in which the variables can be equal.

    The premises hold of all values. They only name a test for each two variables, and for each variable but the first
    with 0 and with 1. What is to be proved depends on the last test, and the prover settles the others before it.
    """
    tests = [f"({x} == {n})" for x in names[1:] for n in (0, 1)]
    tests += [f"({x} == {y})" for x, y in itertools.combinations(names, 2)]
    params = ", ".join(f"var {name}" for name in names)
    args = ", ".join(names)
    atoms = [f"number({test})" for test in tests[:-1]]
    meanings = [" and ".join(atoms[at : at + 4]) for at in range(0, len(atoms), 4)]
    meanings.append(f"{names[0]} == {tests[-1]}")
    facts = "".join(f"fact f{n}({params}) means {meaning};\n" for n, meaning in enumerate(meanings))
    premises = ", ".join(f"f{n}({args}) @ in" for n in range(len(meanings)))
    rules = (f"rule r{n}({params}) {{ skip when {premises} => square({names[0]}) @ out }}\n" for n in range(count))
    return facts + "fact square(var A) means A == (A * A);\n" + "".join(rules)


def program(procedures=250):
    """A program in canonical text, and comments up to the longest text that is read."""
    head, tail, line = "(a) var b, c {\n", "  return b;\n}\n", "  b := c + 1234;\n"
    main = "main(a) {\n  return a;\n}\n"
    room = (TEXT_LIMIT - len(main)) // procedures - len("p000" + head + tail)
    body = line * (room // len(line))
    return padded("".join(f"p{n}{head}{body}{tail}" for n in range(procedures)) + main, TEXT_LIMIT)


def padded(text, limit):
    """The text, and lines of comment up to so many bytes."""
    line = "#" + 62 * "-" + "\n"
    lines, rest = divmod(limit - len(text), len(line))
    return text + lines * line + ("#" + (rest - 2) * "-" + "\n" if rest > 1 else "")


def log_of(rules):
    """What `prove` prints for a rule file: the rule lines are comments of a log."""
    run = subprocess.run([RHODIUM, "prove", rules], capture_output=True, text=True)
    return run.stdout if len(run.stdout) <= LOG_LIMIT else ""


def timed(title, *words):
    """Runs a command, and prints a row."""
    load = os.getloadavg()[0]
    seconds = []
    for _ in range(RUNS):
        start = time.perf_counter()
        run = subprocess.run([RHODIUM, *words], capture_output=True)
        seconds.append(time.perf_counter() - start)
        if run.returncode:
            print(f"| {title} | {run.stderr.decode().strip()} | | {load:.1f} |", flush=True)
            return
    middle, low, high = statistics.median(seconds), min(seconds), max(seconds)
    print(f"| {title} | {middle:.3f} ({low:.3f} to {high:.3f}) | {len(run.stdout)} | {load:.1f} |", flush=True)


def time_rules(folder):
    """`check`, `prove` and `audit`."""
    timed("check, the standard rules", "check", STANDARD)
    for name, text in (("sums", sums(256)), ("splits", splits(256))):
        rules, log = folder / f"{name}.rules", folder / f"{name}.log"
        rules.write_text(text)
        timed(f"check, 256 {name}", "check", rules)
        timed(f"prove, 256 {name}", "prove", rules)
        proofs = log_of(rules)
        log.write_text(proofs)
        timed(f"audit, 256 {name}, {len(proofs)} bytes of log", "audit", rules, log)
        log.write_text(padded(proofs, LOG_LIMIT))
        timed(f"audit, the same with comments up to {LOG_LIMIT} bytes", "audit", rules, log)


def time_programs(folder):
    """`run`, and `opt` without rules."""
    for name, text in (("a loop", LOOP), ("a loop with a new cell in each round", CELLS)):
        path = folder / "loop.il"
        path.write_text(text)
        timed(f"run, 1000000 steps of {name}", "run", path, "0")
    rules, path = folder / "no.rules", folder / "long.il"
    rules.write_text("")
    path.write_text(program())
    timed(f"opt, no rules and a program of {path.stat().st_size} bytes", "opt", rules, path)


def time_generated():
    """`gen`."""
    for procedures in (0, 11, 50, 100, 255):
        for workers in (1, 2, 4):
            timed(f"gen {procedures}, workers: {workers}", "gen", f"--workers={workers}", str(procedures))


def main():
    subprocess.run([RHODIUM], capture_output=True)
    print(f"{os.cpu_count()} processors, load average {os.getloadavg()[0]:.1f}\n")
    print("| command | seconds | bytes printed | load |\n|---|---|---|---|")
    with tempfile.TemporaryDirectory() as folder:
        time_rules(pathlib.Path(folder))
        time_programs(pathlib.Path(folder))
    time_generated()


if __name__ == "__main__":
    main()
