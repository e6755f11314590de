"""Times of a program on inputs of growing size, for the programs beside this file."""
import argparse
import os
import subprocess
import sys
import tempfile
import time

HERE = os.path.dirname(os.path.realpath(__file__))


def seconds(program, file, runs):
    """Returns the least time of these runs on the file, in seconds."""
    least = float("inf")
    for _ in range(runs):
        with open(file, "rb") as given:
            begun = time.perf_counter()
            ran = subprocess.run([program], stdin=given, stdout=subprocess.PIPE, stderr=subprocess.PIPE)
            least = min(least, time.perf_counter() - begun)
        if ran.returncode:
            sys.exit(f"{file}: status {ran.returncode}: {ran.stdout[:200]!r} {ran.stderr[:200]!r}")
    return least


def series(name, make, program, sizes, runs):
    """Prints the times of a program on the text that `make` gives for each size, the time by size, and how it grew."""
    print(f"{name:>10}  {'seconds':>10}  {'microseconds each':>18}  {'growth':>7}")
    before = None
    with tempfile.TemporaryDirectory(prefix="bench-") as room:
        for size in sizes:
            file = f"{room}/{name}{size}"
            with open(file, "w", encoding="utf-8") as it:
                it.write(make(size))
            took = seconds(program, file, runs)
            growth = f"{took / before:.1f}" if before else "-"
            print(f"{size:>10}  {took:>10.4f}  {1e6 * took / size:>18.2f}  {growth:>7}", flush=True)
            before = took


def given(about, crate, most):
    """Returns the program that the command line names, or else that of this crate, the sizes, and how often each is run."""
    words = argparse.ArgumentParser(description=about, formatter_class=argparse.RawDescriptionHelpFormatter)
    words.add_argument("program", nargs="?", default=f"{HERE}/../crates/{crate}/out/{crate}")
    words.add_argument("--most", type=int, default=most)
    words.add_argument("--runs", type=int, default=3)
    said = words.parse_args()
    program = os.path.abspath(said.program)
    if not os.access(program, os.X_OK):
        sys.exit(f"there is no program {program}: build it by `rt run` in its crate, or name it")
    return program, [it for it in (10, 100, 1_000, 10_000, 100_000) if it <= said.most], said.runs
