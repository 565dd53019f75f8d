"""What the benches share that time the program of crates/bench_steps."""
import os
import subprocess
import sys
import time

TOP = os.path.dirname(os.path.dirname(os.path.realpath(__file__)))
RUNS = 5


def program():
    """The program that the first word names, or the one of this checkout, which is proved and built then."""
    if len(sys.argv) > 1:
        return os.path.realpath(sys.argv[1])
    crate = os.path.join(TOP, "crates", "bench_steps")
    if subprocess.run(["rt", "run", "--", "all"], cwd=crate, stdin=subprocess.DEVNULL).returncode != 0:
        sys.exit("bench: the program could not be built")
    return os.path.join(crate, "out", "bench_steps")


def run(words, printed):
    """Runs the words, which print this number; gives the seconds that passed, and those of processor time."""
    began = time.monotonic()
    child = subprocess.Popen(words, stdin=subprocess.DEVNULL, stdout=subprocess.PIPE)
    output = child.stdout.read()
    _, status, usage = os.wait4(child.pid, 0)
    passed = time.monotonic() - began
    child.returncode = os.waitstatus_to_exitcode(status)
    if child.returncode != 0 or output != f"{printed}\n".encode():
        sys.exit(f"{' '.join(words)}: status {child.returncode}, printed {output!r} in place of {printed}")
    return passed, usage.ru_utime + usage.ru_stime


def each(words, rounds):
    """Nanoseconds of processor time a round: of a run with so many rounds, the last word, less one with none, the best of each."""
    many, none = (min(run([*words, str(count)], count)[1] for _ in range(RUNS)) for count in (rounds, 0))
    return (many - none) / rounds * 1e9
