"""Runs the tests of seat_lock with many more turns, in a copy: turns.py [TIMES [ROUNDS [SECONDS [SOURCES]]]].

The tests of the crate add 100 to 500 times for each worker, which a wake that is lost gets through. Here each number of them is TIMES
(200) as great. ROUNDS (3) tries run beside each other, each built by `rt try --test`, which proves nothing; one that takes longer than
SECONDS (60) once it is built is ended, and told. It ends with status 1 where a try didn't pass. SOURCES is the crate's folder, if
it isn't crates/seat_lock, as one with a bug to look for. As:

    python3 bench/turns.py
"""
import concurrent.futures
import os
import re
import shutil
import subprocess
import sys
import tempfile

TOP = os.path.dirname(os.path.dirname(os.path.abspath(__file__)))
LINE = "seat_lock may_wait=1 tests_may=Threads+Wait: atomic_table\n"


def copied(top, sources, times):
    """A repository of the crate alone, whose tests add so many times as often."""
    crate = f"{top}/crates/seat_lock"
    shutil.copytree(f"{sources}/src", f"{crate}/src")
    shutil.copytree(f"{sources}/specs", f"{crate}/specs")
    shutil.copy(f"{TOP}/HANDLES", top)
    with open(f"{top}/crates.txt", "w", encoding="utf-8") as it:
        it.write(LINE)
    with open(f"{crate}/src/tests.rt", encoding="utf-8") as it:
        text = it.read()
    at = text.index("fn two_workers_add_up")
    with open(f"{crate}/src/tests.rt", "w", encoding="utf-8") as it:
        it.write(text[:at] + re.sub(r"\b(\d{3,4})(u64)?\b", lambda n: str(int(n[1]) * times) + (n[2] or ""), text[at:]))
    return crate


def tried(sources, times, seconds):
    """What `rt try` said of the tests, and whether they passed."""
    with tempfile.TemporaryDirectory(prefix="turns-") as top:
        words = ["rt", "try", "--test", "--seconds", str(seconds)]
        ran = subprocess.run(words, cwd=copied(top, sources, times), stdin=subprocess.DEVNULL, capture_output=True, text=True)
        said = (ran.stdout + ran.stderr).strip().splitlines()
        return ran.returncode == 0, said[-1] if said else "nothing"


def main():
    times, rounds, seconds = (int(word) for word in (sys.argv[1:4] + ["200", "3", "60"][len(sys.argv[1:4]) :]))
    sources = os.path.abspath(sys.argv[4]) if len(sys.argv) > 4 else f"{TOP}/crates/seat_lock"
    with concurrent.futures.ThreadPoolExecutor(rounds) as pool:
        ends = list(pool.map(lambda _: tried(sources, times, seconds), range(rounds)))
    for passed, said in ends:
        print(("passed: " if passed else "NOT PASSED: ") + said)
    sys.exit(0 if all(passed for passed, _ in ends) else 1)


main()
