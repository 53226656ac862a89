"""Runs a built program by workers again and again, and tells which runs didn't end well: stress.py PROGRAM [ROUNDS [BESIDE [SECONDS]]].

What no proof says of a lock, that who waits for it is woken, is tried by it: a wake that is lost leaves a run that never ends. Each
round runs PROGRAM with `run --workers N` for 2, 4, 8 and 16 workers, over scripts with as many sessions, which end at about the same
time: few commands, so that the last turns of the lock are met often, or many. Half of the sessions write one node, so that they
clash and wait for one another. BESIDE programs run at a time (left out: twice as many as there are processors, so that threads are
held up in odd places); a run that takes longer than SECONDS (60) is ended. It prints a line for each number of workers, and ends
with status 1 where a run was ended so, answered another status than 0 or didn't answer each command. As:

    python3 bench/stress.py crates/repo_run/out/repo_run 200
"""
import concurrent.futures
import json
import os
import subprocess
import sys
import time


def session(number, turns):
    """A session that sets and saves a property so many times, of the node that all share or of its own."""
    node = "/shared" if number % 2 else "/s%d" % number
    calls = [["add", node], ["save"]]
    for i in range(turns):
        calls += [["refresh", True], ["set", node, "p", i], ["save"], ["get", node + "/p"]]
    return {"cluster": 1 + number % 4, "commands": calls}


def script(sessions, turns):
    """The text of a script of so many sessions, and how many commands it has."""
    made = {"clusters": 4, "sessions": [session(number, turns) for number in range(sessions)]}
    return json.dumps(made, separators=(",", ":")).encode(), sum(len(it["commands"]) for it in made["sessions"])


def tried(program, workers, turns, seconds):
    """Why a run didn't end well, or nothing; and how long it took."""
    text, commands = script(workers, turns)
    began = time.time()
    try:
        ran = subprocess.run([program, "run", "--workers", str(workers)], input=text, stdout=subprocess.PIPE, timeout=seconds)
    except subprocess.TimeoutExpired:
        return "hangs", time.time() - began
    lines = ran.stdout.count(b"\n")
    fault = "status %d" % ran.returncode if ran.returncode else "" if lines == commands else "%d of %d replies" % (lines, commands)
    return fault, time.time() - began


def main():
    program = os.path.abspath(sys.argv[1])
    rounds, beside, seconds = (int(word) for word in (sys.argv[2:] + ["100", str(2 * os.cpu_count()), "60"][len(sys.argv) - 2 :])[:3])
    bad = 0
    with concurrent.futures.ThreadPoolExecutor(beside) as pool:
        for workers in (2, 4, 8, 16):
            turns = [(1, 4, 16, 64)[at % 4] for at in range(rounds)]
            ends = list(pool.map(lambda it: tried(program, workers, it, seconds), turns))
            faults = [why for why, _ in ends if why]
            told = "".join("; %d: %s" % (faults.count(why), why) for why in sorted(set(faults)))
            print("%d workers: %d runs, the longest %.1f s%s" % (workers, rounds, max(took for _, took in ends), told), flush=True)
            bad += len(faults)
    sys.exit(1 if bad else 0)


main()
