"""Prints a script for workers: workers.py SESSIONS COMMANDS WHAT.

The sessions are spread over four cluster nodes. Each adds ten nodes below one of its own, and saves them; then COMMANDS commands come.
WHAT is `read` (gets and lists of these nodes, by turns) or `save` (sets of their properties, each with a save behind it), so that no
two sessions clash. As:

    python3 bench/workers.py 8 2000 read > script && time crates/repo_run/out/repo_run run --workers 4 < script > /dev/null
    python3 bench/workers.py 8 2000 read > script && time crates/repo_run/out/repo_run steps < script > /dev/null
"""
import json
import sys

sessions = int(sys.argv[1])
commands = int(sys.argv[2])
what = sys.argv[3]
nodes = 10


def session(number):
    top = "/s%d" % number
    calls = [["add", top]] + [["add", "%s/n%d" % (top, i)] for i in range(nodes)] + [["save"]]
    for i in range(commands // 2):
        node = "%s/n%d" % (top, i % nodes)
        if what == "read":
            calls += [["get", node + "/p"], ["list", top]]
        else:
            calls += [["set", node, "p", i], ["save"]]
    return {"cluster": 1 + number % 4, "commands": calls}


script = {"clusters": 4, "sessions": [session(number) for number in range(sessions)]}
sys.stdout.write(json.dumps(script, separators=(",", ":")))
