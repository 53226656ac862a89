"""Prints a script whose old states go: history.py SAVES EVERY [NODES]. One session adds so many nodes (none) and a property,
which it then saves so many times; after every so many of the saves it splits the document, publishes, sweeps, refreshes and collects:
behind a refresh before the sweep the statuses and previous documents would stay.
With EVERY above SAVES nothing is split or collected: what a history costs that only grows. As:

    python3 bench/history.py 4000 100 > long && time crates/repo_run/out/repo_run steps < long
"""
import json
import sys

saves, every = int(sys.argv[1]), int(sys.argv[2])
nodes = int(sys.argv[3]) if len(sys.argv) > 3 else 0
commands = [["tree", "/t", {"nodes": {"n%d" % i: {} for i in range(nodes)}}], ["save"]] if nodes else []
commands += [["add", "/a"], ["set", "/a", "p", 0], ["save"]]
for i in range(1, saves + 1):
    commands += [["set", "/a", "p", i], ["save"]]
    if i % every == 0:
        commands += [["split", "/a"], ["backWrite"], ["sweep"], ["refresh", False], ["collect"]]
sys.stdout.write(json.dumps({"sessions": [{"commands": commands}]}, separators=(",", ":")))
