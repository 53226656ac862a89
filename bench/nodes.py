"""Prints a script of two cluster nodes: nodes.py NODES ROUNDS. Session 0, on the first, saves so many nodes and publishes
them; then, in each round, it sets a property of the first node, saves and publishes, and session 1, on the second, learns
and refreshes. So it shows what a background write and read cost beside a repository of any size."""
import json
import sys

nodes, rounds = int(sys.argv[1]), int(sys.argv[2])
writes = [["tree", "/a", {"nodes": {"n%d" % i: {} for i in range(nodes)}}], ["save"], ["backWrite"]]
reads = []
schedule = [[0, "say", 3]]
for i in range(rounds):
    writes += [["set", "/a/n0", "p", i], ["save"], ["backWrite"]]
    reads += [["backRead"], ["refresh", False]]
    schedule += [[0, "say", 3], [1, "say", 2]]
script = {"clusters": 2, "sessions": [{"cluster": 1, "commands": writes}, {"cluster": 2, "commands": reads}], "schedule": schedule}
sys.stdout.write(json.dumps(script, separators=(",", ":")))
