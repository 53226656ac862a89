"""Prints a script of one cluster node: events.py NODES ROUNDS. Session 0 saves so many nodes; then, in each round, it sets a
property of the first node and saves, and session 1, which observes all of them, refreshes and asks for events. So it shows
what a reading of changes costs beside a repository of any size: each reads every node document once. With a third word, no
round asks for events, so that the difference of the two is what they cost."""
import json
import sys

nodes, rounds = int(sys.argv[1]), int(sys.argv[2])
writes = [["tree", "/a", {"nodes": {"n%d" % i: {} for i in range(nodes)}}], ["save"]]
reads = [["refresh", False], ["observe", "/a", True, 127]]
schedule = [[0, "say", 2], [1, "say", 2]]
for i in range(rounds):
    writes += [["set", "/a/n0", "p", i], ["save"]]
    reads += [["refresh", False]] + ([["events"]] if len(sys.argv) == 3 else [["head"]])
    schedule += [[0, "say", 2], [1, "say", 2]]
script = {"sessions": [{"commands": writes}, {"commands": reads}], "schedule": schedule}
sys.stdout.write(json.dumps(script, separators=(",", ":")))
