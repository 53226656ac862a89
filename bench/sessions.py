"""Prints a script of two sessions over a tree of 20 nodes: one sets, gets and saves, the other reads beside it: sessions.py COMMANDS EVERY.

The first session adds the nodes and saves; then COMMANDS commands come: each EVERY-th is a save, else sets and gets in turn. The
second one has half as many commands, each EVERY-th a refresh and else gets. The schedule lets them go on by turns."""
import json
import sys

commands = int(sys.argv[1])
every = int(sys.argv[2])
nodes = 20
writer = [["add", "/n%d" % i] for i in range(nodes)] + [["save"]]
reader = []
schedule = [[0, "say", len(writer)]]
for i in range(commands):
    node = i % nodes
    if i % every == every - 1:
        writer.append(["save"])
    elif i % 2 == 0:
        writer.append(["set", "/n%d" % node, "p", i])
    else:
        writer.append(["get", "/n%d/p" % (node - 1)])
for i in range(commands // 2):
    reader.append(["refresh", False] if i % every == every - 1 else ["get", "/n%d/p" % (i % nodes)])
for i in range(commands // 10):
    schedule += [[0, "say", 10], [1, "say", 5]]
script = {"sessions": [{"commands": writer}, {"commands": reader}], "schedule": schedule}
sys.stdout.write(json.dumps(script, separators=(",", ":")))
