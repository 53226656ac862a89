"""Prints a script of one session that adds nodes below the root, with a save behind each: saves.py NODES."""
import json
import sys

nodes = int(sys.argv[1])
commands = []
for i in range(nodes):
    commands += [["add", "/n%d" % i], ["save"]]
sys.stdout.write(json.dumps({"sessions": [{"commands": commands}]}, separators=(",", ":")))
