"""Prints rows for all_rows over the commands of one session that saves nothing: view.py NODES WHAT.

WHAT is `add`, NODES times an `add` and a `set` of the new node; `get`, after these NODES times a `get`; or `none`, no command: the
difference to it is the time of the commands alone. As:

    python3 bench/view.py 10000 get > rows && time crates/all_rows/out/all_rows < rows
"""
import json
import sys

nodes = int(sys.argv[1])
what = sys.argv[2]
commands = []
if what != "none":
    for number in range(nodes):
        commands.append(["add", "/n%d" % number])
        commands.append(["set", "/n%d" % number, "p", number])
if what == "get":
    for number in range(nodes):
        commands.append(["get", "/n%d/p" % number])
print("=== content")
print("view " + json.dumps(commands, separators=(",", ":")) + " | {}")
