"""Prints a script of editors on one cluster node that save beside each other: editors.py SAVES EDITORS [EVERY].

Each editor in turn adds a node below one of its own, sets a property of it and saves, SAVES times. With EVERY another
session refreshes and gets one property behind each so many rounds."""
import json
import sys

saves, editors = int(sys.argv[1]), int(sys.argv[2])
every = int(sys.argv[3]) if len(sys.argv) > 3 else 0
first = [["add", "/e%d" % k] for k in range(editors)] + [["save"]]
sessions, schedule = [{"commands": first}], [[0, "say", editors + 1]]
for k in range(editors):
    commands = [["refresh", False]]
    for i in range(saves):
        path = "/e%d/n%d" % (k, i)
        commands += [["add", path], ["set", path, "v", i], ["save"]]
    sessions.append({"commands": commands})
reads = []
for i in range(saves):
    schedule += [[k, "say", 3 if i else 4] for k in range(1, editors + 1)]
    if every and i % every == every - 1:
        reads += [["refresh", False], ["get", "/e0/n%d/v" % i]]
        schedule.append([editors + 1, "say", 2])
if every:
    sessions.append({"commands": reads})
sys.stdout.write(json.dumps({"sessions": sessions, "schedule": schedule}, separators=(",", ":")))
