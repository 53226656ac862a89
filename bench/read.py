"""Prints a script of so many MiB whose last command is broken, so that a run of it reads it and does no more: read.py MIB."""
import json
import sys

mib = int(sys.argv[1])
commands = 4000
text = "x" * (mib * 1024 * 1024 // commands - 40)
script = {"sessions": [{"commands": [["set", "/a", "p%d" % i, text] for i in range(commands)] + [["set", "/a", "p"]]}]}
sys.stdout.write(json.dumps(script, separators=(",", ":")))
