"""Tells what of each function takes time in the checks of a run: modules.py watch LOG, beside the run, and then modules.py show LOG.

A check writes each module that it has checked to a folder of its own among the temporary files, which goes with it. `watch` notes
these files each second until it is stopped; `show` prints, for each crate, the seconds from one to the next by part of a function's
proof (`Lts` is the borrow checker's part, `Tie` what ties it to the contract, `Proof` the goals), and the functions that take most,
each in the dearest of its checks.
Checks with several jobs write several files at once, so the figures are those of runs with one job (RT_JOBS=4 rt ci). As:

    python3 bench/modules.py watch modules.log & RT_JOBS=4 rt ci; kill %1; python3 bench/modules.py show modules.log
"""
import collections
import glob
import os
import re
import sys
import time

FOLDERS = "/tmp/rattle-logic-built-locked-*"
PARTS = "Lts|Proof|Tie|Goals|Answers|Invariants|Layout|Kinds|Reads|Code|Given"
MOST = 30


def watch(log):
    seen = set()
    with open(log, "a") as out:
        while True:
            for folder in glob.glob(FOLDERS):
                check = folder.rsplit("-", 2)[1]
                try:
                    new = [name for name in os.listdir(folder) if (check, name) not in seen]
                    lines = ["%s %.3f %s\n" % (check, os.stat(f"{folder}/{name}").st_mtime, name) for name in new]
                except OSError:
                    continue
                seen.update((check, name) for name in new)
                out.writelines(lines)
            out.flush()
            time.sleep(1)


def checks(log):
    """Each check's modules, with the seconds that each took."""
    found = collections.defaultdict(list)
    with open(log) as lines:
        for line in lines:
            check, when, name = line.split()
            found[check].append((float(when), name.removesuffix(".oantt")))
    for modules in found.values():
        modules.sort()
        yield [(name, when - before) for (before, _), (when, name) in zip(modules, modules[1:])]


def show(log):
    parts, functions = collections.defaultdict(collections.Counter), collections.Counter()
    for modules in checks(log):
        once = collections.Counter()
        for name, seconds in modules:
            found = re.match(r"Rattle-(\w+)-proofs\.(.+)\.(%s)\b" % PARTS, name)
            if found:
                crate, function, part = found.groups()
                parts[crate][part] += seconds
                once[crate, function] += seconds
        functions |= once
    for crate, by_part in sorted(parts.items(), key=lambda it: -it[1].total()):
        print("%-16s %6.0f  %s" % (crate, by_part.total(), ", ".join("%s %.0f" % it for it in by_part.most_common(5))))
    for (crate, function), seconds in functions.most_common(MOST):
        print("%6.1f  %s %s" % (seconds, crate, function))


if __name__ == "__main__":
    {"watch": watch, "show": show}[sys.argv[1]](sys.argv[2])
