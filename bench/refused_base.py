"""Runs a built program with its Nth allocation refused, for many N, and looks whether a command that is refused 16 leaves
base and view as they were: before and behind each command of its scripts stand `head` and commands that show the view.

    python3 bench/refused_base.py crates/repo_run/out/repo_run [STEP [NAME]]

Every STEP-th allocation is refused in turn, each if STEP is left out; of the script of that name alone, if one is
given. A small library in front of the C library (gcc builds it, LD_PRELOAD loads it) counts the calls of malloc and
realloc. For each script it prints how many runs it made, how many ended with status 5 and had written nothing, how
many with status 0, how many replies `no 16 []` came in these, and how many of them left another base or view. One of a
`detach` may have moved the base, between its two steps: these are counted apart.
"""
import json
import os
import subprocess
import sys
import tempfile

SHIM = r"""
#define _GNU_SOURCE
#include <dlfcn.h>
#include <stdio.h>
#include <stdlib.h>
#include <errno.h>
static long count, number = -1;
static int refuses(void) {
    if (number < 0) { char *n = getenv("REFUSED"); number = n ? atol(n) : 0; }
    if (++count == number) { errno = ENOMEM; return 1; }
    return 0;
}
typedef void *(*allocates)(size_t);
typedef void *(*moves)(void *, size_t);
typedef void (*ends)(int);
void *malloc(size_t n) {
    static allocates real;
    if (!real) real = (allocates)dlsym(RTLD_NEXT, "malloc");
    return refuses() ? 0 : real(n);
}
void *realloc(void *p, size_t n) {
    static moves real;
    if (!real) real = (moves)dlsym(RTLD_NEXT, "realloc");
    return refuses() ? 0 : real(p, n);
}
void _exit(int status) {
    char *at = getenv("COUNTED");
    long whole = count;
    FILE *f = at ? fopen(at, "w") : 0;
    if (f) { fprintf(f, "%ld", whole); fclose(f); }
    ((ends)dlsym(RTLD_NEXT, "_exit"))(status);
    for (;;) {}
}
"""

# what shows the base and the view of a session
LOOKS = [["head"], ["list", "/"], ["props", "/a"], ["list", "/a"], ["props", "/a/b"]]


def looked(commands):
    """The commands, with looks before the first and behind each."""
    return [*LOOKS, *(it for command in commands for it in [command, *LOOKS])]


def by_turns(counts):
    """A schedule by which two sessions say so many replies in turn, a command and its looks at a time."""
    return [[s, "say", n] for s, n in counts]


def scripts():
    """Names and scripts: refreshes beside another's commits, saves that clash, locks and versions, background work,
    attaching to a checkpoint and observing."""
    n = 1 + len(LOOKS)
    one = [["add", "/a"], ["set", "/a", "p", 1], ["save"], ["add", "/a/b"], ["set", "/a", "p", 2], ["save"], ["refresh", False]]
    two = [["refresh", False], ["set", "/a", "q", 3], ["refresh", True], ["set", "/a", "p", 4], ["save"], ["refresh", True], ["save"], ["refresh", False]]
    turns = by_turns([(0, len(LOOKS)), (1, len(LOOKS)), (0, 3 * n), (1, 2 * n), (0, 3 * n), (1, 6 * n), (0, n)])
    yield "refreshes", {"sessions": [{"commands": looked(one)}, {"commands": looked(two)}], "schedule": turns}
    yield "saves that meet", {
        "sessions": [{"commands": looked(one)}, {"commands": looked(two)}],
        "schedule": [[0, "say", len(LOOKS) + 5 * n], [1, "say", len(LOOKS) + 2 * n], [0, "write", 1], [1, "say", 2 * n], [0, "say", n], [1, "say", 4 * n]],
    }
    content = [
        ["add", "/a"], ["mixin", "/a", "mix:versionable"], ["mixin", "/a", "mix:lockable"], ["save"], ["lock", "/a", False], ["checkin", "/a"],
        ["checkout", "/a"], ["add", "/a/b"], ["set", "/a", "p", "x"], ["save"], ["checkin", "/a"], ["restore", "/a", "v1"], ["label", "/a", "v2", "last", False],
        ["unlabel", "/a", "last"], ["unlock", "/a"], ["query", "SELECT [p] FROM [nt:base] AS n", {}], ["refresh", True],
    ]
    yield "locks and versions", {"sessions": [{"commands": looked(content)}]}
    here = [["add", "/a"], ["save"], ["backWrite"], ["checkpoint"], ["add", "/a/b"], ["save"], ["backWrite"], ["backRead"], ["refresh", False], ["release", "c"]]
    there = [["backRead"], ["refresh", False], ["set", "/a", "p", 1], ["save"], ["backRead"], ["refresh", True], ["save"], ["backWrite"],
             ["release", "00000000-0000-4000-8000-000000000001"]]
    yield "two cluster nodes", {
        "clusters": 2,
        "sessions": [{"cluster": 1, "commands": looked(here)}, {"cluster": 2, "commands": looked(there)}],
        "schedule": by_turns([(0, len(LOOKS)), (1, len(LOOKS)), (0, 4 * n), (1, 4 * n), (0, 3 * n), (1, 5 * n), (0, 3 * n)]),
    }


    kept = "00000000-0000-4000-8000-000000000001"
    held = [["add", "/a"], ["save"], ["checkpoint"], ["observe", "/", True, 127], ["set", "/a", "p", 1], ["save"], ["events"], ["set", "/a", "q", 2],
            ["attach", kept], ["attach", "c"], ["detach"], ["detach"], ["save"], ["attach", "c"], ["observe", "/a", False, 16], ["events"]]
    yield "attaching and observing", {"sessions": [{"commands": looked(held)}]}


def run(program, words, script, number, shim, counted):
    """The status and the replies by session, with that allocation refused (0: none)."""
    env = {**os.environ, "LD_PRELOAD": shim, "REFUSED": str(number), "COUNTED": counted}
    made = subprocess.run([program, *words], input=script, capture_output=True, env=env, check=False)
    replies = {}
    for line in made.stdout.decode().splitlines():
        session, _, rest = line.partition(" ")
        replies.setdefault(session, []).append(rest.partition(" ")[2])
    return made.returncode, made.stdout, replies


def main():
    program, step = sys.argv[1], int(sys.argv[2]) if len(sys.argv) > 2 else 1
    with tempfile.TemporaryDirectory() as room:
        shim, counted = f"{room}/refuse.so", f"{room}/count"
        with open(f"{room}/refuse.c", "w", encoding="utf-8") as it:
            it.write(SHIM)
        subprocess.run(["gcc", "-O2", "-shared", "-fPIC", "-o", shim, f"{room}/refuse.c", "-ldl"], check=True)
        for name, script in scripts():
            if sys.argv[3:] and name != sys.argv[3]:
                continue
            text = json.dumps(script).encode()
            status, _, _ = run(program, ["steps"], text, 0, shim, counted)
            with open(counted, encoding="utf-8") as it:
                whole = int(it.read())
            seen = {"runs": 0, "status 5": 0, "status 0": 0, "no 16": 0, "moved": 0, "half detached": 0, "other": 0}
            if status:
                sys.exit(f"{name}: the script ends with status {status}")
            for number in range(1, whole + 1, step):
                status, out, replies = run(program, ["steps"], text, number, shim, counted)
                seen["runs"] += 1
                seen["status 5"] += status == 5 and not out
                seen["status 0"] += status == 0
                seen["other"] += not (status == 0 or status == 5 and not out)
                for session, said in replies.items() if status == 0 else ():
                    n = 1 + len(LOOKS)
                    asked = script["sessions"][int(session)]["commands"]
                    for at in range(len(LOOKS), len(said), n):
                        if said[at] == "no 16 []":
                            seen["no 16"] += 1
                            if said[at - len(LOOKS) : at] == said[at + 1 : at + n]:
                                continue
                            if asked[at] == ["detach"]:
                                seen["half detached"] += 1
                            else:
                                seen["moved"] += 1
                                print(f"{name}: allocation {number}: command {at} left {said[at + 1:at + n]}, where it had been {said[at - len(LOOKS):at]}")
            print(f"{name}: {whole} allocations; " + ", ".join(f"{what} {n}" for what, n in seen.items()), flush=True)


if __name__ == "__main__":
    main()
