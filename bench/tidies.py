"""Runs random scripts with splits and collections, and has each journal and each reply judged: tidies.py ALL_ROWS [SCRIPTS [SEED [BESIDE]]].

Each script has one to three cluster nodes and two to four sessions on them, which write, save, read, split, sweep, collect, make
checkpoints, attach, observe and do background work in a schedule of single turns and longer ones, so that splits and collections stand
between the steps of all others, and of each other. ALL_ROWS, the built program of rows, runs each (300 s at most), asks whether each event
may follow those before it (`past`), and whether the law lets each reply be said where it is (`law`). It prints the seed and the script of
each run of which one isn't so, and then what came of all: so many scripts, events, replies, those that say `no`, how many splits moved
something, were skipped, or moved nothing, how many collections dropped entries, documents, or skipped one. The status is 1 where one
wasn't as it should be. BESIDE run at a time (left out: as many as there are processors). With `print` in the place of ALL_ROWS it prints
the scripts, a line each. As:

    python3 bench/tidies.py crates/all_rows/out/all_rows 300
"""
import collections
import concurrent.futures
import json
import os
import random
import re
import subprocess
import sys

NODES = ("/a", "/a", "/b", "/a/b", "/a/c", "/b/a", "/")
CALLS = {
    "set": 22, "save": 18, "split": 10, "collect": 8, "refresh": 8, "sweep": 5, "backWrite": 6, "backRead": 4, "get": 6, "list": 3,
    "remove": 4, "add": 5, "unset": 2, "tree": 1, "checkpoint": 5, "attach": 4, "detach": 3, "release": 1, "observe": 3, "events": 4,
}


def token(session):
    """The identifier of a session's first checkpoint."""
    return "00000000-0000-4000-8000-%06x%06x" % (session, 1)


def call(draw, sessions):
    """A command."""
    name = draw.choices(list(CALLS), CALLS.values())[0]
    node, prop = draw.choice(NODES), draw.choice("pq")
    below = draw.choice(NODES[1:6])
    fields = {
        "set": [node, prop, draw.randrange(9)],
        "split": [node if draw.random() < 0.9 else draw.choice(("/c", "/a/b/c"))],
        "refresh": [draw.random() < 0.5],
        "get": ["%s/%s" % (node.rstrip("/"), prop)],
        "list": [node],
        "remove": [below],
        "add": [below],
        "unset": [node, prop],
        "tree": [below, {"props": {prop: 1}, "nodes": {"c": {}}}],
        "attach": [token(draw.randrange(sessions))],
        "release": [token(draw.randrange(sessions))],
        "observe": [node, True, 127],
    }
    return [name, *fields.get(name, [])]


def calls(draw, session, sessions):
    """What one session asks for: often a row of saves of one property, so that there is something to move."""
    made = []
    for _ in range(draw.randrange(3, 8)):
        if draw.random() < 0.15:
            node = draw.choice(NODES)
            for i in range(draw.randrange(2, 5)):
                made += [["set", node, "p", i], ["save"]]
            made += draw.sample([["split", node], ["backWrite"], ["sweep"], ["collect"]], draw.randrange(5))
        elif draw.random() < 0.2:
            made += [["backWrite"], ["backRead"], ["sweep"], ["refresh", draw.random() < 0.5], ["collect"]]
        elif draw.random() < 0.08:
            made += [["checkpoint"], ["attach", token(session)], *(call(draw, sessions) for _ in range(3)), ["detach"]]
        else:
            made.append(call(draw, sessions))
    return made


def turns(draw, sessions, first):
    """A schedule behind the first commands of session 0."""
    made = [[0, "say", first]]
    for _ in range(draw.randrange(40, 160)):
        s = draw.randrange(sessions)
        made += draw.choices(
            ([s], [s] * draw.randrange(2, 9), [[s, "say", draw.randrange(1, 4)]], [[s, "read"]], [[s, "draw"]], [[s, "last"]],
             [[s, "write", draw.randrange(1, 3)]]),
            (60, 12, 10, 8, 2, 4, 4),
        )[0]
    return made


def script(seed):
    """The script of a seed."""
    draw = random.Random(seed)
    clusters, sessions = draw.randrange(1, 4), draw.randrange(2, 5)
    first = [["tree", "/a", {"props": {"p": 0, "q": 0}, "nodes": {"b": {"props": {"p": 0}}}}], ["add", "/b"], ["save"]]
    for i in range(draw.randrange(3)):
        first += [["set", "/a", draw.choice("pq"), i + 10], ["save"]]
    first += [["backWrite"]] if draw.random() < 0.7 else []
    made = [{"cluster": 1 + at % clusters, "commands": calls(draw, at, sessions)} for at in range(sessions)]
    made[0]["commands"] = first + made[0]["commands"]
    if draw.random() < 0.5:
        made[-1]["commands"] += [["split", "/a"], ["backWrite"], ["backRead"], ["sweep"], ["refresh", False], ["collect"]]
    told = {"clusters": clusters, "sessions": made, "schedule": turns(draw, sessions, len(first))}
    return json.dumps(told, separators=(",", ":"))


def events_of(text):
    """Of each event of a line of `past`, whether it may follow what is before it."""
    return [it[0] for it in text.split(" ") if it]


def tried(program, seed):
    """What isn't as it should be of a script's run, or nothing; and how often each thing came."""
    text, came = script(seed), collections.Counter(scripts=1)
    rows = "=== repo\nlaw %s\npast %s\n" % (text, text)
    try:
        ran = subprocess.run([program], input=rows.encode(), stdout=subprocess.PIPE, stderr=subprocess.PIPE, timeout=300)
    except subprocess.TimeoutExpired:
        return "takes longer than 300 s", came
    lines = ran.stdout.decode().splitlines()
    if ran.returncode or len(lines) < 3:
        return "status %d: %s" % (ran.returncode, ran.stderr.decode(errors="replace")[-300:]), came
    replies, events = [it for it in lines[1:-1] if it], events_of(lines[-1])
    asked = {(s, i): it for s, of in enumerate(json.loads(text)["sessions"]) for i, it in enumerate(of["commands"])}
    said = {}
    for line in replies:
        s, i, reply = re.fullmatch(r"(\d+) (\d+) (.*)", line).groups()
        said[int(s), int(i)] = reply
    came.update(events=len(events), replies=len(said), refused=sum(it.startswith("no ") for it in said.values()))
    for at, reply in said.items():
        told = json.loads(reply[3:]) if reply.startswith("ok ") else {}
        if asked[at][0] == "split" and told:
            came["splits that moved" if told.get("moved") else "splits skipped" if "skipped" in told else "splits of nothing"] += 1
        if asked[at][0] == "collect" and told:
            came["collections"] += 1
            came.update({"collections with %s" % it: bool(told[it]) for it in ("entries", "documents", "skipped")})
    faults = ["%d %d is unlawful" % it for it in said if said[it] == "unlawful"]
    faults += ["%d of %d replies" % (len(said), len(asked))] if len(said) != len(asked) else []
    faults += ["event %d may not follow" % i for i, it in enumerate(events) if it != "y"]
    return "; ".join(faults), came


def main():
    given = sys.argv[2:5]
    count, first, beside = (int(it) for it in given + ["300", "1", str(os.cpu_count())][len(given) :])
    seeds = range(first, first + count)
    if sys.argv[1] == "print":
        sys.exit(print("\n".join(script(it) for it in seeds)))
    program, all_came, bad = os.path.abspath(sys.argv[1]), collections.Counter(), 0
    with concurrent.futures.ThreadPoolExecutor(beside) as pool:
        for seed, (fault, came) in zip(seeds, pool.map(lambda it: tried(program, it), seeds)):
            all_came.update(came)
            if fault:
                bad += 1
                print("seed %d: %s\n%s" % (seed, fault, script(seed)), flush=True)
    print("; ".join("%s: %d" % it for it in all_came.items()) + "; not as they should be: %d" % bad)
    sys.exit(1 if bad else 0)


main()
