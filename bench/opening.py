"""Prints a row for all_rows over documents that are read and opened: opening.py NODES SHAPE WHAT.

SHAPE is `flat`, all nodes below the root, or `nested`, ten children each. WHAT is `read`, the documents are read alone, since nine cluster
nodes aren't opened; `rules`, the last node breaks the last rule, so that all six are asked; or `open`, a repository is opened, and its
documents printed. The difference between two of them is the time of what the second does more. As:

    python3 bench/opening.py 10000 nested open > rows && time crates/all_rows/out/all_rows < rows
"""
import json
import sys

nodes, shape, what = int(sys.argv[1]), sys.argv[2], sys.argv[3]


def path_of(number):
    """The path of a node: nested ones stand below the node of a tenth of their number."""
    if shape == "flat":
        return f"/n{number:06}"
    above = (number - 1) // 10
    return (path_of(above) if number > 10 else "") + f"/n{number:06}"


def document(number, path):
    return {
        "_commitRoot": {"r1-0-1": 0},
        "_deleted": {"r1-0-1": False},
        "_id": f"{path.count('/')}:{path}",
        "_modCount": number + 10,
        "p:jcr:primaryType": {"r1-0-1": {"name": "nt:unstructured"}},
        "p:p": {"r1-0-1": number},
    }


def own(id, number, type):
    return {"_deleted": {"r0-0-1": False}, "_id": id, "_modCount": number, "p:jcr:primaryType": {"r0-0-1": {"name": type}}}


made = [document(number, path_of(number)) for number in range(1, nodes + 1)]
made += [own("1:/jcr:system", 2, "rep:system"), own("2:/jcr:system/jcr:versionStorage", 3, "rep:versionStorage")]
# (paths with as many names stand name by name, by their bytes)
made.sort(key=lambda it: (it["_id"].count("/"), it["_id"].split(":", 1)[1].split("/")))
if what == "rules":
    last = next(it for it in reversed(made) if "p:p" in it)
    last["p:jcr:mixinTypes"] = {"r1-0-1": "x"}
root = own("0:/", 7, "nt:unstructured")
root |= {"_lastRev": "r0-0-1", "_sweepRev": "r0-0-1", "_revisions": {"r1-0-1": "c"}, "_touched": {"r1-0-1": True}}
settings = {"_id": "settings", "_modCount": 4, "_sessions": 1, "checkpoints": {}, "readers": {}}
row = {"clusters": 9 if what == "read" else 1, "documents": [root, *made, settings], "sessions": 1}
print("=== open")
print(json.dumps(row, separators=(",", ":")))
