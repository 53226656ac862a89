"""Prints a row for all_rows over a tree that is checked node by node: types.py NODES WHAT [QUESTION].

WHAT is `plain` (NODES nodes of nt:unstructured with three properties, a hundred below each node of the root) or `files` (NODES
nodes of nt:file, each with its content, a hundred in a folder). No node breaks a rule, so each is looked at and the answer is `ok`.
QUESTION is `locked_by /`, which looks at the root alone: the difference to it is the time of the check. As:

    python3 bench/types.py 100000 plain > rows && time crates/all_rows/out/all_rows < rows
    python3 bench/types.py 100000 plain locked_by / > rows && time crates/all_rows/out/all_rows < rows
"""
import json
import sys

nodes = int(sys.argv[1])
what = sys.argv[2]
question = " ".join(sys.argv[3:]) or "violation []"


def node(kind, **more):
    return {"jcr:primaryType": {"name": kind}, **more}


tree = {"/": node("nt:unstructured")}
for number in range(nodes):
    folder = "/f%d" % (number // 100)
    if number % 100 == 0:
        tree[folder] = node("nt:unstructured" if what == "plain" else "nt:folder")
    path = "%s/n%d" % (folder, number)
    if what == "plain":
        tree[path] = node("nt:unstructured", title="a title", number=number, tags=["a", "b"])
    else:
        tree[path] = node("nt:file")
        tree[path + "/jcr:content"] = node("nt:resource", **{"jcr:data": {"binary": "aGk="}, "jcr:mimeType": "text/plain"})
print("=== content")
print(question + " | " + json.dumps(tree, separators=(",", ":")))
