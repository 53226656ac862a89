"""Prints a row for all_rows: an edit on a tree of NODES nodes, planned: plans.py NODES WHAT CALL [REFERRING].

The tree has a hundred nodes of nt:unstructured with three properties below each node of the root. WHAT is `save` (one property of
one node is put, as a save of one command), `lock` (a node of the root with its hundred children is locked deep), `uuid` (the save
with a `jcr:uuid`, so that references are gone over) or `none` (an edit that has no form, so that only the tree is read): the
difference to it is the time of the plan. CALL is `whole_plan` (`plan_of`), `change_plan` (`plan_of_change`, assured of the types and
of the references) or `plan` (both, behind a look for references that dangle). With REFERRING each tenth of these nodes has an
identifier, and the others a REFERENCE to it. As:

    python3 bench/plans.py 100000 save change_plan > rows && time crates/all_rows/out/all_rows < rows
    python3 bench/plans.py 100000 none change_plan > rows && time crates/all_rows/out/all_rows < rows
"""
import json
import sys


def uuid(number):
    return "00000000-0000-4000-8000-%012d" % number


nodes = int(sys.argv[1])
what = sys.argv[2]
call = sys.argv[3]
referring = len(sys.argv) > 4
edits = {
    "save": [["put", "/f0/n0", "title", "another"]],
    "lock": [["put", "/f0", "jcr:lockIsDeep", True], ["put", "/f0", "jcr:lockOwner", "t"]],
    "uuid": [["put", "/f0/n1", "jcr:uuid", "another"]],
    "none": ["none"],
}
kind = {"jcr:primaryType": {"name": "nt:unstructured"}}
tree = {}
for number in range(nodes - nodes // 100 - 4):
    folder = "/f%d" % (number // 100)
    tree[folder] = kind
    node = {**kind, "title": "a title", "number": number, "tags": ["a", "b"]}
    if referring and number % 10 == 0:
        node["jcr:uuid"] = uuid(number)
    elif referring:
        node["refers"] = {"reference": uuid(number - number % 10)}
    tree["%s/n%d" % (folder, number)] = node
print("=== content")
print("%s [] %s | %s" % (call, json.dumps(edits[what], separators=(",", ":")), json.dumps(tree, separators=(",", ":"))))
