"""Prints rows for all_rows over a tree of NODES nodes, of which every tenth refers to the node before it: references.py NODES QUESTION.

QUESTION is `dangling` (the identifiers are all there, so the whole tree is looked at), `referrers` (of one identifier), or
`identifier 0 1`, which looks at no node: the difference to it is the time of the question alone. As:

    python3 bench/references.py 100000 dangling > rows && time crates/all_rows/out/all_rows < rows
"""
import json
import sys

nodes = int(sys.argv[1])
question = " ".join(sys.argv[2:])


def identifier(number):
    return "00000000-0000-4000-8000-000000%06x" % number


tree = {}
for number in range(nodes):
    properties = {"jcr:primaryType": {"name": "nt:unstructured"}}
    if number % 10 == 0:
        properties["jcr:uuid"] = identifier(number)
    if number % 10 == 1:
        properties["refers"] = {"reference": identifier(number - 1)}
    if number % 100 == 0:
        tree["/f%d" % (number // 100)] = {}
    tree["/f%d/n%d" % (number // 100, number)] = properties
if question == "referrers":
    question += " " + identifier(0)
print("=== content")
print(question + " | " + json.dumps(tree, separators=(",", ":")))
