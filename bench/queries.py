"""Prints rows for all_rows over a tree of NODES nodes in folders of 100, and one join of two selectors: queries.py NODES JOIN WAY.

JOIN is `equal` (a property of one node is that of another, for each node one), `child` or `descendant`, or `none`, whose
selector finds nothing: the difference to it is the time of the join alone. WAY is `count` (the definition's program, `rows`) or
`fast` (`rows_fast`). As:

    python3 bench/queries.py 10000 equal fast > rows && time crates/all_rows/out/all_rows < rows
"""
import sys

nodes = int(sys.argv[1])
join = sys.argv[2]
way = sys.argv[3]
conditions = {
    "equal": "n.next = m.number",
    "child": "ISCHILDNODE(m, n)",
    "descendant": "ISDESCENDANTNODE(m, n)",
}

lines = ["=== base", "== queries", "node /"]
for number in range(nodes):
    if number % 100 == 0:
        lines.append("node /f%d" % (number // 100))
    path = "/f%d/n%d" % (number // 100, number)
    lines.append("node " + path)
    lines.append("put %s number %d" % (path, number))
    lines.append("put %s next %d" % (path, (number * 7 + 1) % nodes))
if join == "none":
    lines.append(way + " SELECT * FROM [nt:none] AS n")
else:
    lines.append(way + " SELECT n.*, m.* FROM [nt:unstructured] AS n JOIN [nt:unstructured] AS m ON " + conditions[join])
print("\n".join(lines))
