"""Prints a row for all_rows over a text of type definitions of so many MiB: types_text.py MIB WHAT.

WHAT is `definitions` (types with a supertype, a comment, two properties with a default and a constraint, and a child, each read,
registered, printed and read again) or `comment` (one comment from `/*` to `*/`). As:

    python3 bench/types_text.py 4 definitions > rows && time crates/all_rows/out/all_rows < rows > /dev/null
    python3 bench/types_text.py 16 comment > rows && time crates/all_rows/out/all_rows < rows > /dev/null
"""
import json
import sys

mib = int(sys.argv[1])
size = mib * 1024 * 1024
if sys.argv[2] == "comment":
    text = "/*" + "x" * (size - 4) + "*/"
else:
    parts = []
    length = 0
    number = 0
    while length < size:
        part = (
            "[ex:t%d] > mix:title orderable // one of many\n"
            "- ex:number (LONG) = '5', '7' mandatory multiple < '[1,9]'\n"
            "- 'a text' (string) = 'it\\'s' IGNORE\n"
            "+ * (nt:base) = nt:unstructured VERSION\n" % number
        )
        parts.append(part)
        length += len(part)
        number += 1
    text = "".join(parts)
print("=== content")
print("definitions | " + json.dumps(text))
