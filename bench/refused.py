"""Runs a built program under gdb with its Nth allocation refused: the C library is asked for 2^62 bytes there, which it hasn't.

    N=2000 IN=examples/merge.json gdb -batch -x bench/refused.py --args crates/repo_run/out/repo_run steps

It prints what the program prints, and then its status, and whether it came to that allocation.
"""
import os

import gdb

number = int(os.environ["N"])
gdb.execute("set pagination off")
gdb.execute("set confirm off")
gdb.execute("set $count = 0")
asks = {"rattle_alloc": "$rdi", "rattle_realloc": "$rdx"}
stops = [gdb.Breakpoint("*" + name) for name in asks]
for stop in stops:
    stop.condition = "++$count == %d" % number
words = gdb.execute("show args", to_string=True).split(chr(34))[1]
gdb.execute("run %s < %s" % (words, os.environ["IN"]), to_string=True)
refused = bool(gdb.selected_inferior().pid)
if refused:
    gdb.execute("set %s = 1ul << 62" % asks[gdb.selected_frame().name()])
    for stop in stops:
        stop.delete()
    gdb.execute("continue", to_string=True)
print("status", gdb.parse_and_eval("$_exitcode"), "refused" if refused else "never came to it")
