"""Test vectors of the server: streams of calls, and the bytes that the server writes for each.

python3 -m tests.vectors            prints a vector a line, NAME INPUT OUTPUT, for `csictl vectors`
python3 -m tests.vectors --names    prints the expected output of `csictl vectors`: ok NAME

This package has no server: it looks up, chooses, counts and checks nothing. Its functions put bytes together
by the Protocol Buffers encoding guide and docs/PROTOCOL.md. The reply to a call is in its row, and was worked
out by hand from docs/PROTOCOL.md and docs/MACHINE.md, with the sample configuration of docs/OPERATING.md:
volumes of 1 MiB by default and 8 MiB at most, the pool p1 of 10 MiB in zone a, the pool p2 of 4 MiB in zone
b, and the nodes n1 and n2, of 2 volumes each.

`words/` and `plain/` have the rows, `families` has vectors that differ by a number, and `corpus` has the
order of all. Other tests also use the calls, replies and fields of `messages`.
"""
