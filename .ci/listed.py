#!/usr/bin/env python3
"""Fails where a folder of crates/ is not in crates.txt, or a crate of crates.txt has no folder."""
import os
import sys

listed = set()
for line in open("crates.txt", encoding="utf-8"):
    head = line.split("#")[0].split(":")[0].split()  # a name, and behind it what kind of crate it is
    if head:
        listed.add(head[0])
found = {d for d in os.listdir("crates") if os.path.isdir(os.path.join("crates", d))}

wrong = [f"crates/{d} is not in crates.txt" for d in sorted(found - listed)]
wrong += [f"crates.txt names {n}, and crates/{n} is missing" for n in sorted(listed - found)]
for w in wrong:
    print(w, file=sys.stderr)
sys.exit(1 if wrong else 0)
