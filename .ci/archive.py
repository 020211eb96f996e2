#!/usr/bin/env python3
"""Builds the archive of a crate of exports over the libraries that `rt ci` has left in crates/*/out.

usage: .ci/archive.py NAME OUT

`rt lib` in crates/NAME makes the same archive, but counts only libraries that `rt check` and `rt lib` built: after `rt ci` it would
prove every crate below once more. So the compiler is called by itself, which proves NAME alone; where that fails, as it does if the
libraries there are of more than one run, `rt lib` does it all.
"""
import os
import shutil
import subprocess
import sys


def listed():
    """What each crate of crates.txt uses."""
    uses = {}
    for line in open("crates.txt", encoding="utf-8"):
        head, _, deps = line.split("#")[0].partition(":")
        if head.strip():
            uses[head.split()[0]] = deps.split()
    return uses


def below(uses, name):
    """The crates of this repository that NAME stands on."""
    found, left = set(), [name]
    while left:
        for dep in uses[left.pop()]:
            if dep in uses and dep not in found:
                found.add(dep)
                left.append(dep)
    return sorted(found)


def by_the_compiler(name, out):
    uses = listed()
    kit = os.path.dirname(os.path.dirname(os.path.realpath(shutil.which("rt"))))
    built = lambda crate: os.path.abspath(f"crates/{crate}/out/rlib")
    words = ["--crate-name", name, "src/lib.rt", "--crate-type", "staticlib", "--backend", "llvm", "--jobs", "2", "-o", out]
    for dep in ["std", *uses[name]]:
        words += ["--extern", f"{dep}={built(dep) if dep in uses else f'{kit}/rlibs'}/{dep}.rlib"]
    for folder in [f"{kit}/rlibs", *map(built, below(uses, name))]:
        words += ["-L", f"dependency={folder}"]
    words += ["--antt-project", f"{kit}/rattle/logic/antt-project.json", "--logic-built", f"{kit}/logic_built", "--toolchain", f"{kit}/toolchain"]
    try:
        return subprocess.run([f"{kit}/bin/rattle", "build", *words], cwd=f"crates/{name}", stdin=subprocess.DEVNULL).returncode == 0
    except OSError:  # the toolchain has it elsewhere
        return False


def by_rt(name, out):
    if subprocess.run(["rt", "lib"], cwd=f"crates/{name}", stdin=subprocess.DEVNULL).returncode:
        return False
    shutil.copyfile(f"crates/{name}/out/lib{name}.a", out)
    return True


name, out = sys.argv[1], os.path.abspath(sys.argv[2])
sys.exit(0 if by_the_compiler(name, out) or by_rt(name, out) else 1)
