"""Copies of the crates, in which some tests of one crate are changed."""
import os
import re
import shutil

ROOT = os.path.dirname(os.path.dirname(os.path.dirname(os.path.realpath(__file__))))


def copy_crates(copy, crate, more=""):
    """Copies all crates without what was built or proves. This crate stands on more of them there. Returns its sources."""
    leave = shutil.ignore_patterns("out", "proofs", "must-fail")
    shutil.copytree(f"{ROOT}/crates", f"{copy}/crates", ignore=leave)
    with open(f"{ROOT}/crates.txt", encoding="utf-8") as file:
        lines = file.read()
    with open(f"{copy}/crates.txt", "w", encoding="utf-8") as file:
        file.write(re.sub(rf"(?m)^({crate}: .*)$", rf"\1 {more}", lines))
    return f"{copy}/crates/{crate}/src"


def leave_out_others(sources, kept):
    """Removes the modules of tests that are not among these."""
    with open(f"{sources}/lib.rt", encoding="utf-8") as file:
        source = file.read()
    for declared, module in re.findall(r"(#\[cfg\(test\)\]\nmod (\w+);\n)", source):
        if module not in kept:
            source = source.replace(declared, "")
            os.remove(f"{sources}/{module}.rt")
            shutil.rmtree(f"{sources}/{module}", ignore_errors=True)
    with open(f"{sources}/lib.rt", "w", encoding="utf-8") as file:
        file.write(source)
