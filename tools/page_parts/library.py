#!/usr/bin/env python3
"""library.py NAME TOOLCHAIN FILE: proves and builds the static library NAME of this repository.

The crates below it must be in crates/*/out, where tools/prove keeps them. The compiler in the folder TOOLCHAIN compiles
the library's module. The status is 0 if the library is proved and built.
"""
import os
import subprocess
import sys

TOP = os.path.dirname(os.path.dirname(os.path.dirname(os.path.abspath(__file__))))
sys.path.insert(0, f"{TOP}/tools")
from scripts import load_rt                                                 # noqa: E402

name, toolchain, file = sys.argv[1:]
os.chdir(TOP)
rt = load_rt()
crate = next(it for it in rt.crates_of(TOP) if it.name == name)
words = [rt.rtlib.RATTLE, "build", *crate.words([], keeps=False), "--toolchain", toolchain, "-o", file]
sys.exit(subprocess.run([*rt.rtlib.guarded(), *words], cwd=crate.folder).returncode)
