"""Loads commands as modules whose file names can't be imported."""
import importlib.machinery
import importlib.util
import os
import shutil
import sys


def load(name, path):
    loader = importlib.machinery.SourceFileLoader(name, path)
    module = importlib.util.module_from_spec(importlib.util.spec_from_loader(name, loader))
    loader.exec_module(module)
    return module


def load_rt():
    """Returns the command rt as a module, which has the crates and the arguments of a check."""
    return load('rt', os.path.realpath(shutil.which('rt') or sys.exit('install the toolchain, rt')))
