"""The toolchain's command, for the scripts beside this file."""
import importlib.machinery
import importlib.util
import os
import shutil
import sys

TOP = os.path.dirname(os.path.dirname(os.path.realpath(__file__)))


def gate():
    """The toolchain's command, as a module."""
    found = shutil.which("rt")
    if not found:
        sys.exit(f"{os.path.basename(sys.argv[0])}: there is no command rt")
    loader = importlib.machinery.SourceFileLoader("rt_gate", os.path.realpath(found))
    module = importlib.util.module_from_spec(importlib.util.spec_from_loader("rt_gate", loader))
    loader.exec_module(module)
    return module


def are_built(crate, jobs):
    """Builds the libraries below a crate, where they are not, and returns whether all are proved."""
    return not any(dep.build_rlib(jobs, anew=False) for dep in crate.below())
