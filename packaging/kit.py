"""The kit's command rt as a module: it knows the crates of a tree, and the words by which rattle checks and builds one."""

import importlib.machinery
import importlib.util
import os
import shutil
import subprocess
import sys
import threading


def load():
    """The module; its `rtlib` has the crates."""
    if not shutil.which("rt"):
        sys.exit("the command rt of the Rattle kit isn't here")
    page = subprocess.run(["rt", "doc"], check=True, capture_output=True, text=True).stdout.strip()
    loader = importlib.machinery.SourceFileLoader("rt_of_the_kit", f"{os.path.dirname(page)}/bin/rt")
    module = importlib.util.module_from_spec(importlib.util.spec_from_loader(loader.name, loader))
    loader.exec_module(module)
    if hasattr(module.rtlib.Crate, "stamp"):  # not every kit has it
        module.rtlib.Crate.stamp = once_for_each_crate(module.rtlib.Crate.stamp)
    return module


def once_for_each_crate(stamp):
    """The stamp of a crate, for which that of each crate below is made once, and not once for each way that leads to it."""
    made = threading.local()

    def of_crate(crate):
        known = getattr(made, "known", None)
        if known is None:
            made.known = {}
            try:
                return of_crate(crate)
            finally:
                made.known = None
        if crate not in known:
            known[crate] = stamp(crate)
        return known[crate]

    return of_crate


def build_static(crate, flags):
    """Proves and builds a static library, for every processor of x86-64: it can't look first, as a program does, which one it is on."""
    return crate.build_static([*flags, "--cpu", "x86-64"])
