"""The parts of the kit's command `rt` that tools of this repository use: its classes for crates and for what it kept."""

import importlib.machinery
import importlib.util
import os
import sys

sys.dont_write_bytecode = True


def load(root):
    """`rt` as a module, with the crates of the repository at `root`, lowest first. The working directory becomes `root`."""
    path = "/opt/rattle/bin/rt"
    loader = importlib.machinery.SourceFileLoader("rt_command", path)
    spec = importlib.util.spec_from_loader("rt_command", loader)
    rt = importlib.util.module_from_spec(spec)
    sys.modules["rt_command"] = rt
    loader.exec_module(rt)
    os.chdir(root)
    rt.rtlib.Crate = rt.Crate
    rt.Crate.allowed = rt.handles_of(root)
    return rt, rt.crates_of(root)
