"""The references of oracle/, for the tests: they are taken from there, since a fact is said once."""
import importlib.machinery
import importlib.util
import os
import subprocess
import sys

TOP = os.path.abspath(os.path.join(os.path.dirname(__file__), "..", "..", ".."))
ORACLE = os.path.join(TOP, "oracle")
ORIGINAL = os.path.join(TOP, "target", "oracle", "oracle")
sys.dont_write_bytecode = True
sys.path.insert(0, ORACLE)


def _script(name):
    """A script of oracle/, as a module."""
    module = name.split(".")[0].replace("-", "_")
    loader = importlib.machinery.SourceFileLoader(module, os.path.join(ORACLE, name))
    made = importlib.util.module_from_spec(importlib.util.spec_from_loader(module, loader))
    loader.exec_module(made)
    return made


sited = _script("sited_reference.py")
fills = _script("fill-cases")
patches = _script("patch-cases")
netpbm = _script("netpbm-reference.py")


def samples(data, stride, sample_bytes, columns, rows):
    return sited.samples(data, stride, sample_bytes, columns, rows)


def linear(layout, data, stride):
    """The floats of a plane by `sited_reference`, a list for each row."""
    cells = samples(data, stride, layout.sample_bytes, layout.cw, layout.ch)
    across = layout.siting_across, layout.num_across
    down = layout.siting_down, layout.num_down
    return sited.chroma(cells, layout.w, layout.h, across, down, layout.rh, layout.rv)


def pixel(kind, y, cb, cr, maxval, range=0):
    """A colour by document 01's formula, or by document 02's in studio range: kind e for the exact kernel,
    f for the fixed one."""
    return fills.by_formula(dict(fills.pixel(kind, y, cb, cr, maxval), range=range))


def original(*requests):
    """What the original answers to requests of oracle/README.md, a line each."""
    done = subprocess.run([ORIGINAL], input="\n".join(requests) + "\n", stdout=subprocess.PIPE, check=True,
                          universal_newlines=True)
    return done.stdout.splitlines()
