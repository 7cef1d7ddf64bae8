"""Runs the tests of a script: nothing is said where all pass, and else what failed, with status 1. And what several
tests need: a script as a module, and the proved program as a file.
"""
import io
import os
import sys
import types
import unittest

from proved import Program  # noqa: F401

HERE = os.path.dirname(os.path.abspath(__file__))


def script(name):
    """A script of this folder as a module; it isn't run."""
    with open(f"{HERE}/{name}", encoding="utf-8") as file:
        module = types.ModuleType(name)
        module.__file__ = f"{HERE}/{name}"
        exec(compile(file.read(), module.__file__, "exec"), module.__dict__)
    return module


def main():
    out = io.StringIO()
    tests = unittest.defaultTestLoader.loadTestsFromModule(sys.modules["__main__"])
    if sys.argv[1:]:
        tests = unittest.defaultTestLoader.loadTestsFromNames(sys.argv[1:], sys.modules["__main__"])
    done = unittest.TextTestRunner(stream=out, verbosity=0).run(tests)
    if not done.wasSuccessful() or not done.testsRun:
        print(f"{sys.argv[0]}:\n{out.getvalue()}", file=sys.stderr)
        sys.exit(1)
