"""Runs the tests of a file in Python."""

import os
import traceback


def raises(error, call, *arguments, **named):
    """The error that a call raises, which is one of this kind."""
    try:
        result = call(*arguments, **named)
    except error as raised:
        return raised
    raise AssertionError(f"{error} isn't raised, and the result is {result!r}")


def run_tests(names, chosen):
    """Runs the functions of a module that begin with `test_`, or the chosen ones, prints `N passed, M failed`, and returns a status."""
    own = os.path.basename(names["__file__"])
    tests = [name for name in names if name.startswith("test_")]
    passed = sum(_passes(own, name, names[name]) for name in tests if not chosen or name in chosen)
    failed = (len(chosen) or len(tests)) - passed
    print(f"{passed} passed, {failed} failed")
    return int(failed > 0)


def _passes(own, name, test):
    try:
        test()
    except Exception:
        print(f"{own}: FAILED: {name}\n{traceback.format_exc()}")
        return False
    return True
