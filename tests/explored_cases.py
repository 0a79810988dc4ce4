"""Runs the cases of a test that explores small runs: names, functions and their arguments."""

import sys
import time

from blobcrash import Failed


def run_cases(file, tests):
    """Runs each, with `--count` prints what it returns, and returns the exit status. The last line is `N passed, M failed`."""
    passed = failed = 0
    for name, test, arguments in tests:
        began = time.monotonic()
        try:
            shown = test(*arguments)
            passed += 1
        except (AssertionError, Failed) as error:
            failed += 1
            shown = f"FAILED: {error}"
        if "--count" in sys.argv or shown.startswith("FAILED"):
            print(f"{file}: {name}: {shown}, {time.monotonic() - began:.1f} s")
    print(f"{passed} passed, {failed} failed")
    return int(failed > 0)
