"""Runs functions that assert something."""
import sys
import traceback


def run(name, names):
    """Runs the functions among these names that begin with test_, and counts them: the last line is
    'NAME: N passed, M failed'. Gives the status to exit with."""
    tests = [value for key, value in names.items() if key.startswith("test_")]
    failed = 0
    for test in tests:
        try:
            test()
        except Exception:
            failed += 1
            print(f"FAILED {test.__name__}")
            traceback.print_exc(file=sys.stdout)
    print(f"{name}: {len(tests) - failed} passed, {failed} failed")
    return 1 if failed or not tests else 0
