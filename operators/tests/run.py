"""Run the tests of restart-text: python3 operators/tests/run.py [RESTART [MONDAYS [LIBRARY [SHEET]]]], with the programs restart, mondays and
sheet and the library to test with; without one, the first that has been built. Closes with one line `N passed, M failed`."""
import os
import sys
import unittest

HERE = os.path.dirname(os.path.abspath(__file__))


def main():
    for name, path in zip(("RESTART_PROGRAM", "MONDAYS_PROGRAM", "RESTART_LIBRARY", "SHEET_PROGRAM"), sys.argv[1:]):
        os.environ[name] = os.path.abspath(path)
    sys.path.insert(0, HERE)
    import support

    for path in (support.program("restart"), support.program("mondays"), support.library(), support.program("sheet")):
        print("under test: %s" % os.path.relpath(path, support.ROOT), flush=True)
    result = unittest.TextTestRunner(stream=sys.stdout, verbosity=0).run(unittest.defaultTestLoader.discover(HERE))
    failed = len({getattr(test, "test_case", test).id() for test, _ in result.failures + result.errors})
    passed = result.testsRun - failed
    print("%d passed, %d failed" % (passed, failed), flush=True)
    return 0 if failed == 0 and passed > 0 else 1


if __name__ == "__main__":
    sys.exit(main())
