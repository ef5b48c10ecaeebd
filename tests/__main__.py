"""Runs the tests of the folders beside this file, in what is built.

A pattern selects tests, as for `python3 -m unittest -k`. The last line is `N passed, N failed`, and
`, N skipped` if any were.
"""
import argparse
import sys
import unittest
from pathlib import Path

sys.dont_write_bytecode = True


class Result(unittest.TextTestResult):
    """A result that counts what passed."""

    passed = 0

    def addSuccess(self, test):
        super().addSuccess(test)
        self.passed += 1


def arguments():
    parser = argparse.ArgumentParser("python3 tests", description=__doc__)
    parser.add_argument("patterns", nargs="*", metavar="PATTERN")
    parser.add_argument("--skipped", type=int, default=0, metavar="N",
                        help="counts N mutants that `./check` did not try")
    return parser.parse_args()


def main(patterns, skipped):
    loader = unittest.TestLoader()
    loader.testNamePatterns = [f"*{it}*" for it in patterns] or None
    suite = loader.discover(str(Path(__file__).parent), top_level_dir=str(Path(__file__).parent))
    result = unittest.TextTestRunner(sys.stdout, verbosity=2, resultclass=Result).run(suite)
    failed = len(result.failures) + len(result.errors) + len(result.unexpectedSuccesses)
    skipped += len(result.skipped)
    told = f", {skipped} skipped" if skipped else ""
    print(f"{result.passed} passed, {failed} failed{told}")
    return 1 if failed or not result.passed else 0


if __name__ == "__main__":
    sys.exit(main(**vars(arguments())))
