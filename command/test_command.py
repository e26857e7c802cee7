#!/usr/bin/env python3
"""Runs the tests of the command: `python3 command/test_command.py [NAME..]`, NAME as in command.tests.test_use.

Without names all files of tests are run, some at a time.
"""
import subprocess
import sys
import unittest
from concurrent.futures import ThreadPoolExecutor
from pathlib import Path

sys.dont_write_bytecode = True
ROOT = Path(__file__).resolve().parent.parent
sys.path[0] = str(ROOT)
AT_A_TIME = 4


def run_named(names):
    """Runs tests in this process; the exit status is 0 if all pass."""
    result = unittest.TextTestRunner(stream=sys.stdout, verbosity=0).run(
        unittest.defaultTestLoader.loadTestsFromNames(names))
    return not result.wasSuccessful()


def run_file(path):
    """Runs a file of tests in a process of its own."""
    name = f"command.tests.{path.stem}"
    return name, subprocess.run([sys.executable, __file__, name], stdout=subprocess.PIPE, stderr=subprocess.STDOUT,
                                check=False)


def main(names):
    if names:
        return run_named(names)
    files = sorted((ROOT / "command" / "tests").glob("test_*.py"))
    with ThreadPoolExecutor(AT_A_TIME) as pool:
        done = list(pool.map(run_file, files))
    failed = [name for name, run in done if run.returncode != 0]
    for name, run in done:
        if run.returncode != 0:
            print(f"{name}:\n{run.stdout.decode(errors='replace')}")
    print(f"command: {len(files) - len(failed)} files of tests passed, {len(failed)} failed")
    return bool(failed)


if __name__ == "__main__":
    sys.exit(main(sys.argv[1:]))
