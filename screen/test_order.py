"""Runs the order screen in a pseudo-terminal and through pipes, and compares what it shows with the scope.

Usage: python3 screen/test_order.py

The cells of a terminal are looked at, not the bytes sent. Drawings are compared with ones made from the pieces that
the independent program, reference/channel.py, draws. CFLAGS is honoured, so that the same can be run with sanitizers.
"""
import subprocess
import sys
import tempfile
from pathlib import Path

sys.dont_write_bytecode = True
sys.path.insert(0, str(Path(__file__).resolve().parent))
import cases_build  # noqa: E402
import cases_density  # noqa: E402
import cases_draft  # noqa: E402
import cases_files  # noqa: E402
import cases_laminate  # noqa: E402
import cases_laminate_pipe  # noqa: E402
import cases_line_ends  # noqa: E402
import cases_looks  # noqa: E402
import cases_padded  # noqa: E402
import cases_parked  # noqa: E402
import cases_pipe  # noqa: E402
import cases_rings  # noqa: E402
import cases_turned  # noqa: E402
import cases_typing  # noqa: E402
import cases_window  # noqa: E402
import pseudo_terminal  # noqa: E402


def main():
    try:
        for cases in (cases_build, cases_typing, cases_files, cases_window, cases_pipe, cases_parked, cases_padded,
                      cases_line_ends, cases_looks, cases_turned, cases_laminate, cases_laminate_pipe,
                      cases_rings, cases_density, cases_draft):
            with tempfile.TemporaryDirectory() as name:
                cases.run(Path(name))
    except (pseudo_terminal.Failure, subprocess.TimeoutExpired) as failure:
        print(f"order screen: {failure}")
        return 1
    print(f"order screen: {pseudo_terminal.passed} checks passed")
    return 0


if __name__ == "__main__":
    sys.exit(main())
