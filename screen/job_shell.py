"""A shell with one job, for tests: it runs the job in the foreground, and whenever that stops, waits for a line and
brings it back. The settings of the terminal it leaves alone. Its exit status is the job's.

Usage: python3 job_shell.py PROGRAM ARGUMENT ..
"""
import os
import signal
import sys


def foreground(group):
    """Gives the terminal to a group. Who is not in the foreground must not be stopped for asking."""
    signal.signal(signal.SIGTTOU, signal.SIG_IGN)
    os.tcsetpgrp(0, group)


def start(words):
    job = os.fork()
    if job == 0:
        os.setpgid(0, 0)
        foreground(os.getpid())
        signal.signal(signal.SIGTTOU, signal.SIG_DFL)
        os.execv(words[0], words)
    return job


def main(words):
    job = start(words)
    while True:
        _, status = os.waitpid(job, os.WUNTRACED)
        foreground(os.getpgrp())
        if not os.WIFSTOPPED(status):
            return os.waitstatus_to_exitcode(status)
        sys.stdin.readline()
        foreground(job)
        os.killpg(job, signal.SIGCONT)


if __name__ == "__main__":
    sys.exit(main(sys.argv[1:]))
