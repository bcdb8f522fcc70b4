"""Runs commands one after the other, and tells of each how it ended and its peak of memory.

A line of standard input is a command as JSON: its words, the folder, and the files of its standard
input, output and error output. A line of standard output is its status as `subprocess` has it and
its peak in bytes. This process is kept small, since what it holds when it forks counts as memory of
the command. A command that takes longer than its seconds is ended by the signal SIGALRM.
"""

import json
import os
import signal
import sys


def begin(order):
    """Becomes the command."""
    os.chdir(order["folder"])
    for descriptor, (name, flags) in enumerate(
        [(order["stdin"], os.O_RDONLY), (order["stdout"], os.O_WRONLY | os.O_CREAT | os.O_TRUNC),
         (order["stderr"], os.O_WRONLY | os.O_CREAT | os.O_TRUNC)]
    ):
        os.dup2(os.open(name, flags, 0o600), descriptor)
    signal.alarm(order["seconds"])
    os.execv(order["words"][0], order["words"])


def main():
    for line in sys.stdin:
        order = json.loads(line)
        child = os.fork()
        if child == 0:
            try:
                begin(order)
            finally:
                os._exit(127)
        _, status, usage = os.wait4(child, 0)
        print(json.dumps([os.waitstatus_to_exitcode(status), usage.ru_maxrss * 1024]), flush=True)


if __name__ == "__main__":
    main()
