"""Runs a command under a limit of the system: limited.py LIMIT AMOUNT COMMAND ..

The limit is STACK in bytes or CPU in seconds, or another that the module `resource` knows. It prints how the command ended, as
`subprocess` has it, its seconds of the processor, and its peak memory in bytes. It is a program of its own, since the system counts
the memory of the process that starts a command with that of the command.
"""

import os
import resource
import subprocess
import sys


def main():
    limit, amount = getattr(resource, "RLIMIT_" + sys.argv[1]), int(sys.argv[2])
    run = subprocess.Popen(
        sys.argv[3:],
        stdout=subprocess.DEVNULL,
        preexec_fn=lambda: resource.setrlimit(limit, (amount, amount)),
    )
    _, status, usage = os.wait4(run.pid, 0)
    run.returncode = os.waitstatus_to_exitcode(status)
    print(run.returncode, usage.ru_utime + usage.ru_stime, usage.ru_maxrss * 1024)


if __name__ == "__main__":
    main()
