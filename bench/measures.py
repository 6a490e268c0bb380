"""What a command takes: its instructions, its seconds of the processor and its peak memory."""

import os
import re
import shutil
import subprocess
import sys
import tempfile

LIMITED = os.path.join(os.path.dirname(os.path.abspath(__file__)), "limited.py")


def perf(command, given):
    """The instructions of a command as the processor counts them, and its exit status."""
    with tempfile.NamedTemporaryFile() as report:
        counted = ["perf", "stat", "-x", ",", "-e", "instructions:u", "-o", report.name] + command
        status = subprocess.run(counted, stdin=given, stdout=subprocess.DEVNULL, stderr=subprocess.DEVNULL).returncode
        found = re.search(rb"^(\d+),", report.read(), re.MULTILINE)
    return (int(found.group(1)) if found else None), status


def callgrind(command, given, options=()):
    """The instructions of a command as callgrind counts them, and its exit status."""
    counted = ["valgrind", "--tool=callgrind", "--callgrind-out-file=/dev/null", *options] + command
    run = subprocess.run(counted, stdin=given, stdout=subprocess.DEVNULL, stderr=subprocess.PIPE)
    found = re.search(rb"Collected : (\d+)", run.stderr)
    return (int(found.group(1)) if found else None), run.returncode


def counter():
    """What counts instructions on this machine, if anything does."""
    if shutil.which("perf") and perf(["true"], subprocess.DEVNULL)[0] is not None:
        return perf
    return callgrind if shutil.which("valgrind") else None


def limited(limit, amount, command, given):
    """The exit status of a command under a limit of bench/limited.py, its seconds, and its peak memory in bytes."""
    counted = [sys.executable, LIMITED, limit, str(amount)] + command
    status, spent, peak = subprocess.run(counted, stdin=given, stdout=subprocess.PIPE, check=True).stdout.split()
    return int(status), float(spent), int(peak)
