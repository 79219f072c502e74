#!/usr/bin/env python3
"""Times a command, and tells its peak memory.

usage: measure.py RUNS STATUS COMMAND..

Runs the command so many times; each must end with this status. Prints the median and the least wall time and the median
processor time, in seconds, and the greatest resident memory, in MiB. Standard output is not kept.
"""
import os
import subprocess
import sys
import time


def run_once(command, status):
    start = time.monotonic()
    child = subprocess.Popen(command, stdout=subprocess.DEVNULL)
    _, code, used = os.wait4(child.pid, 0)
    took = time.monotonic() - start
    if os.waitstatus_to_exitcode(code) != status:
        sys.exit(f"measure: {command[0]} ended with {os.waitstatus_to_exitcode(code)}, not {status}")
    return took, used.ru_utime + used.ru_stime, used.ru_maxrss / 1024


def main():
    runs, status, command = int(sys.argv[1]), int(sys.argv[2]), sys.argv[3:]
    took, busy, memory = zip(*(run_once(command, status) for _ in range(runs)))
    middle = runs // 2
    print(f"{sorted(took)[middle]:.3f} {min(took):.3f} {sorted(busy)[middle]:.3f} {max(memory):.1f}")


main()
