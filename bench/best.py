#!/usr/bin/env python3
"""Times a whole process: best.py STATUS COMMAND.. prints the best of 20 wall times in milliseconds.

Each run must end with the status. After a run of more than a second there is no further one."""
import subprocess
import sys
import time


def wall(command, status):
    """The seconds of one run."""
    begun = time.perf_counter()
    ended = subprocess.run(command, stdout=subprocess.DEVNULL, stderr=subprocess.DEVNULL)
    seconds = time.perf_counter() - begun
    if ended.returncode != status:
        raise SystemExit(f"status {ended.returncode}: {' '.join(command)}")
    return seconds


def best(command, status):
    """The least of the seconds."""
    least = wall(command, status)
    for _ in range(19):
        if least > 1:
            break
        least = min(least, wall(command, status))
    return least


def main():
    if len(sys.argv) < 3 or not sys.argv[1].isdigit():
        raise SystemExit("usage: bench/best.py STATUS COMMAND..")
    status, *command = sys.argv[1:]
    print(f"{best(command, int(status)) * 1000:.2f}")


if __name__ == "__main__":
    main()
