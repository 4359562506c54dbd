"""Runs a command as the only child of this process: so its largest memory is known, without that of the caller.

    python3 -I -S alone.py FILE COMMAND..

FILE gets the seconds by the clock, the largest resident memory in bytes, and the status. A command takes at least what
this process does when it starts it, some 10 MB.
"""
import os
import sys
import time


def main(words: list[str]) -> None:
    told, *command = words
    begun = time.monotonic()
    child = os.posix_spawnp(command[0], command, os.environ)
    _, status, used = os.wait4(child, 0)
    seconds = time.monotonic() - begun
    with open(told, "w", encoding="ascii") as file:
        file.write(f"{seconds} {used.ru_maxrss * 1024} {os.waitstatus_to_exitcode(status)}\n")


if __name__ == "__main__":
    main(sys.argv[1:])
