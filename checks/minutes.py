#!/usr/bin/env python3
"""Adds up the processor time that checks of crates take, from its start until SIGTERM, and prints it in minutes, crate by crate."""
import os
import signal
import time

TICKS_A_MINUTE = 60 * os.sysconf("SC_CLK_TCK")
SECONDS_BETWEEN_LOOKS = 0.5


def crate_of(pid):
    """The crate that a process checks or builds, or None."""
    with open(f"/proc/{pid}/cmdline", "rb") as file:
        words = file.read().split(b"\0")
    return words[words.index(b"--crate-name") + 1].decode() if b"--crate-name" in words else None


def times_of(pid):
    """When a process started, and its own ticks so far, without those of its children."""
    with open(f"/proc/{pid}/stat") as file:
        fields = file.read().rpartition(")")[2].split()
    return fields[19], int(fields[11]) + int(fields[12])


def look(spent):
    """Notes the ticks so far of each process that works on a crate."""
    for pid in filter(str.isdigit, os.listdir("/proc")):
        try:
            crate = crate_of(pid)
            if crate is not None:
                start, ticks = times_of(pid)
                spent[pid, start] = crate, ticks
        except OSError:
            pass  # the process has ended


def report(spent):
    """Prints the minutes of each crate, the longest first, and their sum."""
    minutes = {}
    for crate, ticks in spent.values():
        minutes[crate] = minutes.get(crate, 0) + ticks / TICKS_A_MINUTE
    rows = sorted(minutes.items(), key=lambda row: -row[1])
    print(f"processor minutes: {sum(minutes.values()):.0f}", *(f"{crate} {spent:.1f}" for crate, spent in rows if spent >= 0.1), sep=", ")


def main():
    spent, is_over = {}, []
    signal.signal(signal.SIGTERM, lambda *_: is_over.append(True))
    while not is_over:
        look(spent)
        time.sleep(SECONDS_BETWEEN_LOOKS)
    report(spent)


main()
