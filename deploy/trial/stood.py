"""Tells when this machine stood still: on each processor a thread of real-time priority wakes each 5 ms, and where it is late by 20 ms or more, its processor was
taken away (a virtual one by its host). Prints a line for each: from when to when, on the clock of time.monotonic. It ends with its standard input; usage: python3 deploy/trial/stood.py"""
from __future__ import annotations

import os
import sys
import time

STEP, LATE = 0.005, 0.02


def watch(processor: int) -> None:
    os.sched_setaffinity(0, {processor})
    os.sched_setscheduler(0, os.SCHED_FIFO, os.sched_param(10))
    parent, due = os.getppid(), time.monotonic()
    while os.getppid() == parent:
        due += STEP
        time.sleep(max(0.0, due - time.monotonic()))
        now = time.monotonic()
        if now - due >= LATE:
            os.write(1, f"{due:.4f} {now:.4f}\n".encode())
            due = now


if __name__ == "__main__":
    for each in os.sched_getaffinity(0):
        if not os.fork():
            watch(each)
            os._exit(0)
    sys.stdin.read()
