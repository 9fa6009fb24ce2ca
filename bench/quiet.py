"""How quiet the machine is: what four searches at once lose against one alone. To be called by the benchmarks' scripts."""
import subprocess
import sys
import time

LINE = "9 ----O--X-----OX--OX-XXXX--OXX-----OOX----O-OOOOO-----O-------O-- X\n"
TIMES = 3
PROCESSES = 4
QUIET = 1.1


def seconds(words, text, many):
    """The seconds until so many processes, begun at once, have answered this text."""
    begun = time.monotonic()
    runs = [subprocess.Popen(words, stdin=subprocess.PIPE, stdout=subprocess.DEVNULL, text=True) for _ in range(many)]
    for run in runs:
        run.stdin.write(text)
        run.stdin.close()
    if any(run.wait() for run in runs):
        sys.exit(f"quiet: {words[0]} failed")
    return time.monotonic() - begun


def loss(program):
    """How many times as long four processes of `solve --visited` take at once as one alone, by the best of three."""
    words, text = [program, "solve", "--visited"], LINE * 3
    alone, together = [min(seconds(words, text, many) for _ in range(TIMES)) for many in (1, PROCESSES)]
    return together / alone


def told(program):
    """A line about it."""
    found = loss(program)
    return f"four processes of `solve --visited` at once: {found:.2f} times one alone: " + ("quiet" if found <= QUIET else "NOT QUIET, so the figures say little")


if __name__ == "__main__":
    print(told(sys.argv[1]))
