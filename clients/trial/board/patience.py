"""How long a trial waits: by the seconds that pass while it runs, as a machine that is shared may stop it for minutes."""
import sys
import time


class Patience:
    def __init__(self, seconds):
        self.left, self.last = seconds, time.monotonic()

    def is_over(self):
        now = time.monotonic()
        self.left -= min(now - self.last, 1)
        self.last = now
        return self.left < 0


def until(what, told, seconds=60):
    """Waits until something is so."""
    patience, pause = Patience(seconds), 0.02
    while not told():
        if patience.is_over():
            sys.exit(f"{what}: not after {seconds} seconds")
        time.sleep(pause)
        pause = min(pause * 1.5, 0.25)  # (a browser that is asked all the time does nothing else)
