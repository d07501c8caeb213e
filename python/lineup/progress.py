"""How far a command has come, as a bar on a terminal, where it takes longer than a second."""
import sys
import time

PATIENCE, PAUSE, WIDE = 1.0, 0.1, 24  # seconds before the bar is shown, and between two of it; its signs


class Bar:
    """Used with `with`: what was shown is wiped away at the end, so that nothing of it stands between lines."""

    def __init__(self, steps, clock=time.monotonic):
        self.steps, self.clock = steps, clock
        self.done, self.shown = 0, ""
        self.next = clock() + PATIENCE

    def __enter__(self):
        return self

    def __exit__(self, *_):
        if self.shown:
            self.show("")

    def after(self, work, *arguments):
        """What a step of work gives; the bar is a step further then."""
        found = work(*arguments)
        self.done += 1
        if self.clock() >= self.next:
            self.next = self.clock() + PAUSE
            full = WIDE * self.done // self.steps
            self.show(f"lineup: [{'#' * full}{'.' * (WIDE - full)}] {100 * self.done // self.steps} %")
        return found

    def show(self, text):
        """Over what was shown before. Nothing depends on it, so that a terminal that is gone is none of its troubles."""
        try:
            if sys.stderr and sys.stderr.isatty():
                sys.stderr.write("\r" + " " * len(self.shown) + "\r" + text)
                sys.stderr.flush()
                self.shown = text
        except (OSError, ValueError):
            pass
