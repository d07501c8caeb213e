"""What passed and what failed; failures are told, the first of each part in full."""
import os
import time
import traceback

SHOWN = 8


class Tally:
    def __init__(self):
        self.passed = self.failed = self.shown = 0

    def part(self, name, run):
        """Runs one part; a defect in it is a failure."""
        before, start, used = (self.passed, self.failed), time.monotonic(), sum(os.times()[:4])
        self.shown = 0
        try:
            run(self)
        except Exception:
            self.check(f"{name} ends", False, traceback.format_exc())
        seconds = f"{time.monotonic() - start:.1f} s, {sum(os.times()[:4]) - used:.1f} s of the processor"
        print(f"{name}: {self.passed - before[0]} passed, {self.failed - before[1]} failed ({seconds})", flush=True)

    def check(self, what, holds, detail=""):
        if holds:
            self.passed += 1
            return
        self.failed += 1
        self.shown += 1
        if self.shown <= SHOWN:
            print(f"failed: {what}\n  {detail}" if detail else f"failed: {what}")

    def same(self, what, is_, should):
        self.check(what, is_ == should, f"is     {is_!r}\n  should {should!r}")

    def holds(self, what, text, *parts):
        """Each part stands in a text."""
        missing = [part for part in parts if part not in text]
        self.check(what, not missing, f"{missing} not in {text!r}")
