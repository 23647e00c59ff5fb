"""Named checks, each with the count of its cases."""

import time

MOST_SHOWN = 4


class Check:
    def __init__(self, name):
        self.name = name
        self.cases = 0
        self.faults = []
        self.note = ""

    def that(self, true, text):
        """One case; `text` says what it was, for the line of a failed one."""
        self.cases += 1
        if not true:
            self.faults.append(text)
        return true

    @property
    def hopeless(self):
        """So many cases failed that the rest would only cost time."""
        return len(self.faults) >= 8


class Report:
    def __init__(self, out=print):
        self.out = out
        self.passed = self.failed = self.cases = 0
        self.began = time.monotonic()

    def close(self, check):
        good = check.cases > 0 and not check.faults
        self.passed += good
        self.failed += not good
        self.cases += check.cases
        note = f"; {check.note}" if check.note else ""
        state = "pass" if good else "FAIL"
        self.out(f"{state}  {check.name}: {check.cases - len(check.faults)} of {check.cases}{note}")
        for text in check.faults[:MOST_SHOWN]:
            self.out(f"      {text}")
        if len(check.faults) > MOST_SHOWN:
            self.out(f"      and {len(check.faults) - MOST_SHOWN} more")

    def last_line(self):
        seconds = time.monotonic() - self.began
        self.out(f"{self.cases} cases in {seconds:.0f} s")
        self.out(f"{self.passed} passed, {self.failed} failed")
