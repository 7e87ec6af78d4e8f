"""The table that is printed at the end: what was tried, and what came of it."""
import time


class Table:
    """Rows of a part each. It counts those that are wrong."""

    def __init__(self):
        self.rows = []
        self.wrong = 0
        self.begun = time.monotonic()

    def add(self, part, tried, came, wrong=False):
        """Adds a row and prints it at once, with the seconds since the start."""
        came = f"WRONG: {came}" if wrong else came
        self.wrong += wrong
        self.rows.append((part, tried, came))
        print(f"[{time.monotonic() - self.begun:6.0f} s] {part}: {tried}: {came}", flush=True)

    def print(self):
        print("\n| Part | Tried | Came of it |\n|---|---|---|")
        for row in self.rows:
            print("| " + " | ".join(cell.replace("|", "/").replace("\n", " ") for cell in row) + " |")
        print(f"\n{len(self.rows)} rows, {self.wrong} wrong", flush=True)
