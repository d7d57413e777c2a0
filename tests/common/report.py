"""Counts what passed and what failed."""
import threading
from typing import Iterable, List

SHOWN = 5


class Report:
    """Prints each check with its faults, and counts. Checks may come from several threads."""

    def __init__(self) -> None:
        self.passed = 0
        self.failed = 0
        self._failures: List[str] = []
        self._lock = threading.Lock()

    def check(self, name: str, faults: Iterable[str]) -> None:
        """A check passed where it has no faults."""
        found = list(faults)
        lines = [f"{name}: {'failed' if found else 'as wanted'}", *(f"    {fault}" for fault in found[:SHOWN])]
        lines += [f"    and {len(found) - SHOWN} more"] if len(found) > SHOWN else []
        with self._lock:
            self.failed += bool(found)
            self.passed += not found
            self._failures += lines if found else []
            print(*lines, sep="\n", flush=True)

    def sum_up(self) -> None:
        """Shows again what failed, for those who see the end alone, and the numbers."""
        if self._failures:
            print("What failed:", *self._failures, sep="\n")
        print(f"{self.passed} passed, {self.failed} failed")

    def say(self, text: str) -> None:
        """A word that is no check."""
        with self._lock:
            print(text, flush=True)
