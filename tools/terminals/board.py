"""What the windows show, and which windows there are.

Each thing that is shown has the number of its last change. So a window that has seen all up to some number is brought
up to date by what has a greater one.
"""

import threading
from collections import deque
from contextlib import contextmanager

ENTRIES_KEPT = 2000


class Board:
    """It may be read and changed by several threads."""

    def __init__(self, terminals, places):
        """The entries of each place are kept by themselves; that of the monitor itself is named ''."""
        self._changed = threading.Condition()
        self._number = 0
        self._terminals = terminals
        self._entries = {place: deque(maxlen=ENTRIES_KEPT) for place in places}
        self._values = {}
        self._windows = []
        self.is_closed = False

    def add(self, entries):
        """Puts entries behind those that are there: of each its place, its word and its text."""
        with self._changed:
            for place, word, text in entries:
                self._number += 1
                self._entries[place].append({"number": self._number, "place": place, "word": word, "text": text})
            self._changed.notify_all()

    def show(self, **values):
        """Sets values by their names. One that is as it was is no change."""
        with self._changed:
            for name, value in values.items():
                if name not in self._values or self._values[name][1] != value:
                    self._number += 1
                    self._values[name] = self._number, value
            self._changed.notify_all()

    def since(self, number, seconds):
        """The number of the last change, and what has changed since this one; it waits so many seconds for some."""
        with self._changed:
            self._changed.wait_for(lambda: self._number > number or self.is_closed, seconds)
            entries = [it for kept in self._entries.values() for it in newer(kept, number)]
            entries.sort(key=lambda it: it["number"])
            values = {name: value for name, (changed, value) in self._values.items() if changed > number}
            return self._number, {"entries": entries, **values}

    @contextmanager
    def window(self, asked):
        """While a window is open: it is at those of these names that are terminals, or at the first that is free."""
        with self._changed:
            places = [it for it in self._terminals if it in asked] or self._first_free()
            self._windows.append(places)
            self._count_windows()
        try:
            yield places
        finally:
            with self._changed:
                self._windows.remove(places)
                self._count_windows()

    def has_windows(self):
        return bool(self._windows)

    def _first_free(self):
        taken = {it for places in self._windows for it in places}
        free = [it for it in self._terminals if it not in taken]
        return (free or list(self._terminals))[:1]

    def _count_windows(self):
        self.show(windows={it: sum(it in places for places in self._windows) for it in self._terminals})

    def close(self):
        """Tells all who wait that nothing more comes."""
        with self._changed:
            self.is_closed = True
            self._changed.notify_all()


def newer(entries, number):
    """Those with a greater number; they stand in the order of their numbers."""
    found = []
    for entry in reversed(entries):
        if entry["number"] <= number:
            break
        found.append(entry)
    return found
