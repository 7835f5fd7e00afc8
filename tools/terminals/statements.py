"""The statements of the program units, as they stand in BASE.units; docs/units.md has the form of the text.

Only a text that the monitor has accepted is read, so nothing here looks for faults.
"""

import re

NO_STATEMENT = re.compile(r"$|FIELD\b|END$|\w+:$")


class Statements:
    """What a task does next, by the TAC of its unit run and the number of the statement there."""

    def __init__(self, text, programs):
        """The text is that of the units, and the programs are those of the TACs."""
        self._units, self._programs, unit = {}, programs, []
        for number, line in enumerate(text.split("\n"), 1):
            statement = line.strip(" \t\r")
            if statement.startswith("UNIT"):
                unit = self._units[statement.split()[1]] = []
            elif not (line.startswith("*") or NO_STATEMENT.match(statement)):
                unit.append(f"line {number}: {statement}")

    def at(self, tac, place):
        """The statement of this number, from 1, with its line; its run may be at the end of the unit."""
        unit = self._units.get(self._programs.get(tac), [])
        return unit[place - 1] if place <= len(unit) else "at its end"
