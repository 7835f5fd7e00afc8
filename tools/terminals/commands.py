"""What may be asked for at the terminals, the printers and the desk: it is checked, and becomes a command.

Nothing is trusted that comes from a page: a name is one of the definition, a number has its range, and the text of an
input has the bytes that a script may have.
"""

import re
from typing import NamedTuple, Tuple

MOST_TURNS = 1_000_000
MOST_TURNS_TOLD = 1000
MOST_TICKS = 999_999_999_999
LONGEST_TAC = 8
OF_THE_MONITOR = ("KDCSIGN", "KDCDISP", "KDCOUT", "KDCLAST", "KDCOFF")
AS_TEXT = re.compile(r"[ -~]*")


class Refused(Exception):
    """What was asked for is not done, and this is why."""


class Command(NamedTuple):
    """A line for the monitor. `place`, `word` and `text` say how it is shown, and `moves` that the tasks may have work
    after it, at which the monitor does not let them begin by itself. `tasks` are those that have a turn, in their order,
    where these are not too many to be told one by one."""

    line: str
    place: str
    word: str
    text: str
    moves: bool = False
    tasks: Tuple[int, ...] = ()


def input_of(definition, terminal, text):
    """The text is typed at a terminal."""
    check_name(terminal, definition.terminals, "terminal")
    check_text(text, definition.longest_message)
    return Command(f"IN {terminal} {text}", terminal, "IN", without_password(text))


def drop_of(definition, terminal):
    """The connection of a terminal is lost."""
    check_name(terminal, definition.terminals, "terminal")
    return Command(f"DROP {terminal}", terminal, ">", "DROP", moves=True)


def print_of(definition, printer, again):
    """A printer takes its next message, or prints its last one again."""
    check_name(printer, definition.printers, "printer")
    last = " LAST" if again else ""
    return Command(f"PRINT {printer}{last}", printer, ">", f"PRINT{last}")


def tick_of(_, ticks):
    """The clock goes on."""
    check_number(ticks, 0, MOST_TICKS, "ticks")
    return Command(f"TICK {ticks}", "", ">", f"TICK {ticks}", moves=True)


def turn_of(definition, task):
    """A task has one turn."""
    check_number(task, 1, definition.tasks, "tasks")
    return Command(f"TURN {task}", "", ">", f"TURN {task}", tasks=(task,))


def run_of(definition, turns):
    """The tasks have their turns, in rotation."""
    check_number(turns, 0, MOST_TURNS, "turns")
    told = turns if turns <= MOST_TURNS_TOLD else 0
    tasks = tuple(1 + turn % definition.tasks for turn in range(told))
    return Command(f"RUN {turns}", "", ">", f"RUN {turns}", tasks=tasks)


def check_name(name, names, kind):
    if name not in names:
        raise Refused(f"there is no such {kind}")


def check_number(number, least, most, what):
    if not least <= number <= most:
        raise Refused(f"{what}: a number from {least:,} to {most:,}")


def check_text(text, longest_message):
    if not AS_TEXT.fullmatch(text):
        raise Refused("an input has spaces and the characters from ! to ~, and no others")
    if is_too_long(text, longest_message):
        raise Refused(f"too long to be sent: a message has at most {longest_message} characters")


def is_too_long(text, longest_message):
    """Whether no service takes it: one that awaits an input gets the whole text, and a TAC what is behind it."""
    word, _, message = text.partition(" ")
    is_of_service = word not in OF_THE_MONITOR and len(text) > longest_message
    return is_of_service and (len(word) > LONGEST_TAC or len(message) > longest_message)


def without_password(text):
    """The text as it is shown: the password of a sign-on is seen by nobody."""
    user, comma, _ = text.partition(",")
    return f"{user},***" if comma and text.split(" ")[0] == "KDCSIGN" else text
