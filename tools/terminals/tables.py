"""The rows of what the desk shows, made from the lines in which the monitor answers. A line of another form is a row by
itself, as it is.
"""

import re

ROWS_SHOWN = 500
NO_ROWS = {"rows": [], "more": 0}
TASK = re.compile(r"TASK (\d+) (\S+)(?: (\S+) AT (\d+))?")
OTHER = re.compile(r"(READY|AWAITS) (\S+)(?: (\S+) AT (\d+))?")
HELD = re.compile(r"(\S+) HOLDS (.+)")
WAIT = re.compile(r"(\S+) WAITS FOR (.+?)(?: OF (\S+))? SINCE (\d+)")
JOB = re.compile(r"JOB (\d+) ([TL]) (\S+) DUE (\d+) (TAKEN|FREE)")
OTHERS = {"READY": "ready", "AWAITS": "awaits an input"}
TARGETS = {"T": "TAC", "L": "LTERM"}
# How many names the rows of the tables have behind their kinds.
NAMES = {"CLOCK": 0, "NEXT": 0, "TLS": 2, "ULS": 2, "LSSB": 2}


def task_row(line):
    """Task, service, TAC and next statement; READY and AWAITS have no task."""
    task, other = TASK.fullmatch(line), OTHER.fullmatch(line)
    if task and task[2] == "FREE" and not task[3]:
        return [task[1], "free", "", ""]
    if task:
        return [text or "" for text in task.groups()]
    return [OTHERS[other[1]], *(text or "" for text in other.groups()[1:])] if other else [line]


def lock_row(line):
    """Service, what it does, area, of whom, and since when."""
    held, wait = HELD.fullmatch(line), WAIT.fullmatch(line)
    if wait:
        return [wait[1], "waits for", wait[2], wait[3] or "", wait[4]]
    return [held[1], "holds", held[2], "", ""] if held else [line]


def job_row(line):
    """Number, target, due, and whether a service has taken it."""
    job = JOB.fullmatch(line)
    return [job[1], f"{TARGETS[job[2]]} {job[3]}", job[4], job[5].lower()] if job else [line]


def table_row(line):
    """Kind, names and content."""
    kind, *rest = line.split(" ", 1 + NAMES.get(line.split(" ")[0], 1))
    names = NAMES.get(kind, 1)
    return [kind, " ".join(rest[:names]), " ".join(rest[names:])]


def count_row(line):
    return [line]


ROWS = {"TASKS": task_row, "LOCKS": lock_row, "JOBS": job_row, "SHOW": table_row, "COUNTS": count_row}


def rows_of(question, lines):
    """The rows of an answer, and how many more there are; None where the monitor does not know the question."""
    if lines and lines[0].startswith("SCRIPT "):
        return None
    lines = [] if lines == ["NONE"] else lines
    return {"rows": [ROWS[question](it) for it in lines[:ROWS_SHOWN]], "more": max(len(lines) - ROWS_SHOWN, 0)}
