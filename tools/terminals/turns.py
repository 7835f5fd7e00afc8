"""What a turn did, where the monitor does not tell it: made of its tasks and locks before the turn and after it, in the
words of docs/lab.md. The code of a call is not among them.
"""

from tables import lock_row, task_row

FREE, WAITS = "free", "    waits for "


def turn_lines(task, before, after, statements):
    """The lines of a turn of this task; before and after are the answers to TASKS and to LOCKS."""
    rows = [task_row(tasks[task - 1]) for tasks, _ in (before, after)]
    (_, service, tac, place), (_, next_service, _, _) = rows
    if service == FREE:
        return [f"  {task} {FREE if next_service == FREE else f'takes {next_service}'}"]
    then, now = (areas_of(service, locks) for _, locks in (before, after))
    lines = [f"  {task} {service}" + (f" {tac} {statements.at(tac, int(place))}" if place else "")]
    lines += [f"    locks {area}" for area in now["holds"] if area not in then["holds"]]
    lines += [f"{WAITS}{area}, which {holder or 'nobody'} holds" for area, holder in now["waits for"].items()]
    return lines + [f"    frees {area}" for area in then["holds"] if area not in now["holds"]]


def moves(lines):
    """Whether the turn of these lines moved something: the task found work, and no request waits."""
    return not (lines[0].endswith(f" {FREE}") or any(it.startswith(WAITS) for it in lines))


def areas_of(service, locks):
    """The areas that a service holds, and those for which it waits, each with whose it is."""
    found = {"holds": {}, "waits for": {}}
    for row in map(lock_row, locks):
        if len(row) > 1 and row[0] == service:
            found[row[1]][row[2]] = row[3]
    return found
