"""Made applications: each keeps, holds or waits for `size` things, and then does operations that touch a few of them.

A `Bench` has the texts of an application, a script that fills its KDCFILE, a script that comes to the state that is
measured, and the commands of one operation, which that script is followed by.
"""

from dataclasses import dataclass, field, replace
from typing import Callable, List


@dataclass
class Bench:
    name: str
    what: str                          # what there are `size` of
    operation: str                     # what one operation is
    definition: str
    units: str
    fill: List[str]                    # a script that is run once
    before: List[str]                  # a script that comes before the operations, in the same run
    one: Callable[[int], List[str]]    # the commands of the k-th operation
    operations: int = 20000
    counted: int = field(default=0)    # operations in one run of `one`, where it does more than one


def lines(*parts: str) -> str:
    return "\n".join(parts) + "\n"


def max_statement(name: str, **operands: object) -> str:
    given = "".join(f",{key}={value}" for key, value in operands.items())
    return f"MAX APPLINAME={name}{given}"


def terminals(count: int, restart: str = "YES") -> List[str]:
    """USER, LTERM and PTERM for 1 to count."""
    statements = []
    for k in range(1, count + 1):
        statements += [f"USER U{k},RESTART={restart}", f"LTERM L{k}", f"PTERM P{k},LTERM=L{k}"]
    return statements


FILL = """UNIT FILL
FIELD from SPAB 0 8
FIELD count SPAB 8 8
FIELD name SPAB 16 8
FIELD digits SPAB 24 7
INIT
MGET from
MOVE digits from
ADD digits 0
MOVE count '00000000'
next:
JOIN name 'R' digits
SPUT GB name '00000000'
ADD digits 1
ADD count 1
IF count LT '00000100' next
MPUT 'FILLED'
PEND FI
END
"""

TOUCH = """UNIT TOUCH
FIELD name SPAB 0 8
FIELD times SPAB 8 8
INIT
MGET name
SGET GB name times
ADD times 1
SPUT GB name times
MPUT 'TOUCHED'
PEND FI
END
"""


def signed_on(count: int) -> List[str]:
    return [f"IN P{k} KDCSIGN U{k}" for k in range(1, count + 1)]


def rows(size: int) -> Bench:
    """Rows of the tables: one is read and written by each transaction."""
    definition = lines(
        max_statement("ROWS", GSSBS=30000, PGPOOL=30000, BLKSIZE="2K"),
        "PROGRAM FILL", "PROGRAM TOUCH", "TAC FILL,PROGRAM=FILL", "TAC TOUCH,PROGRAM=TOUCH", *terminals(1), "END")
    fill = signed_on(1)
    for start in range(0, size, 100):
        fill += [f"IN P1 FILL {start}", "RUN 2000"]
    return Bench("rows", "rows kept", "a transaction that changes one row", definition, FILL + TOUCH, fill,
                 signed_on(1), lambda k: [f"IN P1 TOUCH R{(k * 7919) % size:07d}", "RUN 100"])


JOBS = """UNIT MAKE
FIELD count SPAB 0 8
INIT
MOVE count '00000000'
next:
DPUT 'LATER' R 999 0 0 0 'A JOB FOR LATER'
ADD count 1
IF count LT '00000100' next
MPUT 'MADE'
PEND FI
END
UNIT NOW
INIT
FPUT 'DOIT' 'A JOB FOR NOW'
MPUT 'MADE'
PEND FI
END
UNIT DOIT
FIELD text SPAB 0 32
INIT
FGET text
PEND FI
END
"""


def jobs(size: int) -> Bench:
    """Jobs that wait for their time: one more is made, taken and done."""
    definition = lines(
        max_statement("JOBS", PGPOOL=30000, BLKSIZE="2K", ASYNTASKS=1),
        "PROGRAM MAKE", "PROGRAM NOW", "PROGRAM DOIT", "TAC MAKE,PROGRAM=MAKE", "TAC NOW,PROGRAM=NOW",
        "TAC DOIT,PROGRAM=DOIT,TYPE=A", "TAC LATER,PROGRAM=DOIT,TYPE=A", *terminals(1), "END")
    fill = signed_on(1)
    for _ in range(0, size, 100):
        fill += ["IN P1 MAKE", "RUN 2000"]
    return Bench("jobs", "jobs pending", "a job that is made, taken and done", definition, JOBS, fill, signed_on(1),
                 lambda k: ["IN P1 NOW", "RUN 100"])


HELLO = """UNIT HELLO
INIT
MPUT 'HELLO'
PEND FI
END
"""


def users(size: int) -> Bench:
    """Users who are signed on: one more comes, starts a service and goes."""
    definition = lines(
        max_statement("USERS", PGPOOL=30000, BLKSIZE="2K"), "PROGRAM HELLO", "TAC HELLO,PROGRAM=HELLO",
        *terminals(size + 1), "END")
    last = size + 1
    return Bench("users", "users signed on", "a user who signs on, starts a service and signs off", definition, HELLO,
                 [], signed_on(size),
                 lambda k: [f"IN P{last} KDCSIGN U{last}", f"IN P{last} HELLO", "RUN 100", f"IN P{last} KDCOFF"])


AREAS = """UNIT AREAS
FIELD both SPAB 0 15
FIELD count SPAB 0 7
FIELD mark SPAB 8 7
FIELD name SPAB 16 8
INIT
MGET both
next:
JOIN name 'A' count
SPUT GB name mark
SUB count 1
IF count GT '0000000' next
MPUT 'WRITTEN'
PEND FI
END
"""


def areas(size: int) -> Bench:
    """Areas that one transaction writes."""
    definition = lines(
        max_statement("AREAS", GSSBS=30000, PGPOOL=30000, BLKSIZE="2K"), "PROGRAM AREAS",
        "TAC AREAS,PROGRAM=AREAS,TIME=100000", *terminals(1), "END")
    return Bench("areas", "areas of one transaction", "one area of it", definition, AREAS, [], signed_on(1),
                 lambda k: [f"IN P1 AREAS {size:07d} {k:07d}", f"RUN {4 * size + 100}"], operations=20, counted=size)


WAIT = """UNIT LOOP
again:
JUMP again
END
UNIT HELLO
INIT
MPUT 'HELLO'
PEND FI
END
"""


def waiting(size: int) -> Bench:
    """Services that are ready and whose class is full: others go on."""
    definition = lines(
        max_statement("WAITING", PGPOOL=30000, BLKSIZE="2K", TASKS=2), "PROGRAM LOOP", "PROGRAM HELLO",
        "TAC LOOP,PROGRAM=LOOP,TACCLASS=1,TIME=100000", "TAC HELLO,PROGRAM=HELLO", "TACCLASS 1,TASKS=0",
        *terminals(size + 1), "END")
    last = size + 1
    before = signed_on(last) + [f"IN P{k} LOOP" for k in range(1, size + 1)]
    return Bench("waiting", "services waiting for a task of their class", "a service that is done meanwhile",
                 definition, WAIT, [], before, lambda k: [f"IN P{last} HELLO", "RUN 20"])


HOLD = """UNIT HOLD
FIELD name SPAB 0 8
FIELD text SPAB 8 8
INIT
MGET name
SGET GB name text
MPUT 'HELD'
PEND KP 'HOLD'
END
UNIT TOUCH
FIELD text SPAB 0 8
INIT
SGET GB 'MINE' text
MPUT 'DONE'
PEND FI
END
"""


def locks(size: int) -> Bench:
    """Open transactions that hold an area each: another locks and frees one."""
    definition = lines(
        max_statement("LOCKS", PGPOOL=30000, BLKSIZE="2K"), "PROGRAM HOLD", "PROGRAM TOUCH", "TAC HOLD,PROGRAM=HOLD",
        "TAC TOUCH,PROGRAM=TOUCH", *terminals(size + 1), "END")
    last = size + 1
    before = signed_on(last)
    for k in range(1, size + 1):
        before += [f"IN P{k} HOLD H{k}", "RUN 20"]
    return Bench("locks", "open transactions with an area", "a transaction that locks and frees one more",
                 definition, HOLD, [], before, lambda k: [f"IN P{last} TOUCH", "RUN 20"])


def tasks(size: int) -> Bench:
    """Tasks at work, 240 at most: one more service runs in the last one."""
    count = max(2, min(240, size * 24 // 1000))
    definition = lines(
        max_statement("TASKS", PGPOOL=30000, BLKSIZE="2K", TASKS=count), "PROGRAM LOOP", "PROGRAM HELLO",
        "TAC LOOP,PROGRAM=LOOP,TIME=100000", "TAC HELLO,PROGRAM=HELLO", *terminals(count), "END")
    before = signed_on(count) + [f"IN P{k} LOOP" for k in range(1, count)] + [f"RUN {2 * (count - 1)}"]
    return Bench("tasks", "tasks, at most 240 of them", "a service in one more task", definition, WAIT, [], before,
                 lambda k: [f"IN P{count} HELLO"] + [f"TURN {count}"] * 4)


MADE = """UNIT ADD
FIELD v SPAB 0 8
FIELD n SPAB 8 8
INIT
MGET v
SGET GB 'CNT' n
ADD n 1
SPUT GB 'CNT' n
FPUT 'TALLY' v
MPUT n
PEND FI
END
UNIT TALLY
FIELD v SPAB 0 8
FIELD n SPAB 8 8
INIT
FGET v
SGET GB 'TOTAL' n
ADD n v
SPUT GB 'TOTAL' n
PEND FI
END
"""


def made(tasks: int, pgpool: int) -> Bench:
    """The application of `make`: an input counts and makes a job, which adds it up, so it is two commits."""
    definition = lines(
        max_statement("MAKE", TASKS=tasks, KB=16, SPAB=64, NB=80, PGPOOL=pgpool, BLKSIZE="2K"),
        "PROGRAM ADD", "PROGRAM TALLY", "TAC ADD,PROGRAM=ADD", "TAC TALLY,PROGRAM=TALLY,TYPE=A", *terminals(1), "END")
    return Bench("", "", "a commit of the input of `make`", definition, MADE, [], signed_on(1),
                 lambda k: [f"IN P1 ADD {k % 10}", "RUN 20000"], counted=2)


def idle(size: int) -> Bench:
    """Tasks that have nothing to do."""
    return replace(made(size, 64), name="idle", what="tasks, of which one has work")


def pool(size: int) -> Bench:
    """Pages of the pool, of which few are used."""
    return replace(made(2, size), name="pool", what="pages of PGPOOL")


ALL = [rows, jobs, users, areas, waiting, locks, tasks, idle, pool]

# The two sizes of a bench that has its own, whatever N is.
SIZES = {"idle": (2, 240), "pool": (64, 30000)}
