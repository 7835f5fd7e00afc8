"""Runs a program call by call of the system, on Linux and x86-64: what it does on the two files of a KDCFILE and on its
output is noted, and a call on one of the files can be made to fail, to be cut short, or to be the last one."""

import ctypes
import os
import platform
import signal
import tempfile
from collections import namedtuple

TRACE_ME, SET_OPTIONS, GET_REGISTERS, SET_REGISTERS, GO_ON, TO_END_OF_CALL = 0, 0x4200, 12, 13, 7, 24
OPTIONS = 1 | 0x80 | 0x100000  # a stop at a call is told from others, and the program ends with this one
BEGINS = signal.SIGTRAP | 7 << 8  # a stop at a call that the filter names
NO_NEW_PRIVILEGES, SET_FILTER, FILTER = 38, 22, 2
RESULT, LENGTH, BYTES, FILE, NUMBER, PLACE = 10, 12, 13, 14, 15, 7  # places among the registers
CALL_STOP = signal.SIGTRAP | 0x80
INPUT_OUTPUT_ERROR = 5

# The calls of the system, by what they do with a file. Those of a disk are counted together, half by half.
OPENS, WRITES_LINE, WRITES, CLOSES = 257, 1, 18, 3
KINDS = {17: "read", 0: "read", 18: "write", 1: "write", 74: "sync", 75: "sync", 5: "size", 262: "size", 332: "size"}
SEEKS, AT_PLACES = 8, (17, 18)
KINDS.update({SEEKS: "size", 73: "lock", 77: "length"})


class Step(ctypes.Structure):
    """A step of a filter of calls."""

    _fields_ = [("code", ctypes.c_ushort), ("jt", ctypes.c_ubyte), ("jf", ctypes.c_ubyte), ("k", ctypes.c_uint)]


class Steps(ctypes.Structure):
    _fields_ = [("count", ctypes.c_ushort), ("steps", ctypes.POINTER(Step))]


def filter_of(numbers):
    """A filter by which the program stops at these calls alone."""
    steps = [Step(0x20, 0, 0, 0)]
    steps += [Step(0x15, len(numbers) - place, 0, number) for place, number in enumerate(numbers)]
    steps += [Step(0x06, 0, 0, 0x7FFF0000), Step(0x06, 0, 0, 0x7FF00000)]
    return Steps(len(steps), (Step * len(steps))(*steps))


CALLS = filter_of([OPENS, CLOSES, *KINDS])

# A call on a half, or on the output, whose half is none: its kind, and the place and bytes of a write.
Event = namedtuple("Event", "half kind at data")

# What happens at the calls of a half from this number on: once or always, and how.
Fault = namedtuple("Fault", "half number always how")

# The status, what was sent, the calls that were done, and how many each half was asked for.
Run = namedtuple("Run", "status sent events asked")


def kernel(made=[]):
    if not made:
        library = ctypes.CDLL(None, use_errno=True)
        library.ptrace.argtypes = [ctypes.c_long, ctypes.c_long, ctypes.c_void_p, ctypes.c_void_p]
        library.ptrace.restype = ctypes.c_long
        made.append(library)
    return made[0]


def is_possible():
    """Whether calls can be looked at here."""
    if platform.system() != "Linux" or platform.machine() != "x86_64":
        return False
    try:
        with tempfile.TemporaryDirectory() as folder:
            return run("/bin/true", [], folder, ()).status == 0
    except OSError:
        return False


class Traced:
    """A program at work."""

    def __init__(self, program, words, folder, faults):
        self.faults = faults
        self.files = {}
        self.places = {}  # of what is read or written next
        self.events = []
        self.asked = [0, 0]
        self.sent = os.open(os.path.join(folder, "sent"), os.O_RDWR | os.O_CREAT | os.O_TRUNC)
        self.registers = (ctypes.c_ulonglong * 27)()
        kernel()
        self.pid = os.fork()
        if not self.pid:
            self.become(program, words, folder)

    def become(self, program, words, folder):
        try:
            os.chdir(folder)
            nothing = os.open("/dev/null", os.O_RDWR)
            for at, file in enumerate((nothing, self.sent, nothing)):
                os.dup2(file, at)
            kernel().ptrace(TRACE_ME, 0, None, None)
            os.kill(os.getpid(), signal.SIGSTOP)
            kernel().prctl(NO_NEW_PRIVILEGES, 1, 0, 0, 0)
            kernel().prctl(SET_FILTER, FILTER, ctypes.byref(CALLS), 0, 0)
            os.execv(program, [str(program), *words])
        finally:
            os._exit(127)

    def ask(self, what, data=None):
        if kernel().ptrace(what, self.pid, None, data) < 0:
            raise OSError(ctypes.get_errno(), "ptrace")

    def go_on(self, how=GO_ON):
        """To the next stop at a call, or to the end of this one; whether there is one."""
        passed = None
        while True:
            self.ask(how, passed)
            _, state = os.waitpid(self.pid, 0)
            if not os.WIFSTOPPED(state):
                self.status = os.WEXITSTATUS(state) if os.WIFEXITED(state) else -os.WTERMSIG(state)
                return False
            if state >> 8 == BEGINS or os.WSTOPSIG(state) == CALL_STOP:
                self.ask(GET_REGISTERS, ctypes.byref(self.registers))
                return True
            passed = os.WSTOPSIG(state) if os.WSTOPSIG(state) not in (signal.SIGTRAP, signal.SIGSTOP) else None

    def ends_call(self):
        """To the end of this call; whether the program goes on."""
        return self.go_on(TO_END_OF_CALL)

    def bytes_at(self, at, length):
        """Bytes of the memory that the program has now."""
        memory = os.open(f"/proc/{self.pid}/mem", os.O_RDONLY)
        try:
            return os.pread(memory, length, at)
        finally:
            os.close(memory)

    def name_at(self, at):
        data = self.bytes_at(at, 4096 - at % 4096)
        if b"\0" not in data:
            data += self.bytes_at(at + len(data), 4096)
        return data.partition(b"\0")[0]

    def half_of(self):
        """The half that the call is about, if any."""
        number, registers = self.registers[NUMBER], self.registers
        if number == OPENS:
            name = self.name_at(registers[BYTES])
            return {b".KDCA": 0, b".KDCB": 1}.get(name[-5:])
        return self.files.get(registers[FILE])

    def run(self):
        _, state = os.waitpid(self.pid, 0)
        if not os.WIFSTOPPED(state):
            raise OSError(os.WEXITSTATUS(state), "the program cannot be begun")
        self.ask(SET_OPTIONS, OPTIONS)
        while self.go_on():
            if not self.call():
                break
        sent = os.pread(self.sent, 1 << 24, 0)
        os.close(self.sent)
        return Run(self.status, sent, self.events, self.asked)

    def call(self):
        """A call, from its begin to its end; whether the program goes on."""
        number, half = self.registers[NUMBER], self.half_of()
        kind = "open" if number == OPENS else KINDS.get(number)
        if half is None or kind is None:
            return self.other_call(number)
        self.asked[half] += 1
        file = self.registers[FILE]
        at, data = self.registers[PLACE] if number in AT_PLACES else self.places.get(file, 0), None
        if kind == "write":
            data = self.bytes_at(self.registers[BYTES], self.registers[LENGTH])
        how = self.fault(half, kind)
        if how == "kill":
            os.kill(self.pid, signal.SIGKILL)
            os.waitpid(self.pid, 0)
            self.status = -signal.SIGKILL
            return False
        if how == "fail":
            self.registers[NUMBER] = ctypes.c_ulonglong(-1).value
            self.registers[RESULT] = ctypes.c_ulonglong(-INPUT_OUTPUT_ERROR).value
            self.ask(SET_REGISTERS, ctypes.byref(self.registers))
        elif how == "short" and kind in ("write", "read") and self.registers[LENGTH] > 1:
            self.registers[LENGTH] //= 2
            data = data and data[: self.registers[LENGTH]]
            self.ask(SET_REGISTERS, ctypes.byref(self.registers))
        if not self.ends_call():
            return False
        if how == "fail":
            self.registers[RESULT] = ctypes.c_ulonglong(-INPUT_OUTPUT_ERROR).value
            self.ask(SET_REGISTERS, ctypes.byref(self.registers))
            return True
        result = self.registers[RESULT]
        if kind == "open" and result < 1 << 31:
            self.files[result], self.places[result] = half, 0
        elif number in (0, 1) and result < 1 << 63:
            self.places[file] = at + result
        elif number == SEEKS:
            self.places[file] = result
        if kind in ("write", "sync"):
            self.events.append(Event(half, kind, at, data))
        return True

    def other_call(self, number):
        """A call that is on neither half."""
        if number == WRITES_LINE and self.registers[FILE] == 1:
            data = self.bytes_at(self.registers[BYTES], self.registers[LENGTH])
            self.events.append(Event(None, "emit", None, data))
        closed = self.registers[FILE] if number == CLOSES else None
        if not self.ends_call():
            return False
        self.files.pop(closed, None)
        return True

    def fault(self, half, kind):
        """What is to happen at this call."""
        for it in self.faults:
            if it.half == half and (self.asked[half] == it.number or it.always and self.asked[half] > it.number):
                return it.how
        return None


def run(program, words, folder, faults):
    """Runs a program in a folder, with these faults."""
    return Traced(program, words, folder, faults).run()
