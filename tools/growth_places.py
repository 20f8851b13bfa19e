"""The places in a built program where code of this repository asks for memory, and what stands on the stack there, told from its instructions."""

import array
import bisect
import collections
import pathlib
import re
import subprocess

# What a program asks for memory by, of the kit's C part.
ASKED = {"rattle_alloc", "rattle_realloc"}
FUNCTION = re.compile(r"^([0-9a-f]+) <.*>:$")
STEP = re.compile(r"^ *([0-9a-f]+):\t(\S+) *(.*)$")
TARGET = re.compile(r"^([0-9a-f]+) <")
MOVED = re.compile(r"^\$0x([0-9a-f]+),%rsp$")
HASH = re.compile(r"::<#[0-9a-f]+>")
SEGMENT = re.compile(r"^ *LOAD +\S+ +(0x[0-9a-f]+) +\S+ +\S+ +(0x[0-9a-f]+) +R E ", re.M)


class Program:
    """A program by its functions and the calls in them.

    A place is a call in a function of this repository, told by where it returns to, of a function of the library that asks for memory by
    functions of the library alone. What a function of this repository jumps to in the end is called where that one is. Where the library's
    function stands within that of this repository, its calls are places of their own.

    The functions move the stack pointer where they begin, and then no more but where they end: so what one has on the stack at a call is the
    most that it ever has. That the pointer is a multiple of 16 at each call, as the system has it, is asserted. The few that make it a greater
    multiple themselves are left out: `_start`, and tests of texts, which ask for no memory."""

    def __init__(self, path, top):
        self.path, self.crates = path, {it.name for it in (pathlib.Path(top) / "crates").iterdir()}
        told = subprocess.run(["nm", "--defined-only", path], capture_output=True, text=True, check=True).stdout
        named = (line.split(" ", 2) for line in told.splitlines())
        self.names = {int(at, 16): name for at, kind, name in named if kind in "tTwW"}
        self.starts = sorted(self.names)
        self.calls, self.jumps, self.words, self.aligned = [], set(), collections.Counter(), set()
        self.read_steps()
        asking = self.all_asking()
        self.called = {back: (caller, callee) for back, caller, callee in self.calls if callee in asking and self.is_own(caller)}
        self.places = set(self.called)

    def function_at(self, address):
        """Where the function begins that an address is in; None where there is none."""
        place = bisect.bisect_right(self.starts, address) - 1
        return self.starts[place] if place >= 0 else None

    def is_own(self, function):
        """Whether a function is of this repository."""
        return function is not None and self.names[function].partition("::")[0] in self.crates

    def shown(self, function):
        """A function's name without the numbers of its types."""
        return HASH.sub("", self.names[function])

    def read_steps(self):
        """The calls, each by where it returns to, its function and what that calls, where that is told; what each function jumps to; how many
        words each has on the stack at most; and which make the stack pointer a multiple."""
        told = subprocess.Popen(["objdump", "-d", "--no-show-raw-insn", self.path], stdout=subprocess.PIPE, text=True)
        caller, has_called, callee, deep = None, False, None, 0
        for line in told.stdout:
            step = STEP.match(line)
            if step is None:
                if head := FUNCTION.match(line):
                    caller, has_called, deep = self.function_at(int(head[1], 16)), False, 0
                continue
            at, name, what = step.groups()
            if has_called:
                self.calls.append((int(at, 16), caller, callee))
            target = TARGET.match(what)
            callee, has_called = target and self.function_at(int(target[1], 16)), name == "call"
            if name == "jmp" and callee not in (None, caller):
                self.jumps.add((caller, callee))
            if name == "and" and what.endswith(",%rsp"):
                self.aligned.add(caller)
            deep = 0 if name == "ret" else deep + moved(name, what)
            self.words[caller] = max(self.words[caller], deep)

    def frames(self):
        """The table of what stands on the stack: a number for each address of the text, 0 or one more than the words."""
        told = subprocess.run(["readelf", "-lW", self.path], capture_output=True, text=True, check=True).stdout
        start, size = (int(word, 16) for word in SEGMENT.search(told).groups())
        table = array.array("H", bytes(2 * size))
        for back, caller, _ in self.calls:
            if caller not in self.aligned:
                assert self.words[caller] % 2, f"{self.names[caller]} has {self.words[caller]} words on the stack"
                table[back - start] = self.words[caller] + 1
        return table

    def all_asking(self):
        """The functions that ask for memory: those of the library that reach it by such, and who jumps to one."""
        callers = collections.defaultdict(set)
        for caller, callee in {(caller, callee) for _, caller, callee in self.calls if not self.is_own(caller)} | self.jumps:
            callers[callee].add(caller)
        asking = {at for at, name in self.names.items() if name in ASKED}
        left = list(asking)
        while left:
            for caller in callers[left.pop()] - asking:
                asking.add(caller)
                left.append(caller)
        return asking

    def met(self, stacks):
        """The places of these stacks, whose places are addresses with the innermost first."""
        own = (next((at for at in stack if self.is_own(self.function_at(at))), None) for stack in stacks)
        return {at for at in own if at is not None}

    def named(self, places):
        """The names of the functions of some places, each with that of what it calls there."""
        return {tuple(map(self.shown, self.called[place])) for place in places}


def lines(named):
    """What to write of functions with what they call: one line for each."""
    by_function = collections.defaultdict(set)
    for caller, callee in named:
        by_function[caller].add(callee)
    for caller, callees in sorted(by_function.items()):
        yield f"{caller}: {', '.join(sorted(callees))}"


def moved(name, what):
    """By how many words an instruction moves the stack pointer down."""
    if name in ("push", "pop"):
        return 1 if name == "push" else -1
    size = MOVED.match(what)
    return (1 if name == "sub" else -1) * int(size[1], 16) // 8 if size and name in ("sub", "add") else 0
