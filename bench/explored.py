#!/usr/bin/env python3
"""Explores every interleaving of small programs of Java monitor calls on thin locks.

python3 bench/explored.py crates/explored_programs/data/*.program

Each file has one program (docs/FORMATS.md#programs), whose name is that of the file, without its number and its
extension. An end is a state that nothing changes any more: no choice can be made, or each that can leads back to it.
Of each program are told how many states and ends it has, and what the threads have come to there.

A state is a tuple (words, threads, monitors, now, told):
  words     for each object its lock: ("Free",), ("Thin", index, count) or ("Fat", monitor)
  threads   for each thread (place, post, flag, begun, replies); thread k has the index k + 1
  monitors  for each fat monitor (object, owner, holds, entry line, wait set)
  now       the moment; told: how many moments of the clock were told
"""
import itertools
import pathlib
import re
import sys

FREE = ("Free",)
IDLE, AT_POST, GONE = ("Idle",), ("AtPost",), ("Gone",)
OUT = ("Out",)
DEEPEST = 65535  # holds of a fat monitor at most


# ---- reading ----

# The operands of each call: o an object, t a thread, n a number.
SHAPES = {"enter": "o", "exit": "o", "wait": "onn", "notify": "o", "notifyall": "o", "holds": "o",
          "interrupt": "t", "interrupted": "", "isinterrupted": "t", "end": ""}


class Program:
    """A program. Behind its threads stand in `names` its strangers, in the order of the lines: threads that its calls
    name, and that it has not. `opening` has the lines in front of the threads, and `lines` the words of each call."""

    def __init__(self, name):
        self.name, self.monitors, self.indices = name, 0, 0
        self.top = 255  # the highest count of a thin word
        self.objects, self.threads, self.clock = [], [], []
        self.opening, self.lines = [], []
        self.names, self.calls = [], []
        self.spurious = False

    def take_line(self, line):
        head, *rest = line.split(" ")
        if head == "world" and rest[2:] in ([], ["deep"]):
            self.monitors, self.indices = int(rest[0]), int(rest[1])
            self.top = 4095 if rest[2:] else 255
            self.opening.append(line)
        elif head == "object":
            name, _ = rest  # the low byte never changes, so no state has to hold it
            self.objects.append(name)
            self.opening.append(line)
        elif head == "thread":
            (name,) = rest
            self.threads.append(name)
            self.lines.append([])
        elif head == "call" and len(rest) == 1 + len(SHAPES[rest[0]]):
            self.lines[-1].append(rest)
        elif head == "clock" and rest:
            self.clock += [int(word) for word in rest]
        elif head == "spurious":
            (times,) = rest
            self.spurious = int(times) > 0
        else:
            raise ValueError

    def take_calls(self):
        """The calls of each thread, with numbers for names."""
        self.names += self.threads
        self.calls += [[self.number(call) for call in lines] for lines in self.lines]

    def number(self, call):
        def operand(kind, word):
            if kind == "n":
                return int(word)
            if kind == "o":
                return self.objects.index(word)
            if word not in self.names:
                self.names.append(word)
            return self.names.index(word)
        return (call[0], *map(operand, SHAPES[call[0]], call[1:]))


def read(path):
    """The program of a file."""
    program = Program(re.sub("^[0-9]+_", "", pathlib.Path(path).stem))
    with open(path, encoding="ascii", newline="\n") as file:
        for number, line in enumerate(file, 1):
            try:
                program.take_line(line.removesuffix("\n"))
            except (ValueError, LookupError):
                sys.exit(f"explored: {path}: bad line {number}: {line.strip()}")
    if not 0 < len(program.threads) <= program.indices:
        sys.exit(f"explored: {path}: no thread, or too few indices")
    if any(len(set(names)) < len(names) for names in (program.threads, program.objects)):
        sys.exit(f"explored: {path}: a name twice")
    try:
        program.take_calls()
    except ValueError:
        sys.exit(f"explored: {path}: a call with an unknown object or a bad number")
    return program


# ---- what a loaded word calls for ----

def bad_time(call):
    return call[2] < 0 or not 0 <= call[3] <= 999999


def decide(call, lock, me, top):
    name, kind = call[0], lock[0]
    if kind == "Fat":
        return ("Fat", lock[1])
    mine = kind == "Thin" and lock[1] == me
    if name == "enter":
        if kind == "Free":
            return ("Cas",)
        if not mine:
            return ("Spin",)
        return ("Store", ("Thin", me, lock[2] + 1)) if lock[2] < top else ("Bind", lock[2])
    if name == "holds":
        return ("Reply", "Yes" if mine else "No")
    if not mine:
        return ("Reply", "IllegalMonitorState")
    if name == "exit":
        return ("Store", ("Thin", me, lock[2] - 1) if lock[2] > 0 else FREE)
    if name == "wait":
        return ("Reply", "IllegalArgument") if bad_time(call) else ("Bind", lock[2])
    return ("Reply", "Notified")  # notify and notifyall: nobody waits at a thin word


# ---- a state that can be changed, and its steps ----

class World:
    def __init__(self, program, state):
        self.program = program
        words, threads, monitors, self.now, self.told = state
        self.words = list(words)
        self.place, self.post, self.flag, self.begun, self.replies = map(list, zip(*threads))
        self.monitors = list(monitors)

    def state(self):
        threads = tuple(zip(self.place, self.post, self.flag, self.begun, self.replies))
        return (tuple(self.words), threads, tuple(self.monitors), self.now, self.told)

    def live(self, t):
        return t < len(self.place) and self.place[t] != GONE

    # the fat monitors

    def change(self, m, owner, holds, entry, waiting):
        self.monitors[m] = (self.monitors[m][0], owner, holds, entry, waiting)

    def hand_on(self, m):
        _, _, _, entry, waiting = self.monitors[m]
        if not entry:
            self.change(m, None, 0, (), waiting)
            return
        u, post = entry[0], self.post[entry[0]]
        if post[0] == "Entering":
            holds, reply = 1, "Entered"
        else:
            _, _, holds, why = post
            reply = "WaitOver"
            if why == "Interrupted":
                self.flag[u], reply = False, "Interrupted"
        self.post[u] = ("Granted", reply)
        self.change(m, u, holds, entry[1:], waiting)

    def remove(self, u, why):
        _, m, n, _ = self.post[u]
        _, owner, holds, entry, waiting = self.monitors[m]
        self.post[u] = ("Back", m, n, why)
        self.change(m, owner, holds, entry + (u,), tuple(v for v in waiting if v != u))
        if owner is None:
            self.hand_on(m)

    def act(self, t, call, m):
        """The action of a monitor call at m: its reply, or None where it parks."""
        name = call[0]
        _, owner, holds, entry, waiting = self.monitors[m]
        if name == "enter":
            if owner is None:
                self.change(m, t, 1, entry, waiting)
            elif owner != t:
                self.change(m, owner, holds, entry + (t,), waiting)
                self.post[t] = ("Entering", m)
                return None
            elif holds < DEEPEST:
                self.change(m, t, holds + 1, entry, waiting)
            else:
                return "Refused TooDeep"
            return "Entered"
        if name == "holds":
            return "Yes" if owner == t else "No"
        if owner != t:
            return "IllegalMonitorState"
        if name == "exit":
            self.change(m, t, holds - 1, entry, waiting)
            if holds == 1:
                self.hand_on(m)
            return "Exited"
        if name == "wait":
            if bad_time(call):
                return "IllegalArgument"
            if self.flag[t]:
                self.flag[t] = False
                return "Interrupted"
            millis, nanos = call[2:]
            deadline = None if millis == nanos == 0 else self.now + millis * 1000000 + nanos
            self.post[t] = ("Waiting", m, holds, deadline)
            self.change(m, t, holds, entry, waiting + (t,))
            self.hand_on(m)
            return None
        for u in waiting[:1] if name == "notify" else waiting:
            self.remove(u, "Notified")
        return "Notified"

    def act_direct(self, t, call):
        """The action of a call about interrupts."""
        if call[0] == "interrupted":
            was, self.flag[t] = self.flag[t], False
            return "Yes" if was else "No"
        u = call[1]
        if not self.live(u):
            return "Refused NoThread"
        if call[0] == "isinterrupted":
            return "Yes" if self.flag[u] else "No"
        self.flag[u] = True
        if self.post[u][0] == "Waiting":
            self.remove(u, "Interrupted")
        return "Done"

    # the steps

    def reply(self, t, reply):
        self.place[t], self.post[t] = IDLE, OUT
        self.replies[t] += (reply,)

    def begin(self, t):
        call = self.program.calls[t][self.begun[t]]
        self.begun[t] += 1
        if call[0] == "end":
            self.place[t] = ("Ending", 0)
        elif SHAPES[call[0]].startswith("o"):
            self.place[t] = ("Begun", call, False)
        else:
            self.place[t] = ("Direct", call)

    def go(self, t):
        place, me = self.place[t], t + 1
        stage = place[0]
        if stage == "Begun":
            _, call, contended = place
            what = decide(call, self.words[call[1]], me, self.program.top)
            if what[0] == "Reply":
                self.reply(t, what[1])
            else:
                self.place[t] = {"Spin": ("Begun", call, True), "Cas": ("Taking", call[1], contended),
                                 "Store": ("Storing", call, what[-1]), "Bind": ("Binding", call, what[-1]),
                                 "Fat": ("Acting", call, what[-1])}[what[0]]
        elif stage == "Taking":
            _, o, contended = place
            if self.words[o] != FREE:
                self.place[t] = ("Begun", ("enter", o), True)
                return
            self.words[o] = ("Thin", me, 0)
            if contended:
                self.place[t] = ("Won", o)
            else:
                self.reply(t, "Entered")
        elif stage == "Storing":
            _, call, lock = place
            self.words[call[1]] = lock
            self.reply(t, "Entered" if call[0] == "enter" else "Exited")
        elif stage in ("Binding", "Won"):
            won = stage == "Won"
            call, count = (("enter", place[1]), 0) if won else place[1:]
            m = len(self.monitors)
            if m < self.program.monitors:
                self.monitors.append((call[1], t, count + 1, (), ()))
                self.place[t] = ("Bound", call, won, m)
            else:
                self.reply(t, "Entered" if won else "Refused NoMonitor")
        elif stage == "Bound":
            _, call, won, m = place
            self.words[call[1]] = ("Fat", m)
            if won:
                self.reply(t, "Entered")
            else:
                self.place[t] = ("Inflated", call, m)
        elif stage in ("Acting", "Inflated"):
            reply = self.act(t, place[1], place[2])
            if reply is None:
                self.place[t] = AT_POST
            else:
                self.reply(t, reply)
        elif stage == "Direct":
            self.reply(t, self.act_direct(t, place[1]))
        elif stage == "Ending":
            o = place[1]
            if o < len(self.words):
                if self.words[o][:2] == ("Thin", me):
                    self.reply(t, "Refused StillOwner")
                else:
                    self.place[t] = ("Ending", o + 1)
            elif any(monitor[1] == t for monitor in self.monitors):
                self.reply(t, "Refused StillOwner")
            else:
                self.reply(t, "Ended")
                self.place[t], self.flag[t] = GONE, False
        else:  # at its post, and granted
            self.reply(t, self.post[t][1])

    def tick(self):
        self.now = self.program.clock[self.told]
        self.told += 1


# ---- exploring ----

def choices(program, state):
    """The steps that are accepted in this state, each a method of World and its arguments."""
    _, threads, _, now, told = state
    for t, (place, post, _, begun, _) in enumerate(threads):
        if place == IDLE:
            if begun < len(program.calls[t]):
                yield World.begin, t
        elif place == AT_POST:
            if post[0] == "Granted":
                yield World.go, t
            elif post[0] == "Waiting":
                if post[3] is not None and post[3] <= now:
                    yield World.remove, t, "Elapsed"
                if program.spurious:
                    yield World.remove, t, "Spurious"
        elif place != GONE:
            yield World.go, t
    if told < len(program.clock) and program.clock[told] >= now:
        yield (World.tick,)


def explore(program):
    """The ways to the states, how many steps there are between them, and the ends in the order in which they are found.

    The way to a state is the state before it with the choice that is made there, or None where the program begins.
    States are visited in the order in which they are found, and choices tried in that of `choices`. So no way is longer
    than it has to be, and of equally short ones that is kept whose choices come first.
    """
    thread = (IDLE, OUT, False, 0, ())
    first = ((FREE,) * len(program.objects), (thread,) * len(program.threads), (), 0, 0)
    ways, line, steps, ends = {first: None}, [first], 0, []
    for state in line:  # which grows meanwhile
        moved = False
        for choice in choices(program, state):
            step, *arguments = choice
            world = World(program, state)
            step(world, *arguments)
            after, steps = world.state(), steps + 1
            moved = moved or after != state
            if after not in ways:
                ways[after] = state, choice
                line.append(after)
        if not moved:
            ends.append(state)
    return ways, steps, ends


def way_to(ways, state):
    """The way to a state, from where the program begins: each state on it, and what is done there."""
    way = []
    while ways[state] is not None:
        way.append(ways[state])
        state = ways[state][0]
    return way[::-1]


# ---- telling ----

def told_in_runs(replies):
    """Replies in their order; one that comes several times stands once, with how often it came."""
    runs = [(reply, len(list(run))) for reply, run in itertools.groupby(replies)]
    return ", ".join(reply if times == 1 else f"{reply} x{times}" for reply, times in runs) or "-"


def text(program, state):
    words, threads, monitors, _, _ = state
    parts = []
    for name, (place, post, flag, _, replies) in zip(program.threads, threads):
        part = f"{name}: {told_in_runs(replies)}"
        if place[0] == "Begun":  # it spins at the word of another thread
            part += f" stuck enter {program.objects[place[1][1]]}"
        elif place not in (IDLE, GONE):
            o = program.objects[monitors[post[1]][0]]
            if post[0] == "Entering":
                part += f" stuck enter {o}"
            elif post[0] == "Waiting":
                part += f" stuck waits {o} {post[2]}"
            else:
                part += f" stuck back {o} {post[2]}"
        parts.append(part + (" flag" if flag else ""))
    for name, word in zip(program.objects, words):
        owner, holds = None, 0
        if word[0] == "Thin":
            owner, holds = word[1] - 1, word[2] + 1
        elif word[0] == "Fat":
            _, owner, holds, _, _ = monitors[word[1]]
        parts.append(f"{name}: free" if owner is None else f"{name}: {program.threads[owner]} {holds}")
    return " | ".join(parts)


def main():
    for path in sys.argv[1:]:
        program = read(path)
        ways, _, ends = explore(program)
        outcomes = {}
        for state in ends:
            told = text(program, state)
            outcomes[told] = outcomes.get(told, 0) + 1
        print(f"program {program.name}: {len(ways)} states, {len(ends)} ends")
        for told in sorted(outcomes, key=str.encode):
            print(f"  {outcomes[told]} x {told}")


if __name__ == "__main__":
    main()
