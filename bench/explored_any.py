#!/usr/bin/env python3
"""Explores every run of the Java machine itself that small programs of monitor calls leave to it.

python3 bench/explored_any.py crates/explored_programs/data/*.program

It was written from the table of moves in docs/MACHINE.md, and reads the programs as bench/explored.py does. A
refusal for want of a monitor or of memory is no move here. Of each program are told how many states, steps and
ends there are, and what the threads have come to in an end, where no move can be made.

A state is a tuple (threads, monitors, moment, told):
  threads   for each thread (act, flag, calls made, replies returned), its act None once it has ended
  monitors  for each object (owner, count)

A move is a dict: the members of its line in a history (docs/FORMATS.md#histories).
"""
import json
import sys

from explored import read, way_to

IDLE = ("Idle",)
DEEPEST = 65535
OWNERS_CALLS = ("exit", "wait", "notify", "notifyall")
# What a history calls each call, and the members that its operands are.
CALLS = {"enter": ("Enter", "object"), "exit": ("Exit", "object"), "wait": ("Wait", "object", "millis", "nanos"),
         "notify": ("Notify", "object"), "notifyall": ("NotifyAll", "object"), "holds": ("Holds", "object"),
         "interrupt": ("Interrupt", "target"), "interrupted": ("Interrupted",),
         "isinterrupted": ("IsInterrupted", "target"), "end": ("End",)}


def is_good(millis, nanos):
    return millis >= 0 and 0 <= nanos <= 999_999


def with_item(items, at, item):
    return items[:at] + (item,) + items[at + 1:]


def acting(state, t, act, flag=None):
    """The state in which thread t does this."""
    threads, monitors, moment, told = state
    _, was, made, replies = threads[t]
    return with_item(threads, t, (act, was if flag is None else flag, made, replies)), monitors, moment, told


def holding(state, o, owner, count):
    threads, monitors, moment, told = state
    return threads, with_item(monitors, o, (owner, count)), moment, told


def back(state, t, why):
    _, o, holds, _ = state[0][t][0]
    return acting(state, t, ("Back", o, holds, why))


def waiters(state, o):
    return [u for u, thread in enumerate(state[0]) if thread[0] is not None and thread[0][:2] == ("Waits", o)]


def call_move(t, call):
    """The move by which thread t makes this call."""
    name, *members = CALLS[call[0]]
    return {"call": name, "move": "Call", "thread": t, **dict(zip(members, call[1:], strict=True))}


def return_move(t, reply):
    """The move by which a call of thread t returns with this reply."""
    name, *causes = reply.split()
    move = {"move": "Return", "reply": name, "thread": t}
    if causes:
        (move["cause"],) = causes
    return move


def wishes(state, t, call):
    """The moves of thread t, which has made this call, each with the state that it leads to."""
    threads, monitors, moment, _ = state
    kind, flag = call[0], threads[t][1]

    def answered(reply, state=state, flag=None):
        return acting(state, t, ("Has", reply), flag)

    def move(name, after, **members):
        return {"move": name, "thread": t, **members}, after

    def refused(cause):
        return move("Refuse", answered(f"Refused {cause}"), cause=cause)

    def live(u):
        return u < len(threads) and threads[u][0] is not None

    owner, count = monitors[call[1]] if kind in (*OWNERS_CALLS, "enter", "holds") else (None, 0)
    if kind in OWNERS_CALLS and owner != t:
        yield move("Illegal", answered("IllegalMonitorState"))
    elif kind == "enter":
        if owner in (None, t) and count < DEEPEST:
            yield move("Lock", answered("Entered", holding(state, call[1], t, count + 1)))
        elif owner == t:
            yield refused("TooDeep")
    elif kind == "exit":
        yield move("Unlock", answered("Exited", holding(state, call[1], t if count > 1 else None, count - 1)))
    elif kind == "wait":
        _, o, millis, nanos = call
        if not is_good(millis, nanos):
            yield move("BadArgument", answered("IllegalArgument"))
        elif flag:
            yield move("Early", answered("Interrupted", flag=False))
        else:
            time = millis * 1_000_000 + nanos
            over = moment + time if time else None
            yield move("Wait", acting(holding(state, o, None, 0), t, ("Waits", o, count, over)))
    elif kind == "notify":
        waiting = waiters(state, call[1])
        for u in waiting:
            yield move("Notify", answered("Notified", back(state, u, "Notified")), chosen=u)
        if not waiting:
            yield move("Notify", answered("Notified"), chosen=None)
    elif kind == "notifyall":
        for u in waiters(state, call[1]):
            state = back(state, u, "Notified")
        yield move("NotifyAll", answered("Notified", state))
    elif kind == "holds":
        yield move("Ask", answered("Yes" if owner == t else "No"))
    elif kind == "interrupt":
        u = call[1]
        if not live(u):
            yield refused("NoThread")
        else:
            after = back(state, u, "Interrupted") if threads[u][0][0] == "Waits" else state
            after = acting(after, u, after[0][u][0], True)
            yield move("Interrupt", answered("Done", after))
    elif kind == "interrupted":
        yield move("TestClear", answered("Yes" if flag else "No", flag=False))
    elif kind == "isinterrupted":
        u = call[1]
        yield move("Ask", answered("Yes" if threads[u][1] else "No")) if live(u) else refused("NoThread")
    elif kind == "end":
        owns = any(holder == t for holder, _ in monitors)
        yield refused("StillOwner") if owns else move("End", answered("Ended"))


def thread_moves(program, state, t):
    """The moves of thread t, which is live, each with the state that it leads to."""
    threads, monitors, moment, told = state
    act, flag, made, replies = threads[t]
    if act == IDLE:
        if made < len(program.calls[t]):
            call = program.calls[t][made]
            wants = with_item(threads, t, (("Wants", call), flag, made + 1, replies))
            yield call_move(t, call), (wants, monitors, moment, told)
    elif act[0] == "Wants":
        yield from wishes(state, t, act[1])
    elif act[0] == "Waits":
        if act[3] is not None and act[3] <= moment:
            yield {"move": "Expire", "thread": t}, back(state, t, "Elapsed")
        if program.spurious:
            yield {"move": "Spurious", "thread": t}, back(state, t, "Spurious")
    elif act[0] == "Back":
        _, o, holds, why = act
        if monitors[o][0] is None:
            thrown = why == "Interrupted"
            after = acting(state, t, ("Has", "Interrupted" if thrown else "WaitOver"), False if thrown else None)
            yield {"move": "Relock", "thread": t}, holding(after, o, t, holds)
    else:
        reply = act[1]
        after = None if reply == "Ended" else IDLE
        returned = with_item(threads, t, (after, flag if after else False, made, replies + (reply,)))
        yield return_move(t, reply), (returned, monitors, moment, told)


def moves(program, state):
    """The moves that the program leaves to the machine in a state, each with the state that it leads to."""
    threads, monitors, moment, told = state
    for t, thread in enumerate(threads):
        if thread[0] is not None:
            yield from thread_moves(program, state, t)
    if told < len(program.clock) and program.clock[told] >= moment:
        now = program.clock[told]
        yield {"move": "Time", "now": now}, (threads, monitors, now, told + 1)


def beginning(program):
    """The state in which the threads are attached, and nothing else is done."""
    thread = (IDLE, False, 0, ())
    return (thread,) * len(program.threads), ((None, 0),) * len(program.objects), 0, 0


# ---- telling ----

def call_text(program, call):
    kind, *operands = call
    words = [kind]
    for operand in operands:
        is_object = kind in (*OWNERS_CALLS, "enter", "holds") and len(words) == 1
        is_thread = kind in ("interrupt", "isinterrupted")
        words.append(program.objects[operand] if is_object else program.names[operand] if is_thread else str(operand))
    return " ".join(words)


def thread_line(program, thread, name):
    act, flag, _, replies = thread
    line = "".join(f" {reply.replace(' ', '/')}" for reply in replies)
    if act is not None and act[0] == "Wants":
        line += f" stuck {call_text(program, act[1])}"
    elif act is not None and act[0] in ("Waits", "Back"):
        line += f" stuck {act[0].lower()} {program.objects[act[1]]} {act[2]}"
    return f"thread {name}{line}{' interrupted' if flag else ''}"


def cycles(program, state):
    threads, monitors = state[:2]
    follows = {}
    for t, (act, *_) in enumerate(threads):
        o = None
        if act is not None and act[0] == "Wants" and act[1][0] == "enter":
            o = act[1][1]
        elif act is not None and act[0] == "Back":
            o = act[1]
        owner = None if o is None else monitors[o][0]
        if owner is not None and owner != t:
            follows[t] = owner
    for t in follows:
        ring, u = [t], follows[t]
        while u in follows and u not in ring:
            ring.append(u)
            u = follows[u]
        if u == t and t == min(ring):
            yield "cycle " + " ".join(program.threads[v] for v in ring)


def outcome(program, state):
    """The lines of an end, as `thinmon explore --any` writes them."""
    threads, monitors = state[:2]
    lines = [thread_line(program, thread, name) for name, thread in zip(program.threads, threads)]
    for o, (name, (owner, count)) in enumerate(zip(program.objects, monitors)):
        waiting = ",".join(program.threads[u] for u in waiters(state, o)) or "-"
        lines.append(f"object {name} owner {'-' if owner is None else program.threads[owner]} holds {count}"
                     f" waiting {waiting}")
    return tuple([*lines, *cycles(program, state)])


def history(program, way):
    """The lines of a history: how many objects there are, the attaches, and the moves of a way to a state."""
    lines = [{"objects": len(program.objects)}]
    lines += [{"move": "Attach", "thread": t} for t in range(len(program.threads))]
    lines += [move for _, move in way]
    return [json.dumps(line, sort_keys=True, separators=(",", ":")) for line in lines]


def explore(program):
    """How many states and steps there are, and of each outcome how many ends have it, and the history of the first.

    States are visited in the order in which they are found, and moves tried in that of `moves`. So no history is longer
    than it has to be, and of equally short ones that is told whose moves come first.
    """
    first = beginning(program)
    ways, line, steps, outcomes = {first: None}, [first], 0, {}
    for state in line:  # which grows meanwhile
        made = 0
        for move, after in moves(program, state):
            made += 1
            if after not in ways:
                ways[after] = state, move
                line.append(after)
        steps += made
        if not made:
            told = outcome(program, state)
            ends, lines = outcomes.get(told) or (0, history(program, way_to(ways, state)))
            outcomes[told] = ends + 1, lines
    return len(ways), steps, outcomes


def main():
    for path in sys.argv[1:]:
        program = read(path)
        states, steps, outcomes = explore(program)
        print(f"program {program.name} states {states} steps {steps} ends {sum(n for n, _ in outcomes.values())}")
        for told, (ends, _) in sorted(outcomes.items()):
            print(f"  {ends} x " + " | ".join(told))


if __name__ == "__main__":
    main()
