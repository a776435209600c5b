"""Works out the history of a script from its report, and from nothing else of this repository.

    python3 bench/histories.py x.script x.report > x.history

The report says of each step what it did and what it replied. Which moves that is, is told here
again, with entry lines and wait sets of its own: who is granted a monitor, and whom a notify takes
out of a wait set, no report shows. The histories of `crates/played_examples/data` were worked out
by this script, before those of `thinmon run --moves` were compared with them.
"""

import json
import pathlib
import sys

# What the reply of a load or of an action tells that the call did.
REPLIED = {
    "IllegalMonitorState": "Illegal",
    "IllegalArgument": "BadArgument",
    "Yes": "Ask",
    "No": "Ask",
    "Entered": "Lock",
    "Exited": "Unlock",
    "Interrupted": "Early",
    "Done": "Interrupt",
    "Ended": "End",
}
CALLS = {
    "enter": "Enter",
    "exit": "Exit",
    "wait": "Wait",
    "notify": "Notify",
    "notifyall": "NotifyAll",
    "holds": "Holds",
    "interrupt": "Interrupt",
    "interrupted": "Interrupted",
    "isinterrupted": "IsInterrupted",
    "end": "End",
}


class Monitor:
    """Who owns an object, how often, and who stands in its entry line and its wait set."""

    def __init__(self):
        self.owner = None
        self.holds = 0
        # Threads, each with the holds that it is to have, and whether it was in a wait.
        self.entering = []
        # Threads, each with the holds that it gave up.
        self.waiting = []


class History:
    """The moves of a script so far."""

    def __init__(self, objects):
        self.objects = objects
        self.monitors = [Monitor() for _ in objects]
        self.threads = []
        self.calls = {}
        self.lines = [{"objects": len(objects)}]

    def thread(self, name):
        if name not in self.threads:
            self.threads.append(name)
        return self.threads.index(name)

    def object(self, name):
        return self.objects.index(name) if name in self.objects else len(self.objects)

    def move(self, move, thread, **members):
        self.lines.append({"move": move, "thread": thread, **members})

    def hand_on(self, monitor):
        """A monitor without owner goes to the first of its entry line."""
        if monitor.owner is None and monitor.entering:
            thread, holds, was_waiting = monitor.entering.pop(0)
            monitor.owner, monitor.holds = thread, holds
            self.move("Relock" if was_waiting else "Lock", thread)

    def leave_wait_set(self, thread):
        """The thread stands in the entry line then; it may be in no wait set."""
        for monitor in self.monitors:
            for waiter in [w for w in monitor.waiting if w[0] == thread]:
                monitor.waiting.remove(waiter)
                monitor.entering.append((*waiter, True))
                return monitor
        return None

    def end_wait(self, move, thread):
        self.move(move, thread)
        self.hand_on(self.leave_wait_set(thread))

    def begin(self, thread, words):
        call, rest = CALLS[words[0]], words[1:]
        self.calls[thread] = (call, rest)
        members = {}
        if call in ("Interrupt", "IsInterrupted"):
            members["target"] = self.thread(rest[0])
        elif rest:
            members["object"] = self.object(rest[0])
        if call == "Wait":
            members["millis"], members["nanos"] = int(rest[1]), int(rest[2])
        self.move("Call", thread, call=call, **members)

    def go(self, thread, act, reply):
        """A Go did this to words or monitors, and replied, or not."""
        call, rest = self.calls[thread]
        if act[0] == "act" and act[1] != "Collect":
            self.act(thread, act[1], reply)
        elif act[0] == "won":
            self.own(thread, 1)
            self.move("Lock", thread)
        elif act[0] == "store" and not self.is_fat(act[3]):
            self.own(thread, 1 if call == "Enter" else -1)
            self.move("Lock" if call == "Enter" else "Unlock", thread)
        elif act[0] in ("load", "nobind") and reply:
            self.answered(thread, act[0], call, reply)
        if reply and reply != "parked":
            self.reply(thread, reply)

    @staticmethod
    def is_fat(word):
        return int(word, 16) >= 0x8000_0000

    def answered(self, thread, act, call, reply):
        """A load replied, or a bind that came to nothing: an enter that won is entered already."""
        if reply.startswith("Refused "):
            self.move("Refuse", thread, cause=reply.split()[1])
        elif act == "load" and reply == "Notified":
            members = {"chosen": None} if call == "Notify" else {}
            self.move(call, thread, **members)
        elif act == "load":
            self.move(REPLIED[reply], thread)

    def reply(self, thread, reply):
        words = reply.split()
        members = {"cause": words[1]} if len(words) > 1 else {}
        self.move("Return", thread, reply=words[0], **members)

    def monitor(self, thread):
        return self.monitors[self.object(self.calls[thread][1][0])]

    def own(self, thread, more):
        monitor = self.monitor(thread)
        monitor.holds += more
        monitor.owner = thread if monitor.holds else None
        return monitor

    def act(self, thread, action, reply):
        """An action on a fat monitor or on an interrupt flag."""
        if reply.startswith("Refused "):
            self.move("Refuse", thread, cause=reply.split()[1])
        elif action == "Enter" and reply == "parked":
            self.monitor(thread).entering.append((thread, 1, False))
        elif action == "Wait" and reply == "parked":
            monitor = self.monitor(thread)
            monitor.waiting.append((thread, monitor.holds))
            monitor.owner, monitor.holds = None, 0
            self.move("Wait", thread)
            self.hand_on(monitor)
        elif action == "Notify" and reply == "Notified":
            waiting = self.monitor(thread).waiting
            chosen = waiting[0][0] if waiting else None
            self.move("Notify", thread, chosen=chosen)
            self.leave_wait_set(chosen)
        elif action == "NotifyAll" and reply == "Notified":
            self.move("NotifyAll", thread)
            for waiter in list(self.monitor(thread).waiting):
                self.leave_wait_set(waiter[0])
        elif action == "Interrupted":
            self.move("TestClear", thread)
        else:
            self.move(REPLIED[reply], thread)
            if reply == "Entered":
                self.own(thread, 1)
            elif reply == "Exited":
                self.hand_on(self.own(thread, -1))
            elif reply == "Done":
                monitor = self.leave_wait_set(self.thread(self.calls[thread][1][0]))
                if monitor:
                    self.hand_on(monitor)


def step(history, words, line):
    """A step and the line of the report that it has."""
    thread = None if words[0] in ("tick", "relayout") else history.thread(words[1])
    if words[0] == "begin" and words[2] in ("interrupt", "isinterrupted"):
        history.thread(words[3])
    if line.startswith("fault ") or words[0] == "relayout":
        return
    if words[0] == "attach":
        history.move("Attach", thread)
    elif words[0] == "begin":
        history.begin(thread, words[2:])
    elif words[0] == "go":
        act, _, reply = line.partition(" = ")
        history.go(thread, act.split()[2:], reply)
    elif words[0] == "tick":
        history.lines.append({"move": "Time", "now": int(words[1])})
    else:
        history.end_wait({"expire": "Expire", "spurious": "Spurious"}[words[0]], thread)


def main():
    script, report = (pathlib.Path(name).read_text().splitlines() for name in sys.argv[1:3])
    rows = [line.split() for line in script[1:]]
    history = History([words[1] for words in rows if words[0] == "object"])
    steps = [words for words in rows if words[0] != "object"]
    for words, line in zip(steps, report):
        step(history, words, line)
    for line in history.lines:
        print(json.dumps(line, sort_keys=True, separators=(",", ":")))


if __name__ == "__main__":
    main()
