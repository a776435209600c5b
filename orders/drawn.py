#!/usr/bin/env python3
"""Whether `thinmon draw` says of each example what the rules say.

python3 orders/drawn.py THINMON

Each script of `crates/played_examples/data` is drawn, a column for each step, and each history with `--moves`, a
column for each move; each whole, and some windows of it with `--from` and `--to`. The picture has to be XML as Python's
parser reads it, and the words of its titles and its cycles have to be those that the moves give by the rules of
`docs/MACHINE.md`, which are told here again. Which moves a step makes is worked out by `bench/histories.py` from the
script's report; so are refusals and header words, from what the report tells of loads and stores and by the layout of
`docs/SERVICE.md`.
"""
import collections
import json
import pathlib
import subprocess
import sys
import xml.etree.ElementTree

sys.dont_write_bytecode = True

ROOT = pathlib.Path(__file__).resolve().parent.parent
sys.path.insert(0, str(ROOT / "bench"))
import histories  # noqa: E402

DATA = ROOT / "crates/played_examples/data"
WHY = {"Notified": "notified", "Interrupted": "interrupted", "Elapsed": "its time is over", "Spurious": "spurious"}
OF_OBJECTS = {"enter", "exit", "wait", "notify", "notifyall", "holds"}
ANSWERS = {
    "Illegal": "IllegalMonitorState",
    "BadArgument": "IllegalArgument",
    "Early": "Interrupted",
    "Notify": "Notified",
    "NotifyAll": "Notified",
    "Interrupt": "Done",
    "End": "Ended",
}


class Names:
    """What threads and objects are called: by a script's names, or by their numbers."""

    def __init__(self, threads=None, objects=None):
        self.threads, self.objects = threads, objects

    def thread(self, number):
        return self.threads[number] if self.threads is not None else f"thread {number}"

    def object(self, number):
        return self.objects[number] if self.objects is not None else f"object {number}"

    def call(self, move):
        words = [move["call"].lower()]
        if "object" in move:
            words.append(self.object(move["object"]).split()[-1])
        if "target" in move:
            words.append(self.thread(move["target"]).split()[-1])
        if move["call"] == "Wait":
            words += [str(move["millis"]), str(move["nanos"])]
        return " ".join(words)


class Column:
    """The moves of a step, what is refused in it, and the header words behind it by object."""

    def __init__(self, moves, refused=None, words=None):
        self.moves, self.refused, self.words = moves, refused, words


class Words:
    """The header words of a script's objects, by what its report tells."""

    # Where the index of a thin lock begins, and how many counts it has.
    SPLITS = {"wide": (16, 256), "deep": (20, 4096)}

    def __init__(self, split, lows):
        self.split, self.words, self.bound = split, list(lows), 0

    def take(self, objects, words, line):
        parts = line.partition(" = ")[0].split()
        if words[0] == "relayout" and parts[0] == "relayout":
            self.words = [self.respelled(words[1], word) for word in self.words]
            self.split = words[1]
        elif parts[0] == "go" and parts[2] in ("won", "store"):
            self.words[objects.index(parts[3])] = int(parts[5], 16)
        elif parts[0] == "go" and parts[2] == "bind":
            self.bound += 1

    def respelled(self, split, word):
        if split == self.split or word < 256 or word >= 0x8000_0000:
            return word
        shift, counts = self.SPLITS[self.split]
        index, count = word >> shift, word // 256 % counts
        new_shift, new_counts = self.SPLITS[split]
        if count >= new_counts:
            self.bound += 1
            return 0x8000_0000 + (self.bound - 1) * 256 + word % 256
        return (index << new_shift) + count * 256 + word % 256


def word_words(word):
    if word >= 0x8000_0000:
        return f"{word:08X} fat {(word - 0x8000_0000) // 256}"
    return f"{word:08X} {'free' if word < 256 else 'thin'}"


class Machine:
    """What each thread does, with its flag, and who owns each object."""

    def __init__(self):
        self.acts, self.flags = {}, {}
        self.owners = collections.defaultdict(lambda: (None, 0))

    def wakes(self, move):
        """Whom a notify takes out of the wait set, or an interrupt meets."""
        act = self.acts.get(move.get("thread"), ("idle",))
        call = act[1] if act[0] == "wants" else None
        if move["move"] == "Notify":
            return "wakes", [move["chosen"]] if move["chosen"] is not None else []
        if move["move"] == "NotifyAll":
            return "wakes", self.waiting(call["object"])
        if move["move"] == "Interrupt":
            return "interrupts", [call["target"]]
        return None, []

    def waiting(self, o):
        return sorted(t for t, act in self.acts.items() if act[0] == "waits" and act[1] == o)

    def used(self):
        """The objects that what a thread does names, or that have an owner."""
        for act in self.acts.values():
            if act[0] in ("waits", "back"):
                yield act[1]
            elif act[0] == "wants" and "object" in act[1]:
                yield act[1]["object"]
        for o, (owner, _) in self.owners.items():
            if owner is not None:
                yield o

    def next(self, thread):
        """The owner of the object that a thread wants to enter or comes back to, if that is another one."""
        act = self.acts.get(thread, ("idle",))
        if act[0] == "back":
            owner = self.owners[act[1]][0]
        elif act[0] == "wants" and act[1]["call"] == "Enter":
            owner = self.owners[act[1]["object"]][0]
        else:
            return None
        return None if owner == thread else owner

    def cycles(self):
        """The cycles of owners, each from its lowest thread on."""
        for start in sorted(self.acts):
            cycle, at = [start], self.next(start)
            while at is not None and at > start and at not in cycle:
                cycle.append(at)
                at = self.next(at)
            if at == start:
                yield cycle

    def leave(self, thread, why):
        act = self.acts[thread]
        if act[0] == "waits":
            self.acts[thread] = ("back", act[1], act[2], why)

    def make(self, move):
        name, t = move["move"], move.get("thread")
        act = self.acts.get(t)
        if name == "Attach":
            self.acts[t], self.flags[t] = ("idle",), False
        elif name == "Call":
            self.acts[t] = ("wants", move)
        elif name == "Return":
            self.acts[t] = ("idle",)
            if move["reply"] == "Ended":
                del self.acts[t], self.flags[t]
        elif name == "Lock":
            self.owners[act[1]["object"]] = (t, self.owners[act[1]["object"]][1] + 1)
            self.acts[t] = ("has", "Entered")
        elif name == "Unlock":
            count = self.owners[act[1]["object"]][1] - 1
            self.owners[act[1]["object"]] = (t, count) if count else (None, 0)
            self.acts[t] = ("has", "Exited")
        elif name == "Wait":
            o = act[1]["object"]
            self.acts[t] = ("waits", o, self.owners[o][1])
            self.owners[o] = (None, 0)
        elif name in ("Expire", "Spurious"):
            self.leave(t, "Elapsed" if name == "Expire" else "Spurious")
        elif name == "Relock":
            self.owners[act[1]] = (t, act[2])
            is_thrown = act[3] == "Interrupted"
            self.acts[t] = ("has", "Interrupted" if is_thrown else "WaitOver")
            self.flags[t] &= not is_thrown
        elif name == "Refuse":
            self.acts[t] = ("has", "Refused " + move["cause"])
        elif name in ("Ask", "TestClear"):
            self.answer(t, act[1])
        elif name != "Time":
            self.meet(name, t, move, act)

    def answer(self, t, call):
        if call["call"] == "Holds":
            is_so = self.owners[call["object"]][0] == t
        else:
            is_so = self.flags[call.get("target", t)]
            self.flags[t] &= call["call"] != "Interrupted"
        self.acts[t] = ("has", "Yes" if is_so else "No")

    def meet(self, name, t, move, act):
        _, others = self.wakes(move)
        for other in others:
            self.leave(other, "Interrupted" if name == "Interrupt" else "Notified")
        if name == "Interrupt":
            self.flags[act[1]["target"]] = True
        if name == "Early":
            self.flags[t] = False
        self.acts[t] = ("has", ANSWERS[name])


def said(names, thread, act):
    t = names.thread(thread)
    if act[0] == "idle":
        return f"{t} is in no call"
    if act[0] == "wants":
        return f"{t} wants {names.call(act[1])}"
    if act[0] == "waits":
        return f"{t} waits on {names.object(act[1])}, gave up {act[2]}"
    if act[0] == "back":
        return f"{t} back from {names.object(act[1])} ({WHY[act[3]]}), holds {act[2]}"
    return f"{t} has reply {act[1]}"


def stretches(values, first):
    """Each value that stands for a while, with its first and its last column."""
    at = 0
    while at < len(values):
        end = at
        while end < len(values) and values[end] == values[at]:
            end += 1
        yield values[at], at + first, end + first - 1
        at = end


def titles_of(names, columns, first=1, last=None):
    """The titles of a picture of these columns in a window, in no order, and its cycles."""
    machine, titles = Machine(), collections.Counter()
    acts, flags, kept = (collections.defaultdict(list) for _ in range(3))
    for column in columns[: first - 1]:
        for move in column.moves:
            machine.make(move)
    columns = columns[first - 1 : last]
    moves = [move for column in columns for move in column.moves]
    threads = sorted({*machine.acts, *(move["thread"] for move in moves if move["move"] == "Attach")})
    objects = sorted({*machine.used(), *(move["object"] for move in moves if "object" in move)})
    for number, column in enumerate(columns, first):
        if column.refused:
            titles[f"{column.refused}, column {number}"] += 1
        for move in column.moves:
            titles.update(told(names, machine, threads, number, move))
            machine.make(move)
        for thread in threads:
            acts[thread].append((machine.acts.get(thread), machine.flags.get(thread, False)))
        for o in objects:
            kept[o].append((machine.owners[o], column.words[o] if column.words else None))
    for thread in threads:
        for (act, is_interrupted), begin, end in stretches(acts[thread], first):
            if act is not None:
                titles[f"{said(names, thread, act)}, columns {begin} to {end}"] += 1
            if is_interrupted:
                titles[f"{names.thread(thread)} interrupted, columns {begin} to {end}"] += 1
    for o in objects:
        titles.update(strip_titles(names, o, stretches(kept[o], first)))
    cycles = [" ".join(["cycle", *map(names.thread, cycle)]) for cycle in machine.cycles()]
    return titles, cycles


def told(names, machine, threads, number, move):
    """The titles of a move that is to be made: its arrows, and its mark."""
    verb, others = machine.wakes(move)
    t = names.thread(move["thread"]) if "thread" in move else None
    for other in others:
        if other in threads:
            yield f"{t} {verb} {names.thread(other)}, column {number} to {number}"
    if move["move"] == "Call":
        yield f"{t} calls {names.call(move)}, column {number}"
    elif move["move"] == "Return":
        reply = " ".join([move["reply"], *([move["cause"]] if "cause" in move else [])])
        yield f"{t} returns with {reply}, column {number}"
    elif move["move"] == "Time":
        yield f"{move['now']} ns"


def strip_titles(names, o, spans):
    """The titles of a strip, of the bars of its owners, and of what they hand over."""
    yield names.object(o)
    before = None
    for ((owner, count), word), begin, end in spans:
        columns = f"columns {begin} to {end}"
        if word is not None:
            yield f"{names.object(o)} has word {word_words(word)}, {columns}"
        if owner is None:
            yield f"{names.object(o)} is free, {columns}"
            continue
        # One in the strip, and one for the bar in the owner's lane.
        for _ in range(2):
            yield f"{names.thread(owner)} owns {names.object(o)} x{count}, {columns}"
        if before is not None and before[0] != owner:
            t = names.thread(before[0])
            yield f"{t} hands over to {names.thread(owner)}, column {before[1]} to {begin}"
        before = (owner, end + 1)


def drawn(program, words, path):
    made = subprocess.run([program, "draw", *words, path], capture_output=True, timeout=60, check=False)
    if made.returncode != 0 or made.stderr:
        return None, f"status {made.returncode}, {made.stderr.decode()}"
    return made.stdout, None


def differs(picture, names, columns, first, last):
    """Why a picture is not that of these columns in a window, or nothing."""
    root = xml.etree.ElementTree.fromstring(picture)
    space = "{http://www.w3.org/2000/svg}"
    if root.tag != f"{space}svg" or not picture.endswith(b"</svg>\n"):
        return "no SVG"
    if [root.get("width"), root.get("height")] != root.get("viewBox").split()[2:]:
        return "its size"
    told = collections.Counter(title.text for title in root.iter(f"{space}title"))
    told -= collections.Counter(["Monitors"])
    wanted, cycles = titles_of(names, columns, first, last)
    if told != wanted:
        return f"missing {list(wanted - told)[:4]}, too many {list(told - wanted)[:4]}"
    lines = ["".join(line.itertext()) for line in root.iter(f"{space}text") if line.get("class") == "cycle"]
    if lines != cycles:
        return f"the cycles {lines}, and not {cycles}"
    return None


def script_columns(path):
    """A column for each step of a script, and its names."""
    script = path.read_text().splitlines()
    report = path.with_suffix(".report").read_text().splitlines()
    rows = [line.split() for line in script[1:]]
    objects = [words for words in rows if words[0] == "object"]
    history = histories.History([words[1] for words in objects])
    lows = [int(words[2], 16) if len(words) > 2 else 0 for words in objects]
    kept = Words("deep" if script[0].endswith(" deep") else "wide", lows)
    columns = []
    for words, line in zip([words for words in rows if words[0] != "object"], report):
        before = len(history.lines)
        histories.step(history, words, line)
        kept.take(history.objects, words, line)
        columns.append(Column(history.lines[before:], refused(history.objects, words, line), list(kept.words)))
    return columns, Names(history.threads, history.objects)


def refused(objects, words, line):
    """What is said of a step that is refused. An object that no line declares has no name."""
    if not line.startswith("fault "):
        return None
    if words[0] == "begin" and words[2] in OF_OBJECTS and words[3] not in objects:
        words = [*words[:3], "-", *words[4:]]
    return f"{' '.join(words)} is refused: {line.split()[2]}"


def windows(count):
    """Some windows of so many columns, the whole first."""
    yield 1, None
    if count > 1:
        yield count // 2 + 1, None
        yield count // 3 + 1, max(count // 3 + 1, 2 * count // 3)
        yield count, count + 7


def main():
    program, wrong, count = sys.argv[1], 0, 0
    for path in sorted(DATA.glob("*.script")):
        if path.with_suffix(".report").exists():
            columns, names = script_columns(path)
            wrong += judged(program, [], path, names, columns)
            count += 1
    for path in sorted(DATA.glob("*.history")):
        columns = [Column([json.loads(line)]) for line in path.read_text().splitlines()[1:]]
        wrong += judged(program, ["--moves"], path, Names(), columns)
        count += 1
    print(f"drawn: {count} examples, {wrong} differ")
    sys.exit(1 if wrong or not count else 0)


def judged(program, words, path, names, columns):
    for first, last in windows(len(columns)):
        window = ["--from", str(first)] if first > 1 else []
        window += ["--to", str(last)] if last is not None else []
        picture, fault = drawn(program, [*words, *window], path)
        fault = fault or differs(picture, names, columns, first, last)
        if fault:
            print(f"drawn: {path.name} {' '.join(window)}: {fault}")
            return 1
    return 0


if __name__ == "__main__":
    main()
