#!/usr/bin/env python3
"""Whether `thinmon explore` tells of each program what a second explorer finds.

python3 orders/explored.py THINMON

The programs are those of `crates/explored_programs/data`, those of `orders/strangers`, whose calls name threads that
the program has not, and those of `orders/choices`, where the Java machine may choose what the service never does; each
is a file. The second explorer is `bench/explored.py`, which was written from the rules and not from the code. Of each
program are compared how many states and steps it has, its outcomes in their order with how many ends have each, and the
script of each, line by line: of the shortest ones that whose choices come first. Each script is then played by
`thinmon run`, and has to come to the replies and the objects of that outcome.

With `--moves` the same outcomes have to be told, each with the history that `thinmon run --moves` writes of its
script, but for the numbers of threads that the program has not, and `thinmon check` has to find the moves of that
history a run. In the histories of `orders/strangers` such threads have the numbers of the program, and in what is
written of the scripts other ones.

With `--any` the second explorer is `bench/explored_any.py`, which explores the Java machine itself. Compared are how
many states and steps there are, the outcomes in their order with how many ends have each, and the history of each, line
by line: of the shortest ones that whose moves come first. No script is played, since there is none. `thinmon check` has
to find the moves of each history a run, and the calls have to return in it with the replies of its outcome. Threads
that the program has not stand there with the numbers of the program.

Each outcome of the core in which nothing was refused for want of a monitor or of memory has to be among those of the
machine. Where the core never refuses anything so, the machine has outcomes that the core has not just in the programs
of `orders/choices`.
"""
import itertools
import json
import pathlib
import re
import subprocess
import sys

sys.dont_write_bytecode = True

ROOT = pathlib.Path(__file__).resolve().parent.parent
sys.path.insert(0, str(ROOT / "bench"))
import explored  # noqa: E402
import explored_any  # noqa: E402

STRANGERS = ROOT / "orders/strangers"
CHOICES = ROOT / "orders/choices"
FOLDERS = (ROOT / "crates/explored_programs/data", STRANGERS, CHOICES)


def thread_line(program, thread, monitors, name):
    place, post, flag, _, replies = thread
    line = "".join(f" {reply.replace(' ', '/')}" for reply in replies)
    if place[0] == "Begun":
        line += f" stuck enter {program.objects[place[1][1]]}"
    elif place not in (explored.IDLE, explored.GONE):
        o = program.objects[monitors[post[1]][0]]
        if post[0] == "Entering":
            line += f" stuck enter {o}"
        else:
            line += f" stuck {'waits' if post[0] == 'Waiting' else 'back'} {o} {post[2]}"
    return f"thread {name}{line}{' interrupted' if flag else ''}"


def owner_of(word, monitors):
    if word[0] == "Thin":
        return word[1] - 1, word[2] + 1
    if word[0] == "Fat":
        return monitors[word[1]][1], monitors[word[1]][2]
    return None, 0


def wanted(program, thread, monitors):
    """The object that a thread is to lock, if it is to lock one."""
    place, post = thread[0], thread[1]
    if place[0] == "Begun":
        return place[1][1]
    if place[0] == "AtPost" and post[0] in ("Entering", "Back"):
        return monitors[post[1]][0]
    return None


def cycles(program, state):
    words, threads, monitors, _, _ = state
    follows = {}
    for t, thread in enumerate(threads):
        o = wanted(program, thread, monitors)
        owner = None if o is None else owner_of(words[o], monitors)[0]
        if owner is not None and owner != t:
            follows[t] = owner
    found = []
    for t in follows:
        ring, u = [t], follows[t]
        while u in follows and u not in ring:
            ring.append(u)
            u = follows[u]
        if u == t and t == min(ring):
            found.append("cycle " + " ".join(program.threads[v] for v in ring))
    return found


def outcome(program, state):
    words, threads, monitors, _, _ = state
    lines = [thread_line(program, thread, monitors, name) for name, thread in zip(program.threads, threads)]
    for o, (name, word) in enumerate(zip(program.objects, words)):
        owner, holds = owner_of(word, monitors)
        waiting = [n for n, t in zip(program.threads, threads)
                   if t[1][0] == "Waiting" and monitors[t[1][1]][0] == o]
        lines.append(f"object {name} owner {'-' if owner is None else program.threads[owner]} holds {holds}"
                     f" waiting {','.join(waiting) or '-'}")
    return tuple(lines + cycles(program, state))


def step_line(program, state, choice):
    """The line of a script for the step that a choice means in a state."""
    step, *arguments = choice
    if step == explored.World.tick:
        return f"tick {program.clock[state[4]]}"
    t, *why = arguments
    name = program.threads[t]
    if step == explored.World.begin:
        return f"begin {name} {' '.join(program.lines[t][state[1][t][3]])}"
    if step == explored.World.go:
        return f"go {name}"
    return f"{'expire' if why == ['Elapsed'] else 'spurious'} {name}"


def script(program, way):
    """The lines of a script: the world with its objects, the attaches, and the steps of a way to a state."""
    attaches = [f"attach {name}" for name in program.threads]
    return [*program.opening, *attaches, *(step_line(program, state, choice) for state, choice in way)]


def explore(program):
    """How many states and steps there are, and of each outcome how many ends have it, and the script of the first."""
    ways, steps, ends = explored.explore(program)
    outcomes = {}
    for state in ends:
        told = outcome(program, state)
        count, lines = outcomes.get(told) or (0, script(program, explored.way_to(ways, state)))
        outcomes[told] = count + 1, lines
    return len(ways), steps, outcomes


def parts_of(report, form):
    """The counts of a report, and its outcomes: how many ends, the lines, and the script or history of each."""
    lines = report.split("\n")
    counts, parts, at = lines[0], [], 1
    while lines[at]:
        head, at = lines[at].split(), at + 1
        told = []
        while not lines[at].startswith(f"{form} "):
            told.append(lines[at])
            at += 1
        count = int(lines[at].split()[1])
        parts.append((int(head[1]), int(head[3]), tuple(told), lines[at + 1:at + 1 + count]))
        at += 1 + count
    assert lines[at:] == [""], f"more behind the last outcome: {lines[at:]}"
    return counts, parts


def compare_outcomes(parts, outcomes):
    """The outcomes of a report are those of a second explorer, each with how many ends have it, and with its script or
    history; and they stand in the order in which they are found (docs/FORMATS.md#what-comes-of-a-program)."""
    assert [number for number, _, _, _ in parts] == list(range(1, len(outcomes) + 1)), "not so many outcomes"
    assert {told: ends for _, ends, told, _ in parts} == {told: ends for told, (ends, _) in outcomes.items()}
    assert [told for _, _, told, _ in parts] == list(outcomes), "outcomes in another order"
    for _, _, told, lines in parts:
        assert lines == outcomes[told][1], f"another script or history of {told}: {lines}"


def replies_of(line):
    """The replies that the line of a thread tells: all that stands before where it is stuck, or interrupted."""
    return list(itertools.takewhile(lambda word: word not in ("stuck", "interrupted"), line.split()[2:]))


def compare_replies(program, told, replies):
    """The lines of an outcome tell just these replies of each thread."""
    lines = [line for line in told if line.startswith("thread ")]
    assert [line.split()[1] for line in lines] == program.threads, lines
    for line in lines:
        assert replies_of(line) == replies[line.split()[1]], line


def written(words, text):
    """What a program writes that reads this text."""
    return subprocess.run(words, input=text, text=True, capture_output=True, check=True, timeout=300).stdout


def text_of(lines):
    return "".join(line + "\n" for line in lines)


def played(thinmon, lines):
    """What a script comes to: the replies of each thread, and the lines of the objects without their words."""
    replies, objects = {}, []
    for line in written([thinmon, "run"], text_of(lines)).split("\n"):
        words = line.split()
        if words[:1] == ["attach"]:
            replies[words[1]] = []
        elif words[:1] == ["object"]:
            objects.append(" ".join(words[:2] + words[3:]))
        elif words[:1] == ["fault"]:
            raise ValueError(f"a step of the script is refused: {line}")
        elif " = " in line and not line.endswith(" = parked"):
            replies[words[1]].append("/".join(line.split(" = ")[1].split()))
    return replies, objects


def names_of(program, lines):
    """The names of the threads by the numbers of a script: in the order in which its lines have them."""
    names = list(program.threads)
    for words in map(str.split, lines):
        call = words[2:] if words[0] == "begin" else []
        if call and explored.SHAPES[call[0]] == "t" and call[1] not in names:
            names.append(call[1])
    return names


def renumbered(line, from_names, to_names):
    """A line of a history whose target has its number in the one list, with its number in the other."""
    return re.sub(r'"target":(\d+)', lambda found: f'"target":{to_names.index(from_names[int(found[1])])}', line)


def compare_histories(thinmon, program, text, counts, parts):
    """The same outcomes with histories: those of the scripts, but that strangers have the numbers of the program; and
    each a run. Whether all have other numbers than their scripts."""
    told, histories = parts_of(written([thinmon, "explore", "--moves"], text), "history")
    assert told == counts, told
    assert [part[:3] for part in histories] == [part[:3] for part in parts], "other outcomes with histories"
    others = True
    for (_, _, _, lines), (_, _, _, history) in zip(parts, histories, strict=True):
        again = written([thinmon, "run", "--moves"], text_of(lines)).split("\n")
        assert again.pop() == "", "a last line without its end"
        names = names_of(program, lines)
        assert [renumbered(line, names, program.names) for line in again] == history, "another history"
        others = others and again != history
        assert written([thinmon, "check"], text_of(history)) == f"run of {len(history) - 1} moves\n"
    return others


def returned(program, history):
    """The replies with which the calls of each thread return in a history."""
    replies = {name: [] for name in program.threads}
    for line in map(json.loads, history[1:]):
        if line["move"] == "Return":
            cause = f"/{line['cause']}" if "cause" in line else ""
            replies[program.threads[line["thread"]]].append(line["reply"] + cause)
    return replies


def is_refused_for_want(told):
    """Whether a call was refused in an outcome for want of a monitor or of memory."""
    return any(f"Refused/{cause}" in line.split() for line in told for cause in ("NoMonitor", "Memory"))


def compare_any(thinmon, program, text, core):
    """Compares what is told of a program on the Java machine; `core` has the outcomes of the core, by their lines.

    Whether the machine has outcomes that the core has not, though the core refuses nothing for want."""
    report = written([thinmon, "explore", "--any"], text)
    assert written([thinmon, "explore", "--any", "--moves"], text) == report, "--moves changes what --any tells"
    counts, parts = parts_of(report, "history")
    states, steps, outcomes = explored_any.explore(program)
    assert counts == f"states {states} steps {steps}", counts
    compare_outcomes(parts, outcomes)
    for _, _, told, history in parts:
        assert written([thinmon, "check"], text_of(history)) == f"run of {len(history) - 1} moves\n"
        compare_replies(program, told, returned(program, history))
    for told in core:
        assert told in outcomes or is_refused_for_want(told), f"an outcome of the core is none of the machine: {told}"
    return not any(map(is_refused_for_want, core)) and any(told not in core for told in outcomes)


def compare(thinmon, program, text):
    """Compares what is told of a program.

    Whether all its histories have other numbers than their scripts, and whether the machine has outcomes that the core
    has not, though the core refuses nothing for want."""
    counts, parts = parts_of(written([thinmon, "explore"], text), "script")
    states, steps, outcomes = explore(program)
    assert counts == f"states {states} steps {steps}", counts
    compare_outcomes(parts, outcomes)
    for _, _, told, lines in parts:
        replies, objects = played(thinmon, lines)
        compare_replies(program, told, replies)
        assert objects == [line for line in told if line.startswith("object ")], objects
    more = compare_any(thinmon, program, text, outcomes)
    return compare_histories(thinmon, program, text, counts, parts), more


def compare_file(thinmon, file):
    """Compares what is told of the program of a file, or tells the program in which something differs."""
    program = explored.read(file)
    try:
        others, more = compare(thinmon, program, file.read_text())
        assert others == (file.parent == STRANGERS), "whether strangers have other numbers in a script"
        assert more == (file.parent == CHOICES), "whether the machine chooses what the core never does"
    except subprocess.CalledProcessError as error:
        raise SystemExit(f"explored: {program.name}: {error}\n{error.stderr}")
    except (AssertionError, LookupError, ValueError, subprocess.TimeoutExpired) as error:
        raise SystemExit(f"explored: {program.name}: {error}")


def main():
    (thinmon,) = sys.argv[1:]
    count = 0
    for folder in FOLDERS:
        files = sorted(folder.glob("*.program"))
        if not files:
            raise SystemExit(f"explored: no program in {folder}")
        for file in files:
            compare_file(thinmon, file)
        count += len(files)
    print(f"explored: {count} programs as the second explorer finds them")


if __name__ == "__main__":
    main()
