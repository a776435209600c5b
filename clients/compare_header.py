#!/usr/bin/env python3
"""Compares include/nadkhoy.h with the Rattle side: each number of its enums, each field of its
structs and slots, and the parameters of each function."""
import re
import sys
from pathlib import Path

TOP = Path(__file__).resolve().parent.parent
HEADER = (TOP / "include/nadkhoy.h").read_text()
CRATE = TOP / "crates/nadkhoy_c"

# The enum of the header, and the function of specs/ that has its numbers.
TABLES = {
    "split": ("split_of", "Reading"),
    "reply": ("reply_number", "Writing"),
    "action": ("action_number", "Writing"),
    "answer": ("answer_number", "Writing"),
    "atomic_kind": ("plain_atomic", "Writing"),
    "move_kind": ("plain_move", "Writing"),
    "call_kind": ("plain_call", "Writing"),
    "doing_kind": ("plain_doing", "Showing"),
    "why": ("why_number", "Showing"),
    "step_kind": ("step_from_numbers", "Reading"),
    "standing": ("standing_number", "Live"),
    "deed_kind": ("deed_by", "Ends"),
}
STRUCTS = {
    "call": "PlainCall",
    "step_in": "PlainStep",
    "atomic": "PlainAtomic",
    "move": "PlainMove",
    "did": "PlainDid",
    "sizes_shown": "PlainSizes",
    "object_shown": "PlainObject",
    "doing": "PlainDoing",
    "thread_shown": "PlainThread",
    "turned": "PlainTurned",
    "end_shown": "PlainEnd",
    "deed": "PlainDeed",
    "pass": "PlainPass",
}
TYPES = {"u64": "uint64_t", "u32": "uint32_t", "u16": "uint16_t"}
TYPES |= {"i64": "int64_t", "i32": "int32_t"}
TYPES |= {rattle: f"nadkhoy_{name}" for name, rattle in STRUCTS.items()}
# The slots, each with what has its pointer, and the folder of both.
SLOTS = {
    "slot": ("WorldSlot", "RawWorld", ""),
    "live_slot": ("LiveSlot", "RawSeat", "live/"),
    "end_slot": ("EndSlot", "RawEnd", "ends/"),
}
TYPES |= {slot: f"nadkhoy_{name}" for name, (slot, _, _) in SLOTS.items()}


def constant(name):
    """A name of Rattle as the header spells it: NotifyAll is NOTIFY_ALL."""
    return re.sub(r"(?<!^)(?=[A-Z])", "_", name).upper()


# In a definition by tests: the number that is tested, and what it names.
TEST = re.compile(r"(?:p\.kind|\bn) == (\d+) then (?:Some )?\(?(?:step\.)?(\w+)")
# In a definition by cases: the number that a case has.
NUMBER = re.compile(r"\bkind = (\d+)|\b(?:of_thread|plain_call_about|on_word) (\d+)|^ (\d+)$")


def spec_numbers(function, module):
    text = re.sub(r"\n +", " ", (CRATE / f"specs/{module}.antt").read_text())
    if module == "Reading":
        body = re.search(rf"(?m)^{function} \w+ =(.*)$", text)[1]
        names = [(constant(name), int(number)) for number, name in TEST.findall(body)]
        return {"BEGIN" if name == "BEGIN_OF" else name: number for name, number in names}
    found = {}
    for name, body in re.findall(rf"(?m)^{function} \(?\w+\.(\w+)[^=]*=(.*)$", text):
        numbers = NUMBER.findall(body)
        if numbers:
            found[constant(name)] = int("".join(numbers[0]))
    return found


def header_enum(name):
    body = re.search(rf"enum nadkhoy_{name} \{{(.*?)\}};", HEADER, re.S)[1]
    return {key: int(value) for key, value in re.findall(r"NADKHOY_(\w+) = (\d+)", body)}


def without_prefix(numbers, prefix):
    return {key.removeprefix(prefix): value for key, value in numbers.items()}


def enum_of_source(path, name):
    body = re.search(rf"pub enum {name} \{{(.*?)\n\}}", (TOP / path).read_text(), re.S)[1]
    return {constant(key): int(value) for key, value in re.findall(r"(\w+) = (\d+),", body)}


def numbers_differ():
    for name, (function, module) in TABLES.items():
        ours = without_prefix(header_enum(name), constant_prefix(name))
        theirs = spec_numbers(function, module)
        # These are not written by a number of their own line.
        theirs |= {
            "atomic_kind": {"LABEL": 0},
            "doing_kind": {"WAITS": 3},
            "deed_kind": {"ACTED": 2},
        }.get(name, {})
        yield name, ours, theirs
    cause = enum_of_source("crates/fat_monitor/src/actions.rt", "Cause")
    yield "cause", without_prefix(header_enum("cause"), "CAUSE_"), cause
    fault = enum_of_source("crates/step_core/src/steps.rt", "Fault")
    fault["NOT_LIVE"] = fault.pop("NO_THREAD")
    fault["MISSING_OBJECT"] = fault.pop("NO_OBJECT")
    fault |= enum_of_source("crates/step_core/src/worlds/relayout.rt", "RelayoutFault")
    fault |= enum_of_source("crates/nadkhoy_c/src/status.rt", "Status")
    live = enum_of_source("crates/live_book/src/faults.rt", "LiveFault")
    for name in ("NO_OBJECT", "NO_THREAD"):
        live[f"LIVE_{name}"] = live.pop(name)
    fault |= live
    yield "status", header_enum("status"), fault


def constant_prefix(name):
    return name.removesuffix("_kind").upper() + "_"


def header_struct(name):
    struct = rf"typedef struct nadkhoy_{name} \{{(.*?)\}} nadkhoy_{name};"
    return re.search(struct, HEADER, re.S)[1]


def source_struct(source, name):
    return re.search(rf"pub struct {name} \{{(.*?)\n\}}", source, re.S)[1]


def fields_differ():
    source = (CRATE / "src/plain.rt").read_text()
    for name, rattle in STRUCTS.items():
        body = header_struct(name)
        ours = re.findall(r"(?m)^    (\w+) (\w+(?:\[\d\])?);", body)
        body = source_struct(source, rattle)
        theirs = []
        for field, kind in re.findall(r"pub (\w+): ([^,]+),", body):
            many = re.fullmatch(r"\[(\w+); (\d)\]", kind)
            theirs.append((TYPES[many[1]], f"{field}[{many[2]}]") if many else (TYPES[kind], field))
        yield name, ours, theirs


def laid_out(path, name):
    """The types of the fields of a struct, but for what takes no bytes: allocators and ghosts."""
    body = source_struct((CRATE / path).read_text(), name)
    kinds = re.findall(r"(?m)^    (?:pub(?:\(crate\))? )?\w+: ([^{\n]+),$", body)
    return [kind for kind in kinds if kind != "Global"]


def slots_differ():
    for name, (slot, raw, folder) in SLOTS.items():
        ours = re.findall(r"(?m)^    (void \*|bool )\w+;", header_struct(name))
        theirs = []
        for kind in laid_out(f"src/{folder}slot.rt", slot):
            theirs += laid_out(f"src/{folder}raw.rt", raw) if kind == raw else [kind]
        spelled = {"*mut ()": "void *", "bool": "bool "}
        yield name, ours, [spelled[kind] for kind in theirs]


def parameters_differ():
    source = "".join((CRATE / f"src/{name}.rt").read_text() for name in ("lib", "live", "ends"))
    for name, inside in re.findall(r'extern "C" fn (nadkhoy_\w+)\(([^)]*)\) -> u32', source):
        theirs = []
        for field, kind in re.findall(r"(\w+): ([^,]+)", inside):
            if kind == "&[u8]":
                theirs += ["const uint8_t *", "size_t "]
            elif kind.startswith("&mut "):
                theirs.append(TYPES[kind[5:]] + " *")
            elif kind.startswith("&"):
                theirs.append("const " + TYPES[kind[1:]] + " *")
            elif kind != "Global":
                theirs.append(TYPES[kind] + " ")
        found = re.search(rf"(?m)^uint32_t {name}\(([^)]*)\);", HEADER)
        inside = found[1].split(",") if found else []
        ours = [re.sub(r"\w+$", "", " ".join(it.split())) for it in inside]
        yield name, ours, theirs


def main():
    compared, wrong = 0, 0
    for pairs in (numbers_differ(), fields_differ(), slots_differ(), parameters_differ()):
        for name, ours, theirs in pairs:
            compared += 1
            if ours != theirs or not ours:
                wrong += 1
                print(f"{name}: the header has {ours}, the library {theirs}", file=sys.stderr)
    print(f"{compared} compared, {wrong} differ")
    return 1 if wrong or compared != 52 else 0


sys.exit(main())
