"""Refuses each allocation of some tests in turn, and tells whether they pass.

    python3 bench/refused_growths.py [CRATE ..]

The tests named below look at what comes of a refused allocation: the right answer or want of memory, and no other; what
was handed in comes back, and the same succeeds when it is tried again. Each is to pass whichever allocation is refused.

`rt try --test --fail-alloc M` refuses the Mth allocation of every test. So each test is written M times into a copy of
the crates: the Nth makes M - N allocations first, so that the Nth of the test itself is refused, and one more at its
end. Where that last one is refused, and says so, the test itself made just N - 1, each of which was refused before.
Where none says so, M is doubled, and what was refused already is left out. The script runs for some minutes, and for
hours over the larger explorations of text_tests; it proves nothing.
"""

import pathlib
import re
import shutil
import subprocess
import sys
import tempfile

ROOT = pathlib.Path(__file__).resolve().parent.parent
FIRST_MOST = 64
MET_NONE = "it met no refusal"
BEHIND = f"""    if Vec::<u8>::with_capacity(rt.alloc(), 1).is_err() {{
        return Err(std::test::Fail::from("{MET_NONE}"));
    }}
"""

TESTS = {
    "core_tests": {
        "indices": ["what_was_refused_succeeds_when_tried_again"],
        "worlds::memory": [
            "what_was_refused_succeeds_when_tried_again",
            "a_refused_relayout_succeeds_when_tried_again",
            "an_enter_that_won_stays_though_its_bind_is_refused",
            "a_refused_copy_is_made_when_tried_again",
        ],
        "machines::memory": ["a_crowd_with_refused_growths_is_judged_alike"],
    },
    "word_tests": {
        "headers::memory": ["what_was_refused_comes_back_and_succeeds_again"],
    },
    "live_tests": {
        "threads::memory": ["what_was_refused_comes_back_and_succeeds_again"],
    },
    "order_tests": {
        "memory": ["refused_words_are_read_when_tried_again"],
    },
    "text_tests": {
        "bad_lines": ["a_bad_line_is_told_whichever_request_is_refused"],
        "drawings": [
            "a_refused_drawing_succeeds_when_tried_again",
            "a_refused_drawing_of_moves_succeeds_when_tried_again",
        ],
        "explorations": [
            "a_refused_exploration_of_a_deadlock_succeeds_when_tried_again",
            "a_refused_exploration_of_a_deadlock_with_histories_succeeds_when_tried_again",
            "a_refused_exploration_of_a_deadlock_on_the_machine_succeeds_when_tried_again",
            "a_refused_exploration_of_a_timed_wait_succeeds_when_tried_again",
            "a_refused_exploration_of_a_timed_wait_with_histories_succeeds_when_tried_again",
            "a_refused_exploration_of_a_timed_wait_on_the_machine_succeeds_when_tried_again",
        ],
        "memory": [
            "a_refused_run_succeeds_when_tried_again",
            "a_refused_history_succeeds_when_tried_again",
            "a_refused_dump_succeeds_when_tried_again",
            "a_refused_check_succeeds_when_tried_again",
            "a_refused_check_of_escapes_succeeds_when_tried_again",
            "a_refused_check_of_a_crowd_succeeds_when_tried_again",
            "a_refused_live_run_succeeds_when_tried_again",
            "a_refused_print_succeeds_when_tried_again",
            "a_refused_line_is_written_when_tried_again",
            "a_refused_play_succeeds_when_tried_again",
            "a_refused_play_of_a_text_succeeds_when_tried_again",
        ],
        "programs": [
            "a_refused_exploration_succeeds_when_tried_again",
            "a_refused_exploration_with_histories_succeeds_when_tried_again",
            "a_refused_exploration_of_the_machine_succeeds_when_tried_again",
        ],
    },
}


def copies(text, test, tried, most):
    """The test in the text of a module, once for each of its allocations behind those tried, which is refused there."""
    head, end = f"fn {test}(rt: HostRuntime) -> Result<(), std::test::Fail> {{\n", "    Ok(())\n}\n"
    # (a test that hands no fault out returns nothing)
    found = rf"^fn {test}\(rt: HostRuntime\)(?: -> Result<\(\), Fail>)? {{\n(.*?)(?:    Ok\(\(\)\)\n)?^}}\n"
    body = re.search(found, text, re.DOTALL | re.MULTILINE).group(1)
    for refused in range(tried + 1, most + 1):
        before = f"    for _ in 0..{most - refused} {{\n        Vec::<u8>::with_capacity(rt.alloc(), 1)?;\n    }}\n"
        name = head.replace(test, f"{test}_{refused}")
        yield f"\n#[test]\n{name}{before}{body}{BEHIND}{end}"


def results(crate, left, tried, most):
    """What is said of each test of a crate, by name, where those that are left are written once for each allocation
    behind those tried."""
    with tempfile.TemporaryDirectory() as folder:
        top = pathlib.Path(folder)
        shutil.copytree(ROOT / "crates", top / "crates", ignore=shutil.ignore_patterns("out"))
        for file in ("crates.txt", "HANDLES"):
            shutil.copy(ROOT / file, top)
        for module in TESTS[crate]:
            tests = [test for where, test in left if where == module]
            file = top / "crates" / crate / "src" / (module.replace("::", "/") + ".rt")
            text = file.read_text()
            file.write_text(text + "".join(it for test in tests for it in copies(text, test, tried, most)))
        words = ["rt", "try", "--test", "--fail-alloc", str(most)]
        run = subprocess.run(words, cwd=top / "crates" / crate, capture_output=True, text=True)
    said = re.split(r"^test (\S+) \.\.\. ", run.stdout + run.stderr, flags=re.MULTILINE)
    if len(said) < 3:
        sys.exit(f"{crate}: no test ran\n{said[0]}")
    return dict(zip(said[1::2], said[2::2]))


def ends_well(crate, test, said, tried, most):
    """Whether a test passes with each of its allocations refused; None where there may be more of them."""
    for refused in range(tried + 1, most + 1):
        words = said[f"{test}_{refused}"]
        if MET_NONE in words:
            print(f"{crate}: {test} passes with each of its {refused - 1} allocations refused")
            return True
        if not words.startswith("ok"):
            print(f"{crate}: {test} fails where allocation {refused} is refused: {words}")
            return False
    return None


def main():
    wrong = 0
    for crate in sys.argv[1:] or TESTS:
        left = [(module, test) for module, tests in TESTS[crate].items() for test in tests]
        tried, most = 0, FIRST_MOST
        while left:
            said = results(crate, left, tried, most)
            found = {(module, test): ends_well(crate, f"{module}::{test}", said, tried, most) for module, test in left}
            wrong += sum(end is False for end in found.values())
            left = [test for test, end in found.items() if end is None]
            tried, most = most, 2 * most
    sys.exit(1 if wrong else 0)


if __name__ == "__main__":
    main()
