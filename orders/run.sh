#!/usr/bin/env bash
# Runs `thinmon`, as `rt ci` has just left it by each of its two compilers, and compares what `rt ci`
# does not: what it writes on standard error, and how it ends on more than one order.
#
# A folder here that has `args` is an order: `args` has the words behind the program's name, one a line, `stdin`
# what it reads there, `stdout` and `stderr` what it has to write (nothing, where there is no such file), and
# `status` its exit status (0, where there is none). Its other files lie where the program runs. Any other folder is
# one that `explored.py` names: it has programs to be explored.
#
# A line of `words` is an order that finds no file: the status, the words, and texts that have to be in
# what is written, which is on standard output for status 0, and else on standard error.
set -euo pipefail
cd "$(dirname "$0")"
made=$(mktemp -d)
trap 'rm -rf "$made"' EXIT
: >"$made/nothing"
failed=0
passed=0

# Runs the program on some words, in a folder: the status is in `status`, and what it writes in the files
# written and told.
order() {
    local room=$1 input=$2
    shift 2
    status=0
    (cd "$room" && timeout 60 "$program" "$@" >"$made/written" 2>"$made/told") <"$input" || status=$?
}

# Tells whether an order went well, and counts it.
judge() {
    if [ "$1" = well ]; then
        passed=$((passed + 1))
    else
        failed=$((failed + 1))
        echo "orders: $2 of ${program##*/}: status $status"
        cut -c -1000 "$made/written" "$made/told"
    fi
}

file_or() {
    if [ -f "$1" ]; then echo "$1"; else echo "$2"; fi
}

run_folders() {
    local folder words wanted
    for folder in */; do
        folder=${folder%/}
        if [ ! -f "$folder/args" ]; then
            if ! grep -qF "\"orders/$folder\"" explored.py; then
                : >"$made/written"
                : >"$made/told"
                status=none
                judge wrong "the folder $folder, which has no args and no programs for explored.py,"
            fi
            continue
        fi
        mapfile -t words <"$folder/args"
        wanted=$(cat "$(file_or "$folder/status" /dev/null)")
        order "$folder" "$(file_or "$folder/stdin" /dev/null)" "${words[@]}"
        if [ "$status" = "${wanted:-0}" ] &&
            cmp -s "$made/written" "$(file_or "$folder/stdout" "$made/nothing")" &&
            cmp -s "$made/told" "$(file_or "$folder/stderr" "$made/nothing")"; then
            judge well
        else
            judge wrong "the order $folder"
        fi
    done
}

# Whether each text is in a file.
has_all() {
    local file=$1 text
    shift
    for text in "$@"; do
        grep -qF -- "$text" "$file" || return 1
    done
}

run_words() {
    local wanted line parts words texts other
    while IFS='|' read -r wanted line parts; do
        read -ra words <<<"$line"
        IFS='|' read -ra parts <<<"$parts"
        order "$made" /dev/null "${words[@]}"
        texts=written other=told
        if [ "$wanted" != 0 ]; then texts=told other=written; fi
        if [ "$status" = "$wanted" ] && has_all "$made/$texts" "${parts[@]}" &&
            [ ! -s "$made/$other" ]; then
            judge well
        else
            judge wrong "the words '$line'"
        fi
    done <words
}

# A word that is no text: a byte that no UTF-8 has.
run_bytes() {
    order "$made" /dev/null run $'\xff.script'
    if [ "$status" = 2 ] && [ ! -s "$made/written" ] &&
        [ "$(cat "$made/told")" = "thinmon: a word of the command line is not text" ]; then
        judge well
    else
        judge wrong "a word that is no text"
    fi
}

# A writer that has no room.
run_full() {
    status=0
    "$program" run <moves/stdin >/dev/full 2>"$made/told" || status=$?
    : >"$made/written"
    if [ "$status" = 1 ] && [ "$(cat "$made/told")" = "thinmon: write failed" ]; then
        judge well
    else
        judge wrong "a report without room"
    fi
}

# A text so many times.
times() {
    seq "$2" | sed "s/.*/$1/"
}

# A live script with so many holds. With two it comes to 65,536 deeds, as many as the record has places.
#
# Three deeds come first: the interrupt, the bind of the wait, and the wait, which is interrupted at once. Each
# call behind them is one. An enter needs three free places: its own, and one of them is kept for its exit. So the
# last enter finds four: its own, the one that it keeps, and one for each of two holds.
record_script() {
    printf '%s\n' 'world 1 1' 'object a A5' 'attach x'
    printf 'begin x %s\n' 'interrupt x' 'enter a' 'wait a 0 0'
    times 'begin x exit a\nbegin x enter a' 32765
    times 'begin x holds a' "$1"
    printf 'begin x exit a\n'
}

# What comes of it, with these words between the replies of two holds and that of the exit.
record_text() {
    printf 'thread x Done Entered Interrupted'
    times ' Exited Entered' 32765 | tr -d '\n'
    printf ' Yes Yes%s Exited\nobject a 800000A5\nactions 65536\n' "$1"
}

# A live run whose last deed takes the last place of the record, and one with a deed more: a third holds is told that
# the record is full, and the owner can leave all the same.
run_record() {
    local holds full=
    for holds in 2 3; do
        record_script "$holds" >"$made/record.script"
        record_text "$full" >"$made/wanted"
        order "$made" /dev/null live record.script
        if [ "$status" = 0 ] && cmp -s "$made/written" "$made/wanted" && [ ! -s "$made/told" ]; then
            judge well
        else
            judge wrong "a live run with a full record and $holds holds"
        fi
        full=' fault/16/RecordFull'
    done
}

# Programs that are explored, beside a second explorer, where there is a Python to run it.
run_explored() {
    command -v python3 >/dev/null || { echo "skipped: the second explorer, since there is no python3"; return; }
    status=0
    python3 explored.py "$program" >"$made/written" 2>"$made/told" || status=$?
    if [ "$status" = 0 ]; then judge well; else judge wrong "the programs that are explored"; fi
}

# Progress of an exploration, at a terminal and elsewhere, where there is a Python that has one.
run_progress() {
    command -v python3 >/dev/null || { echo "skipped: progress, since there is no python3"; return; }
    status=0
    python3 progress.py "$program" >"$made/written" 2>"$made/told" || status=$?
    if [ "$status" = 0 ]; then
        grep '^skipped' "$made/written" || true
        judge well
    else
        judge wrong "progress"
    fi
}

# The examples, drawn, and read by another reader of XML, where there is a Python to run it.
run_drawn() {
    command -v python3 >/dev/null || { echo "skipped: the drawn examples, since there is no python3"; return; }
    status=0
    python3 drawn.py "$program" >"$made/written" 2>"$made/told" || status=$?
    if [ "$status" = 0 ]; then judge well; else judge wrong "the examples that are drawn"; fi
}

# The pictures of the examples are, byte for byte, those that were recorded, and docs/pictures has three of them.
run_pictures() {
    local script name drawn=$made/pictures
    mkdir -p "$drawn"
    for script in ../crates/played_examples/data/*.script; do
        name=$(basename "$script" .script)
        "$program" draw "$script" >"$drawn/$name.svg" 2>"$made/told" || true
    done
    if (cd "$drawn" && LC_ALL=C sha256sum -- *.svg) | diff - pictures.sums >"$made/written" 2>"$made/told"; then
        judge well
    else
        judge wrong "the recorded pictures"
    fi
    for name in ../docs/pictures/*.svg; do
        if cmp "$name" "$drawn/$(basename "$name")" >"$made/written" 2>"$made/told"; then
            judge well
        else
            judge wrong "the picture $name"
        fi
    done
}

for program in ../crates/thinmon/out/thinmon ../crates/thinmon/out/thinmon.by-rattle; do
    [ -x "$program" ] || { echo "orders: ${program##*/} is not there: run rt ci first"; exit 1; }
    program=$(realpath "$program")
    run_folders
    run_words
    run_bytes
    run_full
    run_record
    run_explored
    run_progress
    run_drawn
    run_pictures
done
echo "orders: $passed as wanted, $failed not"
[ "$failed" = 0 ]
