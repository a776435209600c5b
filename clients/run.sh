#!/usr/bin/env bash
# Builds the library for C, and builds and runs the clients over it, as C, as C++ and from Rust: the core
# (client), what it refuses (refused), and the live service (live). It needs no rights, and says what it
# skips where a compiler is missing. `run.sh time` prints what a step of the core costs, and a pair of calls
# of the live service. `run.sh gate FOLDER`, which the merge run calls, does the same as `run.sh` alone, over
# the library that stands in a copy of the crates in that folder.
# `run.sh compile` compares the header with the exports and compiles the clients, and no more.
set -euo pipefail
cd "$(dirname "$0")/.."
kit=$(dirname "$(rt doc)")
made=$(mktemp -d)
trap 'rm -rf "$made"' EXIT
strict=(-O2 -Wall -Wextra -Werror -pedantic -Iinclude -pthread)
clients=(client refused live)
# The memory of the host is that of clients/host_memory.h.
host=(-Wl,--wrap=malloc -Wl,--wrap=realloc -Wl,--wrap=free)

has() {
    command -v "$1" >/dev/null || { echo "skipped: no $1"; return 1; }
}

if has python3; then
    python3 clients/compare_header.py
fi
if [ "${1:-}" = compile ]; then
    for client in "${clients[@]}"; do
        if has "${CC:-cc}"; then
            "${CC:-cc}" -std=c11 "${strict[@]}" -c clients/$client.c -o "$made/$client.o"
        fi
        if has "${CXX:-c++}"; then
            "${CXX:-c++}" -std=c++11 "${strict[@]}" -x c++ -c clients/$client.c -o "$made/$client.o"
        fi
    done
    echo "the clients compile"
    exit
fi
root=.
if [ "${1:-}" = gate ]; then
    root=${2:?gate wants the folder of a copy}
else
    (cd crates/nadkhoy_c && rt lib)
fi
archive=$root/crates/nadkhoy_c/out/libnadkhoy_c.a

if has "${CC:-cc}"; then
    for client in "${clients[@]}"; do
        "${CC:-cc}" -std=c11 "${strict[@]}" clients/$client.c "$archive" "$kit/c/liblibc_c.a" \
            "${host[@]}" -o "$made/$client"
        timeout 120 "$made/$client" "${@:1:1}"
    done
fi
if has "${CXX:-c++}"; then
    for client in "${clients[@]}"; do
        "${CXX:-c++}" -std=c++11 "${strict[@]}" -x c++ clients/$client.c -x none "$archive" \
            "$kit/c/liblibc_c.a" "${host[@]}" -o "$made/${client}_as_cpp"
        timeout 120 "$made/${client}_as_cpp"
    done
fi
if has cargo && cargo --version >/dev/null; then
    cp "$archive" "$made/"
    cp "$kit/c/liblibc_c.a" "$made/liblibc_c.a"
    RUSTFLAGS="-D warnings -L native=$made" CARGO_TARGET_DIR="$made/target" \
        timeout 300 cargo run --quiet --offline --manifest-path clients/rust/Cargo.toml
fi
