#!/bin/bash
# Tests the library for C that scripts/library.sh built in out/lib/, and the callers in bindings/: the header, the example
# (also under valgrind, and with each request for memory refused in turn), threads, wrong arguments (bindings/c/wrong.c), and
# the answers of bindings/cases.json in C, Python and Rust. What is not built, or what the machine lacks, is counted as
# skipped. The last line is 'N passed, M failed'.
set -uo pipefail
source "$(dirname "${BASH_SOURCE[0]}")/lib.sh"
compiler=${CC:-cc}
lib=$PWD/out/lib
skipped=0

skip() {
    echo "bindings: $1: skipped: $2"
    skipped=$((skipped + 1))
}

# Ends the script with the lines of counts.
end() {
    echo "bindings: skipped: $skipped"
    finish
}

# Runs a command, and counts it as this.
try() {
    local status=0
    "${@:2}" > "$room/said" 2>&1 || status=$?
    if [ "$status" -eq 0 ]; then pass; return; fi
    fail "$1" "status $status"
    tail -n 20 "$room/said" | sed 's/^/  /'
}

has() { command -v "$1" > "$room/said"; }

# Compiles the header by itself, as C and as C++.
headers() {
    local text='#include "filterset.h"
int main(void) { filterset parsed = {0}; filterset_free(&parsed); return (int)filterset_fault_count(NULL); }'
    echo "$text" > "$room/header.c" && cp "$room/header.c" "$room/header.cc"
    if ! has "$compiler"; then skip "the header" "there is no C compiler"; return; fi
    try "the header in C" "$compiler" -std=c99 -Wall -Wextra -Wpedantic -Werror -Ibindings/c -c "$room/header.c" -o "$room/header.o"
    if ! has "${CXX:-c++}"; then skip "the header in C++" "there is no C++ compiler"; return; fi
    try "the header in C++" "${CXX:-c++}" -std=c++11 -Wall -Wextra -Wpedantic -Werror -Ibindings/c -c "$room/header.cc" -o "$room/header.o"
}

# Returns whether no source is newer than the library.
is_current() { ! find crates crates.txt -name out -prune -o -type f -newer "$lib/libfilterset.so" -print -quit | grep .; }

# Compares the functions of the header with those that the shared library exports.
exports() {
    sed -n 's/^[a-z0-9_]* \(filterset_[a-z_]*\)(.*/\1/p' bindings/c/filterset.h | sort -u > "$room/declared"
    nm -D --defined-only "$lib/libfilterset.so" | sed -n 's/.* T \([a-z].*\)/\1/p' | sort > "$room/exported"
    diff "$room/declared" "$room/exported"
}

example() { "$@" "$room/example" "$metadata" 'deps(parser) and not test(~slow)' 'kind(bin)' 'and(a, b)'; }

# Compares what the example writes with what it should.
example_writes() {
    cat > "$room/wanted" << 'END'
deps(parser) and not test(~slow)
  tests::deep: yes
  tests::slow_sum: no
kind(bin)
  no test
and(a, b)
  0, 3: ExprFoundBinaryOp: `and` is a binary operator
  3, 6: ExpectedEndOfExpression: unparsed input
END
    example "$@" > "$room/wrote" && diff "$room/wanted" "$room/wrote"
}

# Refuses each request for memory of the example in turn: it writes what it should, or ends with a status, having written a
# beginning of that.
example_refused() {
    local at status
    for ((at = 1; at <= 20000; at++)); do
        example env REFUSE_AT="$at" LD_PRELOAD="$room/refuse.so" > "$room/wrote" 2> "$room/errors"
        status=$?
        if [ "$status" -eq 0 ]; then cmp "$room/wanted" "$room/wrote" || return 1; fi
        if [ "$status" -gt 2 ]; then echo "request $at: status $status"; return 1; fi
        head -c "$(stat -c %s "$room/wrote")" "$room/wanted" | cmp - "$room/wrote" || return 1
        if [ "$status" -eq 1 ] && ! grep -q '^status 1$' "$room/errors"; then echo "request $at: not out of memory"; return 1; fi
        if grep -q '^no request was refused$' "$room/errors"; then return "$status"; fi
    done
    return 1
}

in_c() {
    local valgrind=(valgrind -q --error-exitcode=99 --leak-check=full --errors-for-leak-kinds=all)
    metadata=crates/filterset/data/cargo-metadata.json
    try "the example in C" "$compiler" -std=c99 -O2 -Wall -Wextra -Wpedantic -Werror -Ibindings/c bindings/c/example.c \
        "$lib/libfilterset.a" -o "$room/example"
    try "what the example writes" example_writes
    if has valgrind; then try "the example under valgrind" example_writes "${valgrind[@]}"; else skip "the example under valgrind" "there is no valgrind"; fi
    try "tools/refuse.c" "$compiler" -O1 -shared -fPIC -o "$room/refuse.so" tools/refuse.c
    try "the example with refused memory" example_refused
}

on_threads() {
    try "threads in C" "$compiler" -std=c99 -O2 -Wall -Wextra -Wpedantic -Werror -Ibindings/c bindings/c/threads.c \
        "$lib/libfilterset.a" -pthread -o "$room/threads"
    try "filtersets on threads" "$room/threads"
    if ! has valgrind; then skip "races" "there is no valgrind"; return; fi
    try "filtersets on threads under helgrind" valgrind -q --tool=helgrind --error-exitcode=99 "$room/threads"
    try "filtersets on threads under memcheck" valgrind -q --error-exitcode=99 --leak-check=full --errors-for-leak-kinds=all "$room/threads"
}

with_wrong_arguments() {
    try "wrong arguments in C" "$compiler" -std=c99 -O2 -Wall -Wextra -Wpedantic -Werror -Ibindings/c bindings/c/wrong.c \
        "$lib/libfilterset.a" -o "$room/wrong"
    try "the statuses of wrong arguments" "$room/wrong"
}

# Returns whether the callers in Python refuse a library that says that it is another version.
refuses_another() {
    mkdir "$room/another"
    sed -n 's/^[a-z0-9_]* \(filterset_[a-z_]*\)(.*/int \1(void); int \1(void) { return 2000; }/p' bindings/c/filterset.h > "$room/another.c"
    "$compiler" -shared -fPIC -o "$room/another/libfilterset.so" "$room/another.c" || return 1
    ! FILTERSET_LIB="$room/another" PYTHONDONTWRITEBYTECODE=1 PYTHONPATH=bindings/python python3 -c 'import filterset' 2> "$room/errors" &&
        grep 'another version' "$room/errors"
}

in_python() {
    if ! has python3; then skip "the callers in Python" "there is no python3"; return; fi
    try "another version in Python" refuses_another
    try "the tests in Python" env PYTHONDONTWRITEBYTECODE=1 FILTERSET_LIB="$lib" python3 -m unittest discover -s bindings/python
}

in_rust() {
    if ! has cargo; then skip "the callers in Rust" "there is no cargo"; return; fi
    try "the tests in Rust" env FILTERSET_LIB="$lib" CARGO_TARGET_DIR="$room/target" cargo test --offline --quiet --manifest-path bindings/rust/Cargo.toml
    if ! has valgrind; then skip "the tests in Rust under valgrind" "there is no valgrind"; return; fi
    try "the tests in Rust under valgrind" env FILTERSET_LIB="$lib" CARGO_TARGET_DIR="$room/target" \
        CARGO_TARGET_X86_64_UNKNOWN_LINUX_GNU_RUNNER='valgrind -q --error-exitcode=99 --leak-check=full --show-leak-kinds=definite,indirect --errors-for-leak-kinds=definite,indirect' \
        cargo test --offline --quiet --manifest-path bindings/rust/Cargo.toml --test cases -- --test-threads=1
}

headers
if [ ! -f "$lib/libfilterset.so" ]; then
    skip "the library and its callers" "there is no out/lib/libfilterset.so: run scripts/library.sh"
    end
fi
if ! has "$compiler"; then
    skip "the library and its callers" "there is no C compiler"
    end
fi
try "the library is of these sources" is_current
try "the exported functions" exports
in_c
on_threads
with_wrong_arguments
in_python
in_rust
end
