# Shared by the scripts that run built programs, which `source` it: it goes to the top of the repository, makes the folder
# `room`, which is removed at the end, and counts what passed and what failed.
cd "$(dirname "${BASH_SOURCE[0]}")/.." || exit 2
script=$(basename "$0" .sh)
program=crates/filterset_cli/out/filterset_cli
room=$(mktemp -d) || exit 2
trap 'rm -rf "$room"' EXIT
passed=0 failed=0

pass() { passed=$((passed + 1)); }

# Counts a failure, and prints of what, and why.
fail() {
    echo "$script: $1: FAILED: $2"
    failed=$((failed + 1))
}

# Ends the script with a line of counts, and with status 1 if something failed.
finish() {
    echo "$passed passed, $failed failed"
    [ "$failed" -eq 0 ]
    exit
}

# Ends the script if there is no such executable.
need() {
    [ -x "$1" ] && return
    fail "$1" "there is no such executable: run rt ci first"
    finish
}
