#!/bin/bash
# Prints what the gate spends its time on: rt ci 2>&1 | scripts/gate_times.sh TABLE
#
# passes on what the gate prints, and looks every two seconds at the checks that run. TABLE gets a line for each crate: the
# minutes of processor time of its proof, its tests, its first must-fail edit and the others, and when these ended.
set -uo pipefail
samples=$(mktemp) || exit 2
trap 'rm -f "$samples"' EXIT

# Writes a line for each check that runs, every two seconds: when, its process, its seconds, its folder, its words.
watch() {
    local process
    while sleep 2; do
        for process in $(pgrep -x rattle); do
            echo "$SECONDS $process $(ps -o cputimes= -p "$process")" \
                "$(readlink "/proc/$process/cwd") $(tr '\0' ' ' < "/proc/$process/cmdline")"
        done
    done 2> /dev/null >> "$samples"
}

watch &
cat
kill $!
awk -v seconds="$SECONDS" -v processors="$(nproc)" '
    function row(name, proof, tests, seed, edits, proved, done) {
        return sprintf("%-22s%10s%10s%10s%10s%10s%10s", name, proof, tests, seed, edits, proved, done)
    }
    function minutes(count) { return count ? sprintf("%.1f", count / 60) : "" }
    match($0, / --crate-name [^ ]+/) {
        crate = substr($0, RSTART + 14, RLENGTH - 14)
        part = $4 ~ /\/rt-edit-/ ? "edits" : / --test / ? "tests" : "proof"
        if (part == "edits" && !(crate in first)) first[crate] = $4
        if (part == "edits" && first[crate] == $4) part = "seed"
        spent[crate, part] += $3 - last[$2, $4]; sum[part] += $3 - last[$2, $4]; last[$2, $4] = $3
        if (part == "proof") proved[crate] = $1
        done[crate] = $1
    }
    END {
        by_ends = "sort -t \"|\" -k 1.63,1.72n -k 1.73,1.82n"
        print row("minutes", "proof", "tests", "seed", "edits", "proved at", "done at")
        for (crate in done)
            print row(crate, minutes(spent[crate, "proof"]), minutes(spent[crate, "tests"]), minutes(spent[crate, "seed"]),
                minutes(spent[crate, "edits"]), minutes(proved[crate]), minutes(done[crate])) | by_ends
        close(by_ends)
        print row("all crates", minutes(sum["proof"]), minutes(sum["tests"]), minutes(sum["seed"]),
            minutes(sum["edits"]), "", minutes(seconds))
        printf "processor time %.0f minutes on %d processors, %.1f minutes by the clock\n",
            (sum["proof"] + sum["tests"] + sum["seed"] + sum["edits"]) / 60, processors, seconds / 60
    }' "$samples" > "$1"
