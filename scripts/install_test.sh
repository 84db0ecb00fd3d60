#!/bin/bash
# Installs what `rt ci` built into an empty prefix, tries it from there, and uninstalls it:
# the programs with an empty environment, the manual pages, completions in the shells that are there, and the library for C.
# Nothing is left afterwards, except what others put there. What this machine lacks is counted as skipped: the last line is
# 'N passed, M failed', or 'N passed, M failed, K skipped'.
set -uo pipefail
source "$(dirname "${BASH_SOURCE[0]}")/lib.sh"
need crates/filterset/out/filterset
need "$program"
prefix=$room/prefix skipped=0

# Runs a command, which succeeds.
holds() {
    local what=$1
    shift
    if "$@" > "$room/wrote" 2>&1; then pass; else fail "$what" "$(tail -n 5 "$room/wrote")"; fi
}

skip() {
    echo "install_test: $1: skipped"
    skipped=$((skipped + 1))
}

# Runs a target of the Makefile, on a prefix.
makes() { make -s "$1" OUT="$room/made" PREFIX="${2:-$prefix}" DESTDIR="${3:-}"; }

# Compares what an installed program writes with an empty environment.
writes() { env -i "$prefix/bin/$2" "${@:3}" | cmp - "$1"; }

# Returns whether an executable needs no shared library but those of C.
needs_only_c() { ! objdump -p "$1" | awk '$1 == "NEEDED" { print $2 }' | grep -vE '^(libc\.so\.6|ld-linux-.*)$'; }

try_programs() {
    echo 'not ! all()' > "$room/formatted"
    holds "filterset alone" writes "$room/formatted" filterset format 'not!all()'
    holds "filterset-cli alone" writes examples/first.report filterset-cli < examples/first.json
    holds "the libraries of filterset" needs_only_c "$prefix/bin/filterset"
    holds "the libraries of filterset-cli" needs_only_c "$prefix/bin/filterset-cli"
    mkdir "$room/programs"
    ln -s "$prefix/bin/filterset" "$room/programs/filterset"
    ln -s "$prefix/bin/filterset-cli" "$room/programs/filterset_cli"
    holds "transcripts" scripts/examples.py --programs "$room/programs" examples/transcripts/{options,records}.md
}

# Prints the pages of manual that there must be.
wanted_pages() {
    echo filterset.1 filterset-cli.1 filterset-cli.5 nextest-filterset.7
    "$prefix/bin/filterset" --help | sed -n '/^Commands:/,/^$/s/^  \([a-z]*\) .*/\1/p' | grep -v '^help$' | sed 's/.*/filterset-&.1/'
}

# Returns whether a command writes nothing on standard output and standard error.
is_silent() { ! "$@" 2>&1 | grep .; }

# Shows a page as a reader sees it, of which only warnings are left.
read_page() { { man --warnings -l "$1" > "$room/page"; } 2>&1; }

try_pages() {
    local page tool
    for page in $(wanted_pages); do holds "the page $page" test -s "$prefix/share/man/man${page##*.}/$page"; done
    for tool in man mandoc groff; do
        command -v "$tool" > /dev/null || { skip "there is no $tool to show pages"; continue; }
        for page in "$prefix"/share/man/man?/*; do
            case $tool in
                man) holds "man -l ${page##*/}" is_silent read_page "$page" ;;
                mandoc) holds "mandoc ${page##*/}" mandoc -Tlint -W warning "$page" ;;
                groff) holds "groff ${page##*/}" is_silent groff -ww -man -z -Tutf8 "$page" ;;
            esac
        done
    done
}

try_completions() {
    scripts/completions.py "$prefix" > "$room/pressed" 2>&1 || fail completions "$(tail -n 5 "$room/pressed")"
    [[ $(tail -n 1 "$room/pressed") =~ ^([0-9]+)\ passed ]] && passed=$((passed + BASH_REMATCH[1]))
    while IFS= read -r line; do skip "${line%: skipped}"; done < <(grep ': skipped$' "$room/pressed")
}

# Builds the example of the library for C, and runs it.
build_example() {
    # shellcheck disable=SC2046 # (words of flags)
    "${CC:-cc}" -o "$room/example" "$prefix/share/doc/filterset/example.c" $(pkg-config --cflags --libs filterset) &&
        LD_LIBRARY_PATH=$prefix/lib "$room/example" crates/filterset/data/cargo-metadata.json 'deps(parser)'
}

# Builds the program of wrong arguments with the installed header and static library, and runs it.
build_wrong() {
    "${CC:-cc}" -I"$prefix/include" -o "$room/wrong" bindings/c/wrong.c "$prefix/lib/libfilterset.a" && "$room/wrong"
}

# Returns whether the example does not start with a library that has the name of another version alone.
refuses_another() {
    mkdir "$room/another" && cp "$prefix/lib/libfilterset.so" "$room/another/libfilterset.so.1" || return 1
    ! LD_LIBRARY_PATH=$room/another "$room/example" crates/filterset/data/cargo-metadata.json 'all()' 2> "$room/errors" &&
        grep 'libfilterset.so.0' "$room/errors"
}

try_library() {
    export PKG_CONFIG_PATH=$prefix/lib/pkgconfig
    if [ ! -f "$prefix/include/filterset.h" ]; then skip "the library for C is not built"; return; fi
    if ! command -v pkg-config > /dev/null; then skip "there is no pkg-config"; return; fi
    holds "the example in C" build_example
    holds "wrong arguments in C" build_wrong
    holds "a library of another version" refuses_another
}

# Returns whether a folder has these files below it, and no others.
has_only() { [ "$(cd "$1" && find . -mindepth 1 | sort)" = "$(printf '%s\n' "${@:2}")" ]; }

try_uninstall() {
    holds "a second make install" makes install
    touch "$prefix/share/man/man1/other.1"
    holds "make uninstall" makes uninstall
    holds "what others installed is left" has_only "$prefix" ./share ./share/man ./share/man/man1 ./share/man/man1/other.1
    rm -r "$prefix/share"
    holds "make install again" makes install
    holds "make uninstall again" makes uninstall
    holds "nothing is left" has_only "$prefix"
}

# Installs below a DESTDIR, as packages do.
try_stage() {
    holds "make install DESTDIR" makes install /usr "$room/stage"
    holds "a staged program" test -x "$room/stage/usr/bin/filterset"
    holds "no file has the name of the stage" is_silent grep -rl "$room/stage" "$room/stage"
    holds "make uninstall DESTDIR" makes uninstall /usr "$room/stage"
    holds "nothing is left below DESTDIR" has_only "$room/stage" ./usr
}

# Returns whether an archive of the sources has a file.
archives() { makes dist && tar -tzf "$room"/made/filterset-*.tar.gz | grep "^filterset-[0-9.]*/$1$"; }

try_archive() {
    if git rev-parse HEAD > /dev/null 2>&1; then holds "make dist" archives crates.txt; else skip "make dist: there is no git here"; fi
}

is_refused() { ! makes install "$@"; }

holds "make install before make" is_refused
holds "make extras" makes extras
if [ -d out/lib ]; then cp -r out/lib "$room/made/lib"; fi
holds "make install" makes install
try_programs
try_pages
try_completions
try_library
try_uninstall
try_stage
try_archive

[ "$skipped" -eq 0 ] && finish
echo "$passed passed, $failed failed, $skipped skipped"
[ "$failed" -eq 0 ]
