#!/bin/bash
# Copies the built programs, manual pages, completions and pages to a prefix, and the library for C if it is built; and
# removes them again. make install and make uninstall call it:
#
#     scripts/install.sh install|uninstall OUT VERSION PREFIX [DESTDIR]
#
# OUT has what `make` made. share/doc/filterset/installed lists the files that were copied and the folders that were made
# for them; uninstall removes these, and a folder only if nothing else is in it.
set -euo pipefail
cd "$(dirname "${BASH_SOURCE[0]}")/.."
task=$1 out=$2 version=$3 top=${5:-}$4
list=share/doc/filterset/installed
library=$out/lib

say() { echo "install: $*" >&2; }

# Makes a folder below the prefix with those above it, and lists those that were missing.
make_folder() {
    [ ! -d "$top/$1" ] || return 0
    make_folder "$(dirname "$1")"
    mkdir -m 755 "$top/$1"
    made+=("$1/")
}

# Copies a file with this mode to this place below the prefix, and lists it.
put() {
    make_folder "$(dirname "$3")"
    install -m "$1" "$2" "$top/$3"
    made+=("$3")
}

put_programs() {
    put 755 crates/filterset/out/filterset bin/filterset
    put 755 crates/filterset_cli/out/filterset_cli bin/filterset-cli
}

put_pages() {
    local page
    for page in "$out"/man/*; do put 644 "$page" "share/man/man${page##*.}/${page##*/}"; done
    for page in README.md CHANGELOG.md CONTRIBUTING.md LICENSE-APACHE LICENSE-MIT docs/*.md; do
        put 644 "$page" "share/doc/filterset/$page"
    done
}

put_completions() {
    put 644 "$out/completions/bash" share/bash-completion/completions/filterset
    put 644 "$out/completions/zsh" share/zsh/site-functions/_filterset
    put 644 "$out/completions/fish" share/fish/vendor_completions.d/filterset.fish
}

# Copies the header and the libraries, under the names by which programs are linked and started, and says where they are.
put_library() {
    local shared=$library/libfilterset.so file
    [ -f "$library/libfilterset.a" ] || { say "the library for C is not built: left out"; return; }
    put 644 bindings/c/filterset.h include/filterset.h
    put 644 "$library/libfilterset.a" lib/libfilterset.a
    put 644 bindings/c/example.c share/doc/filterset/example.c
    if [ -f "$shared" ]; then
        put 644 "$shared" "lib/libfilterset.so.$version"
        for file in $(soname_of "$shared") libfilterset.so; do
            [ "$file" != "libfilterset.so.$version" ] || continue
            ln -sf "libfilterset.so.$version" "$top/lib/$file"
            made+=("lib/$file")
        done
    fi
    print_description > "$room/filterset.pc"
    put 644 "$room/filterset.pc" lib/pkgconfig/filterset.pc
}

# Prints the name by which programs that are linked with a shared library look for it.
soname_of() { objdump -p "$1" | awk '$1 == "SONAME" { print $2 }'; }

# Prints what pkg-config reads. The places are beside it, so that the prefix may be moved.
print_description() {
    cat << EOF
prefix=\${pcfiledir}/../..
includedir=\${prefix}/include
libdir=\${prefix}/lib

Name: filterset
Description: the filtersets of cargo-nextest, proved
Version: $version
Libs: -L\${libdir} -lfilterset
Cflags: -I\${includedir}
EOF
}

install_all() {
    if [ ! -x crates/filterset/out/filterset ] || [ ! -f "$out/completions/fish" ]; then
        say "there is nothing to install: run make first"
        exit 1
    fi
    mkdir -p "$top"
    [ ! -f "$top/$list" ] || uninstall
    room=$(mktemp -d)
    made=()
    trap write_list EXIT
    put_programs
    put_pages
    put_completions
    put_library
}

# Writes the list at the end, also if something failed, so that uninstall finds what was copied.
write_list() {
    make_folder "$(dirname "$list")"
    printf '%s\n' "${made[@]}" "$list" > "$room/installed"
    install -m 644 "$room/installed" "$top/$list"
    rm -rf "$room"
}

# Removes what the list has, the last first, so that a folder comes after what is in it.
uninstall() {
    local path
    tac "$top/$list" | while IFS= read -r path; do
        case $path in
            */) rmdir --ignore-fail-on-non-empty "$top/$path" ;;
            *) rm -f "$top/$path" ;;
        esac
    done
}

case $task in
    install) install_all ;;
    uninstall) if [ -f "$top/$list" ]; then uninstall; else say "nothing is installed in $top"; fi ;;
    *)
        say "it is install or uninstall, and not $task"
        exit 2
        ;;
esac
