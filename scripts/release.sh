#!/bin/bash
# Makes the files of a release, in a clean clone in which `make check` has passed:
#
#     scripts/release.sh VERSION FOLDER
#
# - filterset-VERSION-x86_64-linux.tar.gz: what `make install` installs, stripped;
# - filterset_VERSION-1_amd64.deb: the same as a package, if there is dpkg-deb;
# - filterset-VERSION.txt: the commit, and the kit that proved it;
# - SHA256SUMS.
#
# VERSION is the program's. The archive and the package are made twice, and are the same bytes. The status is 1 if lintian,
# where it is there, finds an error.
set -euo pipefail
umask 022
cd "$(dirname "${BASH_SOURCE[0]}")/.."
if [ $# -ne 2 ]; then sed -n '2,4s/^# \{0,1\}//p' scripts/release.sh >&2; exit 2; fi
version=$1 folder=$2 name=filterset-$1-x86_64-linux
programs=(crates/filterset/out/filterset crates/filterset_cli/out/filterset_cli)
built=("${programs[@]}" out/lib/libfilterset.a out/lib/libfilterset.so)

die() {
    echo "release: $*" >&2
    exit 1
}

# Checks that what is here may be released.
check_clone() {
    [ -z "$(git status --porcelain)" ] || die "the clone is not clean"
    local file newer
    for file in "${built[@]}"; do
        [ -f "$file" ] || die "there is no $file: run make check first"
        newer=$(find crates crates.txt -name out -prune -o -type f -newer "$file" -print -quit)
        [ -z "$newer" ] || die "$newer is newer than $file: run make check first"
    done
    [ "$("${programs[0]}" --version)" = "filterset $version" ] || die "the program says that it is $("${programs[0]}" --version)"
}

# Installs below a folder with this prefix, without what only a debugger reads.
stage() {
    make -s extras OUT="$room/made"
    cp -r out/lib "$room/made"
    make -s install OUT="$room/made" DESTDIR="$1" PREFIX="$2"
    strip "$1$2"/bin/*
    if [ -d "$1$2/lib" ]; then find "$1$2/lib" -type f -name '*.so.*' -exec strip --strip-unneeded {} +; fi
}

# Writes an archive of a folder, without the times and owners of its files.
pack() {
    tar --sort=name --mtime="@$SOURCE_DATE_EPOCH" --owner=0 --group=0 --numeric-owner -C "$1" -cf - "$name" | gzip -9n
}

# Makes a staged folder a package: compresses what Debian wants compressed, and describes it.
describe_package() {
    local doc=usr/share/doc/filterset maintainer needed
    maintainer=$(git log -1 --format='%an <%ae>')
    cd "$1"
    needed=$(objdump -T usr/bin/* | grep -o 'GLIBC_[0-9.]*' | sort -uV | tail -n 1)
    rm "$doc/installed"
    { echo "Licensed under the Apache License 2.0 (/usr/share/common-licenses/Apache-2.0) or the MIT licence, at your choice:"
        echo
        cat "$doc/LICENSE-MIT"; } > "$doc/copyright"
    printf 'filterset (%s-1) unstable; urgency=medium\n\n  * Version %s: see CHANGELOG.md.\n\n -- %s  %s\n' \
        "$version" "$version" "$maintainer" "$(date -uRd "@$SOURCE_DATE_EPOCH")" > "$doc/changelog.Debian"
    mv usr/share/zsh/site-functions usr/share/zsh/vendor-completions
    gzip -9n usr/share/man/man?/* "$doc/changelog.Debian"
    mkdir DEBIAN
    if [ -e usr/lib/libfilterset.so ]; then describe_library; fi
    cat > DEBIAN/control << EOF
Package: filterset
Version: $version-1
Architecture: amd64
Maintainer: $maintainer
Installed-Size: $(find usr -type f -printf '%s\n' | awk '{ kib += int(($1 + 1023) / 1024) } END { print kib }')
Depends: libc6 (>= ${needed#GLIBC_})
Section: devel
Priority: optional
Description: check and explain the filtersets of cargo-nextest
 It finds the faults of filtersets and shows where they are, lists the tests
 that they pick, and shows why. Every function is proved to meet its contract.
EOF
    find usr -type f | sort | xargs -d '\n' md5sum > DEBIAN/md5sums
}

# Says which package a program needs that was linked with the shared library.
describe_library() {
    local name
    name=$(objdump -p usr/lib/libfilterset.so | awk '$1 == "SONAME" { print $2 }')
    echo "libfilterset ${name#libfilterset.so.} filterset (>= $version-1)" > DEBIAN/shlibs
    echo 'activate-noawait ldconfig' > DEBIAN/triggers
}

# Makes the archive and the package into a folder.
make_files() {
    local work=$room/${1##*/}.work
    mkdir -p "$1" "$work"
    stage "$work" "/$name"
    pack "$work" > "$1/$name.tar.gz"
    command -v dpkg-deb > /dev/null || { echo "release: there is no dpkg-deb: no package is made" >&2; return; }
    stage "$work/package" /usr
    (describe_package "$work/package")
    dpkg-deb --root-owner-group -Zxz -b "$work/package" "$1/filterset_$version-1_amd64.deb" > /dev/null
}

# Prints by what the release was proved.
print_note() {
    cat << EOF
filterset $version

commit: $(git rev-parse HEAD)
proved by: $(rt version)
gate: make check, in a clone of the commit, with this kit
EOF
}

check_clone
SOURCE_DATE_EPOCH=$(git log -1 --format=%ct)
export SOURCE_DATE_EPOCH
room=$(mktemp -d)
trap 'rm -rf "$room"' EXIT
make_files "$room/first"
make_files "$room/second"
diff -r "$room/first" "$room/second" || die "two runs gave different bytes"
mkdir -p "$folder"
cp "$room"/first/* "$folder"
print_note > "$folder/filterset-$version.txt"
(cd "$folder" && sha256sum filterset* > SHA256SUMS && cat SHA256SUMS)
if command -v lintian > /dev/null; then lintian --fail-on error "$folder"/*.deb; fi
