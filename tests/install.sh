#!/bin/sh
# What make install puts and make uninstall takes away, below a temporary folder: the tool through relative links, its statuses and its
# version, the library by pkg-config, the manual page, and that nothing of it is left. Run in the repository, in which all is built.
set -eu
unset SKIM
folder=$(mktemp -d)
trap 'rm -rf "$folder"' EXIT
prefix=/opt/kelpladder
root=$folder$prefix
reel=$PWD/crates/skim/stdin
version=$(sed -n 's/^version = "\(.*\)"$/\1/p' bindings/rust/Cargo.toml)

fail() {
    echo "install: $*" >&2
    exit 1
}

in_folder() {
    ${MAKE:-make} --silent --no-print-directory "$1" DESTDIR="$folder" PREFIX="$prefix" > "$folder/log" || { cat "$folder/log"; fail "make $1"; }
}

# A link to the tool by way of another, both relative, as a user meets it: beside the caller, and on the path.
link_tool() {
    mkdir "$folder/links" "$folder/near"
    ln -s ../opt/kelpladder/bin/skim "$folder/near/skim"
    ln -s ../near/skim "$folder/links/skim"
}

try_tool() {
    tools/skim.sh < "$reel" > "$folder/track" 2> "$folder/told"
    (cd "$folder/links" && ./skim) < "$reel" > "$folder/linked" 2> "$folder/linked_told" || fail "by a link: $(cat "$folder/linked_told")"
    cmp "$folder/track" "$folder/linked"
    cmp "$folder/told" "$folder/linked_told"
    PATH=$folder/links:$PATH
    (cd / && skim) < "$reel" 2> "$folder/linked_told" | cmp "$folder/track" -
    status=0
    skim 8000 > "$folder/log" 2>&1 || status=$?
    [ "$status" = 2 ] || fail "bad usage gave status $status"
}

# One version: that of the Rust crate, of kelpladder.pc and of the tool.
try_version() {
    grep -qx "Version: $version" "$root/lib/pkgconfig/kelpladder.pc" || fail "kelpladder.pc has another version than $version"
    told=$(skim --version 2> "$folder/log") || fail "skim --version: $(cat "$folder/log")"
    [ "$told" = "skim (kelpladder) $version" ] || fail "skim --version gave: $told"
}

# The example in C, by the installed header and library, makes the tool's track.
try_library() {
    command -v pkg-config > "$folder/log" || { echo "install: no pkg-config, the library not tried"; return; }
    words=$(PKG_CONFIG_PATH=$root/lib/pkgconfig PKG_CONFIG_SYSROOT_DIR=$folder pkg-config --cflags --libs kelpladder)
    # shellcheck disable=SC2086
    ${CC:-cc} -std=c99 -Wall -Wextra -Wpedantic -Werror examples/skim.c $words -o "$folder/example"
    "$folder/example" < "$reel" 2> "$folder/log" | cmp "$folder/track" -
}

try_manual() {
    command -v mandoc > "$folder/log" || { echo "install: no mandoc, the manual page not looked at"; return; }
    mandoc -T lint -W warning "$root/share/man/man1/skim.1"
}

in_folder install-built
link_tool
try_tool
try_version
try_library
try_manual
files=$(find "$root" -type f | wc -l)
: > "$root/bin/another"
in_folder uninstall
[ "$(find "$root" ! -type d)" = "$root/bin/another" ] || fail "not uninstalled: $(find "$root" ! -type d)"
[ ! -e "$root/libexec/kelpladder" ] || fail "libexec/kelpladder is left"
echo "install: $files files of version $version put in place, tried and taken away"
