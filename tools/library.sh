#!/bin/bash
# Builds the C library and lays it below a prefix: the header, the pkg-config file, the static library and the shared one, each at the
# default target and at x86-64-v3, of which the loader takes the shared one by itself where the processor has what it wants.
#
#     tools/library.sh PREFIX            proves what was not proved yet, builds and lays
#     tools/library.sh PREFIX --lay      lays again what was built before, after a change in bindings/c
#
# RT names another rt.
set -eu
prefix=${1:?library.sh: a prefix is wanted, as /usr/local}
step=${2:-}
test "$step" = "" || test "$step" = --lay || { echo "library.sh: $step is none of its words" >&2; exit 2; }
top=$(cd "$(dirname "$0")/.." && pwd)
rt=${RT:-rt}
version=0.1.0
fast=lib/glibc-hwcaps/x86-64-v3
built=$top/out/library # what rt made, by target
wanted='malloc|mem(cpy|move|set|cmp)|bcmp|rattle_\w+|sukperin_wiped_\w+' # the calls of all but wipe.c

mkdir -p "$prefix/include" "$prefix/lib/pkgconfig" "$prefix/$fast" "$built"
prefix=$(cd "$prefix" && pwd)
lanes=$top/crates/sukperin/src/target.rt
default_lanes=6 # as the tree has it

# Has lists begin lanes at so many packets in what is built from now on.
lists_from() {
    sed -i "s/^\(pub const LANES_FROM: usize = \)[0-9]*;/\1$1;/" "$lanes"
}

work=$(mktemp -d)
trap 'lists_from "$default_lanes"; rm -rf "$work"' EXIT
printf '{ global: suk_*; local: *; };\n' >"$work/exports"

# Proves and builds the archive of a target, in which lists begin lanes at so many packets; the other words are rattle's flags.
build() {
    target=$1
    lists_from "$2"
    shift 2
    (cd "$top/crates/sukperin" && "$rt" lib "$@" >"$work/log" 2>&1) || { cat "$work/log" >&2; return 1; }
    cp "$top/crates/sukperin/out/libsukperin.a" "$built/$target.a"
}

# One archive with what reaches malloc, so that a program links nothing else. What all of it calls as free and realloc is wipe.c's, which
# overwrites first, and so are the calls that end something. A call that isn't known here might give memory back around it.
one_archive() {
    for part in "$1" "$kit/c/liblibc_c.a"; do
        objcopy --redefine-sym free=sukperin_wiped_free --redefine-sym realloc=sukperin_wiped_realloc \
            --redefine-sym suk_end=sukperin_proved_end --redefine-sym suk_end_association=sukperin_proved_end_association \
            "$part" "$work/${part##*/}"
    done
    gcc -std=c11 -D_DEFAULT_SOURCE -O2 -fPIC -Wall -Wextra -Werror -c "$top/bindings/c/wipe.c" -o "$work/wipe.o"
    printf 'create %s\naddlib %s\naddlib %s\naddmod %s\nsave\nend\n' \
        "$work/libsukperin.a" "$work/${1##*/}" "$work/liblibc_c.a" "$work/wipe.o" | ar -M
    strange=$(nm -A --undefined-only "$work/libsukperin.a" | grep -v ':wipe\.o:' | grep -vE " U ($wanted)\$") || return 0
    printf 'library.sh: calls that are not known:\n%s\n' "$strange" >&2
    return 1
}

# Lays both libraries of a target into a folder below the prefix.
lay() {
    folder=$prefix/$2
    one_archive "$built/$1.a"
    install -m 644 "$work/libsukperin.a" "$folder/libsukperin.a"
    gcc -shared -o "$work/libsukperin.so.1" -Wl,-soname,libsukperin.so.1 -Wl,--version-script="$work/exports" \
        -Wl,-z,defs -Wl,-z,now -Wl,-z,noexecstack -Wl,-z,text \
        -Wl,--whole-archive "$work/libsukperin.a" -Wl,--no-whole-archive
    install -m 755 "$work/libsukperin.so.1" "$folder/libsukperin.so.1"
    ln -sf libsukperin.so.1 "$folder/libsukperin.so"
}

kit=$(dirname "$("$rt" doc)")
install -m 644 "$top/bindings/c/sukperin.h" "$prefix/include/sukperin.h"
sed "s|@PREFIX@|$prefix|; s|@VERSION@|$version|" "$top/bindings/c/sukperin.pc.in" >"$work/sukperin.pc"
install -m 644 "$work/sukperin.pc" "$prefix/lib/pkgconfig/sukperin.pc"
test "$step" = --lay || build default "$default_lanes"
lay default lib
test "$step" = --lay || build x86-64-v3 2 --cpu=x86-64-v3
lay x86-64-v3 "$fast"
echo "libsukperin $version is in $prefix"
