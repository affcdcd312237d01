#!/bin/bash
# Tries the bindings against a library that tools/library.sh laid below a prefix, or lays it there first.
#
#     tools/bindings_test.sh PREFIX
#     tools/bindings_test.sh --build PREFIX      proves, builds and lays the library, then tries the bindings
#
# The last line is 'N passed, M failed, K skipped', and the status 0 where nothing failed. SEEDS and CALLS set how long the calls in any
# order go on (5 seeds of 3000 calls; 100 of 30000 take some minutes).
set -u
if test "${1:-}" = --build; then
    shift
    "$(dirname "$0")/library.sh" "${1:?bindings_test.sh: a prefix is wanted, as /usr/local}" || exit 1
fi
prefix=$(cd "${1:?bindings_test.sh: the prefix of a library is wanted}" && pwd) || exit 2
top=$(cd "$(dirname "$0")/.." && pwd)
work=$(mktemp -d)
trap 'rm -rf "$work"' EXIT
passed=0 failed=0 skipped=0

# try WHAT COMMAND..: one test, whose output is shown where it fails.
try() {
    what=$1
    shift
    if "$@" >"$work/log" 2>&1; then
        passed=$((passed + 1))
        told=$(grep -v '^ *$' "$work/log" | tail -n 1 | cut -c 1-100)
        echo "passed: $what${told:+ ($told)}"
    else
        failed=$((failed + 1))
        echo "FAILED: $what"
        tail -n 40 "$work/log"
    fi
}

skip() {
    skipped=$((skipped + 1))
    echo "skipped: $1"
}

has() { command -v "$1" >/dev/null 2>&1; }

strict=(-Wall -Wextra -Werror "-I$prefix/include")
library=$prefix/lib/libsukperin.so.1
export LD_LIBRARY_PATH=$prefix/lib SUKPERIN_LIB=$prefix/lib PYTHONPATH=$top/bindings/python PYTHONDONTWRITEBYTECODE=1
export PKG_CONFIG_PATH=$prefix/lib/pkgconfig
read -ra shared_flags < <(pkg-config --libs sukperin)

try "declarations agree" python3 "$top/tools/declarations.py"

# ---- C ----
cd "$top/bindings/c" || exit 2
exports_alone() { ! nm -D --defined-only "$library" | grep -v ' T suk_' && nm -D --defined-only "$library" | wc -l; }
no_text_relocations() { ! readelf -d "$library" | grep -E 'TEXTREL|RPATH|RUNPATH'; }
try "the shared library exports its calls alone" exports_alone
try "it has no text relocations" no_text_relocations
echo '#include <sukperin.h>' >"$work/header.c"
cp "$work/header.c" "$work/header.cc"
try "the header in C99, gcc" gcc -std=c99 -Wpedantic -Wconversion "${strict[@]}" -c "$work/header.c" -o "$work/header.o"
if has g++; then
    try "the header in C++11" g++ -std=c++11 -Wpedantic "${strict[@]}" -c "$work/header.cc" -o "$work/header.o"
else skip "the header in C++11: no g++"; fi
if has clang; then
    try "the header in C11, clang" clang -std=c11 -Wpedantic -Wconversion "${strict[@]}" -c "$work/header.c" -o "$work/header.o"
else skip "the header in C11: no clang"; fi

runs() { # runs NAME FLAGS..: compiles a source of this folder and runs it
    name=$1
    shift
    gcc -std=c11 -D_DEFAULT_SOURCE -O1 -g "${strict[@]}" "$name.c" "$@" -o "$work/$name" && "$work/$name"
}
try "test.c, shared" runs test "${shared_flags[@]}"
try "test.c, static" runs test "$prefix/lib/libsukperin.a"
if grep -q avx2 /proc/cpuinfo; then
    try "test.c, static, x86-64-v3" runs test "$prefix/lib/glibc-hwcaps/x86-64-v3/libsukperin.a"
else skip "test.c at x86-64-v3: this processor hasn't it"; fi
try "test.c, starving" runs test -DSTARVES -Wl,--wrap=malloc,--wrap=realloc "$prefix/lib/libsukperin.a"
try "example.c" runs example "${shared_flags[@]}"
try "what is given back is overwritten, shared" runs wipe_test -fno-builtin "${shared_flags[@]}"
try "what is given back is overwritten, static" runs wipe_test -fno-builtin -DSTATIC "$prefix/lib/libsukperin.a"
try "without wipe.c each secret is found" runs wipe_test -fno-builtin -DLEAVES "$prefix/lib/libsukperin.a"
try "crossing, lists and allocations" runs crossing -O2 "$prefix/lib/libsukperin.a"
fuzzes() {
    gcc -std=c11 -O1 -g -fsanitize=address,undefined -fno-sanitize-recover=all "${strict[@]}" fuzz.c "$prefix/lib/libsukperin.a" \
        -o "$work/fuzz" && "$work/fuzz" 1 "${SEEDS:-5}" "${CALLS:-3000}"
}
try "calls in any order, under the sanitizers" fuzzes
if has valgrind; then
    leaks() { gcc -std=c11 -D_DEFAULT_SOURCE -O1 -g "${strict[@]}" test.c "$prefix/lib/libsukperin.a" -o "$work/leaks" &&
        valgrind --quiet --leak-check=full --error-exitcode=9 "$work/leaks"; }
    try "test.c under valgrind" leaks
else skip "test.c under valgrind: no valgrind"; fi

# ---- Python ----
cd "$top/bindings/python" || exit 2
try "Python's tests" python3 -m unittest discover -s tests -t .
for example in examples/*.py; do try "$example" python3 "$example"; done
if has tshark; then
    # Wireshark opens the messages of both ends with the keys that are told.
    wireshark() {
        python3 examples/wireshark.py "$work/exchange.pcap" >"$work/line" &&
            tshark -V -r "$work/exchange.pcap" -o "uat:ikev2_decryption_table:$(cat "$work/line")" >"$work/shown" &&
            test "$(grep -cE 'ID_FQDN: (left|right)\.example' "$work/shown")" = 2 && test "$(grep -cF '[correct]' "$work/shown")" = 2
    }
    try "Wireshark reads by these keys" wireshark
else skip "Wireshark reads by these keys: no tshark"; fi
if has mypy; then
    try "Python's types" mypy --strict --cache-dir "$work/mypy" sukperin
else skip "Python's types: no mypy"; fi

# ---- Rust ----
# In a copy, so that cargo leaves nothing in the tree.
if has cargo; then
    cp -r "$top/bindings/rust" "$work/rust" && cd "$work/rust" || exit 2
    export CARGO_TARGET_DIR=$work/cargo
    try "Rust's tests, static" cargo test --quiet --offline
    shared() { env -u SUKPERIN_LIB cargo test --quiet --offline; }
    try "Rust's tests, by pkg-config" shared
    documents() { RUSTDOCFLAGS="-D warnings" cargo doc --quiet --offline --no-deps; }
    try "Rust's documentation" documents
    if has rustfmt; then try "Rust's layout" cargo fmt --check; else skip "Rust's layout: no rustfmt"; fi
    if has cargo-clippy; then
        try "clippy" cargo clippy --quiet --offline --all-targets -- -D warnings
    else skip "clippy isn't there"; fi
else skip "Rust: no cargo"; fi

echo "$passed passed, $failed failed, $skipped skipped"
test "$failed" = 0
