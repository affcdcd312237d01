#!/bin/sh
# The host's tests with the core, one after the other: unit, systemd, namespaces, flood, soak, real_peer and speed, or those that are named. It
# takes some 20 minutes, and installs what is missing by apt-get. As root: sh host/tests/all.sh [PROGRAM [NAME ..]], of a program built with cargo's
# feature `library`, by --release. It ends with how many passed, failed and were skipped.
program=${1:+$(realpath "$1")} # before the folder is another one
cd "$(dirname "$0")" || exit 2
program=${program:-$(realpath "${CARGO_TARGET_DIR:-../target}/release/sukperind")}
[ $# -gt 0 ] && shift
[ $# -gt 0 ] || set -- unit systemd namespaces flood soak real_peer speed
passed=0 failed=0 skipped=0
folder=$(mktemp -d) || exit 2
trap 'rm -rf "$folder"' EXIT
told=$folder/told
# Both scripts with a guest take the kernel of one download.
export SUKPERIN_GUEST="${SUKPERIN_GUEST:-$folder/guest}"
trap 'exit 1' INT TERM
for name; do
    echo "== $name"
    sh "$name.sh" "$program" 2>&1 | tee "$told"
    # N passed, M failed, S skipped
    counts=$(tail -n 1 "$told" | grep -o '^[0-9]* passed, [0-9]* failed, [0-9]* skipped$' | grep -o '[0-9]*' | tr '\n' ' ')
    # A script that didn't come to its end failed.
    read -r good bad aside <<END
${counts:-0 1 0}
END
    passed=$((passed + good)) failed=$((failed + bad)) skipped=$((skipped + aside))
done
echo "$passed passed, $failed failed, $skipped skipped"
[ "$failed" = 0 ]
