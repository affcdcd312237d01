#!/bin/sh
# The part of the host's tests that takes a second once it is built, for .ci/run: layout, faults of configurations, timers, the path of packets, the loop.
# It installs nothing: where cargo or Debian's crates are missing it says so. `sh host/cargo.sh test` installs them and runs all.
cd "$(dirname "$0")" || exit 2
for name in clap clap-derive getrandom libc nix serde serde-derive serde-json thiserror toml zeroize; do
    dpkg-query -W -f '${Status}' "librust-$name-dev" 2>/dev/null | grep -q 'ok installed' || missing="$missing librust-$name-dev"
done
command -v cargo >/dev/null || missing="$missing cargo"
[ -e ../bindings/rust/Cargo.toml ] || missing="$missing bindings/rust"
if [ -n "$missing" ]; then
    echo "the host's tests were not run: missing$missing"
    exit 0
fi
# Outside the checkout, so that a fresh one needn't build the crates again.
CARGO_TARGET_DIR=${CARGO_TARGET_DIR:-${TMPDIR:-/tmp}/sukperind-$(id -u)}
export CARGO_TARGET_DIR
sh cargo.sh fmt --check || exit
# The crate itself is built anew: cargo takes what another checkout of it left there for its own.
sh cargo.sh clean --quiet --offline --package sukperind || exit
sh cargo.sh test --quiet --offline --lib --test check --test faults --test offload --test outer --test timers --test turns || exit
echo "the host's quick tests passed"
