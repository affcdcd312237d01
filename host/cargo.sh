#!/bin/sh
# Runs cargo on this crate with the crates that Debian packages (librust-*-dev),
# without a word to the public registry. As root it installs what is missing.
# With PUBLIC=1 it is plain cargo, on the public registry.
set -eu
cd "$(dirname "$0")"

# Debian's packages have no checksums, so a Cargo.lock of one source is none for the
# other: it is made anew where the source changes, and isn't kept in the repository.
mark="Could not get crate checksum"

if [ "${PUBLIC:-0}" = 1 ]; then
    if grep -qs "$mark" Cargo.lock; then rm Cargo.lock; fi
    exec cargo "$@"
fi
if [ -e Cargo.lock ] && ! grep -q "$mark" Cargo.lock; then rm Cargo.lock; fi

folder=/usr/share/cargo/registry
packages=""
for name in clap clap-derive getrandom libc nix serde serde-derive serde-json thiserror toml zeroize; do
    package="librust-$name-dev"
    if ! dpkg-query -W -f '${Status}' "$package" 2>/dev/null | grep -q 'ok installed'; then
        packages="$packages $package"
    fi
done

if [ -n "$packages" ]; then
    if [ "$(id -u)" != 0 ]; then
        echo "cargo.sh: missing:$packages (install them as root, or set PUBLIC=1)" >&2
        exit 1
    fi
    # shellcheck disable=SC2086 # a list of names
    apt-get install -y --no-install-recommends $packages >&2 || {
        apt-get update >&2
        apt-get install -y --no-install-recommends $packages >&2
    }
fi

# Behind the subcommand, so that clippy, a program of its own, hands them on.
command=${1:?cargo.sh: a subcommand of cargo is wanted, as test}
shift
case $command in
fmt) exec cargo fmt "$@" ;;
*)
    exec cargo "$command" \
        --config 'source.crates-io.replace-with="debian"' \
        --config "source.debian.directory=\"$folder\"" \
        "$@"
    ;;
esac
