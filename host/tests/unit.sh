#!/bin/sh
# The unit for systemd, by systemd's own tool, and whether its list of system calls lets through what the daemon calls from its start to its end.
# As root: sh host/tests/unit.sh [PROGRAM], of a program built with cargo's feature `library`. systemd needn't run.
[ $# = 0 ] || set -- "$(realpath "$1")" # before the folder is another one
cd "$(dirname "$0")" || exit 2
. ./common.sh
need "${1:-${CARGO_TARGET_DIR:-../target}/debug/sukperind}" ip python3
install systemd-analyze systemd
install strace strace
unit=$folder/sukperind.service
sed "s|/usr/sbin/sukperind|$program|" ../etc/sukperind.service >"$unit"

verified() {
    figure=$(systemd-analyze verify --man=no "$unit" 2>&1 | grep sukperind | head -n 3)
    [ -z "$figure" ]
}
expect "systemd-analyze verify has nothing to say" verified
exposed() {
    systemd-analyze security --no-pager --offline=true --threshold=25 "$unit" >"$folder/security" 2>&1
    held=$?
    figure=$(grep -o 'exposure level.*: [0-9.]*' "$folder/security" | grep -o '[0-9.]*$')
    return $held
}
expect "systemd-analyze security tells an exposure of 2.5 at most" exposed

end=suk$$l
space $end
ip -n $end link add wire type dummy 2>/dev/null || ip -n $end tuntap add wire mode tap
ip -n $end address add 192.0.2.1/30 dev wire
ip -n $end link set wire up
cat >"$folder/end.toml" <<END
local = "192.0.2.1"
[[peers]]
name = "nobody"
address = "192.0.2.2"
begins = true
own_identity = { type = "fqdn", value = "a.example" }
peer_identity = { type = "fqdn", value = "b.example" }
secret_file = "none.secret"
[[peers.entries]]
action = "protect"
local = "10.1.0.0/24"
remote = "10.2.0.0/24"
[peers.tun]
name = "suk0"
addresses = ["10.1.0.1/24"]
routes = ["10.2.0.0/24"]
END
traced() {
    ip netns exec $end strace -f -qq -o "$folder/trace" "$program" run "$folder/end.toml" --socket "$folder/sock" 2>"$folder/log" &
    traced=$!
    within 10 [ -S "$folder/sock" ]
    sleep 1
    daemon=$(pgrep -P $traced)
    "$program" status --json --socket "$folder/sock" >/dev/null
    ip netns exec $end ping -q -c 2 -i 0.1 -W 1 10.2.0.1 >/dev/null 2>&1
    ip -n $end link delete suk0
    kill -HUP "$daemon" || kill $traced
    sleep 6
    kill -TERM "$daemon"
    wait $traced
    figure=$(python3 calls.py "$unit" "$folder/trace")
}
expect "the filter of system calls lets through what it calls" traced
