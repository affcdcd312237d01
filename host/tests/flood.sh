#!/bin/sh
# Garbage at full rate on UDP 500 and on protocol 50, from the peer's address and from another, beside two daemons with the core in two network
# namespaces: nothing ends the daemon, its memory stays, the log stays short, and afterwards the link goes on.
# As root: sh host/tests/flood.sh [PROGRAM] [SECONDS], of a program built with cargo's feature `library`. SECONDS are those of each of four floods.
[ $# = 0 ] || set -- "$(realpath "$1")" # before the folder is another one
cd "$(dirname "$0")" || exit 2
. ./common.sh
need "${1:-${CARGO_TARGET_DIR:-../target}/debug/sukperind}" ip ping python3
seconds=${2:-30}
left=suk$$l right=suk$$r
logs="$folder/$left.log"
space $left
space $right
ip link add wire netns $left type veth peer name wire netns $right || skip_all "a veth pair can't be made"
number=0
for name in $left $right; do
    number=$((number + 1))
    ip -n "$name" address add 192.0.2.$number/30 dev wire && ip -n "$name" link set wire up
    (umask 077 && echo "one secret" >"$folder/$name.secret")
    cat >"$folder/$name.toml" <<END
local = "192.0.2.$number"
[[peers]]
name = "other"
address = "192.0.2.$((3 - number))"
begins = $([ $number = 1 ] && echo true || echo false)
own_identity = { type = "fqdn", value = "end$number.example" }
peer_identity = { type = "fqdn", value = "end$((3 - number)).example" }
secret_file = "$name.secret"
[[peers.entries]]
action = "protect"
local = "10.$number.0.0/24"
remote = "10.$((3 - number)).0.0/24"
[peers.timers]
longest_backoff = 4
[peers.tun]
name = "suk0"
addresses = ["10.$number.0.1/24"]
routes = ["10.$((3 - number)).0.0/24"]
END
done
ip -n $right address add 198.51.100.1/32 dev wire
ip -n $left route add 198.51.100.0/24 dev wire
reaches() { ip netns exec $left ping -q -c 1 -W 1 10.2.0.1 >/dev/null 2>&1; }
pings() {
    ip netns exec $left ping -q -c 100 -i 0.02 -W 2 10.2.0.1 >"$folder/pings" 2>&1
    loss= && without_loss "$folder/pings"
}
resident() { awk '/^VmRSS/ { print $2 }' "/proc/$(process $left)/status"; }

start $right
start $left
expect "both ends are up" within 10 reaches
lines=$(wc -l <"$folder/$left.log")
first=$(process $left)
# Once of each kind, so that what is taken once for all is there before memory is looked at.
flood() { # KIND FROM SECONDS
    # shellcheck disable=SC2046 # several SPIs
    ip netns exec $right python3 garbage.py "$1" "$2" 192.0.2.1 "$3" $(children $left | grep -o '[0-9a-f]\{8\}')
}
for from in 192.0.2.2 198.51.100.1; do
    flood ike $from 2 >/dev/null
    flood esp $from 2 >/dev/null
done
flat() { # KIND FROM
    before=$(resident)
    sent=$(flood "$1" "$2" "$seconds")
    after=$(resident)
    figure="$sent in $seconds s, $before kB before, $after kB after"
    [ "$sent" -gt 0 ] && [ "$((after - before))" -le 512 ] && [ -d "/proc/$first" ]
}
expect "IKE from the peer's address: memory is flat" flat ike 192.0.2.2
expect "up afterwards" within 20 reaches
expect "IKE from another address: memory is flat" flat ike 198.51.100.1
expect "up after that" within 20 reaches
expect "ESP from the peer's address: memory is flat" flat esp 192.0.2.2
expect "up after that too" within 20 reaches
expect "ESP from another address: memory is flat" flat esp 198.51.100.1
expect "and at the end" within 20 reaches
expect "then no packet is lost" pings
counted() {
    figure="$(count $left strangers) of strangers, $(count $left unknown_spis) of unknown SPIs, $(count $left first_requests_limited) first requests too many"
    [ "$(count $left strangers)" -gt 0 ] && [ "$(count $left unknown_spis)" -gt 0 ]
}
expect "it was counted" counted
short() {
    more=$(($(wc -l <"$folder/$left.log") - lines))
    figure="$more lines"
    [ $more -lt $((seconds * 8 + 100)) ]
}
expect "the log stayed short" short
stop $left TERM
stop $right TERM
