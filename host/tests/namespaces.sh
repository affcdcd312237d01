#!/bin/sh
# Two daemons with the core in two network namespaces over a veth pair: up, pings of both families, replacement of a Child SA under pings, a wrong
# secret, a changed configuration, kills, an interface that goes and comes, a wire that is cut, a queue that overflows, how often an idle daemon
# wakes. As root: sh host/tests/namespaces.sh [PROGRAM], of a program built with cargo's feature `library`
# (SUKPERIN_LIB=FOLDER sh host/cargo.sh build --features library). It ends with how many passed, failed and were skipped.
[ $# = 0 ] || set -- "$(realpath "$1")" # before the folder is another one
cd "$(dirname "$0")" || exit 2
. ./common.sh
need "${1:-${CARGO_TARGET_DIR:-../target}/debug/sukperind}" ip ping python3
left=suk$$l right=suk$$r
logs="$folder/$left.log $folder/$right.log"

# Both families inside, or IPv4 alone.
configuration() { # END PEER NUMBER PEERNUMBER BEGINS SECRET FAMILIES TIMERS
    (umask 077 && echo "$6" >"$folder/$1.secret")
    cat >"$folder/$1.toml" <<END
local = "192.0.2.$3"
[[peers]]
name = "other"
address = "192.0.2.$4"
begins = $5
own_identity = { type = "fqdn", value = "end$3.example" }
peer_identity = { type = "fqdn", value = "end$4.example" }
secret_file = "$1.secret"
blocks = 16
[[peers.entries]]
action = "protect"
local = "10.$3.0.0/24"
remote = "10.$4.0.0/24"
$([ "$7" = 1 ] || echo '[[peers.entries]]
action = "protect"')
$([ "$7" = 1 ] || echo "local = \"2001:db8:0:$3::/64\"
remote = \"2001:db8:0:$4::/64\"")
[peers.timers]
longest_backoff = 4
child_age = 60
$8
[peers.tun]
name = "suk0"
addresses = ["10.$3.0.1/24", "2001:db8:0:$3::1/64"]
routes = ["10.$4.0.0/24", "2001:db8:0:$4::/64"]
END
}
# Both ends, the left of which begins.
configure() { # FAMILIES TIMERS
    configuration $left $right 1 2 true "one secret" "$1" "${2:-}"
    configuration $right $left 2 1 false "one secret" "$1" "${2:-}"
}
space $left
space $right
ip link add wire netns $left type veth peer name wire netns $right || skip_all "a veth pair can't be made"
number=0
for name in $left $right; do
    number=$((number + 1))
    ip -n "$name" address add 192.0.2.$number/30 dev wire && ip -n "$name" link set wire up
done

is_up() { json "$1" | grep -q '"entries":2,"carried":2'; }
is_down() { json "$1" | grep -q '"up":null'; }
ping_four() { ip netns exec "$1" ping -q -c "$3" -i 0.05 -W 2 "10.$2.0.1" >"$folder/four" 2>&1; }
ping_six() { ip netns exec "$1" ping -q -c "$3" -i 0.05 -W 2 "2001:db8:0:$2::1" >"$folder/six" 2>&1; }
pings() { # END PEERNUMBER
    ping_four "$1" "$2" 5
    ping_six "$1" "$2" 5
    loss= && without_loss "$folder/four" "$folder/six"
}
reaches() { # END PEERNUMBER
    ip netns exec "$1" ping -q -c 1 -W 1 "10.$2.0.1" >/dev/null 2>&1 && ip netns exec "$1" ping -q -c 1 -W 1 "2001:db8:0:$2::1" >/dev/null 2>&1
}

configure 2
start $right
start $left
expect "both ends are up within 10 s" within 10 is_up $left
expect "at the other end too" within 10 is_up $right
expect "pings of both families, from the left" pings $left 2
expect "pings of both families, from the right" pings $right 1
expect "the socket is its owner's alone" [ "$(stat -c %a "$folder/$left.sock")" = 600 ]
expect "only rights to raw sockets and interfaces" grep -q 'CapEff:.*0000000000003000' "/proc/$(process $left)/status"

# 75 s of pings, in which the Child SAs of 60 s are replaced.
before=$(children $left)
ip netns exec $left ping -q -i 0.02 -c 3750 10.2.0.1 >"$folder/ping4" &
four=$!
ip netns exec $right ping -q -i 0.02 -c 3750 2001:db8:0:1::1 >"$folder/ping6" &
six=$!
wait $four $six
expect "the Child SAs were replaced" [ "$before" != "$(children $left)" ]
loss=
expect "without a loss" without_loss "$folder/ping4" "$folder/ping6"

kill -HUP "$(process $left)"
sleep 1
expect "SIGHUP without a change takes nothing away" pings $left 2
# A configuration with a fault is told, and what stood goes on.
echo "nonsense = 1" >>"$folder/$left.toml"
kill -HUP "$(process $left)"
told() { grep -q "$1" "$folder/$left.log"; }
expect "SIGHUP with a fault in the file tells the line" within 3 told "$left.toml:[0-9]*: "
expect "and takes nothing away" pings $left 2
# Without the entry of IPv6 nothing of it goes any more; with it, it goes again.
only_four() {
    json $left | grep -q '"entries":1,"carried":1' && ip netns exec $left ping -q -c 1 -W 1 10.2.0.1 >/dev/null 2>&1 &&
        ! ip netns exec $left ping -q -c 1 -W 1 2001:db8:0:2::1 >/dev/null 2>&1
}
reload() { kill -HUP "$(process $left)" "$(process $right)"; }
configure 1
reload
expect "SIGHUP with an entry less at both ends" within 20 only_four
configure 2
reload
expect "SIGHUP with it again" within 20 reaches $left 2

stop $left TERM
expect "SIGTERM tells the peer" within 3 is_down $right
start $left
expect "up again after it" within 10 reaches $left 2

# Who is killed tells nothing: the other end begins anew once nothing is answered, or is begun with again.
stop $right KILL
start $right
expect "up again after a kill of the end that waits" within 20 reaches $left 2
stop $left KILL
start $left
expect "up again after a kill of the end that begins" within 20 reaches $left 2
stop $left KILL
stop $right KILL
start $left
start $right
expect "up again after a kill of both at once" within 20 reaches $left 2

ip -n $left link delete suk0
expect "an interface that was deleted is made again" within 10 reaches $left 2
# So short a cut that nothing but packets is lost, and one in which the IKE SA is given up.
ip -n $left link set wire down
sleep 3
ip -n $left link set wire up
expect "after 3 s of a wire that is cut" within 10 reaches $left 2
ip -n $left link set wire down
sleep 60
ip -n $left link set wire up
expect "after 60 s of it" within 20 reaches $left 2

# The right end sleeps while more comes than its socket keeps.
drops() { ip netns exec $right awk 'NR > 1 { lost += $NF } END { print lost + 0 }' /proc/net/raw; }
overflows() {
    kill -STOP "$(process $right)"
    ip netns exec $left python3 garbage.py esp 192.0.2.1 192.0.2.2 2 >/dev/null
    figure="$(drops) packets lost there"
    lost=$(drops)
    kill -CONT "$(process $right)"
    [ "$lost" -gt 0 ]
}
expect "the queue of the raw socket overflows" overflows
expect "and afterwards all goes on" within 20 reaches $left 2

# Idle: without probes, secrets of cookies alone are due, each 3 minutes.
stop $left TERM
stop $right TERM
configure 2 'silence = 3600'
start $right
start $left
within 10 is_up $left
sleep 8
wakings() { grep -o '^voluntary_ctxt_switches.*' "/proc/$(process "$1")/status" | grep -o '[0-9]*'; }
idle() {
    lefts=$(wakings $left) rights=$(wakings $right)
    sleep 10
    lefts=$(($(wakings $left) - lefts)) rights=$(($(wakings $right) - rights))
    figure="$lefts and $rights"
    [ $lefts -le 2 ] && [ $rights -le 2 ]
}
expect "an idle daemon wakes twice in 10 s at most" idle

stop $left TERM
stop $right TERM
configure 2
configuration $left $right 1 2 true "another secret" 2 ""
start $right
start $left
sleep 5
expect "a wrong secret brings nothing up" is_down $left
expect "nor at the other end" is_down $right
stop $left TERM
stop $right TERM
