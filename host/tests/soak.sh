#!/bin/sh
# Two daemons with the core over a wire that loses 5 %, repeats 5 % and reorders 10 % of what goes, while traffic runs both ways and commands come at
# random: SIGHUP with a changed configuration, SIGTERM, SIGKILL, both ends at once, an interface that is deleted. Child SAs are replaced each few
# seconds. Afterwards both ends hold the same Child SAs, and no datagram arrived twice or damaged.
# As root: sh host/tests/soak.sh [PROGRAM] [SECONDS] [SEED], of a program built with cargo's feature `library`.
[ $# = 0 ] || set -- "$(realpath "$1")" # before the folder is another one
cd "$(dirname "$0")" || exit 2
. ./common.sh
need "${1:-${CARGO_TARGET_DIR:-../target}/debug/sukperind}" ip ping python3
seconds=${2:-120}
seed=${3:-$(date +%s)}
echo "seconds $seconds, seed $seed"
left=suk$$l right=suk$$r
logs="$folder/$left.log $folder/$right.log"
space $left
space $right
python3 wire.py $left $right "$seed" >"$folder/wire" 2>&1 &
wire=$!
echo $wire >"$folder/wire.pid"
wired() { ip -n $right link show wire >/dev/null 2>&1; }
within 10 wired || skip_all "a TAP device can't be made"
number=0
for name in $left $right; do
    number=$((number + 1))
    ip -n "$name" address add 192.0.2.$number/30 dev wire && ip -n "$name" link set wire up
done

configuration() { # END PEER NUMBER PEERNUMBER BEGINS OCTETS
    (umask 077 && echo "one secret" >"$folder/$1.secret")
    cat >"$folder/$1.toml" <<END
local = "192.0.2.$3"
[[peers]]
name = "other"
address = "192.0.2.$4"
begins = $5
own_identity = { type = "fqdn", value = "end$3.example" }
peer_identity = { type = "fqdn", value = "end$4.example" }
secret_file = "$1.secret"
window = 4
blocks = 16
[[peers.entries]]
action = "protect"
local = "10.$3.0.0/24"
remote = "10.$4.0.0/24"
[[peers.entries]]
action = "protect"
local = "2001:db8:0:$3::/64"
remote = "2001:db8:0:$4::/64"
[peers.timers]
longest_backoff = 4
child_age = 60
association_age = 60
child_octets = $6
[peers.tun]
name = "suk0"
addresses = ["10.$3.0.1/24", "2001:db8:0:$3::1/64"]
routes = ["10.$4.0.0/24", "2001:db8:0:$4::/64"]
END
}
configure() { # END OCTETS
    if [ "$1" = $left ]; then configuration $left $right 1 2 true "$2"; else configuration $right $left 2 1 false "$2"; fi
}
chance() { # OF: a number below it
    seed=$(((seed * 1103515245 + 12345) % 2147483648))
    drawn=$((seed / 65536 % $1))
}
is_up() { json "$1" | grep -q '"entries":2,"carried":2'; }
both_up() { is_up $left && is_up $right; }

ways="$left,$right,10.2.0.1 $right,$left,10.1.0.1 $left,$right,2001:db8:0:2::1 $right,$left,2001:db8:0:1::1"
# Puts the parts of a way into `from`, `to` and `address`, and its name into `flow`.
parts() {
    from=${1%%,*} address=${1##*,} to=${1#*,}
    to=${to%%,*}
    flow="$([ "$from" = $left ] && echo left || echo right) to $address"
}
for way in $ways; do
    parts "$way"
    ip netns exec "$to" python3 numbered.py count "$address" 7000 >"$folder/$flow.came" 2>&1 &
    echo $! >>"$folder/counting"
done
configure $left 1000000
configure $right 1000000
start $right
start $left
expect "both ends are up" within 20 both_up
for way in $ways; do
    parts "$way"
    ip netns exec "$from" python3 numbered.py send "$address" 7000 100 "$seconds" >"$folder/$flow.went" 2>&1 &
    echo $! >>"$folder/sending"
done
kill -USR1 $wire
orders=0 replacements=0
over=$(($(date +%s) + seconds - 5))
while [ "$(date +%s)" -lt $over ]; do
    chance 2
    end=$left
    [ "$drawn" = 0 ] || end=$right
    chance 20
    case $drawn in
    0) stop $end TERM && start $end ;;
    1) stop $end KILL && start $end ;;
    2) stop $left KILL && stop $right KILL && start $right && start $left ;;
    3) ip -n $end link delete suk0 2>/dev/null ;;
    *)
        chance 2000000
        configure $end $((1000000 + drawn))
        kill -HUP "$(process $end)"
        ;;
    esac
    orders=$((orders + 1))
    spis=$(children $left)
    chance 40
    sleep $((drawn / 10 + 1)).$((drawn % 10))
    [ "$spis" = "$(children $left)" ] || replacements=$((replacements + 1))
done
# shellcheck disable=SC2046 # numbers of processes
wait $(cat "$folder/sending")
kill -USR2 $wire

# The pairs of SPIs of one end are those of the other, the other way round, one for each entry.
agreed() {
    mine=$(json $left | grep -o '"spi_in":"[0-9a-f]*","spi_out":"[0-9a-f]*"' | sed 's/"spi_in":\("[0-9a-f]*"\),"spi_out":\("[0-9a-f]*"\)/\1 \2/' | sort)
    theirs=$(json $right | grep -o '"spi_in":"[0-9a-f]*","spi_out":"[0-9a-f]*"' | sed 's/"spi_in":\("[0-9a-f]*"\),"spi_out":\("[0-9a-f]*"\)/\2 \1/' | sort)
    [ -n "$mine" ] && [ "$mine" = "$theirs" ] && both_up
}
expect "afterwards both ends hold the same Child SAs" within 60 agreed
echo "        $orders commands, Child SAs changed after $replacements of them; $(agreed && echo "$mine" | wc -l) Child SAs at each end"
sleep 1
# shellcheck disable=SC2046 # numbers of processes
kill $(cat "$folder/counting")
# shellcheck disable=SC2046 # the same
wait $(cat "$folder/counting")
none_twice() { # FLOW
    figure="$(cat "$folder/$1.went"), $(cat "$folder/$1.came")"
    grep -q '^[1-9][0-9]* arrived, 0 twice, 0 damaged' "$folder/$1.came"
}
for way in $ways; do
    parts "$way"
    expect "none arrived twice, $flow" none_twice "$flow"
done
refused_replays() {
    figure="$(json $left | grep -o '"number":16,"words":"[^"]*","count":[0-9]*' | grep -o '[0-9]*$') at the left since its start"
    json $left | grep -q '"number":16,' || json $right | grep -q '"number":16,'
}
expect "what the wire repeated was refused" refused_replays
pings() { # END PEERNUMBER
    ip netns exec "$1" ping -q -c 100 -i 0.02 -W 2 "10.$2.0.1" >"$folder/four" 2>&1
    ip netns exec "$1" ping -q -c 100 -i 0.02 -W 2 "2001:db8:0:$2::1" >"$folder/six" 2>&1
    loss= && without_loss "$folder/four" "$folder/six"
}
expect "pings of both families, from the left" pings $left 2
expect "pings of both families, from the right" pings $right 1
kill -TERM $wire
wait $wire
echo "        the wire: $(cat "$folder/wire")"
