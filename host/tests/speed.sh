#!/bin/sh
# The daemon's speed beside OpenVPN's with `cipher none` and `auth SHA256` over UDP, which does the same work in userland, in the same two network
# namespaces over one veth pair. Each round measures both and the bare pair, one after the other; at the end come the medians of the ratios.
# As root: sh host/tests/speed.sh [PROGRAM] [ROUNDS] [SECONDS], of a program built with cargo's feature `library`, by --release, over the library at
# x86-64-v3 where the processor has it. SECONDS are those of one measurement, of which a round has twelve.
[ $# = 0 ] || set -- "$(realpath "$1")" # before the folder is another one
cd "$(dirname "$0")" || exit 2
. ./common.sh
need "${1:-${CARGO_TARGET_DIR:-../target}/release/sukperind}" ip ping python3
rounds=${2:-3}
seconds=${3:-4}
install openvpn openvpn
install iperf3 iperf3
left=suk$$l right=suk$$r
logs="$folder/$left.log $folder/openvpn.$left"
space $left
space $right
ip link add wire netns $left type veth peer name wire netns $right || skip_all "a veth pair can't be made"
openvpn --genkey secret "$folder/key"
number=0
for name in $left $right; do
    number=$((number + 1))
    other=$((3 - number))
    ip -n "$name" address add 192.0.2.$number/30 dev wire && ip -n "$name" link set wire up
    (umask 077 && echo "one secret" >"$folder/$name.secret")
    cat >"$folder/$name.toml" <<END
local = "192.0.2.$number"
[[peers]]
name = "other"
address = "192.0.2.$other"
begins = $([ $number = 1 ] && echo true || echo false)
own_identity = { type = "fqdn", value = "end$number.example" }
peer_identity = { type = "fqdn", value = "end$other.example" }
secret_file = "$name.secret"
blocks = 128
[[peers.entries]]
action = "protect"
local = "10.$number.0.0/24"
remote = "10.$other.0.0/24"
[peers.tun]
name = "suk0"
addresses = ["10.$number.0.1/24"]
routes = ["10.$other.0.0/24"]
mtu = 1400
END
    start "$name"
    ip netns exec "$name" openvpn --dev ovpn0 --dev-type tun --proto udp --local 192.0.2.$number --remote 192.0.2.$other --port 1194 \
        --ifconfig 10.8.0.$number 10.8.0.$other --secret "$folder/key" --cipher none --auth SHA256 --tun-mtu 1400 --mssfix 0 \
        --sndbuf 4194304 --rcvbuf 4194304 --txqueuelen 1000 --verb 3 >"$folder/openvpn.$name" 2>&1 &
    echo $! >"$folder/openvpn.$name.pid"
done
ip netns exec $right iperf3 -s >/dev/null 2>&1 &
echo $! >"$folder/iperf3.pid"
reaches() { ip netns exec $left ping -q -c 1 -W 1 "$1" >/dev/null 2>&1; }
expect "the daemons are up" within 10 reaches 10.2.0.1
expect "OpenVPN is up" within 10 reaches 10.8.0.2

# What the processor spent on both ends' daemons, in ticks of a hundredth of a second.
spent() { # WHICH
    case $1 in
    sukperind) cat "/proc/$(process $left)/stat" "/proc/$(process $right)/stat" ;;
    openvpn) cat "/proc/$(process openvpn.$left)/stat" "/proc/$(process openvpn.$right)/stat" ;;
    bare) echo "0 0 0 0 0 0 0 0 0 0 0 0 0 0 0" ;;
    esac | awk '{ ticks += $14 + $15 } END { print ticks }'
}
measure() { # WHAT WHICH WORD ..
    what=$1 which=$2
    shift 2
    case $which in
    sukperind) address=10.2.0.1 ;;
    openvpn) address=10.8.0.2 ;;
    bare) address=192.0.2.2 ;;
    esac
    ticks=$(spent "$which")
    ip netns exec $left iperf3 -J -c "$address" -t "$seconds" "$@" >"$folder/report" 2>/dev/null
    python3 speed.py take "$what" "$which" $(($(spent "$which") - ticks)) <"$folder/report" >>"$folder/table"
}
round=0
while [ $round -lt "$rounds" ]; do
    for which in bare sukperind openvpn; do
        measure "TCP, 1 stream" "$which"
        measure "TCP, 4 streams" "$which" -P 4
        measure "UDP, 64 octets" "$which" -u -b 0 -l 64
        measure "UDP, 1372 octets" "$which" -u -b 0 -l 1372
    done
    round=$((round + 1))
done
python3 speed.py tell "$folder/table" >"$folder/ratios"
cat "$folder/ratios"
at_least() { # WHAT RATIO
    ratio=$(sed -n "s/^$1: times \([0-9.]*\), .*/\1/p" "$folder/ratios")
    figure="${ratio:-none} times, at least $2 is wanted"
    awk -v ratio="${ratio:-0}" -v wanted="$2" 'BEGIN { exit !(ratio + 0 >= wanted + 0) }'
}
expect "TCP of one stream" at_least "TCP, 1 stream" 3
expect "TCP of four streams" at_least "TCP, 4 streams" 3
expect "UDP of 64 octets" at_least "UDP, 64 octets" 1.7
expect "UDP of 1372 octets, packets of 1400" at_least "UDP, 1372 octets" 1.7
# A superpacket takes one place of the interface's queue, so a stream loses no more there than it does on the wire.
sent_again() { # WHAT
    again=$(sed -n "s/^$1: .*; retransmissions bare \([0-9]*\), sukperind \([0-9]*\), .*/\1 \2/p" "$folder/ratios")
    figure="${again#* }, and ${again% *} of the bare pair"
    [ -n "$again" ] && [ "${again#* }" -le "${again% *}" ]
}
expect "TCP of one stream: no more retransmissions than the bare pair" sent_again "TCP, 1 stream"
expect "TCP of four streams: no more retransmissions than the bare pair" sent_again "TCP, 4 streams"
