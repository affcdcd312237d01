#!/bin/sh
# The daemon with the core beside strongSwan's charon over Linux's own ESP, which runs in a small guest of qemu, since not every kernel has ESP.
# As root: sh host/tests/real_peer.sh [PROGRAM], of a program built with cargo's feature `library`. It installs what is missing by apt-get.
# SUKPERIN_GUEST names a folder in which a guest that was built is kept. It takes about 5 minutes.
[ $# = 0 ] || set -- "$(realpath "$1")" # before the folder is another one
cd "$(dirname "$0")" || exit 2
. ./common.sh
need "${1:-${CARGO_TARGET_DIR:-../target}/debug/sukperind}" ip ping
install qemu-system-x86_64 qemu-system-x86 seabios
install swanctl strongswan-swanctl strongswan-charon libcharon-extra-plugins libstrongswan-standard-plugins
install busybox busybox-static
install cpio cpio
install modprobe kmod

end=suk$$r
guest=${SUKPERIN_GUEST:-$folder/guest}
if ! [ -e "$guest/memory" ]; then
    bash guest.sh "$guest" >"$folder/guest.log" 2>&1 || {
        tail -n 3 "$folder/guest.log"
        skip_all "the guest can't be built"
    }
fi
space $end
ip -n $end tuntap add wire mode tap || skip_all "a TAP device can't be made"
ip -n $end address add 192.0.2.1/24 dev wire
ip -n $end link set wire up
nice -n 5 ip netns exec $end qemu-system-x86_64 -accel tcg -cpu max -m 256 -smp 1 -display none -serial stdio -monitor none \
    -no-reboot -kernel "$guest/kernel" -initrd "$guest/memory" -append "console=ttyS0 panic=-1 quiet mitigations=off" \
    -netdev tap,id=wire,ifname=wire,script=no,downscript=no -device virtio-net-pci,netdev=wire,romfile= </dev/null >"$folder/console" 2>&1 &
echo $! >"$folder/guest.pid"

# Runs a script, which comes on standard input or as words, in the guest.
inside() {
    if [ $# = 0 ]; then cat; else echo "$@"; fi | timeout 300 ip netns exec $end busybox nc -w 10 192.0.2.2 9999 2>/dev/null
}
answers() { [ "$(inside echo there)" = there ]; }
within 600 answers || { tail -n 3 "$folder/console"; skip_all "the guest doesn't come up"; }
logs="$folder/$end.log $folder/charon.log"

secret="a secret of both ends"
configuration() { # BEGINS EXTENDED TIMERS
    (umask 077 && printf '%s' "$secret" >"$folder/$end.secret")
    cat >"$folder/$end.toml" <<END
local = "192.0.2.1"
[[peers]]
name = "charon"
address = "192.0.2.2"
begins = $1
own_identity = { type = "fqdn", value = "ours.example" }
peer_identity = { type = "fqdn", value = "charon.example" }
secret_file = "$end.secret"
extended = $2
blocks = 16
[[peers.entries]]
action = "protect"
local = "10.1.0.0/24"
remote = "10.2.0.0/24"
[[peers.entries]]
action = "protect"
local = "2001:db8:0:1::/64"
remote = "2001:db8:0:2::/64"
[peers.timers]
longest_backoff = 4
${3:-}
[peers.tun]
name = "suk0"
addresses = ["10.1.0.1/32", "2001:db8:0:1::1/128"]
routes = ["10.2.0.0/24", "2001:db8:0:2::/64"]
END
}

# charon's configuration: its proposal of ESP, what it does with a Child SA once it is loaded (none or start), and how often it probes (0: never).
charon_configuration() { # ESP ACTION PROBES
    close=none
    [ "$2" = none ] || close=start
    inside <<END
cat >/etc/swanctl/swanctl.conf <<'CONF'
connections {
  site {
    version = 2
    mobike = no
    unique = replace
    local_addrs = 192.0.2.2
    remote_addrs = 192.0.2.1
    proposals = aes256-sha256-modp2048
    rekey_time = 0
    keyingtries = 0
    dpd_delay = $3
    local {
      auth = psk
      id = charon.example
    }
    remote {
      auth = psk
      id = ours.example
    }
    children {
      four {
        local_ts = 10.2.0.0/24
        remote_ts = 10.1.0.0/24
        esp_proposals = $1
        rekey_time = 0
        start_action = $2
        close_action = $close
        dpd_action = $(if [ "$2" = none ]; then echo clear; else echo restart; fi)
      }
      six {
        local_ts = 2001:db8:0:2::/64
        remote_ts = 2001:db8:0:1::/64
        esp_proposals = $1
        rekey_time = 0
        start_action = $2
        close_action = $close
        dpd_action = $(if [ "$2" = none ]; then echo clear; else echo restart; fi)
      }
    }
  }
}
secrets {
  ike-site {
    id = ours.example
    secret = "a secret of both ends"
  }
}
CONF
END
}
# Ends a charon by SIGKILL, with what it left in the kernel, as where its machine was cut from power.
charon_killed() {
    inside <<'END'
[ -e /run/charon.own ] && kill -9 $(cat /run/charon.own) && sleep 0.2
rm -f /run/charon.own /run/charon.pid /run/charon.vici /var/log/charon
/usr/bin/ip xfrm state flush
/usr/bin/ip xfrm policy flush
END
}
charon_started() {
    inside <<'END'
/usr/lib/ipsec/charon >/dev/null 2>&1 </dev/null &
echo $! >/run/charon.own
for turn in 1 2 3 4 5 6 7 8 9 10 11 12 13 14 15 16 17 18 19 20; do [ -S /run/charon.vici ] && break; sleep 0.2; done
swanctl --load-all --noprompt >/dev/null 2>&1
END
}
charon_log() { inside cat /var/log/charon >"$folder/charon.log" 2>/dev/null; }
charon_counts() { charon_log && grep -c "$1" "$folder/charon.log"; }

carried() { json $end | grep -q '"entries":2,"carried":2'; }
extended() { [ "$(json $end | grep -o "\"extended\":$1" | wc -l)" = 2 ]; }
# Whether charon's kernel has numbers of 64 bits.
esn() { inside /usr/bin/ip xfrm state | grep -q 'flag.*esn'; }
ping_ours() { # FILE ARGUMENT ..
    told=$folder/$1
    shift
    ip netns exec $end ping -q -W 3 "$@" >"$told" 2>&1
}
ping_charon() {
    told=$folder/$1
    shift
    inside /usr/bin/ping -q -W 3 "$@" >"$told" 2>&1
}
reaches() { ip netns exec $end ping -q -c 1 -W 1 10.2.0.1 >/dev/null 2>&1; }
reaches_both() { reaches && ip netns exec $end ping -q -c 1 -W 1 2001:db8:0:2::1 >/dev/null 2>&1; }
pings() { # FROM
    case $1 in
    ours)
        ping_ours four -c 40 -i 0.05 10.2.0.1
        ping_ours six -c 40 -i 0.05 2001:db8:0:2::1
        ;;
    charon)
        ping_charon four -c 40 -i 0.05 -I 10.2.0.1 10.1.0.1
        ping_charon six -c 40 -i 0.05 -I 2001:db8:0:2::1 2001:db8:0:1::1
        ;;
    esac
    loss= && without_loss "$folder/four" "$folder/six"
}
# Both ends hold the same Child SAs: each inbound SPI of ours is in charon's kernel, and it has as many more.
same_children() {
    ours=$(json $end | grep -o '"spi_\(in\|out\)":"[0-9a-f]*"' | grep -o '[0-9a-f]\{8\}' | sort)
    theirs=$(inside /usr/bin/ip xfrm state | grep -o 'spi 0x[0-9a-f]*' | grep -o '[0-9a-f]\{8\}' | sort)
    figure="$(echo "$ours" | wc -l) SPIs here, $(echo "$theirs" | wc -l) there"
    [ -n "$ours" ] && [ "$ours" = "$theirs" ]
}
# Two million octets that go one way by TCP arrive as they were.
stream() { # FROM
    figure="2000000 octets"
    # A listener whose input ends would end the sender.
    [ -e "$folder/open" ] || mkfifo "$folder/open"
    if [ "$1" = ours ]; then
        head -c 2000000 /dev/urandom >"$folder/sent"
        inside 'mkfifo /run/open; nc -l -p 7000 <>/run/open | sha256sum; rm /run/open' >"$folder/came" &
        sleep 1
        timeout 60 ip netns exec $end busybox nc 10.2.0.1 7000 <"$folder/sent" >/dev/null
        wait $!
        sha256sum <"$folder/sent" >"$folder/went"
    else
        timeout 60 ip netns exec $end busybox nc -l -p 7000 <>"$folder/open" | sha256sum >"$folder/came" &
        sleep 1
        inside 'head -c 2000000 /dev/urandom >/run/sent; sha256sum </run/sent; nc 10.1.0.1 7000 </run/sent' >"$folder/went"
        wait $!
    fi
    [ -s "$folder/went" ] && cmp -s "$folder/went" "$folder/came"
}

# Up from nothing, with pings both ways. NAME is of the scenario.
brought_up() { # NAME BEGINS EXTENDED ESP PROBES TIMERS
    [ -e "$folder/$end.pid" ] && stop $end KILL
    charon_killed
    configuration "$2" "$3" "${6:-}"
    if [ "$2" = true ]; then charon_configuration "$4" none "$5"; else charon_configuration "$4" start "$5"; fi
    start $end
    charon_started
    expect "$1: both Child SAs are up within 20 s" within 20 carried
    charon_log
    expect "$1: pings of both families from ours" pings ours
    expect "$1: pings of both families from charon's" pings charon
    expect "$1: both ends hold the same Child SAs" within 15 same_children
}

# Pings both ways, as long as it is told, while something happens.
pings_begin() { # SECONDS
    ping_ours four -i 0.05 -c $(($1 * 20)) 10.2.0.1 &
    first=$!
    ping_charon six -i 0.1 -c $(($1 * 10)) -I 2001:db8:0:2::1 2001:db8:0:1::1 &
    second=$!
    sleep 1
}
pings_end() {
    wait "$first" "$second"
    loss= && without_loss "$folder/four" "$folder/six"
}
rekeyed_by_charon() {
    before=$(children $end)
    pings_begin 12
    inside 'for turn in 1 2 3; do swanctl --rekey --child four; swanctl --rekey --child six; sleep 2; done' >/dev/null
    pings_end && [ "$before" != "$(children $end)" ]
}
# A rekeying of the IKE SA is declined. charon then ends the IKE SA and authenticates anew.
ike_rekeying_declined() {
    old_association
    inside swanctl --rekey --ike site >/dev/null
    within 30 is_new
    held=$?
    figure="$figure, $(charon_counts 'N(NO_ADD_SAS)') times NO_ADDITIONAL_SAS"
    [ $held = 0 ] && [ "$(charon_counts 'N(NO_ADD_SAS)')" -gt 0 ]
}
# So many seconds of silence inside: who probes is answered, and the IKE SA stays.
probed() { # PATTERN AT-LEAST SECONDS
    before=$(json $end | grep -o '"spi_initiator":"[0-9a-f]*"')
    had=$(charon_counts "$1")
    sleep "$3"
    had=$(($(charon_counts "$1") - had))
    figure="$had in $3 s"
    [ $had -ge "$2" ] && [ "$before" = "$(json $end | grep -o '"spi_initiator":"[0-9a-f]*"')" ] && carried
}
is_new() { [ "$(json $end | grep -o '"spi_initiator":"[0-9a-f]*"' | tail -n 1)" != "$old" ] && reaches_both; }
old_association() { old=$(json $end | grep -o '"spi_initiator":"[0-9a-f]*"' | tail -n 1); }
charon_restarted() { # SECONDS
    old_association
    charon_killed
    charon_started
    within "$1" is_new
}
restarted() { # SECONDS
    stop $end KILL
    start $end
    within "$1" reaches_both
}
charon_holds_none() { [ "$(inside /usr/bin/ip xfrm state | wc -l)" = 0 ]; }
both_extended() { extended true && esn; }
both_plain() { extended false && ! esn; }

brought_up "ours begins, 64 bits" true true null-sha256-esn-noesn 0
expect "its numbers have 64 bits at both ends" both_extended
expect "a stream from ours" stream ours
expect "a stream from charon's" stream charon
expect "our probes are answered" probed 'parsed INFORMATIONAL request' 2 15
expect "charon's rekeying of Child SAs, without a loss" rekeyed_by_charon
expect "both ends hold the same Child SAs after it" within 10 same_children
expect "charon's rekeying of the IKE SA is declined, and it is up again" ike_rekeying_declined
expect "up again after a kill of charon" charon_restarted 30
expect "up again after a kill of ours" restarted 30
old_association
inside swanctl --terminate --ike site >/dev/null
expect "up again after charon ended the IKE SA" within 20 is_new
stop $end TERM
expect "SIGTERM leaves charon nothing" within 5 charon_holds_none

brought_up "charon begins, 64 bits" false true null-sha256-esn-noesn 2
expect "its numbers have 64 bits at both ends too" both_extended
expect "charon's probes are answered" probed 'sending DPD request' 3 10
expect "charon's rekeying of Child SAs that it began, without a loss" rekeyed_by_charon
expect "both ends hold the same Child SAs after that" within 10 same_children
expect "up again after a kill of the charon that begins" charon_restarted 40
expect "up again after a kill of ours that waits" restarted 60

brought_up "ours begins, 32 bits" true false null-sha256-esn-noesn 0
expect "its numbers have 32 bits at both ends" both_plain
brought_up "charon begins, 32 bits" false true null-sha256 2
expect "its numbers have 32 bits at both ends too" both_plain

# Child SAs of 60 s and IKE SAs of 90 s are replaced under 100 s of pings.
brought_up "ages" true true null-sha256-esn-noesn 0 'child_age = 60
association_age = 90'
old_association
before=$(children $end)
aged() {
    pings_begin 55
    pings_end && pings_begin 50 && pings_end
}
expect "replaced by age without a loss" aged
all_new() { [ "$before" != "$(children $end)" ] && is_new; }
expect "Child SAs and IKE SAs are others" all_new
expect "both ends hold the same Child SAs after replacements" within 15 same_children

secret="another secret"
stop $end TERM
configuration true true
start $end
sleep 5
nothing_up() { ! carried && charon_holds_none; }
expect "a wrong secret brings nothing up" nothing_up
stop $end TERM
