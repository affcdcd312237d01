#!/bin/sh
# The daemon's unit under a real systemd, in a small guest of qemu (tests/guest.sh), with a peer here: start with READY, status, reload, watchdog,
# stop with a deletion at the peer, a restart of what hangs. As root: sh host/tests/systemd.sh [PROGRAM], of a program built with cargo's feature
# `library`. It installs what is missing by apt-get. SUKPERIN_GUEST names a folder in which the guest's kernel is kept. It takes about 3 minutes.
[ $# = 0 ] || set -- "$(realpath "$1")" # before the folder is another one
cd "$(dirname "$0")" || exit 2
. ./common.sh
need "${1:-${CARGO_TARGET_DIR:-../target}/debug/sukperind}" ip ping
[ -x /lib/systemd/systemd ] || skip_all "systemd isn't installed"
install qemu-system-x86_64 qemu-system-x86 seabios
install busybox busybox-static
install cpio cpio
install modprobe kmod

end=suk$$r
guest=${SUKPERIN_GUEST:-$folder/guest}
bash guest.sh "$guest" systemd "$program" >"$folder/guest.log" 2>&1 || {
    tail -n 3 "$folder/guest.log"
    skip_all "the guest can't be built"
}
space $end
ip -n $end tuntap add wire mode tap || skip_all "a TAP device can't be made"
ip -n $end address add 192.0.2.1/24 dev wire
ip -n $end link set wire up
nice -n 5 ip netns exec $end qemu-system-x86_64 -accel tcg -cpu max -m 512 -smp 1 -display none -serial stdio -monitor none \
    -no-reboot -kernel "$guest/kernel" -initrd "$guest/systemd-memory" -append "console=ttyS0 panic=-1 quiet mitigations=off" \
    -netdev tap,id=wire,ifname=wire,script=no,downscript=no -device virtio-net-pci,netdev=wire,romfile= </dev/null >"$folder/console" 2>&1 &
echo $! >"$folder/guest.pid"

# Runs a script, which comes on standard input or as words, in the guest.
inside() {
    if [ $# = 0 ]; then cat; else echo "$@"; fi | timeout 300 ip netns exec $end busybox nc -w 20 192.0.2.2 9999 2>/dev/null
}
answers() { [ "$(inside echo there)" = there ]; }
within 600 answers || { tail -n 3 "$folder/console"; skip_all "the guest doesn't come up"; }
logs="$folder/$end.log $folder/journal"

# Two ends of one link: the one in the guest begins.
secret="a secret of both ends"
configuration() { # OWN OTHER BEGINS ROUTES
    cat <<END
local = "192.0.2.$1"
[[peers]]
name = "other"
address = "192.0.2.$2"
begins = $3
own_identity = { type = "fqdn", value = "end$1.example" }
peer_identity = { type = "fqdn", value = "end$2.example" }
secret_file = "link.secret"
[[peers.entries]]
action = "protect"
local = "10.$1.0.0/24"
remote = "10.$2.0.0/24"
[peers.timers]
longest_backoff = 4
[peers.tun]
name = "suk0"
addresses = ["10.$1.0.1/32"]
routes = [$4]
END
}
(umask 077 && printf '%s' "$secret" >"$folder/link.secret")
configuration 1 2 false '"10.2.0.0/24"' >"$folder/$end.toml"
configured() { # ROUTES
    inside <<END
(umask 077 && printf '%s' "$secret" >/etc/sukperind/link.secret)
cat >/etc/sukperind/sukperind.toml <<'CONF'
$(configuration 2 1 true "$1")
CONF
END
}
configured '"10.1.0.0/24"'

# A property of the unit, as systemd tells it.
property() { inside "systemctl show --value -p $1 sukperind"; }
is_active() { [ "$(property ActiveState) $(property SubState)" = "active running" ]; }
carried() { json $end | grep -q '"entries":1,"carried":1'; }
reaches() { ip netns exec $end ping -q -c 1 -W 1 10.2.0.1 >/dev/null 2>&1; }
# What systemctl answers, after how long.
commanded() { # COMMAND
    begun=$(milliseconds)
    told=$(inside "systemctl $1 sukperind; echo \$?")
    took=$(($(milliseconds) - begun))
    figure="$((took / 1000)).$((took % 1000 / 100)) s"
    inside journalctl --no-pager -u sukperind >"$folder/journal"
    [ "$told" = 0 ]
}
start $end

# Of a unit with Type=notify, `systemctl start` comes back when READY=1 came.
expect "systemctl start: the daemon says that it is ready" commanded start
expect "the unit is active" is_active
expect "both ends are up within 20 s" within 20 carried
expect "a ping goes through" within 10 reaches
status_told() {
    inside sukperind status >"$folder/status"
    figure=$(grep '^peer' "$folder/status")
    grep -q '^peer other (192.0.2.1): up for .*, 1 of 1 entries carried' "$folder/status"
}
expect "the status command tells it" status_told
# It runs as the unit says, with no new rights and a filter of system calls. Of the unit's three rights it keeps two: that to ports stays in the
# bounding set, out of which only CAP_SETPCAP could take it.
limited() {
    main=$(property MainPID)
    figure=$(inside "grep -E '^(CapPrm|CapEff|CapBnd|NoNewPrivs|Seccomp):' /proc/$main/status" | tr -s '\t\n' ' ')
    [ "$figure" = "CapPrm: 0000000000003000 CapEff: 0000000000003000 CapBnd: 0000000000003400 NoNewPrivs: 1 Seccomp: 2 " ]
}
expect "its rights are limited" limited

reloaded() {
    main=$(property MainPID)
    configured '"10.1.0.0/24", "10.3.0.0/24"'
    commanded reload && within 10 routed && [ "$main" = "$(property MainPID)" ] && is_active
}
routed() { inside /usr/bin/ip route | grep -q '^10.3.0.0/24 dev suk0'; }
expect "systemctl reload: another configuration is taken" reloaded
expect "a ping goes through after it" within 20 reaches

# The watchdog waits 10 s. In 35 s it is told at least three times, and nothing is restarted.
watched() {
    main=$(property MainPID) tellings=0 last=
    until=$(($(milliseconds) + 35000))
    while [ "$(milliseconds)" -lt $until ]; do
        now=$(property WatchdogTimestampMonotonic)
        [ "$now" = "$last" ] || tellings=$((tellings + 1))
        last=$now
        sleep 1
    done
    figure="told $((tellings - 1)) times in 35 s"
    [ $tellings -gt 3 ] && [ "$main" = "$(property MainPID)" ] && [ "$(property NRestarts)" = 0 ]
}
expect "WATCHDOG is kept for three periods" watched

# Stopped by a signal that can't be caught, it tells the watchdog nothing: systemd ends it and starts another one.
hangs() {
    main=$(property MainPID)
    inside kill -STOP "$main"
    within 40 restarted
    held=$?
    inside journalctl --no-pager -u sukperind >"$folder/journal"
    [ $held = 0 ] && grep -q 'Watchdog timeout' "$folder/journal"
}
restarted() { [ "$(property NRestarts)" = 1 ] && is_active && [ "$(property MainPID)" != "$main" ]; }
expect "one that hangs is restarted by the watchdog" hangs
expect "both ends are up again after that" within 60 reaches

# What hung told the peer nothing: its old Child SA stays there until a probe, 4.5 s later, has had no answer for 47 s.
one_child() { [ "$(children $end | wc -l)" = 1 ]; }
expect "the peer gives up the Child SA of the one that hung" within 90 one_child

# The peer's daemon is asked each 0.1 s whether its Child SAs went. Untold it would keep them for 51 s; an emulated guest takes seconds to obey.
deleted() { json $end | grep -q '"carried":0' && [ -z "$(children $end)" ]; }
stopped() {
    inside systemctl stop sukperind &
    stopping=$!
    within 10 deleted
    held=$? took=$figure
    wait $stopping
    figure="$took; $(property Result), $(property ActiveState)"
    [ $held = 0 ] && [ "$(property Result) $(property ActiveState)" = "success inactive" ]
}
expect "systemctl stop: deleted at the peer within 10 s" stopped
expect "the journal has its lines" grep -q 'sukperind\[' "$folder/journal"
