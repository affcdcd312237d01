# What the host's tests in shell share; each takes it in by `. ./common.sh`. A scenario is a name and a command that holds or doesn't. A command
# may leave a figure in the variable `figure`, which is printed behind the name. At the end it says how many passed, failed and were skipped.
set -u
passed=0 failed=0 skipped=0 figure=
folder=$(mktemp -d) || exit 2
# Network namespaces that are removed at the end.
spaces=
# Files whose last lines are shown where a scenario fails.
logs=

finish() {
    for file in "$folder"/*.pid; do kill "$(cat "$file" 2>/dev/null)" 2>/dev/null; done
    # What still runs in a namespace would keep it.
    for name in $spaces; do
        for process in $(ip netns pids "$name" 2>/dev/null); do kill "$process" 2>/dev/null; done
        ip netns del "$name" 2>/dev/null
    done
    rm -rf "$folder"
    echo "$passed passed, $failed failed, $skipped skipped"
    [ "$failed" = 0 ] && exit 0
    exit 1
}
trap 'exit 1' INT TERM
trap finish EXIT

skip_all() {
    skipped=$((skipped + 1))
    echo "skipped: $1"
    exit
}

expect() { # NAME COMMAND ..
    name=$1
    shift
    figure=
    if "$@"; then
        passed=$((passed + 1)) && echo "ok      $name${figure:+: $figure}"
    else
        failed=$((failed + 1)) && echo "FAILED  $name${figure:+: $figure}"
        for file in $logs; do tail -n 5 "$file" 2>/dev/null; done
    fi
}

# Root, a TUN device, the tools that are named, and a program with the core: else all is skipped. It leaves the program's path in `program`.
need() { # PROGRAM TOOL ..
    [ "$(id -u)" = 0 ] || skip_all "root is needed"
    [ -e /dev/net/tun ] || skip_all "there is no /dev/net/tun"
    [ -x "$1" ] || skip_all "$1 isn't built"
    program=$(realpath "$1")
    shift
    for tool; do
        case $tool in
            ip) install ip iproute2 ;;
            ping) install ping iputils-ping ;;
            *) install "$tool" "$tool" ;;
        esac
    done
    # Without the core it says so; with it, it ends as well, since a configuration that isn't there is a fault.
    (umask 077 && echo secret >"$folder/none.secret")
    cat >"$folder/none.toml" <<END
local = "192.0.2.1"
[[peers]]
name = "none"
address = "192.0.2.2"
begins = true
own_identity = { type = "fqdn", value = "a.example" }
peer_identity = { type = "fqdn", value = "b.example" }
secret_file = "none.secret"
[[peers.entries]]
action = "protect"
local = "10.1.0.0/24"
remote = "10.2.0.0/24"
END
    # 192.0.2.1 isn't this machine's outside the namespaces, so it ends with the core too.
    case $(timeout 2 "$program" run "$folder/none.toml" --socket "$folder/none" 2>&1) in
    *"without the core"*) skip_all "$program was built without the core" ;;
    esac
}

# Installs packages whose tools are missing.
install() { # TOOL PACKAGE ..
    command -v "$1" >/dev/null && return
    shift
    { apt-get update && apt-get install -y --no-install-recommends "$@"; } >"$folder/apt.log" 2>&1 || {
        tail -n 3 "$folder/apt.log"
        skip_all "$* can't be installed"
    }
}

space() { # NAME
    ip netns add "$1" || skip_all "network namespaces can't be made"
    spaces="$spaces $1"
    ip -n "$1" link set lo up
}

# A daemon in a namespace, with the configuration FOLDER/NAME.toml.
start() { # NAME
    ip netns exec "$1" "$program" run "$folder/$1.toml" --socket "$folder/$1.sock" 2>>"$folder/$1.log" &
    echo $! >"$folder/$1.pid"
}
process() { cat "$folder/$1.pid"; }
stop() { # NAME SIGNAL
    kill -"$2" "$(process "$1")" && wait "$(process "$1")" 2>/dev/null
    rm -f "$folder/$1.pid"
}
json() { "$program" status --json --socket "$folder/$1.sock" 2>/dev/null; }
# A counter of the status, of the first peer: 0 where it isn't told.
count() { # NAME KEY
    json "$1" | grep -o "\"$2\":[0-9]*" | head -n 1 | grep -o '[0-9]*$' || echo 0
}
children() { json "$1" | grep -o '"spi_in":"[0-9a-f]*"' | sort; }

milliseconds() { date +%s%3N; }
# Whether a command holds at last; the figure is how long it took.
within() { # SECONDS COMMAND ..
    begun=$(milliseconds)
    until=$((begun + $1 * 1000))
    shift
    while ! "$@"; do
        [ "$(milliseconds)" -lt "$until" ] || return 1
        sleep 0.1
    done
    took=$(($(milliseconds) - begun))
    figure="$((took / 1000)).$((took % 1000 / 100)) s"
}
# What a ping -q that ran told: no loss, with the figure.
without_loss() { # FILE ..
    for file; do
        told=$(grep -o '[0-9]* packets transmitted, [0-9]* received' "$file") || return 1
        # shellcheck disable=SC2086 # four words
        set -- $told
        figure="$figure${figure:+; }$1 sent, $(($1 - $4)) lost"
        [ "$1" = "$4" ] || loss=1
    done
    [ -z "${loss:-}" ]
}
