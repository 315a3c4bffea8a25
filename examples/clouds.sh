# shellcheck shell=bash
# What examples over processes share: the program, a folder of their own, and the servers of four clouds. A script begins with
#
#     . "$(dirname "$0")/clouds.sh"
#
# The program is $CDSTORE, or else the one that was built in crates/cdstore. Cloud C lies below $work/providerC. However the script ends,
# its servers are ended and $work is removed.
set -eu
top="$(cd "$(dirname "${BASH_SOURCE[0]}")/.." && pwd)"
program="${CDSTORE:-$top/crates/cdstore/out/cdstore}"
[ -x "$program" ] || {
    echo "there is no program at $program: build it by examples/first_run.sh, or name one by CDSTORE" >&2
    exit 1
}
work="$(mktemp -d)"
servers=()
address=()

leave() {
    trap - EXIT
    for cloud in "${!servers[@]}"; do
        kill -9 "${servers[cloud]}" 2> /dev/null || true
    done
    wait 2> /dev/null
    rm -rf "$work"
}
trap leave EXIT
trap 'exit 1' HUP INT TERM

fail() {
    echo "$*" >&2
    exit 1
}

# Waits until a command ends with status 0, for a minute at most: await WHAT COMMAND..
await() {
    local what="$1" last=$((SECONDS + 60))
    shift
    until "$@"; do
        [ "$SECONDS" -lt "$last" ] || fail "waited for a minute, in vain: $what"
        sleep 0.02
    done
}

# Whether a process has ended: ended PID
ended() {
    ! kill -0 "$1" 2> /dev/null
}

# Runs the program, and sees its status and all that it writes, by a pattern: says STATUS PATTERN WORDS..
says() {
    local status=0 wanted="$1" pattern="$2"
    shift 2
    "$program" "$@" > "$work/lines" || status=$?
    [ "$status" = "$wanted" ] || fail "cdstore $*: status $status, $(tail -n 1 "$work/lines")"
    # shellcheck disable=SC2053
    [[ "$(cat "$work/lines")" == $pattern ]] || fail "cdstore $* said $(cat "$work/lines")"
}

# Whether a cloud's server has said a line, left in `line`, or has ended: spoke CLOUD
spoke() {
    read -r line < "$work/said$1" || ended "${servers[$1]}"
}

# Starts a cloud's server for so many connections: start CLOUD COUNT. It then listens at ${address[CLOUD]}, a port of the loopback that it
# could bind: whether a port is free only the bind itself can tell, so another one is tried where it fails.
start() {
    local cloud="$1" count="$2" said="$work/said$1" line='' status
    for _ in 1 2 3 4 5 6 7 8 9 10; do
        address[cloud]="127.0.0.1:$((20000 + RANDOM % 12000))"
        : > "$said"
        "$program" serve "$work/provider$cloud" "$cloud" 4 3 "${address[cloud]}" "$count" > "$said" &
        servers[cloud]=$!
        await "cloud $cloud says that it is ready" spoke "$cloud"
        [ "$line" != "ready ${address[cloud]}" ] || return 0
        status=0
        wait "${servers[cloud]}" || status=$?
        unset "servers[cloud]"
        [ "$status" = 9 ] || fail "cloud $cloud ended with status $status: $line"
    done
    fail "cloud $cloud found no free port"
}

# Takes a cloud away, at once and without a word.
lose() {
    kill -9 "${servers[$1]}"
    wait "${servers[$1]}" 2> /dev/null || true
    unset "servers[$1]"
}

# Sees each server end by itself with status 0, as it does behind its last connection.
all_end() {
    local cloud status
    for cloud in "${!servers[@]}"; do
        await "cloud $cloud ends by itself, behind its last connection" ended "${servers[cloud]}"
        status=0
        wait "${servers[cloud]}" || status=$?
        [ "$status" = 0 ] || fail "cloud $cloud ended with status $status"
        unset "servers[cloud]"
    done
}
