#!/usr/bin/env bash
# Sees that the stores of format 1 in examples/format_1, which earlier releases wrote, are told apart and spared: `read` from each choice of
# clouds, and `serve` of each cloud, end with status 7 and name the format, and no byte of them changes. `migrate` alone takes them over:
# migrate.sh sees that it does.
#
# They were written by format_1/make.sh with such a release. The stores are copied first, so that they stay as they are.
set -eu
top="$(cd "$(dirname "$0")/.." && pwd)"
program="${CDSTORE:-$top/crates/cdstore/out/cdstore}"
work="$(mktemp -d)"
trap 'rm -rf "$work"' EXIT
cp -r "$top/examples/format_1" "$work/stores"
count=0

# Sees that the program says of this cloud that it has format 1: says CLOUD N K WORDS..
says() {
    local cloud="$1" n="$2" k="$3" status=0
    shift 3
    "$program" "$@" > "$work/said" || status=$?
    if [ "$status" != 7 ] || [ "$(cat "$work/said")" != "other $cloud 1 $n $k $cloud" ]; then
        echo "cdstore $* ended with status $status: $(head -n 1 "$work/said")" >&2
        exit 1
    fi
    count=$((count + 1))
}

# Asks for a version from each choice of clouds, of which the first is named, and serves each cloud: is_told STORE N K USER PATH CLOUDS..
is_told() {
    local store="$work/stores/$1" n="$2" k="$3" user="$4" path="$5" clouds cloud
    shift 5
    for clouds in "$@"; do
        says "${clouds%%,*}" "$n" "$k" read "$store" "$n" "$k" "$user" "$path" 1 "$clouds"
    done
    for ((cloud = 0; cloud < n; cloud++)); do
        says "$cloud" "$n" "$k" serve "$store" "$cloud" "$n" "$k" 127.0.0.1:7000 1
    done
}

is_told two_users 4 3 7 notes 0,1,2 0,1,3 0,2,3 1,2,3
is_told numbers 4 3 7 numbers 0,1,2 0,1,3 0,2,3 1,2,3
is_told cut 4 2 7 notes 0,1 0,2 0,3 1,2 1,3 2,3
is_told small_rooms 3 2 7 a 0,1 0,2 1,2
diff -r "$top/examples/format_1" "$work/stores"
echo "Each store of format 1 was told apart, $count times, and none was changed."
