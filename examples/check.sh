#!/usr/bin/env bash
# Runs the examples over the program that was built, and ends with status 1 where one of them fails. Where the program or a tool that they
# need isn't there, it says so, runs nothing and ends with status 0.
top="$(cd "$(dirname "$0")/.." && pwd)"
export CDSTORE="${CDSTORE:-$top/crates/cdstore/out/cdstore}"
[ -x "$CDSTORE" ] || {
    echo "examples: not run, since there is no program at $CDSTORE"
    exit 0
}
for tool in awk b2sum chmod cmp cut date dd diff du find grep head mkfifo mktemp nproc od paste sed seq sha256sum sort stat tail tar tee timeout touch tr wc xargs; do
    command -v "$tool" > /dev/null || {
        echo "examples: not run, since there is no $tool"
        exit 0
    }
done

# Each has folders and ports of its own, so as many run side by side as there are processors, and four at most.
logs="$(mktemp -d)"
trap 'rm -rf "$logs"' EXIT
processors="$(nproc)"
most=$((processors < 4 ? processors : 4))

# Runs an example, says how it ended, and with a failure shows its last lines and leaves a file: try_example NUMBER EXAMPLE
try_example() {
    local status=0 log="$logs/$1"
    # shellcheck disable=SC2086
    timeout 300 "$top/examples/"$2 > "$log" 2>&1 || status=$?
    if [ "$status" = 0 ]; then
        echo "examples: $2 ran"
    else
        printf 'examples: %s FAILED with status %s\n%s\n' "$2" "$status" "$(tail -n 20 "$log")"
        touch "$logs/failed"
    fi
}

number=0
for example in "peers.sh" "year.sh 4" "kill.sh 20" "spool_kill.sh 10" "reclaim.sh 21" "month.sh" "damage.sh" "migrate.sh" "days.sh" "stops.sh" \
    "transcripts.sh" "first_run.sh" "first_screen.sh --check" \
    "round_trip.sh" "read_back.sh" "refill.sh" "any_three.sh" "session.sh" "many_clients.sh" "audit.sh" "spool.sh" "delete.sh" \
    "losses.sh" "checkpoint.sh" "format_1.sh" "four_clouds.sh" "folder.sh"; do
    while [ "$(jobs -rp | wc -l)" -ge "$most" ]; do
        wait -n || true
    done
    number=$((number + 1))
    try_example "$number" "$example" &
done
wait
[ ! -e "$logs/failed" ]
