#!/usr/bin/env bash
# The first screen of README, typed for you: four clouds, a file on them, one cloud lost, and the file back. It prints each command and what
# comes back: first_screen.sh [--check].
#
# With --check it prints nothing, and ends with status 1 where README shows anything else than what its commands print. It types them as
# they stand there, in a folder of its own and at other ports of the loopback, since those may be taken; it ends by itself and leaves
# nothing behind.
. "$(dirname "$0")/clouds.sh"
mkdir "$work/bin"
ln -s "$(realpath "$program")" "$work/bin/cdstore"
cd "$work"
export PATH="$work/bin:$PATH"

# README's part: the commands stand in a fence, the first of which goes to a folder of its own, and what they print is indented.
part() {
    sed -n '/^## Start, type, see/,/^## Try it/p' "$top/README.md"
}
part | sed -n '/^```sh/,/^```$/{/^```/d;p}' | tail -n +2 > commands
part | sed -n 's/^    //p' > told

# Types the commands at ports from $1 * 10 on, each behind $2: type_all PORTS SHOWN.
type_all() {
    rm -rf run
    mkdir run
    {
        # shellcheck disable=SC2016
        echo 'ready() { for _ in {1..100}; do [ "$(cat said? | wc -l)" != 4 ] || break; sleep 0.1; done; }'
        # shellcheck disable=SC2016
        echo 'trap '\''kill $(jobs -p) 2> /dev/null'\'' EXIT'
        while IFS= read -r command; do
            [ -z "$2" ] || printf 'printf "%%s\\n" %q\n' "$2$command"
            printf '%s\n' "$command"
        done < commands | sed "s/127\.0\.0\.1:700/127.0.0.1:$1/g; /^printf/!s/sleep 1;/ready;/"
        echo wait
    } > typed
    (cd run && timeout 60 bash ../typed 2> ../log) | sed "s/127\.0\.0\.1:$1/127.0.0.1:700/g" > shown
}

# (a port may be taken; for the second's sleep of the commands it waits until all clouds are ready, ten seconds at most)
for _ in 1 2 3 4 5; do
    type_all "$((2000 + RANDOM % 1000))" ''
    ! cmp -s told shown || break
done
diff told shown >&2 || fail "README's first screen isn't what is printed: $(cat log)"
if [ "${1:-}" != --check ]; then
    type_all "$((2000 + RANDOM % 1000))" '$ '
    cat shown
fi
