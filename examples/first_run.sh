#!/usr/bin/env bash
# The first run, from a fresh clone: builds the program where there is none, starts four clouds, backs a folder up to them, takes one cloud
# away for good, restores the folder from the other three, and compares: first_run.sh [FOLDER].
#
# Without FOLDER it takes the pages in docs/. It needs bash, and Rattle's `rt` on the path; CDSTORE may name a program that was built
# elsewhere. The build proves each crate of the program, and says in a line a crate how far it is; a build that is broken off goes on from
# where it was. All but the program is in a folder of its own, listens on the loopback alone, and is removed at the end.
set -eu
top="$(cd "$(dirname "${BASH_SOURCE[0]}")/.." && pwd)"
folder="$(cd "${1:-$top/docs}" && pwd)" || exit 1

# The crates of the program, each behind those that it stands on.
declare -A below=() placed=()
order=()
while IFS=: read -r name rest; do
    [[ ! "$name" =~ ^[a-z] ]] || below["$name"]="$rest"
done < "$top/crates.txt"

place() {
    local each
    [ -z "${placed[$1]:-}" ] || return 0
    placed["$1"]=1
    for each in ${below[$1]}; do
        [ -z "${below[$each]+there}" ] || place "$each"
    done
    order+=("$1")
}

# Builds the program: its crates alone, without their tests and the edits that are to be refused, are proved in a copy, as many side by side
# as there are processors, four at most, or one for each 5 GB of memory; the program is then linked, and run once. Rattle keeps what is proved, so a build that was broken off goes on.
build() {
    local name at=0 processors most
    command -v rt > /dev/null || {
        echo "there is no program at $CDSTORE, and no rt on the path to build it: install Rattle, or name a program by CDSTORE" >&2
        return 1
    }
    processors="$(nproc)"
    # (a proof takes at most 4 GB)
    most="$(awk '/^MemTotal:/ { n = int($2 / 5000000); print (n > 4 ? n : 4) }' /proc/meminfo)"
    place cdstore
    copy="$(mktemp -d)"
    # shellcheck disable=SC2064
    trap "rm -rf '$copy'" EXIT
    mkdir "$copy/.git" "$copy/crates"
    cp "$top/HANDLES" "$copy"
    for name in "${order[@]}"; do
        echo "$name:${below[$name]}" >> "$copy/crates.txt"
        cp -r "$top/crates/$name" "$copy/crates"
        rm -rf "$copy/crates/$name/out" "$copy/crates/$name/must-fail"
    done
    echo "There is no program yet. Its ${#order[@]} crates are proved and built, which takes 65 to 145 processor minutes the first time."
    (
        cd "$copy"
        RT_JOBS="${RT_JOBS:-$((processors < most ? processors : most))}" rt ci 2>&1 || touch "$copy/failed"
    ) | tee "$copy/log" | while read -r mark name rest; do
        [[ "$mark" = rt: && -n "$name" && -n "${below[$name]+there}" && "$rest" =~ ^(proved$|is\ kept) ]] || continue
        at=$((at + 1))
        printf '  %2d of %d  %-18s %3d:%02d\n' "$at" "${#order[@]}" "$name" "$((SECONDS / 60))" "$((SECONDS % 60))"
    done
    [ ! -e "$copy/failed" ] || {
        echo "the program isn't proved:" >&2
        tail -n 40 "$copy/log" >&2
        return 1
    }
    mkdir -p "$(dirname "$CDSTORE")"
    cp "$copy/crates/cdstore/out/cdstore" "$CDSTORE"
    rm -rf "$copy"
}

export CDSTORE="${CDSTORE:-$top/crates/cdstore/out/cdstore}"
[ -x "$CDSTORE" ] || build

. "$top/examples/clouds.sh"
tools="$top/examples"

say() {
    printf '\n%s\n' "$*"
}

say "Four clouds, each a process with a folder of its own. Any three of them are to give everything back."
# (how many connections there will be isn't known yet: the servers are ended at the end)
for cloud in 0 1 2 3; do
    start "$cloud" 4294967295
    echo "  cdstore serve provider$cloud $cloud 4 3 ${address[cloud]} 4294967295"
done

say "$folder is backed up to all four, as version 1 of user 7."
echo "  examples/backup_folder.sh $folder list 7 1 ${address[*]}"
"$tools/backup_folder.sh" "$folder" "$work/list" 7 1 "${address[@]}" > "$work/lines" || {
    cat "$work/lines" >&2
    fail "the backup failed"
}
sed 's/^/  /' "$work/lines"

say "Cloud 0 is taken away: its process is killed, and its folder is deleted."
lose 0
rm -rf "$work/provider0"

say "The folder is restored from clouds 1, 2 and 3."
echo "  examples/restore_folder.sh back 7 1 ${address[*]:1}"
"$tools/restore_folder.sh" "$work/back" 7 1 "${address[@]:1}" > "$work/lines" || {
    cat "$work/lines" >&2
    fail "the restore failed"
}
sed 's/^/  /' "$work/lines"

diff -r --no-dereference "$folder" "$work/back" || fail "what came back isn't what was backed up"
for cloud in 1 2 3; do lose "$cloud"; done
say "The same, byte for byte: $(find "$work/back" -type f -printf . | wc -c) files. The program is $CDSTORE."
