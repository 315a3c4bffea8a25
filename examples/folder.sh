#!/usr/bin/env bash
# Keeps a folder on four clouds by backup_folder.sh, changes it, keeps it again, and gets both states and one file back from three clouds by
# restore_folder.sh: names with blanks, newlines and a leading dash, a file of no bytes, one above 64 MiB, an empty folder, links, modes and
# times. Two lists that would lead out of the folder by a link aren't followed. At last prune_folder.sh deletes the first state, and the second
# comes back as it was.
. "$(dirname "$0")/clouds.sh"
tools="$(dirname "$0")"
export CDSTORE="$program"
mkdir -p "$work/in/a folder/deeper" "$work/in/empty"
head -c 70000000 /dev/zero > "$work/in/a folder/above 64 MiB"
head -c 300000 /dev/urandom > "$work/in/a folder/deeper/noise"
printf 'one' > "$work/in/ blanks at both ends "
printf 'two' > "$work/in/a
newline"
: > "$work/in/nothing"
printf 'three' > "$work/in/*"
printf 'four' > "$work/in/-dash"
ln "$work/in/-dash" "$work/in/a folder/the same"
ln -s ../nowhere "$work/in/link"
chmod 640 "$work/in/*"
chmod 550 "$work/in/a folder/deeper"
touch -d '2001-02-03 04:05:06.789' "$work/in/nothing" "$work/in/empty"

# What lies in a folder: names, kinds, modes, times, links and bytes.
state() {
    (cd "$1" && find . -printf '%P %y %m %T@ %l\n' -type f -links +1 -printf '%P is linked\n' && find . -type f -exec sha256sum {} +) | sort
}

run() { # runs a tool, and shows its lines where it fails: run WORDS..
    "$@" > "$work/lines" || fail "$* ended with status $?: $(cat "$work/lines")"
}

# COUNT: in the first run an archive of small files, one of two parts, one of links and folders, and the list; in the second, which asks
# first whether its spool keeps anything, the first of these and the list; then two lists and an archive. From three of the clouds each
# state as five, the one file as two, and of the two lists one with its archive. To prune the first state its list is read, and an archive
# and that list are deleted; then the first is asked for in vain, and the second comes back.
for cloud in 0 1 2 3; do start "$cloud" "$((5 + 1 + 2 + 3 + 3 + (cloud == 0 ? 0 : 5 + 5 + 2 + 1 + 2 + 1 + 5)))"; done
run "$tools/backup_folder.sh" "$work/in" "$work/list" 7 1 "${address[@]}"
state "$work/in" > "$work/first"
printf 'more' >> "$work/in/ blanks at both ends "
state "$work/in" > "$work/second"
run "$tools/backup_folder.sh" --spool "$work/spool" "$work/in" "$work/list" 7 2 "${address[@]}"
[ "$(grep -c ': stored' "$work/lines")" = 2 ] || fail "the second run stored more than one archive and the list: $(cat "$work/lines")"
run "$tools/restore_folder.sh" "$work/out1" 7 1 "${address[@]:1}"
run "$tools/restore_folder.sh" "$work/out2" 7 2 "${address[@]:1}"
run "$tools/restore_folder.sh" --only 'a folder/the same' "$work/out3" 7 2 "${address[@]:1}"
state "$work/out1" | diff "$work/first" -
state "$work/out2" | diff "$work/second" -
[ "$(cd "$work/out3" && find . -type f -exec cat {} +)" = four ] || fail "the one file isn't the one"

# An archive with a link out of the folder, and lists that have a file behind it, or take the link for a file.
ln -s "$work" "$work/out"
tar --create --directory="$work" out > "$work/lie"
sum="$(sha256sum < "$work/lie")"
archive="//archive/${sum%% *} 3 1 10240 ${sum%% *}"
lie() { # stores such a list, and sees it refused: lie VERSION SAYS MEMBERS..
    local version="$1" says="$2"
    shift 2
    printf '%s\n' "cdstore folder 1" "user 7" "version $version" "archive $archive" "$@" end > "$work/lies"
    run "$program" backup 7 //list "$version" "${address[@]}" < "$work/lies"
    ! "$tools/restore_folder.sh" "$work/lie$version" 7 "$version" "${address[@]:1}" > "$work/lines" 2>&1 || fail "a lie was followed"
    grep -q "$says" "$work/lines" || fail "a lie was refused by other words: $(cat "$work/lines")"
    [ -z "$(ls -A "$work/lie$version")" ] || fail "a lie was unpacked"
}
run "$program" backup 7 "${archive%% *}" 3 "${address[@]}" < "$work/lie"
lie 3 'lies below a link: out/file' 'l out' 'f out/file'
lie 4 "members aren't the list's" 'f out'

run "$tools/prune_folder.sh" --keep 1 "$work/list" 7 "${address[@]}"
[ "$(grep -c ': deleted' "$work/lines")" = 2 ] || fail "the first state wasn't an archive and a list: $(cat "$work/lines")"
! "$tools/restore_folder.sh" "$work/out4" 7 1 "${address[@]:1}" > "$work/lines" || fail "the first state is still there"
grep -q 'refused missing' "$work/lines" || fail "the first state is refused by other words: $(cat "$work/lines")"
run "$tools/restore_folder.sh" "$work/out5" 7 2 "${address[@]:1}"
state "$work/out5" | diff "$work/second" -
all_end
chmod -R u+w "$work/in" "$work"/out?
echo "Both states of a folder came back from clouds 1, 2 and 3, and one file alone. The second run stored one archive of three." \
    "The first state was deleted, and the second came back as before."
