# shellcheck shell=bash
# What backup_folder.sh and restore_folder.sh share. A script begins with
#
#     . "$(dirname "$0")/archives.sh"
#
# A folder is kept as archives, which tar made of it, and a list for each version. Both are files at the clouds. One above 64 MiB is stored
# in PARTS of 64 MiB and a last one of the rest: the first part has the file's path PATH, part I behind it the path PATH/I. A list is
# VERSION of the path //list; a part of just 64 MiB isn't its last, so an empty one may follow.
#
# A list is text, a line for each thing:
#
#     cdstore folder 1
#     user USER
#     version VERSION                an archive that it names may be of an earlier version
#     day VERSION                    for each earlier version whose list is there, rising
#     loose PATH VERSION PARTS       what a run that was cut off has stored, or may have: no list names it in a line `archive`
#     archive PATH VERSION PARTS BYTES SUM     SUM is BLAKE2b of 256 bits; lists of earlier releases have SHA-256
#     KIND NAME                      for each member, in the archive's order
#     end
#
# KIND is f for a file, h for another name of the nearest file f above it, l for a symbolic link and d for a folder, of which one has the
# NAME "." and is the folder itself. In NAME stand %25 for %, %0A for a newline and %01 for the byte 1. Archives of files have members f and
# h alone, the others, behind them, l and d alone.
#
# The list that the client keeps says one thing more of an archive, at the line's end: the sum of what the folder said of the members
# (modes, owners, sizes, times, numbers of inodes), or - where the archive is to be packed again next time, since a file was changing or
# couldn't be read.
#
# So an archive of a version is needed as long as the list of some version names it.
#
# A script sets $user, $version and the array $addresses before it calls any of these.
# shellcheck disable=SC2154
export LC_ALL=C
unset TAR_OPTIONS POSIXLY_CORRECT GREP_OPTIONS
program="${CDSTORE:-$(dirname "$0")/../crates/cdstore/out/cdstore}"
part=67108864
tries=3
worst=0
tool="$(basename "$0" .sh)"

fail() {
    echo "$tool: $*" >&2
    exit 1
}

# Says what became of a thing, and keeps the worst status: say STATUS THING WORDS.
say() {
    [ "$1" -le "$worst" ] || worst="$1"
    printf '%s: %s\n' "$2" "$3"
}

# Looks at the words, and makes $work, a folder of its own in $TMPDIR, which goes when the script ends.
begin() {
    [[ "$user" =~ ^(0|[1-9][0-9]*)$ && "$version" =~ ^(0|[1-9][0-9]{0,17})$ ]] || 
        fail "USER and VERSION are numbers without leading zeros, VERSION of 18 digits at most"
    [ -x "$program" ] || fail "there is no program at $program: name one by CDSTORE"
    tar --version 2> /dev/null | grep -q 'GNU tar' || fail "tar isn't GNU tar"
    case "$program" in
        /*) ;;
        *) program="$PWD/$program" ;;
    esac
    work="$(cd "$(mktemp -d || echo /dev/null)" 2> /dev/null && pwd)" || fail "${TMPDIR:-/tmp} has no room for a folder"
    trap 'rm -rf "$work"' EXIT
    trap 'exit 1' HUP INT TERM
}

# Ends since a file in $work can't be written.
no_room() {
    fail "${TMPDIR:-/tmp} can't be written, or has no room: $(df -h -- "$work" 2> /dev/null | awk 'NR == 2 { print $4 " are left" }')." \
        "Name a folder with more by TMPDIR"
}

# The path of a part: path_of PATH PART.
path_of() {
    if [ "$2" = 0 ]; then echo "$1"; else echo "$1/$2"; fi
}

# A name as it stands in a list.
coded() {
    local name="${1//%/%25}"
    name="${name//$'\n'/%0A}"
    printf '%s' "${name//$'\001'/%01}"
}

# The names behind one another, each with a zero behind it, as they are: the other way than coded.
plain() {
    sed -z 's/%0A/\n/g; s/%01/\x01/g; s/%25/%/g'
}

# The members of an archive, as lines of a list: members ARCHIVE.
members() {
    tar --list --ignore-zeros --quoting-style=literal --show-transformed-names --file="$1" \
        --transform=$'s,%,%25,g;s,\n,%0A,g;s,\001,%01,g' > "$work/member_names" 2> /dev/null || return 1
    tar --list --ignore-zeros --verbose --numeric-owner --file="$1" 2> /dev/null | cut -c 1 | tr -- - f |
        paste -d ' ' - "$work/member_names" | sed '/^d /s,/$,,'
}

# The sum of an archive, or of the standard input: 64 hexadecimal digits and a name.
sums() {
    b2sum -l 256 "$@"
}

# Whether a file is a list of this user's that is whole: is_list FILE.
is_list() {
    [ "$(head -n 2 -- "$1" 2> /dev/null)" = "cdstore folder 1"$'\n'"user $user" ] && [ "$(tail -n 1 -- "$1")" = end ]
}

# Restores one path into $work/part: bring PATH VERSION. Where a cloud isn't reached it tries again, twice.
bring() {
    local status=0 try
    for ((try = 1; try <= tries; try++)); do
        [ "$try" = 1 ] || sleep 1
        status=0
        "$program" restore "$user" "$1" "$2" "${addresses[@]}" > "$work/part" < /dev/null 2> /dev/null || status=$?
        [ "$status" = 9 ] || break
    done
    return "$status"
}

# Restores a file of so many parts: bring_all PATH VERSION PARTS FILE. With PARTS 0 they end behind the first that isn't full.
bring_all() {
    local at size
    : > "$4" || no_room
    for ((at = 0; $3 == 0 || at < $3; at++)); do
        bring "$(path_of "$1" "$at")" "$2" || return
        size="$(stat -c %s "$work/part")"
        cat "$work/part" >> "$4" 2> /dev/null || no_room
        [ "$3" != 0 ] || [ "$size" = "$part" ] || break
    done
    return 0
}

# What a status of `restore` means. With 8 it wrote a line in place of the file.
restore_meaning() {
    case "$1" in
        1) echo "refused: USER, VERSION or an address is out of range" ;;
        4) echo "its bytes can't be written: ${TMPDIR:-/tmp} has no room" ;;
        6) echo "out of memory" ;;
        8) head -c 200 "$work/part" | head -n 1 ;;
        9) echo "a cloud can't be reached" ;;
        *) echo "ended with status $1" ;;
    esac
}
