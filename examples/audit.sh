#!/usr/bin/env bash
# Audits all clouds of a folder that are of one store, for a cron job: audit.sh DIR [N K]. N and K are 4 and 3 where they aren't given. No
# server may have a cloud open meanwhile. It checks each cloud by its last certificate, DIR/certificateC, writes a new one where the cloud has
# taken commands since, checks that too, and compares how much the clouds list. It writes one line: that all are whole, with status 0; or what
# is wrong and what to do, with status 1.
#
# Without words it tries itself over clouds of a folder of its own, one of which is then damaged.
# shellcheck source=program.sh
. "$(dirname "$0")/program.sh"

# What to do about a last line of `audit` and `check`.
todo() {
    case "$1" in
        'shelf '*) echo "is its server running, or its disk failing?" ;;
        'notbegun '*) echo "no cloud lies there: is the disk mounted?" ;;
        'other '*) echo "another cloud, store or shape lies there: put the folders right" ;;
        'damaged '* | 'refused rotten '*) echo "move its folder away and fill a new cloud from the others (docs/OPERATING.md, A damaged cloud)" ;;
        'refused othercloud' | 'script '*) echo "its certificate isn't one of this cloud: remove it, and audit again" ;;
        'refused differs '*) echo "it took a command meanwhile: stop its server first" ;;
        *) echo "see whether there is memory, and room for the certificate" ;;
    esac
}

# Ends with the one line of a cloud that isn't whole: wrong CLOUD WORD STATUS
wrong() {
    local line
    line="$(tail -n 1 "$work/lines")"
    echo "cloud $1: $2 ended with status $3${line:+, $line}: $(todo "$line")"
    exit 1
}

# Sees that a cloud is whole, by its last certificate or a new one. It leaves how much it lists in `count`: whole DIR CLOUD N K
whole() {
    local certificate="$1/certificate$2" status=0
    if [ -e "$certificate" ]; then
        cdstore check "$1" "$2" "$3" "$4" < "$certificate" > "$work/lines" || status=$?
        if [ "$status" = 0 ]; then
            count="$(cut -d ' ' -f 3 "$work/lines")"
            return
        fi
        grep -q '^refused differs ' "$work/lines" || wrong "$2" check "$status"
    fi
    status=0
    cdstore audit "$1" "$2" "$3" "$4" > "$certificate.new" || status=$?
    if [ "$status" != 0 ]; then
        cp "$certificate.new" "$work/lines"
        rm "$certificate.new"
        wrong "$2" audit "$status"
    fi
    cdstore check "$1" "$2" "$3" "$4" < "$certificate.new" > "$work/lines" || wrong "$2" check "$?"
    mv "$certificate.new" "$certificate"
    count="$(cut -d ' ' -f 3 "$work/lines")"
}

audit_all() {
    local directory="$1" n="$2" k="$3" cloud first=''
    for cloud in $(seq 0 $((n - 1))); do
        whole "$directory" "$cloud" "$n" "$k"
        [ -n "$first" ] || first="$count"
        [ "$count" = "$first" ] || {
            echo "cloud $cloud lists $count blobs and cloud 0 $first: an upload or a deletion didn't reach all clouds: run it again"
            exit 1
        }
    done
    echo "$n clouds are whole, and each lists $first blobs"
}

if [ $# != 0 ]; then
    audit_all "$1" "${2:-4}" "${3:-3}"
    exit
fi

# ---- its own try

fail() {
    echo "$*" >&2
    exit 1
}

# Sees what the audit of all clouds says, by a pattern: says STATUS PATTERN
says() {
    local status=0 line
    line="$( (audit_all "$work/clouds" 4 3))" || status=$?
    # shellcheck disable=SC2053
    { [ "$status" = "$1" ] && [[ "$line" == $2 ]]; } || fail "it ended with status $status: $line"
}

printf 'cdstore 1 4 3\nupload 7 61 1 41\nfinish 1\n' > "$work/script"
cdstore replay "$work/clouds" < "$work/script" > "$work/transcript"
says 0 '4 clouds are whole, and each lists 2 blobs'
says 0 '4 clouds are whole, and each lists 2 blobs'

# the certificate of cloud 0, as it is written down
{
    echo 'audit 1 4 3 0'
    echo 'share 7306196382e41a397efac21e4f4613ec42dbce6fc69dc13a71972b7d5afc5010 0 11'
    echo 'file 7 5d68886a3c18c6681152c8912b098df2772886cc297ca017f379493ac7b5822e 1 0 61' \
        'f2c65081ae3999c365702446b19476230ccb9e2a85c5794f56ddf42d8aff7486'
    echo 'end 2'
} | cmp - "$work/clouds/certificate0"

# Sees what a check of cloud 0 by a text of these lines comes to: judged STATUS LINE LINES..
judged() {
    local status=0 wanted="$1" line="$2"
    shift 2
    { [ $# = 0 ] || printf '%s\n' "$@"; } > "$work/text"
    cdstore check "$work/clouds" 0 4 3 < "$work/text" > "$work/lines" || status=$?
    { [ "$status" = "$wanted" ] && echo "$line" | cmp -s - "$work/lines"; } || fail "a check by $* ended with status $status: $(cat "$work/lines")"
    texts=$((texts + 1))
}

# the certificate alone is cloud 0's: a changed line, one that is there twice or isn't there, a wrong count; another cloud, another store
mapfile -t own < "$work/clouds/certificate0"
head="${own[0]}" share="${own[1]}" file="${own[2]}" end="${own[3]}" texts=0
judged 0 'whole 0 2' "$head" "$share" "$file" "$end"
judged 8 'refused differs 2' "$head" "${share/ 0 11/ 1 11}" "$file" "$end"
judged 8 'refused differs 3' "$head" "$share" "$share" "$file" "$end"
judged 8 'refused differs 3' "$head" "$share" "$end"
judged 8 'refused differs 4' "$head" "$share" "$file" 'end 3'
judged 8 'refused othercloud' 'audit 1 4 3 1' "$share" "$file" "$end"
judged 8 'refused othercloud' 'audit 1 5 3 0' "$share" "$file" "$end"
# what is no certificate: another format, a cloud that the store hasn't, another order, no end, nothing, an empty line and another one behind
# the end, and a line that ends early
judged 2 'script 1 6 32' 'audit 2 4 3 0' "$share" "$file" "$end"
judged 2 'script 1 12 34' 'audit 1 4 3 4' "$share" "$file" "$end"
judged 2 'script 3 0 73' "$head" "$file" "$share" "$end"
judged 2 'script 4 0 end' "$head" "$share" "$file"
judged 2 'script 1 0 end'
judged 2 'script 5 0 end' "$head" "$share" "$file" "$end" ''
judged 2 'script 5 0 65' "$head" "$share" "$file" "$end" "$end"
judged 2 'script 1 11 end' 'audit 1 4 3' "$share" "$file" "$end"
# and one that can't be written
status=0
cdstore audit "$work/clouds" 0 4 3 > /dev/full || status=$?
[ "$status" = 4 ] || fail "an audit to a full disk ended with status $status"

# another cloud's certificate, a cut one, and one of a cloud that has more since
cp "$work/clouds/certificate0" "$work/own"
cp "$work/clouds/certificate1" "$work/clouds/certificate0"
says 1 'cloud 0: check ended with status 8, refused othercloud: *'
head -n 3 "$work/own" > "$work/clouds/certificate0"
says 1 'cloud 0: check ended with status 2, script 4 0 end: *'
grep -v '^file' "$work/own" > "$work/clouds/certificate0"
says 0 '4 clouds are whole, and each lists 2 blobs'

# a byte of a share that changes
printf '\0' | dd of="$work/clouds/cloud0/shares" bs=1 conv=notrunc 2> "$work/said"
says 1 'cloud 0: check ended with status 8, refused rotten 0 7306196382e41a397efac21e4f4613ec42dbce6fc69dc13a71972b7d5afc5010 *'
says 1 '* fill a new cloud from the others *'
rm -r "$work/clouds/cloud0"
says 1 'cloud 0: check ended with status 7, notbegun 0 0: *'
echo "Four clouds were audited and checked by their certificates, and by $texts texts; a changed byte and a cloud that was gone were told by name."
