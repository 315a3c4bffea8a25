#!/usr/bin/env bash
# Tries what comes over connections from a peer that isn't this program: peer.py plays it, with bytes that are spelled here as docs/FORMATS.md has
# them. A server is sent requests in pieces, wrong lengths, streams that are cut in each place, contents that ask nothing, and two users on one
# connection, and serves the next connection as if nothing had been. A backup, a deletion, a restore and a backup that is kept go over clouds of
# which some reply what no cloud should. Each line, each status and each byte that is sent is compared. It needs python3.
# shellcheck source=clouds.sh
. "$(dirname "$0")/clouds.sh"
command -v python3 > /dev/null || {
    echo "peers.sh: not run, since there is no python3"
    exit 0
}
peer="$top/examples/peer.py"
mkdir "$work/sent"
printf A > "$work/file"
count=0

# ---- bytes, in hexadecimal

# The frames of these contents, one behind the other.
frames() {
    local content
    for content in "$@"; do
        printf '%08x%s' "$((${#content} / 2))" "$content"
    done
}

# Writes these bytes themselves.
raw() {
    # shellcheck disable=SC2001
    printf '%b' "$(sed 's/../\\x&/g' <<< "$1")"
}

# The bytes of a file.
bytes_in() {
    od -An -v -tx1 "$1" | tr -d ' \n'
}

# The SHA-256 of these bytes.
hash_of() {
    raw "$1" | sha256sum | cut -d ' ' -f 1
}

# So many times the same byte: row_of COUNT BYTE
row_of() {
    printf "$2%.0s" $(seq 1 "$1")
}

# A reply to Hello of cloud C of four, of which three give a file back, in its frame: greeting C
greeting() {
    frames "810403$(printf '%02x' "$1")01"
}

# Hello, and that user 7 lists its names, of which there are none
hello=01 list=070000000700 no_names=8b0000

# The tag of the path `a`, and shares 0 to 3 of it, of the secret `A`, and of `B`
tag=5d68886a3c18c6681152c8912b098df2772886cc297ca017f379493ac7b5822e
name=(5f18752ce5dd60c7400719 f09e8c17136e4d9c9efa1b 165d7abe8a61c5a058c765 b9db83857cd2e8fb863a67)
share=(9f4a82a5c09e0300fce739 db3d713e6dc823d28943d1 61fae78e1f6d963bb915ac 258d1415b23bb6e9ccb144)
other=(f4ff698fd1632c12862941 1a10020acaa66b18fac8f6 19d1ebcdc800a2aef0e48e f73e8048d3c5e5a48c0539)

# Cloud C's recipe of the path `a` and a file of one secret of so many bytes, of which it has this share: recipe C LEN SHARE
recipe() {
    printf '0001%s%016x00000001%s%08x' "${name[$1]}" "$2" "$(hash_of "$3")" "$2"
}

# The content of a reply with a share.
with_share() {
    printf '890001%08x%s' "$((${#1} / 2))" "$1"
}

# What cloud C sends in a restore, where it has this share of that secret: holder C LEN SHARE
holder() {
    greeting "$1"
    frames "87$(recipe "$@")" "$(with_share "$3")"
}

# ---- a server

# Starts cloud 2 over nothing, for so many connections: start_anew COUNT
start_anew() {
    rm -rf "$work/provider2"
    start 2 "$1"
}

# Sends cloud 2 what comes in rows, each on a connection of its own, and sees what comes back. A row is PIECE BYTES ANSWER
asks() {
    cat > "$work/rows"
    cut -d ' ' -f 1,2 "$work/rows" | timeout 60 python3 "$peer" ask "${address[2]}" > "$work/came" || fail "the client's status: $?"
    cut -d ' ' -f 3 "$work/rows" | cmp - "$work/came" || fail "cloud 2 answered otherwise"
    count=$((count + $(wc -l < "$work/rows")))
}

# Sees cloud 2 end by itself, and what it said of each connection: ends WORD..
ends() {
    local word number=0
    all_end
    echo "ready ${address[2]}" > "$work/wanted"
    for word in "$@"; do
        number=$((number + 1))
        echo "connection $number $word" >> "$work/wanted"
    done
    cmp "$work/wanted" "$work/said2" || fail "cloud 2 said otherwise"
}

# User 7 puts the share `A`, and user 8 the shares `A` and `B`. Between these: an unknown kind, a Put with a byte behind it, a flag that is none.
put=030000000700010000000141
other_put=0300000008000200000001410000000142
contents=("$hello" "$put" 09 "$other_put" "${put}00" "$list" 070000000702 "$put")
first=(8104030201 830001 9000000000 830002 900000000c "$no_names" 9000000005 830000)
later=(8104030201 830000 9000000000 830000 900000000c "$no_names" 9000000005 830000)
stream="$(frames "${contents[@]}")"
for piece in 1 3 65536; do
    start_anew 1
    asks <<< "$piece $stream $(frames "${first[@]}")"
    ends end
done

# a wrong length behind two requests, one that is cut, two users, and nothing
for piece in 1 65536; do
    start_anew 4
    asks << END
$piece $(frames "$hello" 02000000070000)00400001 $(frames 8104030201 9000000005)
$piece $(frames "$hello")0000 $(frames 8104030201)
$piece $(frames "$put" "$other_put" "$list" "$put") $(frames 830001 830002 "$no_names" 830000)
$piece - -
END
    ends length cut end end
done

# that stream, cut in each place, and the next connection behind each; the shares are there already
length=$((${#stream} / 2))
next="1 $(frames "$hello") $(greeting 2)"
words=()
whole='' answer='' number=0
for ((place = 0; place < length; place++)); do
    if [ $((2 * place)) -ge $((${#whole} + 8 + ${#contents[number]})) ]; then
        whole+="$(frames "${contents[number]}")"
        answer+="$(frames "${later[number]}")"
        number=$((number + 1))
    fi
    front="${stream:0:2 * place}"
    printf '65536 %s %s\n%s\n' "${front:--}" "${answer:--}" "$next"
    if [ "$front" = "$whole" ]; then words+=(end end); else words+=(cut end); fi
done > "$work/cuts"
start 2 $((2 * length))
asks < "$work/cuts"
ends "${words[@]}"

# Bytes, and what is answered to them, with a user's connection behind them: row BYTES ANSWER
row() {
    printf '65536 %s %s\n3 %s %s\n' "$1" "$2" "$(frames "$hello" "$list")" "$(frames 8104030201 "$no_names")"
}

# lengths that no frame has, of which one is a byte too long; the longest frame; an unknown kind; a Put of fewer bytes than it says, and with a
# byte behind it; and a flag that is none
{
    row 00000000 -
    row ffffffff01 -
    row 00400001 -
    row "0040000009$(head -c 8388606 /dev/zero | tr '\0' 0)" "$(frames 9000000000)"
    row "$(frames 09)" "$(frames 9000000000)"
    row "$(frames 030000000700010000000241)" "$(frames 900000000c)"
    row "$(frames "${put}00")" "$(frames 900000000c)"
    row "$(frames 070000000702)" "$(frames 9000000005)"
} > "$work/wrong"
start_anew 16
asks < "$work/wrong"
ends length end length end length end end end end end end end end end end end

# a connection that breaks within a request, and the next one
start 2 2
asks << END
0 0000000c0300000007 -
$next
END
ends failed end

# a port that is taken, a cloud that is served, another store, and a damaged one
start 2 1
says 9 '' serve "$work/elsewhere" 2 4 3 "${address[2]}" 1
says 5 'shelf 2' serve "$work/provider2" 2 4 3 127.0.0.1:7000 1
says 5 'shelf 2' audit "$work/provider2" 2 4 3
asks <<< "3 - -"
ends end
says 7 'other 2 2 4 3 2' serve "$work/provider2" 2 5 3 127.0.0.1:7000 1
raw 55 | dd of="$work/provider2/cloud2/journal" bs=1 seek=8 conv=notrunc 2> "$work/log"
says 7 'damaged 2 8 55' serve "$work/provider2" 2 4 3 127.0.0.1:7000 1
rm -r "$work/provider2"
sent="$count"

# ---- a backup

# Runs the program over clouds of which some are played, and sees its status and each byte that it writes: plays STATUS BYTES CLOUD.. -- WORDS..
plays() {
    local status=0 wanted="$1" bytes="$2" clouds=()
    shift 2
    while [ "$1" != -- ]; do
        clouds+=("$1")
        shift
    done
    shift
    rm -f "$work/sent"/*
    timeout 60 python3 "$peer" play "$work/sent" "${clouds[@]}" -- "$program" "$@" < "$work/file" > "$work/lines" || status=$?
    [ "$status" = "$wanted" ] || fail "$* over ${clouds[*]}: status $status in place of $wanted, $(tail -n 1 "$work/lines")"
    printf '%s' "$bytes" | cmp - "$work/lines" || fail "$* over ${clouds[*]}: $(cat "$work/lines")"
    count=$((count + 1))
}

# Sees what was sent to a cloud that was played: was_sent POSITION CONTENT..
was_sent() {
    local position="$1"
    shift
    [ "$(cat "$work/sent/$position")" = "$(frames "$@")" ] || fail "cloud $position was sent $(cat "$work/sent/$position")"
}

# Sees that no cloud from a position on was dialled.
none_was_dialled() {
    local position
    for position in $(seq "$1" 3); do
        [ ! -e "$work/sent/$position" ] || fail "cloud $position was dialled"
    done
}

# The lines of these news of a cloud's lane, and of a lane that takes the version: news C NEWS.. and taken C
news() {
    local cloud="$1"
    shift
    printf "step 1 $cloud %s\n" "$@"
}
taken() {
    news "$1" 'known 0 1' 'stored 1 1' committed
}

# nothing is known there, the share is new, and the version is entered
takes="$(frames 82000100 830001 84)"
fault="$(frames 8d)"
backup=(backup 7 a 1)
plays 0 "job 1
$(taken 0)
$(taken 1)
$(taken 2)
$(taken 3)
stored 1
end 1 stored
" "$(greeting 0)$takes" "$(greeting 1)$takes" "$(greeting 2)$takes" "$(greeting 3)$takes" -- "${backup[@]}"
for cloud in 0 1 2 3; do
    was_sent "$cloud" "$hello" "02000000070001$(hash_of "${share[cloud]}")" "030000000700010000000b${share[cloud]}" \
        "0400000007${tag}0000000000000001$(recipe "$cloud" 1 "${share[cloud]}")"
done

# all is known and the version there; the room for shares is full; the share is lacking, twice; and nothing is replied
plays 8 "job 1
$(news 0 'known 1 1' exists)
$(news 1 'known 0 1' 'full shares 5 11 8')
$(news 2 'known 1 1' 'lacking 0' 'known 1 1' 'lacking 0')
$(news 3 'strange 00')
end 1 open
" "$(greeting 0)$(frames 82000101 85)" "$(greeting 1)$(frames 82000100 8c010000000000000005000000000000000b0000000000000008)" \
    "$(greeting 2)$(frames 82000101 8600000000 82000101 8600000000)" "$(greeting 3)" -- "${backup[@]}"

# a Query that is answered by a fault, want of memory, damage, and a flag too many
plays 8 "job 1
$(news 0 fault)
$(news 1 nomemory)
$(news 2 'damaged 260 ab')
$(news 3 'strange 82')
end 1 open
" "$(greeting 0)$fault" "$(greeting 1)$(frames 91)" "$(greeting 2)$(frames 8e0000000000000104ab)" "$(greeting 3)$(frames 8200020000)" -- "${backup[@]}"

# another cloud, no shape, another format, no frame, and a stream that ends
while read -r bytes line; do
    plays 8 "$line"$'\n' "$bytes" "$(greeting 1)" "$(greeting 2)" "$(greeting 3)" -- "${backup[@]}"
    was_sent 0 "$hello"
    none_was_dialled 1
done << END
$(frames 8104030101) refused hello 0 4 3 1
$(frames 8104040001) refused hello 0 4 4 0
$(frames 8104030002) refused strange 0 81
000000008104030001 refused strange 0 00
- refused strange 0 00
END

# a cloud that can't be dialled
plays 9 '' "$(greeting 0)" "$(greeting 1)" ! "$(greeting 3)" -- "${backup[@]}"
was_sent 0 "$hello"
was_sent 1 "$hello"
none_was_dialled 2

# a connection that breaks in a lane: the lines so far, and nothing was asked of the clouds behind it
plays 9 "job 1
$(taken 0)
" "$(greeting 0)$takes" "^$(greeting 1)" "$(greeting 2)$takes" "$(greeting 3)$takes" -- "${backup[@]}"
was_sent 2 "$hello"
was_sent 3 "$hello"

# ---- a deletion

deleted="$(frames 92)" missing="$(frames 88)"
plays 0 $'deleted 0\nmissing 1\nmissing 2\ndeleted 3\n' "$(greeting 0)$deleted" "$(greeting 1)$missing" "$(greeting 2)$missing" "$(greeting 3)$deleted" \
    -- delete 7 a 258
for cloud in 0 1 2 3; do
    was_sent "$cloud" "$hello" "0800000007${tag}0000000000000102"
done

# each other reply of one cloud, another kind and no frame among them; the others are asked all the same
while read -r reply line; do
    plays 8 $'deleted 0\n'"$line"$'\nmissing 2\ndeleted 3\n' "$(greeting 0)$deleted" "$(greeting 1)$reply" "$(greeting 2)$missing" "$(greeting 3)$deleted" \
        -- delete 7 a 258
done << END
$(frames 8c03000000000000010000000000000000320000000000000131) full 1 journal 256 50 305
$fault fault 1
$(frames 8e0000000000000104ab) damaged 1 260 ab
$(frames 91) nomemory 1
$(frames 84) strange 1 84
0000000292 strange 1 00
END

# a connection that breaks
plays 9 $'deleted 0\n' "$(greeting 0)$deleted" "^$(greeting 1)" "$(greeting 2)$missing" "$(greeting 3)$deleted" -- delete 7 a 258
was_sent 2 "$hello"
was_sent 3 "$hello"

# ---- a restore

for cloud in 0 1 2 3; do
    start "$cloud" 1000
done
says 0 '*end 1 stored' "${backup[@]}" "${address[@]}" < "$work/file"
there=("${address[@]/#/@}")
restore=(restore 7 a 1)
plays 0 A "${there[@]:1}" -- "${restore[@]}"
plays 0 A "${there[@]}" -- "${restore[@]}"
plays 8 $'refused missing 0\n' "${there[@]:0:3}" -- restore 7 a 2
plays 8 $'refused hello 0 4 3 2\n' "${there[@]:2}" -- "${restore[@]}"

# one that says nothing behind its Hello, and two
plays 0 A "${there[0]}" "$(greeting 1)" "${there[@]:2}" -- "${restore[@]}"
plays 8 $'refused strange 1 00\n' "${there[0]}" "$(greeting 1)" "$(greeting 2)" "${there[3]}" -- "${restore[@]}"

# one whose connection breaks, of three and of four
plays 9 '' "${there[1]}" "^$(greeting 2)" "${there[3]}" -- "${restore[@]}"
plays 0 A "${there[0]}" "${there[1]}" "^$(greeting 2)" "${there[3]}" -- "${restore[@]}"

# another number that is needed, no shape, the cloud in front, another format, no frame: of no other clouds can that be made good
while read -r bytes line; do
    plays 8 "$line"$'\n' "${there[1]}" "$bytes" "${there[3]}" -- "${restore[@]}"
    was_sent 1 "$hello"
    plays 8 "$line"$'\n' "${there[1]}" "$bytes" "${there[2]}" "${there[3]}" -- "${restore[@]}"
done << END
$(frames 8104020201) refused hello 1 4 2 2
$(frames 8111030201) refused hello 1 17 3 2
$(frames 8104030101) refused hello 1 4 3 1
$(frames 8104030200) refused strange 1 81
0040000181 refused strange 1 00
END

# Sees that a restore from three clouds, cloud 2 of which is played, is refused, and that from four it gives the file: passes_over LINE BYTES
passes_over() {
    plays 8 "refused $1"$'\n' "${there[1]}" "$(greeting 2)$2" "${there[3]}" -- "${restore[@]}"
    plays 0 A "${there[0]}" "${there[1]}" "$(greeting 2)$2" "${there[3]}" -- "${restore[@]}"
}

# in place of cloud 2's recipe
ones="$(row_of 32 11)" twos="$(row_of 32 22)"
while read -r content line; do
    passes_over "$line" "$(frames "$content")"
done << END
8d fault 2
91 nomemory 2
8e0000000000000104ab damaged 2 260 ab
8f$ones$twos rotten 2 $ones $twos
88 missing 2
84 strange 2 84
8700 strange 2 87
$(with_share "${share[2]}") strange 2 89
87$(recipe 2 2 "${share[2]}") recipesdiffer 1 2 1
END
passes_over 'strange 2 00' 0000000287

# in place of its share: a share of another length, one of other bytes, and two where one was asked for, among others
while read -r content line; do
    passes_over "$line" "$(frames "87$(recipe 2 1 "${share[2]}")" "$content")"
done << END
8d fault 2
91 nomemory 2
8e0000000000000104ab damaged 2 260 ab
8f$ones$twos rotten 2 $ones $twos
88 strange 2 88
890002000000014100000001 strange 2 89
89000200000001410000000142 strange 2 89
$(with_share 4142) sharelength 2 0 2 11
$(with_share "$(row_of 11 07)") badshare 2 0 $(hash_of "${share[2]}") $(hash_of "$(row_of 11 07)")
END

# the file from clouds that are played, and what one was asked
plays 0 A "$(holder 1 1 "${share[1]}")" "$(holder 2 1 "${share[2]}")" "$(holder 3 1 "${share[3]}")" -- "${restore[@]}"
was_sent 1 "$hello" "0500000007${tag}0000000000000001" "06000000070001$(hash_of "${share[2]}")"

# shares of two secrets, which open to nothing whole; where three others have the file it comes from these
bad='refused badsecret 0 f1e489291cb90abb89c6f66f12848c5576cb4275c581200a4ad8a3cb90cd665d cfae0d4248f7142f7b17f826cd7a519280e312577690e957830d23dcf35a3fff'
plays 8 "$bad"$'\n' "${there[1]}" "${there[2]}" "$(holder 3 1 "${other[3]}")" -- "${restore[@]}"
plays 0 A "$(holder 0 1 "${other[0]}")$(frames "$(with_share "${other[0]}")" "$(with_share "${other[0]}")")" "${there[@]:1}" -- "${restore[@]}"

# shares of the secret `AB` with a pad of 0 and 1
plays 8 $'refused badpad 0 3 01\n' "$(holder 1 2 a8ea7ed14254285f6521aaf6)" "$(holder 2 2 6d58a732ea6aea971ad9e6ec)" \
    "$(holder 3 2 44f8909e3d3de87f9cd09675)" -- "${restore[@]}"

# a backup to three clouds that are there and know the share, and one whose disk fails
plays 8 "job 1
$(news 0 'known 1 1' committed)
$(news 1 'known 1 1' committed)
$(news 2 'known 1 1' committed)
$(news 3 fault)
end 1 open
" "${there[@]:0:3}" "$(greeting 3)$fault" -- backup 7 b 1
says 0 A restore 7 b 1 "${address[@]:0:3}"

# ---- a backup that is kept

# cloud 2 takes nothing, and each other one is noted
kept="$work/kept" resume=(resume "$work/kept")
plays 8 "job 1
$(taken 0)
$(taken 1)
$(news 2 fault)
$(taken 3)
end 1 open
" "$(greeting 0)$takes" "$(greeting 1)$takes" "$(greeting 2)$fault" "$(greeting 3)$takes" -- spool "$kept" 7 a 1
start_of_journal="010000002443445354020403000000001000000000200000000000000004000000000080000000040001"
job="0000003801000000070000000000000001000161$(printf '%016x' 1)$(hash_of 41)"
[ "$(bytes_in "$kept/cloud0/journal")" = "$start_of_journal${job}01000000020200010000000202010100000002020300" ] || fail "the kept journal differs"
[ "$(bytes_in "$kept/cloud0/shares")" = 41 ] || fail "the kept file differs"

# Plays four clouds that say Hello, and sees that they are sent no more: says_hello STATUS LINE WORDS..
says_hello() {
    local cloud status="$1" line="$2"
    shift 2
    plays "$status" "$line"$'\n' "$(greeting 0)" "$(greeting 1)" "$(greeting 2)" "$(greeting 3)" -- "$@"
    for cloud in 0 1 2 3; do
        was_sent "$cloud" "$hello"
    done
}

says_hello 7 'store 0 journal 124' spool "$kept" 7 a 2
plays 7 $'other 0 2 4 3 0\n' "$(frames 8103020001)" "$(frames 8103020101)" "$(frames 8103020201)" -- "${resume[@]}"
cp -r "$kept" "$work/copy"
printf B > "$work/copy/cloud0/shares"
says_hello 8 "refused rotten 0 $(hash_of 41) $(hash_of 42)" resume "$work/copy"
# no job's record; a lane of no cloud, one that was noted, and none; and a record that is cut off
while read -r bytes line; do
    raw "$bytes" > "$work/copy/cloud0/journal"
    says_hello 7 "$line" resume "$work/copy"
done << END
$start_of_journal${job/#0000003801/0000003802}00 damaged 0 46 02
$start_of_journal${job}0100000002020400 damaged 0 108 04
$start_of_journal${job}010000000202000100000002020000 damaged 0 115 00
$start_of_journal${job}0100000002030000 damaged 0 107 03
$start_of_journal${job}010000000202 damaged 0 103 00
END

# a connection that breaks in the lane that is left: the job stays kept
plays 9 $'job 1\n' "$(greeting 0)" "$(greeting 1)" "^$(greeting 2)" "$(greeting 3)" -- "${resume[@]}"
says_hello 7 'store 0 journal 124' spool "$kept" 7 a 2

# the clouds that were noted aren't asked again, and then no job is kept
plays 0 "job 1
$(taken 2)
stored 1
end 1 stored
" "$(greeting 0)" "$(greeting 1)" "$(greeting 2)$takes" "$(greeting 3)" -- "${resume[@]}"
for cloud in 0 1 3; do
    was_sent "$cloud" "$hello"
done
for area in journal shares recipes; do
    [ ! -s "$kept/cloud0/$area" ] || fail "something is kept in $area"
done
says_hello 0 nospool "${resume[@]}"
echo "A server answered $sent connections as it should, of which many were cut or wrong; $((count - sent)) commands over clouds that were played came to what they should."
