#!/usr/bin/env bash
# Reads versions from clouds in a folder that a session stored, whole and damaged: from each three of four clouds and from all four; with a byte
# changed in a share, in a recipe and in each part of the journal; with areas that were cut off; from clouds that don't agree; and under a path of
# odd characters. Each status and each byte that is written is compared with what docs/FORMATS.md says of it. It needs the program alone.
# shellcheck source=clouds.sh
. "$(dirname "$0")/clouds.sh"
count=0

# Replays a script over clouds that are empty: stored LINE..
stored() {
    rm -rf "$work/clouds"
    printf '%s\n' "$@" > "$work/script"
    "$program" replay "$work/clouds" < "$work/script" > "$work/transcript" || fail "the session: status $?, $(tail -n 1 "$work/transcript")"
}

# Runs the program, and sees its status and each byte that it writes: comes_to STATUS BYTES WORDS..
comes_to() {
    local status=0 wanted="$1" bytes="$2"
    shift 2
    "$program" "$@" > "$work/written" || status=$?
    [ "$status" = "$wanted" ] || fail "cdstore $*: status $status in place of $wanted, $(tail -n 1 "$work/written")"
    printf '%s' "$bytes" | cmp - "$work/written" || fail "cdstore $* wrote $(cat "$work/written")"
    count=$((count + 1))
}

# Sees that the version 1 of user 7's path a comes from these clouds: gives CLOUDS BYTES
gives() {
    comes_to 0 "$2" read "$work/clouds" 4 3 7 a 1 "$1"
}

# Sees that it doesn't, and why: refuses CLOUDS STATUS LINE
refuses() {
    comes_to "$2" "$3"$'\n' read "$work/clouds" 4 3 7 a 1 "$1"
}

# Makes a byte of a cloud's area another one: change CLOUD AREA PLACE BYTE, which is in hexadecimal
change() {
    printf '%b' "\\x$4" | dd of="$work/clouds/cloud$1/$2" bs=1 seek="$3" conv=notrunc 2> "$work/said"
}

# Cuts an area of a cloud off: cut_off CLOUD AREA LENGTH
cut_off() {
    head -c "$3" "$work/whole/cloud$1/$2" > "$work/clouds/cloud$1/$2"
}

# Puts the clouds back as the session left them.
put_back() {
    rm -rf "$work/clouds"
    cp -r "$work/whole" "$work/clouds"
}

# ---- a share and a recipe

# The byte `A`, whose share 0 is the 11 bytes 9f4a82a5c09e0300fce739.
stored 'cdstore 1 4 3' 'upload 7 61 1 41' 'finish 1'
cp -r "$work/clouds" "$work/whole"
for clouds in 0,1,2 0,1,3 0,2,3 1,2,3 0,1,2,3; do
    gives "$clouds" A
done
comes_to 8 $'refused missing 0\n' read "$work/clouds" 4 3 7 a 2 0,1,2,3
comes_to 8 $'refused missing 1\n' read "$work/clouds" 4 3 8 a 1 1,2,3

# cloud 0's share begins with 00: its SHA-256, and that of what lies there
rotten='refused rotten 0 7306196382e41a397efac21e4f4613ec42dbce6fc69dc13a71972b7d5afc5010 7007882dfedbe79f87fbc84f2fc9213768b590ca6a5dafd296b68853ec33dfea'
change 0 shares 0 00
for clouds in 0,1,2 0,1,3 0,2,3; do
    refuses "$clouds" 8 "$rotten"
done
gives 1,2,3 A
gives 0,1,2,3 A

# cloud 1's recipe ends with 02: the opening names the place where the journal has the recipe's SHA-256
change 1 recipes 60 02
refuses 1,2,3 7 'damaged 1 160 db'
refuses 0,1,2,3 7 'damaged 1 160 db'
refuses 0,2,3 8 "$rotten"
put_back

# ---- the journal

# A byte of cloud 0's journal: its place, what it is and what it becomes, in hexadecimal, and what a read comes to.
while read -r place right wrong status line; do
    [ "$place" != '#' ] || continue
    change 0 journal "$place" "$wrong"
    if [ "$status" = 0 ]; then
        gives 0,1,2 "$line"
    else
        refuses 0,1,2 "$status" "$line"
        gives 1,2,3 A
    fi
    change 0 journal "$place" "$right"
done << 'END'
# the first gate, and the length of the start
0 01 00 7 notbegun 0 193
1 00 ff 7 damaged 0 1 ff
4 24 23 7 damaged 0 1 00
# the header: its letters, format, n and k, which no longer fit or are another store's, cloud, and rooms
5 43 63 7 damaged 0 5 63
8 54 55 7 damaged 0 8 55
9 02 03 7 damaged 0 9 03
10 04 03 7 damaged 0 11 03
10 04 05 7 other 0 2 5 3 0
11 03 02 7 other 0 2 4 2 0
12 00 09 7 damaged 0 12 09
12 00 01 7 other 0 2 4 3 1
16 10 00 7 damaged 0 13 00
17 00 01 7 damaged 0 17 01
28 00 01 7 damaged 0 25 00
37 00 01 7 damaged 0 37 01
# rooms for eight users, and for seven, of which user 7 is none; for no shares; for no versions
16 10 08 0 A
16 10 07 7 damaged 0 47 00
35 80 00 7 damaged 0 47 00
39 04 00 7 damaged 0 104 00
# the Put: its gate, which ends the list, length, kind, flag, and the share's place and length
41 01 00 8 refused missing 0
42 00 ff 7 damaged 0 42 ff
46 01 09 7 damaged 0 46 09
85 01 02 7 damaged 0 85 02
93 00 01 7 damaged 0 86 00
97 0b 0c 7 damaged 0 86 00
# the Commit: its gate, its recipe's length and SHA-256; and the last gate
98 01 00 8 refused missing 0
159 3d 3e 7 damaged 0 148 00
160 f2 f3 7 damaged 0 160 f3
192 00 01 7 damaged 0 192 01
END
diff -r "$work/whole" "$work/clouds"

# An area of cloud 0 that ends early: it, its length, and what a read comes to.
while read -r area length line; do
    cut_off 0 "$area" "$length"
    refuses 0,1,2 7 "$line"
    refuses 0,1,2,3 7 "$line"
    gives 1,2,3 A
    cp "$work/whole/cloud0/$area" "$work/clouds/cloud0/$area"
done << 'END'
journal 0 notbegun 0 0
journal 1 notbegun 0 1
journal 2 damaged 0 1 00
journal 41 damaged 0 1 00
journal 42 damaged 0 41 01
journal 43 damaged 0 42 00
journal 98 damaged 0 42 00
journal 99 damaged 0 98 01
journal 100 damaged 0 99 00
journal 192 damaged 0 99 00
shares 10 damaged 0 86 00
recipes 60 damaged 0 148 00
END
diff -r "$work/whole" "$work/clouds"
gives 0,1,2 A

# ---- clouds that don't agree

# the version is at clouds 0 and 1 alone
three=('step 1 0' 'step 1 0' 'step 1 0')
stored 'cdstore 1 4 3' 'upload 7 61 1 41' "${three[@]}" "${three[@]/%0/1}"
refuses 0,1,2 8 'refused missing 2'
refuses 1,2,3 8 'refused missing 2'
refuses 0,1,2,3 8 'refused missing 2'

# clouds 0 and 1 have a file of no bytes, and the others one of a byte
stored 'cdstore 1 4 3' 'upload 7 61 1 -' 'upload 7 61 1 41' 'step 1 0' 'step 1 1' 'finish 2'
refuses 0,1,2 8 'refused recipesdiffer 0 2 1'
refuses 1,2,3 8 'refused recipesdiffer 1 2 1'
refuses 0,1,2,3 8 'refused recipesdiffer 0 2 1'

# clouds 0 and 1 have the byte `A`, and the others the byte `B`: what two shares of the one and one of the other open to, and the hash that they carry
stored 'cdstore 1 4 3' 'upload 7 61 1 41' 'upload 7 61 1 42' "${three[@]}" "${three[@]/%0/1}" 'finish 2'
bad='refused badsecret 0 559aead08264d5795d3909718cdd05abd49572e84f9d7e9cad2477bc35c62edf 65c74c15a686187bb6bbf9958f494fc6b80068034a659a9ad44991b08c58f2d2'
refuses 0,1,2 8 "$bad"
refuses 0,1,2,3 8 "$bad"

# cloud 0 alone has `B`: three others are enough
stored 'cdstore 1 4 3' 'upload 7 61 1 41' 'upload 7 61 1 42' "${three[@]/#step 1/step 2}" 'finish 1'
refuses 0,1,2 8 'refused badsecret 0 df7e70e5021544f4834b7fcb39aa90e7b67638633308f46edf7a00ef967bfb7e 84873854dba02cf6a765a6277a311301b2656a7f770851828fe792ecef9092e3'
gives 0,1,2,3 A

# ---- a path of odd characters

# Control characters, a blank, quotes, slashes, and characters of two, three and four bytes, in hexadecimal.
odd=0102030405060708090a0b0c0d0e0f101112131415161718191a1b1c1d1e1f202122232425262728292a2b2c2d2e2f5c7fc280c3a9dfbfe0a080e282acefbfbff09d849ef48fbfbf
# shellcheck disable=SC2001
path="$(printf '%b' "$(sed 's/../\\x&/g' <<< "$odd")")"
stored 'cdstore 1 4 3' "upload 7 $odd 1 74776f2076657273696f6e73206f66206f6e652066696c65" 'finish 1' "upload 7 $odd 2 616e6420746865207365636f6e64206f6e65" 'finish 2'
comes_to 0 'two versions of one file' read "$work/clouds" 4 3 7 "$path" 1 0,2,3
comes_to 0 'and the second one' read "$work/clouds" 4 3 7 "$path" 2 0,1,3
comes_to 8 $'refused missing 0\n' read "$work/clouds" 4 3 7 "$path" 3 0,1,3
comes_to 8 $'refused missing 0\n' read "$work/clouds" 4 3 7 "${path//\"/}" 1 0,1,3
# one that is no UTF-8
comes_to 1 '' read "$work/clouds" 4 3 7 $'\xff' 1 0,1,3
# and an output that takes nothing
for version in 1 3; do
    status=0
    "$program" read "$work/clouds" 4 3 7 "$path" "$version" 0,2,3 > /dev/full || status=$?
    [ "$status" = 4 ] || fail "a read to a full disk: status $status"
done

echo "$count reads of whole, damaged, cut and disagreeing clouds came to what they should."
