#!/usr/bin/env bash
# Makes the stores beside it anew by a program that writes format 1: make.sh PROGRAM FOLDER
#
# FOLDER isn't there yet. The stores here were made so by the program of this repository's state "Meet clouds one after another"; a later one
# may write another format.
set -eu
program="$1" folder="$2"
hex() { od -An -v -tx1 | tr -d ' \n'; }
mkdir "$folder"

# two users with the same content, a second version, and an empty file
"$program" replay "$folder/two_users" <<END
cdstore 1 4 3
upload 7 6e6f746573 1 $(printf 'Call Anna, and bring milk.\n' | hex)
finish 1
upload 8 6e6f746573 1 $(printf 'Call Anna, and bring milk.\n' | hex)
finish 2
upload 7 6e6f746573 2 $(printf 'Call Bob.\n' | hex)
finish 3
upload 7 656d707479 1 -
finish 4
END

# a file of many shares, twice, the second time with a line more at its front
"$program" replay "$folder/numbers" <<END
cdstore 1 4 3
upload 7 6e756d62657273 1 $(seq 1 4000 | hex)
finish 1
upload 7 6e756d62657273 2 $({ echo zero; seq 1 4000; } | hex)
finish 2
END

# cuts: cloud 0 was stopped in the middle of a write, and opened again
"$program" replay "$folder/cut" <<END
cdstore 1 4 2
upload 7 6e6f746573 1 $(printf 'Hello, clouds.' | hex)
arm 0 3 20
step 1 0
restart 0
finish 1
arm 1 5 1
upload 9 6e6f746573 1 $(printf 'Hello, clouds.' | hex)
step 2 1
restart 1
finish 2
END

# rooms of its day, which a file has filled
"$program" replay "$folder/small_rooms" <<END
cdstore 1 3 2 1000 1000 2000 3 4 2
upload 7 61 1 $(printf 'A' | hex)
finish 1
upload 7 62 1 $(printf 'BB' | hex)
finish 2
upload 7 63 1 $(printf 'CCC' | hex)
finish 3
END
