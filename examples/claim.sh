#!/bin/sh
# examples/claim.sh FILE: prints the sketch, and after it the output of `plan` and `solve` as a claim. The program is the one of
# SKETCH, else ./sketch, as at the top of the repository, else `sketch` on the path.
sketch=${SKETCH:-./sketch}
command -v "$sketch" > /dev/null || sketch=sketch
awk '{ print } $1 == "end" { exit }' "$1"
"$sketch" plan < "$1" | grep '^step '
"$sketch" solve < "$1" | awk '$1 ~ /^(point|circle|line)$/ { print } $1 ~ /^(length|angle)$/ && $2 == "tolerance" { t = t " " $3 } END { print "tolerance" t }'
