#!/bin/sh
# Canonical texts of `sp` with shell tools, from standard input to standard output. It checks nothing: the text must be
# correct, with numbers in their shortest spelling. sort(1) compares keys, which is exact for whole numbers of any
# length; no number passes through awk's doubles. When sort reads a pipe, it starts with a small buffer and merges
# temporary files. SORT_FLAG=-S1G gives it memory, and with it several threads.
export LC_ALL=C
dir=$(mktemp -d) || exit 4
trap 'rm -rf "$dir"' EXIT
tr -d '\r' | awk -v head="$dir/head" '
    $1 == "p" { print "p sp " $3 > head }
    $1 == "a" { print $2, $3, $4 }' |
    sort -k1,1n -k2,2n -k3,3n ${SORT_FLAG:+"$SORT_FLAG"} |
    awk '$1 != u || $2 != v { print "a " $0; u = $1; v = $2 }' > "$dir/body"
count=$(wc -l < "$dir/body")
echo "$(cat "$dir/head") $count"
cat "$dir/body"
