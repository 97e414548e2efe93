#!/bin/sh
# Runs the sessions of tests/examples.txt over the sets of sets/ and of tests/sets/ and looks at every reply: each once as it
# comes, and once where a read gives one byte and a write takes one. It needs a C compiler, `cc`.
# Usage: tests/examples.sh [PROGRAM], by default the program that `rt run` or `rt ci` leaves.
here=$(CDPATH= cd -- "$(dirname -- "$0")" && pwd)
program=${1:-$here/../crates/spand/out/spand}
work=$(mktemp -d) || exit 1
trap 'rm -rf "$work"' EXIT

# The sets of both folders in one.
mkdir "$work/sets"
cp "$here"/../sets/*.csv "$here"/sets/*.csv "$work/sets" || exit 1

# A session is a line `= SET title` and then lines `COMMAND -> REPLY`, with the further lines of a reply after it as
# `| LINE`; `#` starts a comment. A line `@ NAME SET N RECORD` makes a file of a set: that of SET with this record as its Nth.
awk -v work="$work" '
    /^#/ || /^$/ { next }
    /^@ / {
        from = work "/sets/" $3 ".csv"
        to = work "/sets/" $2 ".csv"
        for (n = 1; (getline line < from) > 0; n++) print (n == $4 ? $5 : line) > to
        if (n == $4) print $5 > to
        if (n < $4) { print "no such record: " $0; exit 1 }
        close(from)
        close(to)
        next
    }
    /^= / {
        number++
        file = sprintf("%s/%03d", work, number)
        print $2 > (file ".set")
        print substr($0, length($2) + 4) > (file ".title")
        printf "" > (file ".in")
        printf "" > (file ".want")
        next
    }
    /^\| / { print substr($0, 3) > (file ".want"); next }
    {
        cut = index($0, " -> ")
        print substr($0, 1, cut - 1) > (file ".in")
        print substr($0, cut + 4) > (file ".want")
    }
' "$here/examples.txt" || exit 1

cc -shared -fPIC -O1 -o "$work/short_io.so" "$here/short_io.c" || exit 1
passed=0
failed=0

# try HOW PRELOAD: a session, with what stands before the C library.
try() {
    LD_PRELOAD=$2 "$program" script --dir "$work/sets" --set "$set" < "$session.in" > "$session.out"
    status=$?
    if [ $status -eq 0 ] && cmp -s "$want" "$session.out"; then
        passed=$((passed + 1))
    else
        failed=$((failed + 1))
        echo "FAILED on $set, $(cat "$session.title"), $1: status $status"
        diff "$want" "$session.out" | head -10
    fi
}

for want in "$work"/*.want; do
    session=${want%.want}
    set=$(cat "$session.set")
    try 'as it comes' ''
    try 'by single bytes' "$work/short_io.so"
done
echo "$passed sessions passed, $failed failed"
[ $failed -eq 0 ] && [ $passed -gt 0 ]
