#!/bin/sh
# Sessions that are too long to write out: their lines are made here with the reply to each, which is known by rule.
# It needs a C compiler, `cc`.
# Usage: tests/large.sh [PROGRAM], by default the program that `rt run` or `rt ci` leaves.
here=$(CDPATH= cd -- "$(dirname -- "$0")" && pwd)
program=${1:-$here/../crates/spand/out/spand}
work=$(mktemp -d) || exit 1
trap 'rm -rf "$work"' EXIT
passed=0
failed=0
cc -shared -fPIC -O1 -o "$work/short_io.so" "$here/short_io.c" || exit 1

# Makes a session by an awk program that calls say(COMMAND, REPLY) in turn. A reply is given without its place: OK, OK
# and figures, or the code and the name of a refusal, for which an entry is counted too; `bare` says one that has no entry.
make_session() {
    awk -v lines="$work/in" -v replies="$work/want" '
        function say(command, reply) {
            place++
            print command > lines
            if (reply ~ /^OK/) print "OK " place substr(reply, 3) > replies
            else print "ERR " place " " reply > replies
        }
        function bare(command, reply) {
            print command > lines
            print "ERR " reply > replies
        }
        function begin(origin, mode, account) {
            say("ORIGIN " origin " " mode, "OK")
            if (account != "") say("OPEN " account " " origin, "OK")
        }
        BEGIN { '"$1"' }'
}

# Runs a session over a set of a folder, and looks at its replies, its status and what it says of its end; once as it comes,
# and once more where a read gives one byte and a write takes one, unless it is longer than 4 MB.
look() {
    dir=$2 set=$3 wanted=$4 end=$5
    try "$1" ''
    [ "$(wc -c < "$work/in")" -gt 4000000 ] || try "$1, by single bytes" "$work/short_io.so"
}

# try TITLE PRELOAD: the session, with what stands before the C library.
try() {
    title=$1
    began=$(date +%s)
    LD_PRELOAD=$2 "$program" script --dir "$dir" --set "$set" < "$work/in" > "$work/out" 2> "$work/err"
    status=$?
    if [ $status -eq "$wanted" ] && [ "$(cat "$work/err")" = "$end" ] && cmp -s "$work/want" "$work/out"; then
        passed=$((passed + 1))
        echo "$title: $(wc -l < "$work/want") replies, $(($(date +%s) - began)) s"
    else
        failed=$((failed + 1))
        echo "FAILED: $title: status $status, $(cat "$work/err")"
        diff "$work/want" "$work/out" | head -10
    fi
}

# Each hold needs 300. There is room for 333 of them, and a number for 256.
make_session '
    begin("CUST", "GROSS", "A1")
    say("POST A1 CASH 100000", "OK")
    for (n = 1; n <= 255; n++) say("HOLD A1 " n " AAA1 1 0", "OK")
    say("ASK A1", "OK 0 76500 100000 100000 23500")
    say("HOLD A1 256 AAA1 1 0", "OK")
    say("HOLD A1 257 AAA1 1 0", "31 LIMIT")
    say("HOLD A1 257 AAA1 1000000 0", "31 LIMIT")
    say("HOLD A1 257 AAA1 1 5", "32 PREMIUM")
    say("HOLD A1 257 BBB1 1 5", "23 NOCONTRACT")
    say("HOLD A1 256 BBB1 1 5", "22 DUP")
    say("HOLD A1 1 AAA1 1 0", "22 DUP")
    say("HOLD A2 257 AAA1 1 0", "20 NOACCT")
    say("ASK A1", "OK 0 76800 100000 100000 23200")
    say("FILL A1 100 1 1 0", "OK")
    say("HOLD A1 257 AAA1 1 0", "OK")
    say("HOLD A1 100 AAA1 1 0", "31 LIMIT")
    say("RELEASE A1 1", "OK")
    say("HOLD A1 100 AAA1 1 0", "OK")
    say("HOLD A1 1 AAA1 1 0", "31 LIMIT")
    say("ASK A1", "OK 300 77100 100000 100000 22900")
'
look "256 holds of an account" "$here/../sets" FUT 0 ""

make_session '
    for (n = 1; n <= 64; n++) say("SWITCH ONE", "OK " n " 0")
    say("SWITCH ONE", "43 SETS")
    bare("SWITCH NOPE", "40 NOSET")
    begin("CUST", "GROSS", "A1")
    say("TRADE A1 1 BBB1 1 0", "OK")
    say("SWITCH FUT", "42 MISSING")
    say("SWITCH TWO", "43 SETS")
    say("END", "OK")
    say("SWITCH TWO", "50 CLOSED")
    say("SWITCH FUT", "50 CLOSED")
'
look "64 new sets" "$here/../sets" ONE 0 ""

# Accounts of a GROSS origin are units too; those of a NET one are counted as accounts alone.
make_session '
    begin("CUST", "GROSS")
    for (n = 1; n <= 1023; n++) say("OPEN A" n " CUST", "OK")
    say("ASK A1023", "OK 0 0 0 0 0")
    say("OPEN A1024 CUST", "OK")
    say("OPEN A1025 CUST", "31 LIMIT")
    say("ASK A1025", "20 NOACCT")
    say("OPEN A1024 CUST", "22 DUP")
    say("OPEN A1025 NONE", "21 NOORIGIN")
    say("OPEN A1 NONE", "21 NOORIGIN")
    say("ORIGIN CUST NET", "22 DUP")
    say("ORIGIN HOUSE NET", "31 LIMIT")
    say("ORIGIN MORE GROSS", "OK")
    say("OPEN A1025 MORE", "31 LIMIT")
    say("TRADE A1024 1 AAA1 1 0", "OK")
    say("ASK A1024", "OK 300 300 0 0 -300")
'
look "1,024 accounts" "$here/../sets" FUT 0 ""

make_session '
    begin("HOUSE", "NET", "H1")
    begin("CUST", "GROSS")
    for (n = 1; n <= 1022; n++) say("OPEN A" n " CUST", "OK")
    say("ORIGIN LAST NET", "OK")
    say("OPEN A1023 CUST", "31 LIMIT")
    say("OPEN A1022 CUST", "22 DUP")
    say("ORIGIN HOUSE NET", "22 DUP")
    say("OPEN H2 HOUSE", "OK")
    say("OPEN H3 HOUSE", "31 LIMIT")
'
look "1,024 units, and as many accounts" "$here/../sets" FUT 0 ""

# Bought and sold in turn. A busted lot counts in the limit.
make_session '
    begin("CUST", "GROSS", "A1")
    for (n = 1; n <= 65536; n++) say("TRADE A1 " n " AAA1 " (n % 2 ? 1 : -1) " 0", "OK")
    say("TRADE A1 65537 AAA1 1 0", "31 LIMIT")
    say("BUST A1 1", "OK")
    say("TRADE A1 65537 AAA1 1 0", "31 LIMIT")
    say("ASK A1", "OK 300 300 0 0 -300")
    say("TRADE A1 65537 AAA1 1 5", "32 PREMIUM")
    say("TRADE A1 65537 BBB1 1 5", "23 NOCONTRACT")
    say("TRADE A1 1 AAA1 1 0", "22 DUP")
    say("POST A1 CASH 300", "OK")
    say("HOLD A1 1 AAA1 1 0", "OK")
    say("FILL A1 1 65537 1 0", "31 LIMIT")
    say("FILL A1 1 65537 2 0", "33 OVER")
    say("FILL A1 1 65537 -1 0", "33 OVER")
    say("FILL A1 1 65537 1 5", "32 PREMIUM")
    say("FILL A1 2 65537 1 0", "25 NOORDER")
    say("FILL A1 1 1 1 0", "22 DUP")
    say("OPEN A2 CUST", "OK")
    say("MOVE 65537 A1 A2 AAA1 1", "31 LIMIT")
    say("MOVE 65537 A2 A1 AAA1 1", "31 LIMIT")
    say("MOVE 65537 A1 A2 BBB1 1", "23 NOCONTRACT")
    say("MOVE 1 A2 A1 AAA1 1", "22 DUP")
    say("ORIGIN HOUSE NET", "OK")
    say("OPEN H1 HOUSE", "OK")
    say("MOVE 65537 A1 H1 AAA1 1", "34 ORIGIN")
    say("MOVE 65537 H1 A1 AAA1 1", "34 ORIGIN")
'
look "65,536 lots of an account" "$here/../sets" FUT 0 ""

# 256 commodities of 16 contracts in four months each, all with the array of FUT. A spread of each commodity between its
# first two months, and one of each of the first 64 pairs of commodities.
awk '
    BEGIN {
        array = "0,0,-100,-100,100,100,-200,-200,200,200,-300,-300,300,300,-210,210"
        print "H,1,FULL"
        for (g = 0; g < 256; g++) {
            print "G,G" g ",25"
            for (m = 1; m <= 4; m++) print "M,G" g "," m "," m
            for (k = 0; k < 16; k++) print "K,G" g "X" k ",G" g "," k % 4 + 1 ",F,F,10000,0," array
            print "S,G" g ",1,10000,2,10000,40"
        }
        for (g = 0; g < 64; g++) print "I,5000,G" 2 * g ",A,10000,G" 2 * g + 1 ",B,10000"
    }' > "$work/FULL.csv"

# One account has 256 holds, one in each commodity, bought and sold in turn: 256 * 300, less 128 credits of 150 with
# all of them; 128 * 300 with one side. Another has 65,536 lots: each of 16 contracts 4,096 times, the first sold, the
# second bought, and so on, four of them in a month. Nothing is lost by any price; 16,384 spreads at 40 cost 655,360.
make_session '
    begin("CUST", "GROSS")
    for (n = 1; n <= 1024; n++) say("OPEN A" n " CUST", "OK")
    say("OPEN A1025 CUST", "31 LIMIT")
    say("POST A1 CASH 57900", "OK")
    for (n = 1; n <= 256; n++) say("HOLD A1 " n " G" n - 1 "X0 " (n % 2 ? 1 : -1) " 0", "OK")
    say("HOLD A1 257 G0X0 1 0", "31 LIMIT")
    say("ASK A1", "OK 0 57600 57900 57900 300")
    say("DRAW A1 CASH 301", "30 NOROOM")
    say("DRAW A1 CASH 300", "OK")
    for (n = 1; n <= 65536; n++) say("TRADE A2 " n " G255X" n % 16 " " (n % 2 ? 1 : -1) " 0", "OK")
    say("TRADE A2 65537 G255X0 1 0", "31 LIMIT")
    say("ASK A2", "OK 655360 655360 0 0 -655360")
    say("TRADE A1024 1 G255X15 -1 0", "OK")
    say("ASK A1024", "OK 300 300 0 0 -300")
    say("END", "OK")
'
look "a set and a book of full size" "$work" FULL 0 ""

# As many rows as a table may have, and one more: the number of the record that gives it.
rows() {
    awk -v table="$1" -v count="$2" '
        function contract(k, g) { print "K,K" k ",G" g ",1,F,F,0,0,0,0,0,0,0,0,0,0,0,0,0,0,0,0,0,0" }
        BEGIN {
            print "H,1,ROWS"
            if (table != "G" && table != "N") print "G,G0,0"
            if (table == "K") print "M,G0,1,1"
            if (table == "I") print "G,G1,0"
            if (table == "N") for (g = 0; g <= 16; g++) print "G,G" g ",0\nM,G" g ",1,1"
            for (n = 0; n < count; n++) {
                if (table == "G") print "G,G" n ",0"
                if (table == "M") print "M,G0," n + 1 ",1"
                if (table == "K") contract(n, 0)
                if (table == "N") contract(n, int(n / 256))
                if (table == "S") print "S,G0,1,1,2,1,0"
                if (table == "I") print "I,0,G0,A,1,G1,B,1"
                if (table == "V") print "V,V" n ",0,0"
            }
        }' > "$work/$1$2.csv"
}
for it in G256 G257 M64 M65 K256 K257 N4096 N4097 S32 S33 I64 I65 V16 V17; do
    rows "$(echo $it | cut -c1)" "$(echo $it | cut -c2-)"
done
make_session '
    say("SWITCH G256", "OK 1 0")
    bare("SWITCH G257", "41 BADSET 258")
    say("SWITCH M64", "OK 2 0")
    bare("SWITCH M65", "41 BADSET 67")
    say("SWITCH K256", "OK 3 0")
    bare("SWITCH K257", "41 BADSET 260")
    say("SWITCH N4096", "OK 4 0")
    bare("SWITCH N4097", "41 BADSET 4132")
    say("SWITCH S32", "OK 5 0")
    bare("SWITCH S33", "41 BADSET 35")
    say("SWITCH I64", "OK 6 0")
    bare("SWITCH I65", "41 BADSET 68")
    say("SWITCH V16", "OK 7 0")
    bare("SWITCH V17", "41 BADSET 19")
    say("END", "OK")
    bare("SWITCH V17", "41 BADSET 19")
    bare("SWITCH NOPE", "40 NOSET")
    say("SWITCH V16", "50 CLOSED")
'
look "tables of a set that are full" "$work" V16 0 ""

# A line more than a session answers, and no such line: its first byte ends the session.
awk 'BEGIN { for (n = 1; n <= 1000000; n++) print ""; printf "A" }' > "$work/in"
awk 'BEGIN { for (n = 1; n <= 1000000; n++) print "ERR 10 SYNTAX" }' > "$work/want"
look "1,000,000 lines and a byte" "$here/../sets" FUT 4 "spand: session LINES"

echo "$passed large sessions passed, $failed failed"
[ $failed -eq 0 ]
