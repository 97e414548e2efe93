#!/bin/sh
# Runs the program where it must fail, and where it just must not, and looks at its output and its exit status.
# Usage: tests/faults.sh [PROGRAM], by default the program that `rt run` or `rt ci` leaves.
program=${1:-$(dirname "$0")/../crates/spand/out/spand}
program=$(CDPATH= cd -- "$(dirname -- "$program")" && pwd)/$(basename -- "$program")
here=$(CDPATH= cd -- "$(dirname -- "$0")" && pwd)
work=$(mktemp -d) || exit 1
trap 'rm -rf "$work"' EXIT
cd "$work" || exit 1

passed=0
failed=0

# wants NAME STATUS STDOUT STDERR: the last run left these. `some` stands for any text, and a text for itself.
wants() {
    name=$1 right=yes
    [ "$status" = "$2" ] || right=no
    matches "$3" out || right=no
    matches "$4" err || right=no
    if [ $right = yes ]; then
        passed=$((passed + 1))
    else
        failed=$((failed + 1))
        echo "FAILED: $name: status $status (wanted $2), out: $(head -c 200 out), err: $(head -c 200 err)"
    fi
}

matches() {
    case $1 in
        some) [ -s "$2" ] ;;
        *) printf '%s' "$1" | cmp -s - "$2" ;;
    esac
}

# run INPUT WORD..: runs the program on the file.
run() {
    input=$1
    shift
    "$program" "$@" < "$input" > out 2> err
    status=$?
}

line='
'

cat > FUT.csv <<'END'
H,1,FUT
G,AAA,0
M,AAA,1,1
K,AAA1,AAA,1,F,F,10000,0,0,0,-100,-100,100,100,-200,-200,200,200,-300,-300,300,300,-210,210
END
printf 'ORIGIN CUST GROSS\nOPEN A1 CUST\nPOST A1 CASH 1000\nTRADE A1 1 AAA1 2 0\nASK A1\n' > script
: > empty

# The command line.
run empty
wants 'no words' 2 '' some
run empty serves
wants 'no such command' 2 '' some
run empty serve --dir . --set FUT --port 4000
wants 'no number of sessions' 2 '' some
run empty serve --dir . --set FUT --port 65536 --sessions 1
wants 'no such port' 2 '' some
run empty serve --dir . --set NONE --port 4000 --sessions 16
wants 'no set to serve' 3 '' "spand: set NOSET$line"
run empty script --dir .
wants 'no set' 2 '' some
run empty --version
wants 'its version, and the logic that proved it' 0 "spand 0.3.0 ($(rt version | sed 's,^.* logic ,logic ,'))$line" ''
run empty script --set FUT
wants 'no folder' 2 '' some
run empty script --dir . --set FUT --port 80
wants 'an unknown option' 2 '' some
run empty script --dir . --set FUT more
wants 'a word too many' 2 '' some
run empty script --dir . --set "$(printf 'F\377T')"
wants 'a word that is no text' 2 '' some
run empty --help
wants 'help' 0 some ''
run empty help
wants 'help as a command' 0 some ''
run empty script --help
wants 'help of a command' 0 some ''
run empty check --help
wants 'help of the other command' 0 some ''
run empty serve --help
wants 'help of the server' 0 some ''
run empty check --dir .
wants 'no set to check' 2 '' some

# The set.
run script script --dir . --set TWO
wants 'no such file' 3 '' "spand: set NOSET$line"
run script script --dir nowhere --set FUT
wants 'no such folder' 3 '' "spand: set NOSET$line"
run script script --dir .. --set "$(basename "$work")/FUT"
wants 'a name that is none' 3 '' "spand: set NOSET$line"
run script script --dir . --set ''
wants 'an empty name' 3 '' "spand: set NOSET$line"
cp FUT.csv AAAAAAAAAAAAAAAAA.csv
run script script --dir . --set AAAAAAAAAAAAAAAAA
wants 'a name of 17 letters' 3 '' "spand: set NOSET$line"
mkdir DIR.csv
run script script --dir . --set DIR
wants 'a folder in place of a file' 3 '' "spand: set NOSET$line"
: > NONE.csv
run script script --dir . --set NONE
wants 'no record' 3 '' "spand: set BADSET 1$line"
sed 's/^G,AAA,0/G,AAA,-1/' FUT.csv > BAD.csv
run script script --dir . --set BAD
wants 'a bad record' 3 '' "spand: set BADSET 2$line"
{ cat FUT.csv; head -c $((8388608 - $(wc -c < FUT.csv))) /dev/zero | tr '\0' '\n'; } > MOST.csv
run empty script --dir . --set MOST
wants 'as long as a set may be' 0 '' ''
{ cat MOST.csv; echo; } > LONG.csv
run empty script --dir . --set LONG
wants 'a byte longer than a set may be' 3 '' "spand: set NOSET$line"

# What a set has, and why a file is none.
run empty check --dir . --set FUT
wants 'a set is checked' 0 "set FUT${line}version 1${line}commodities 1${line}months 1${line}contracts 1${line}intracommodity spreads 0${line}intercommodity spreads 0${line}collateral classes 0${line}spot month charges 0$line" ''
cat > ALL.csv <<'END'
H,2,NEXT
G,AAA,25
G,BBB,0
M,AAA,1,1
M,AAA,2,2
M,BBB,1,1
K,AAA1,AAA,1,F,F,10000,0,0,0,-100,-100,100,100,-200,-200,200,200,-300,-300,300,300,-210,210
K,AAA2,AAA,2,F,F,10000,0,0,0,-90,-90,90,90,-180,-180,180,180,-270,-270,270,270,-189,189
K,AAAC,AAA,1,C,P,5000,60,-10,12,-70,-50,40,50,-140,-120,52,58,-220,-205,57,60,-160,20
K,BBB1,BBB,1,F,F,10000,0,0,0,-50,-50,50,50,-100,-100,100,100,-150,-150,150,150,-105,105
S,AAA,1,10000,2,10000,40
S,AAA,2,10000,1,10000,50
I,5000,AAA,A,10000,BBB,B,20000
V,BILL,9950,300
V,NOTE,9900,500
T,AAA,1,30,50
END
run empty check --dir=. --set=ALL
wants 'rows of each kind' 0 "set NEXT${line}version 2${line}commodities 2${line}months 3${line}contracts 4${line}intracommodity spreads 2${line}intercommodity spreads 1${line}collateral classes 2${line}spot month charges 1$line" ''

# bad TOLD EDIT: the set, edited so, is told as this.
bad() {
    sed "$2" ALL.csv > WRONG.csv
    run empty check --dir . --set WRONG
    wants "$1" 3 '' "spand: record $1$line"
}
limits='the number is outside its limits'
spelled='a name must be 1 to 16 of the letters A to Z and digits'
kind='this version has no record of this kind'
header='the first record, and no other, must be a header: H, version 1 or 2, and a name'
bad '1, field 2 (version): the version must be 1 or 2' '1s/2/3/'
bad "1, field 3 (name): $spelled" '1s/NEXT/next/'
bad "1: $header" '1s/,NEXT//'
bad "1: $header" 1d
bad "5: $header" '5s/.*/H,2,NEXT/'
bad "16, field 1 (kind of record): $kind" '1s/2/1/'
bad "2, field 1 (kind of record): $kind" '2s/G/g/'
bad '2, field 3 (charge): it is not spelled as a number' '2s/25/2.5/'
bad '3, field 2 (commodity): an earlier record gives this name' '3s/BBB/AAA/'
bad "4, field 2 (commodity): $spelled" '4s/AAA,1,1/AA A,1,9/'
bad '4, field 2 (commodity): no earlier record gives this commodity' '4s/AAA/CCC/'
bad "4, field 4 (tier): $limits" '4s/AAA,1,1/CCC,1,9/'
bad '5, field 3 (month): an earlier record gives this month of its commodity' '5s/AAA,2/AAA,1/'
bad "7, field 2 (contract): $spelled" '7s/AAA1/aaa1/'
bad '7, field 2 (contract): the name has more than 16 bytes' '7s/AAA1/AAAAAAAAAAAAAAAAA/'
bad '7, field 4 (month): no earlier record gives this month of its commodity' '7s/AAA,1/AAA,3/'
bad '7, field 5 (kind): it must be F, C or P' '7s/F,F/G,G/'
bad '7, field 6 (style): it must be P or F' '7s/F,F/F,G/'
bad '7, field 6 (style): the style of a future must be F' '7s/F,F/F,P/'
bad "7, field 7 (delta): $limits" '7s/10000/100001/'
bad '7, field 8 (value): the number is outside its limits, or is not 0 though the style is F' '7s/10000,0/10000,1/'
bad '7, field 9 (loss in scenario 1): it is not spelled as a number' '7s/10000,0,0/10000,0,00/'
bad "7, field 24 (loss in scenario 16): $limits" '7s/210$/100000001/'
bad '7: it has 25 fields, and a K record has 24' '7s/$/,0/'
bad '8, field 2 (contract): an earlier record gives this name' '8s/AAA2/AAA1/'
bad "11, field 3 (first tier): $limits" '11s/1,10000,2,10000/0,0,0,0/'
bad "11, field 6 (second ratio): $limits" '11s/2,10000/2,0/'
bad "12, field 7 (charge): it is not spelled as a number" '12s/50$//'
bad '12, field 2 (commodity): no earlier record gives this commodity' '12s/AAA/AAB/'
bad "13, field 2 (rate): $limits" '13s/5000/10001/'
bad '13, field 4 (side of leg 1): it must be A or B' '13s/A,10000/C,10000/'
bad "13, field 8 (ratio of leg 2): $limits" '13s/20000/0/'
bad '13, field 6 (commodity of leg 2): no earlier record gives this commodity' '13s/BBB/CCC/'
bad '13, field 6 (commodity of leg 2): an earlier leg is of this commodity' '13s/BBB/AAA/'
bad '13: it has no leg on side B' '13s/B,20000/A,20000/'
bad '13: it has 9 fields, and an I record has 8, 11 or 14' '13s/$/,1/'
bad "14, field 4 (haircut): $limits" '14s/300/10001/'
bad '14, field 2 (class): an earlier record gives this class, or it is CASH, which every set has' '14s/BILL/CASH/'
bad '15, field 2 (class): an earlier record gives this class, or it is CASH, which every set has' '15s/NOTE/BILL/'
bad "16, field 5 (outright rate): $limits" '16s/50$/1000000001/'
bad '17, field 2 (commodity): an earlier record gives the charge of this commodity' '$p'
bad '7, line 9, field 7 (delta): the number is outside its limits' '3s/^/\n\n/;7s/10000/100001/'
carriage=$(printf '\r')
two='it is two records in one line'
bad "1: $two" "1s/\$/${carriage}G,AAA,25/"
bad "2: $two" "2s/\$/${carriage}G,CCC,0/"
bad "5: $two" "5s/.*/x${carriage}x/"
bad "5: $two" "5s/.*/H${carriage}H${carriage}H/"
bad "13: $two" "13s/B,20000/A,20000${carriage}/;13s/\$/x/"

# Each field of each record by each cause.
array=,0,0,0,0,0,0,0,0,0,0,0,0,0,0,0,0
rows=0
while IFS='|' read -r number text told; do
    case $number in '' | '#'*) continue ;; esac
    rows=$((rows + 1))
    case $text in *@) text=${text%@}$array ;; esac
    { head -n $((number - 1)) ALL.csv; printf '%s\n' "$text"; tail -n +$((number + 1)) ALL.csv; } > WRONG.csv
    case $told in field*) told="record $number, $told" ;; *) told="record $number: $told" ;; esac
    run empty check --dir . --set WRONG
    wants "$text" 3 '' "spand: $told$line"
done < "$here/set_faults.txt"
: > out
: > err
status=$rows
wants 'each row was read' "$(grep -c '^[0-9]' "$here/set_faults.txt")" '' ''

# Each value of an array, where the ones after it are wrong too.
for scenario in 1 2 3 4 5 6 7 8 9 10 11 12 13 14 15 16; do
    after=$array
    for _ in $(seq $scenario); do after=${after%,0}; done
    before=$(printf ',0%.0s' $(seq $scenario))
    before=${before%,0}
    place="record 7, field $((scenario + 8)) (loss in scenario $scenario)"
    for value in x -100000001 100000001; do
        told='the number is outside its limits'
        [ $value = x ] && told='it is not spelled as a number'
        sed "7s/.*/K,AAA1,CCC,1,F,F,0,0$before,$value$(echo "$after" | sed 's/0/x/g')/" ALL.csv > WRONG.csv
        run empty check --dir . --set WRONG
        wants "$value in scenario $scenario" 3 '' "spand: $place: $told$line"
    done
done

# full NAME NUMBER: after NUMBER records a table is full.
full() {
    run empty check --dir . --set FULL
    wants "$1" 3 '' "spand: record $2: its table has as many rows as it may have$line"
}
{ cat ALL.csv; for number in $(seq 15); do echo "V,N$number,1,1"; done; } > FULL.csv
full 'a class too many' 31
{ cat ALL.csv; for number in $(seq 255); do echo "G,N$number,0"; done; } > FULL.csv
full 'a commodity too many' 271
{ cat ALL.csv; for number in $(seq 3 65); do echo "M,AAA,$number,1"; done; } > FULL.csv
full 'a month too many' 79
{ cat ALL.csv; for number in $(seq 254); do echo "K,N$number,AAA,1,F,F,0,0$array"; done; } > FULL.csv
full 'a contract too many' 270
{ cat ALL.csv; for _ in $(seq 31); do echo 'S,AAA,1,1,1,1,0'; done; } > FULL.csv
full 'a spread too many' 47
{ cat ALL.csv; for _ in $(seq 64); do echo 'I,0,AAA,A,1,BBB,B,1'; done; } > FULL.csv
full 'a spread between commodities too many' 80

# Lines without a record count as lines, and not as records.
printf '\n\nH,1,GAPS\n\r\n\nG,AAA,1000000001\n' > GAPS.csv
run empty check --dir . --set GAPS
wants 'a bad record after empty lines' 3 '' "spand: record 2, line 6, field 3 (charge): the number is outside its limits$line"
run script script --dir . --set GAPS
wants 'a set of a script with empty lines' 3 '' "spand: set BADSET 2$line"
printf '\n\n\n' > BLANK.csv
run empty check --dir . --set BLANK
wants 'empty lines alone' 3 '' "spand: record 1: $header$line"

# Two causes in one record: the one that is looked for first.
{ cat ALL.csv; for number in $(seq 15); do echo "V,N$number,1,1"; done; } > FULL.csv
{ head -30 FULL.csv; echo V,N3,1,1; } > AGAIN.csv
run empty check --dir . --set AGAIN
wants 'a class too many that is there already' 3 '' "spand: record 31, field 2 (class): an earlier record gives this class, or it is CASH, which every set has$line"
{ head -30 FULL.csv; echo V,N3,1,10001; } > AGAIN.csv
run empty check --dir . --set AGAIN
wants 'the same, with a wrong haircut' 3 '' "spand: record 31, field 4 (haircut): $limits$line"
bad "5: $header" '5s/.*/H/'
bad "4: it has 5 fields, and an M record has 4" '4s/AAA,1,1/CCC,1,9,1/'
bad '4, field 3 (month): it is not spelled as a number' '4s/AAA,1,1/CCC,01,9/'
bad '8, field 3 (commodity): no earlier record gives this commodity' '8s/AAA2,AAA/AAA1,CCC/'
bad '8, field 4 (month): no earlier record gives this month of its commodity' '8s/AAA2,AAA,2/AAA1,AAA,3/'
bad "8, field 7 (delta): $limits" '8s/AAA2,AAA,2,F,F,10000/AAA1,CCC,3,F,F,100001/'
bad "13: it has no leg on side B" '13s/BBB,B/CCC,A/'
bad "13: it has no leg on side B" '13s/BBB,B/AAA,A/'
bad "13, field 2 (rate): $limits" '13s/5000/10001/;13s/BBB,B/AAA,A/'
bad '13, field 9 (commodity of leg 3): no earlier record gives this commodity' '13s/BBB,B,20000/AAA,B,1,CCC,B,1/'
bad "14, field 3 (price): $limits" '14s/BILL,9950/CASH,100000001/'
bad '15, field 4 (haircut): it is not spelled as a number' '15s/NOTE,9900,500/BILL,9900,0500/'
bad "17, field 3 (tier): $limits" '$p;$s/AAA,1/AAA,9/'
run empty check --dir . --set NONE
wants 'no record to check' 3 '' "spand: record 1: $header$line"
run empty check --dir . --set TWO
wants 'no file to check' 3 '' "spand: set NOSET$line"
run empty check --dir . --set DIR
wants 'a folder to check' 3 '' "spand: set NOSET$line"
run empty check --dir . --set LONG
wants 'a file too long to check' 3 '' "spand: set NOSET$line"
run empty check --dir . --set ''
wants 'a name to check that is none' 3 '' "spand: set NOSET$line"
: > out
"$program" check --dir . --set FUT >&- 2> err
status=$?
wants 'an output of a check that is closed' 4 '' "spand: check WRITE$line"

# The session.
figures='OK 1
OK 2
OK 3
OK 4
OK 5 600 600 1000 1000 400
'
run script script --dir . --set FUT
wants 'a script' 0 "$figures" ''
run script script --dir=. --set=FUT
wants 'options with =' 0 "$figures" ''
run empty script --dir . --set FUT
wants 'an empty script' 0 '' ''
{ cat script; printf 'ASK A1'; } > partial
run partial script --dir . --set FUT
wants 'a last line without its end' 0 "$figures" ''
{ printf 'ask A1\n\nASK  A1\nASK A1\r\nASK A\303\204\n'; head -c 257 /dev/zero | tr '\0' A; printf '\nTRADE A1 0 AAA1 2 0\nASK A1\n'; } > faults
run faults script --dir . --set FUT
wants 'faulty lines' 0 "$(for _ in 1 2 3 4 5; do echo 'ERR 10 SYNTAX'; done; echo 'ERR 11 LONG'; echo 'ERR 12 RANGE'; echo 'ERR 1 20 NOACCT')$line" ''
printf 'SWITCH BAD\nSWITCH GAPS\nSWITCH NONE\nSWITCH LONG\nSWITCH DIR\nSWITCH NOPE\nSWITCH MOST\n' > switches
run switches script --dir . --set FUT
wants 'files that are no sets' 0 "ERR 41 BADSET 2${line}ERR 41 BADSET 2${line}ERR 41 BADSET 1${line}ERR 40 NOSET${line}ERR 40 NOSET${line}ERR 40 NOSET${line}OK 1 1 0$line" ''
run . script --dir . --set FUT
wants 'an input that cannot be read' 4 '' "spand: session READ$line"
if [ -e /dev/full ]; then
    : > out
    "$program" script --dir . --set FUT < script > /dev/full 2> err
    status=$?
    wants 'an output that is full' 4 '' "spand: session WRITE$line"
fi
: > out
"$program" script --dir . --set FUT < script >&- 2> err
status=$?
wants 'an output that is closed' 4 '' "spand: session WRITE$line"
: > out
{ "$program" script --dir . --set FUT 2> err; echo $? > status; } < script | true
status=$(cat status)
if [ "$status" = 0 ]; then
    wants 'a pipe that is read in time' 0 '' ''
else
    wants 'a pipe that nobody reads' 4 '' "spand: session WRITE$line"
fi
head -c 1000000 /dev/zero | tr '\0' '\n' > lines
run lines script --dir . --set FUT
[ "$(wc -l < out)" -eq 1000000 ] && : > out
wants 'as many lines as may be' 0 '' ''
{ cat lines; printf x; } > more
run more script --dir . --set FUT
[ "$(wc -l < out)" -eq 1000000 ] && : > out
wants 'a byte after the last line that may be' 4 '' "spand: session LINES$line"

echo "$passed passed, $failed failed"
[ $failed -eq 0 ]
