#!/usr/bin/env bash
# Drives the program `ask`, whose path is the first argument, through pipes.
set -euo pipefail

ask=$(realpath "$1")
. "$(dirname "$0")/common.sh"
folder=$(mktemp -d)
trap 'rm -rf "$folder"' EXIT
# An answer to a program that has ended is a failed check, and not the end of this script.
trap '' PIPE
cd "$folder"

# run INPUT ARGUMENT..: runs the program on what printf makes of INPUT
run() {
    printf "$1" >input
    shift
    run_on input "$ask" "$@"
}

# What has both part 1 and part 4 fails.
judge_pair() {
    if [[ " $1 " == *" 1 "* && " $1 " == *" 4 "* ]]; then echo y; else echo n; fi
}

judge_none() {
    echo n
}

# converse NAME JUDGE LAST: answers each question once it has come, and holds the last line to LAST
converse() {
    local line="" count=0 status=0 from to pid
    coproc ASK { exec "$ask" 6; }
    pid=$ASK_PID
    exec {from}<&"${ASK[0]}" {to}>&"${ASK[1]}"
    exec {ASK[0]}<&- {ASK[1]}>&-
    while IFS= read -r -t 20 -u "$from" line && [[ $line == *\? ]]; do
        count=$((count + 1))
        "$2" "${line%\?}" >&"$to" || fail "$1: ended after the question '$line'"
    done
    [[ $line == "$3" ]] || fail "$1: the last line is '$line', not '$3'"
    exec {to}>&-
    if IFS= read -r -t 20 -u "$from" line; then fail "$1: wrote '$line' after its last line"; fi
    exec {from}<&-
    wait "$pid" || status=$?
    [[ $status == 0 ]] || fail "$1: status $status"
    echo "ok: $1, $count questions"
}

six="0 1 2 3 4 5?"

converse "nothing of six parts fails" judge_none sound
converse "1 and 4 of six parts fail" judge_pair "left 1 4"
run '6\ny\n'
expect "the input ends after one answer" 1 "$six"$'\n0 1?' "ended before the answer"

run '' x
expect "x is no number" 1 "" "no number of parts: 'x'"
run '' ''
expect "an empty argument is no number" 1 "" "no number of parts: ''"
run '' +6
expect "a sign makes no number" 1 "" "no number of parts: '+6'"
run '' -1
expect "a number below 0 is none" 1 "" "no number of parts: '-1'"
run '6a\n'
expect "a line with a letter is no number" 1 "" "no number of parts: '6a'"
run '\n'
expect "an empty line is no number" 1 "" "no number of parts: ''"
run '' $'\xff'
expect "an argument that is no text" 1 "" "an argument is no text"
run '' 6 "$folder/journal" 7
expect "three arguments" 1 "" "usage: ask"
run ''
expect "no input at all" 1 "" "ended before the number of parts"
run '6\n'
expect "the input ends after the number" 1 "$six" "ended before the answer"
run '6\nmaybe\n'
expect "the input ends after a line that is no answer" 1 "$six"$'\n'"$six" "ended before the answer"

run '' 4097
expect "4,097 parts are too many" 0 "too many" ""
run '' 99999999999999999999999
expect "so is a number past 64 bits" 0 "too many" ""
run ' 0000000000000000000000006\t\r\n\tn \r\n'
expect "leading zeros, and blanks at the ends of lines" 0 "$six"$'\nsound' ""
run 'maybe\nn\n' 6
expect "a line that is no answer is named, and the question asked again" 0 "$six"$'\n'"$six"$'\nsound' 'no answer: "maybe"'
[[ $told == *"y (yes"* && $told == *"n (no"* && $told == *"u (unclear)"* ]] || fail "the message '$told' does not say what is understood"
echo "ok: it says what is understood"
run '\xff\n\nn\n' 6
expect "nor is a line that is no text, or an empty one" 0 "$six"$'\n'"$six"$'\n'"$six"$'\nsound' 'no answer: ""'
run 'n' 6
expect "a last line with no end" 0 "$six"$'\nsound' ""

# ---- with a journal
journal=$folder/journal
heading="hidlombe 1, parts: 6"
whole=("$heading" "0 1 2 3 4 5? y" "0 1? n" "0 1 2 3? n" "0 1 2 3 4? y" "0 4? n" "0 1 4? y" "1 4? y" "4? n" "1? n")

# lay LINE..: makes the journal of these lines
lay() {
    printf '%s\n' "$@" >"$journal"
}

# holds NAME LINE..: holds the journal to these lines
holds() {
    local name=$1
    shift
    printf '%s\n' "$@" | cmp -s - "$journal" || fail "$name: the journal is '$(<"$journal")'"
    echo "ok: $name: the journal"
}

run 'y\nn\nn\n' 6 "$journal"
expect "a journal is begun" 1 "$six"$'\n0 1?\n0 1 2 3?\n0 1 2 3 4?' "the same command goes on with this question"
holds "a journal is begun" "${whole[@]:0:4}"
run 'y\nn\ny\ny\nn\nn\n' 6 "$journal"
expect "it is gone on with" 0 $'0 1 2 3 4?\n0 4?\n0 1 4?\n1 4?\n4?\n1?\nleft 1 4' ""
holds "it is gone on with" "${whole[@]}"
run '' 6 "$journal"
expect "one that has ended tells its end" 0 "left 1 4" ""
holds "one that has ended tells its end" "${whole[@]}"

run 'y\n' 7 "$journal"
expect "a journal of another number of parts" 1 "" "it is the journal of 6 parts, and not of 7"
holds "a journal of another number of parts" "${whole[@]}"

# A line that was cut off at any byte is ended, skipped, and its question asked again.
for cut in "1? n" "1? " "1?" 1; do
    lay "${whole[@]:0:9}"
    printf '%s' "$cut" >>"$journal"
    run 'n\n' 6 "$journal"
    expect "a last line cut off to '$cut'" 0 $'1?\nleft 1 4' ""
    holds "a last line cut off to '$cut'" "${whole[@]:0:9}" "$cut #" "1? n"
done
for cut in "" h "hidlombe 1, parts: " "$heading"; do
    printf '%s' "$cut" >"$journal"
    run 'n\n' 6 "$journal"
    expect "a heading cut off to '$cut'" 0 "$six"$'\nsound' ""
    holds "a heading cut off to '$cut'" ${cut:+"$cut #"} "$heading" "0 1 2 3 4 5? n"
done

# refused NAME MESSAGE LINE..: a journal of these lines is refused, and stays
refused() {
    local name=$1 message=$2
    shift 2
    lay "$@"
    run 'y\n' 6 "$journal"
    expect "$name" 1 "" "$journal: $message"
    holds "$name" "$@"
}

refused "another version" "line 1: no journal of this version" "hidlombe 2, parts: 6"
refused "another file" "line 1: no journal of this version" "int main(void)" "{}"
refused "a part out of range" "line 3: there is no part 6" "${whole[@]:0:2}" "0 6? n"
refused "parts that don't rise" "line 3: the parts don't rise" "${whole[@]:0:2}" "1 0? n"
refused "an answer that is none" "line 3: no question with its answer" "${whole[@]:0:2}" "0 1? maybe"
refused "a line cut off that isn't the last" "line 3: no question with its answer" "${whole[@]:0:2}" "0 1" "0 1? n"
refused "a foreign question" "line 4: the reducer asks something else here" "${whole[@]:0:3}" "0 1 2? n"
refused "a question after the end" "line 11: the reducer asks something else here" "${whole[@]}" "1? n"
printf 'another file' >"$journal"
run 'y\n' 6 "$journal"
expect "another file with no newline" 1 "" "line 1: no journal of this version"
[[ $(<"$journal") == "another file" ]] || fail "another file with no newline was changed"

# A person may leave blanks and empty lines, and end a line with a mark.
lay "$heading" "" "0  1 2 3 4 5 ?  y " "0 1? y #" "0 1? n"
run 'n\n' 6 "$journal"
expect "a journal that was mended by hand" 1 $'0 1 2 3?\n0 1 2 3 4?' "goes on with this question"

run 'y\n' 6 "$folder/nowhere/journal"
expect "a journal that can't be made" 1 "" "$folder/nowhere/journal: "
run '' 4097 "$folder/many"
expect "too many parts for a journal" 0 "too many" ""
[[ ! -e $folder/many ]] || fail "too many parts made a journal"

# Killed once it has asked anew, the answer before stands in the journal.
rm "$journal"
coproc ASK { exec "$ask" 6 "$journal"; }
pid=$ASK_PID
exec {from}<&"${ASK[0]}" {to}>&"${ASK[1]}"
read -r -t 20 -u "$from"
echo y >&"$to"
read -r -t 20 -u "$from"
run 'y\n' 6 "$journal"
expect "a second program on one journal" 1 "" "another program has it open"
kill -KILL "$pid"
wait "$pid" 2>"$folder/wait" || true
exec {from}<&- {to}>&-
holds "killed after an answer" "${whole[@]:0:2}"

progress=$'1 asked, 6 still in, 0 found needed\n2 asked, 6 still in, 0 found needed\n3 asked, 6 still in, 0 found needed
4 asked, 5 still in, 1 found needed\n5 asked, 5 still in, 1 found needed\n6 asked, 3 still in, 2 found needed
7 asked, 2 still in, 2 found needed\n8 asked, 2 still in, 2 found needed\n9 asked, 2 still in, 2 found needed'
lay "${whole[@]:0:4}"
run 'y\nn\ny\ny\nn\nn\n' -v 6 "$journal"
[[ $told == "$(tail -n 6 <<<"$progress")" ]] || fail "-v told '$told'"
run 'y\nn\nn\ny\nn\ny\ny\nn\nn\n' 6 -v
[[ $told == "$progress" ]] || fail "-v with no journal told '$told'"
echo "ok: -v tells how far it has come"
