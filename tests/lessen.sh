#!/usr/bin/env bash
# Drives the program `lessen`, whose path is the first argument, and compares its files byte for byte.
set -euo pipefail

lessen=$(realpath "$1")
. "$(dirname "$0")/common.sh"
folder=$(mktemp -d)
trap 'rm -rf "$folder"' EXIT
cd "$folder"

# run ARGUMENT..: runs the program
run() {
    run_on /dev/null "$lessen" "$@"
}

# holds NAME FILE FORMAT: the file's bytes are what printf makes of the format
holds() {
    printf "$3" | cmp -s "$2" - || fail "$1: $2 holds other bytes"
}

# lines FORMAT..: the files line.0, line.1 .., each what printf makes of a format, and `lines`, all of them
lines() {
    local line number=0
    rm -f line.* lines answers out
    : >lines
    for line; do
        printf "$line" >"line.$number"
        cat "line.$number" >>lines
        number=$((number + 1))
    done
}

# joined NUMBER..: writes to `wanted` the lines with these numbers
joined() {
    local number
    : >wanted
    for number; do cat "line.$number" >>wanted; done
}

# reduce NAME JUDGE LAST: answers each question by what the judge says of the file, after a look at the file; holds
# the last line to LAST and the file to the lines that it names
reduce() {
    local count=0
    : >answers
    run lines answers out
    while [[ $status == 0 && $said == *\? ]]; do
        joined ${said%\?}
        cmp -s wanted out || fail "$1: the question '$said' and the file differ"
        "$2" >>answers
        count=$((count + 1))
        [[ $count -lt 500 ]] || fail "$1: no end"
        run lines answers out
    done
    [[ $status == 0 && $said == "$3" ]] || fail "$1: the last line is '$said', not '$3' ($status, $told)"
    case $said in
    left*) joined ${said#left} ;;
    *) cp lines wanted ;;
    esac
    cmp -s wanted out || fail "$1: the last file"
    [[ ! -e out.part ]] || fail "$1: out.part stays"
    echo "ok: $1, $count questions"
}

judge_pair() {
    if [[ $(grep -ac '^b$\|^e$' out) == 2 ]]; then echo y; else echo n; fi
}
judge_none() { echo n; }
judge_all() { echo y; }
judge_whole() { if cmp -s out lines; then echo y; else echo u; fi; }
judge_last() { if [[ $(tail -c 1 out) == f ]]; then echo ' y '; else echo n; fi; }
judge_zero() { if [[ $(tr -cd '\0' <out | wc -c) -ge 2 ]]; then echo y; else echo n; fi; }
judge_long() { if [[ $(wc -c <out) -ge 1000000 ]]; then echo y; else echo n; fi; }

lines 'a\n' 'b\n' 'c\n' 'd\n' 'e\n' 'f'
reduce "b and e of six lines" judge_pair "left 1 4"
reduce "nothing fails" judge_none sound
reduce "everything fails" judge_all left
reduce "only the whole file fails" judge_whole "left 0 1 2 3 4 5"
reduce "a last line with no newline" judge_last "left 5"
lines '\0a\n' '\xff\xfe\n' '\n' '\0\r\n' '\n' '\xc3'
reduce "NUL bytes, bytes that are no text, empty lines" judge_zero "left 0 3"
lines 'a\n' "$(head -c 1000000 /dev/zero | tr '\0' x)\n" 'b\n'
reduce "a very long line" judge_long "left 1"
lines
reduce "no lines, and that fails" judge_all left
reduce "no lines, and that doesn't" judge_none sound

lines 'a\n' 'b\n' 'c\n' 'd\n' 'e\n' 'f'
printf 'y\r\n\tn\nn \n y\nn' >answers
run lines answers out
expect "blanks around answers, and a last one with no newline" 0 '0 1 4?' ""
joined 0 1 4
cmp -s wanted out || fail "the lines 0, 1 and 4"
printf 'old' >out.part
run lines answers out
expect "what a run that was stopped left there" 0 '0 1 4?' ""
mkdir -- 'a folder' '-d'
cp -- lines 'a folder/-lines'
cp -- answers '-d/the answers'
run 'a folder/-lines' '-d/the answers' '-d/-out put'
expect "blanks and dashes in paths" 0 '0 1 4?' ""
cmp -s -- wanted '-d/-out put' || fail "the lines in a file with a blank in its name"
cp lines -- -l
cp answers -- -a
run -l -a -o
expect "names that begin with a dash" 0 '0 1 4?' ""
cmp -s wanted ./-o || fail "the lines in a file whose name begins with a dash"

: >answers
seq 0 4095 >many
run many answers out
expect "4,096 lines" 0 "$(seq -s ' ' 0 4095)?" ""
cmp -s many out || fail "all 4,096 lines"

printf 'y\nn\n' >answers
printf 'keep' >out
keeps "no arguments" "usage: lessen LINES ANSWERS OUT"
keeps "two arguments" "usage: lessen" lines answers
keeps "four arguments" "usage: lessen" lines answers out more
keeps "an argument that is no text" "an argument is no text" lines answers $'\xff'
keeps "no LINES" "none: it can't be read: No such file" none answers out
keeps "no ANSWERS" "none: it can't be read: No such file" lines none out
keeps "LINES is a folder" "a folder: it can't be read" 'a folder' answers out
keeps "ANSWERS is a folder" "a folder: it can't be read" lines 'a folder' out
keeps "OUT is a folder" "a folder: it is no file" lines answers 'a folder'
keeps "OUT is a device" "/dev/null: it is no file" lines answers /dev/null
[[ -c /dev/null ]] || fail "/dev/null is gone"
keeps "OUT is in no folder" "none/out: it can't be written" lines answers none/out
ln -s lines to-lines
ln lines also-lines
ln -s "$folder/answers" to-answers
cp lines given.part
keeps "OUT is LINES" "lines: it is the same file as lines" lines answers lines
keeps "OUT is LINES by another path" "a folder/../lines: it is the same" lines answers 'a folder/../lines'
keeps "OUT is a link to LINES" "to-lines: it is the same file as lines" lines answers to-lines
keeps "OUT is another name of LINES" "also-lines: it is the same file as lines" lines answers also-lines
keeps "LINES is a link to OUT" "lines: it is the same file as to-lines" to-lines answers lines
keeps "OUT is ANSWERS" "answers: it is the same file as answers" lines answers answers
keeps "OUT is a link to ANSWERS" "to-answers: it is the same file as answers" lines answers to-answers
keeps "what becomes OUT is LINES" "given.part: it is the same file as given.part" given.part answers given
printf 'y\nmaybe \n' >answers
keeps "an answer that is none" 'answers:2: no answer: "maybe "' lines answers out
[[ $told == *"y (yes"* && $told == *"n (no"* && $told == *"u (unclear)"* ]] || fail "'$told' does not say what is understood"
printf 'y\n\nn\n' >answers
keeps "an empty answer" 'answers:2: no answer: ""' lines answers out
printf 'y\nn\n\xff\0' >answers
keeps "an answer that is no text" 'answers:3: no answer: "' lines answers out
printf 'n\ny\n' >answers
keeps "an answer too many" 'answers:2: there is no question to the answer "y"' lines answers out
seq 0 4096 >many
run many answers out
expect "4,097 lines" 1 "too many" "many: it has 4097 lines, and 4096 is the most"
holds "what was there" out keep

printf 'y\n' >answers
status=0
"$lessen" lines answers out >/dev/full 2>told || status=$?
[[ $status == 1 && -s told ]] || fail "a question that can't be printed: status $status"
echo "ok: a question that can't be printed"
