#!/usr/bin/env bash
# Drives tools/reduce, with the program `lessen` whose path is the first argument, and holds it to what is left.
set -euo pipefail

LESSEN=$(realpath "$1")
export LESSEN
reduce=$(realpath "$(dirname "$0")/../tools/reduce")
. "$(dirname "$0")/common.sh"
folder=$(mktemp -d)
trap 'rm -rf "$folder"' EXIT
cd "$folder"
# What a killed run leaves in its temporary folder goes with this one.
mkdir tmp
export TMPDIR=$folder/tmp

# run ARGUMENT..: runs it
run() {
    run_on /dev/null "$reduce" "$@"
}

# judge NAME: makes the shell command ./NAME of the text on standard input, which finds the candidate in $1; each call
# adds the candidate's checksum to `calls`
judge() {
    { printf '#!/bin/bash\ncksum <"$1" >>"%s/calls"\n' "$folder" && cat; } >"$1"
    chmod +x "$1"
    rm -f calls
}

# calls: how many there were
calls() {
    wc -l <calls
}

# left NAME FILE OUT LINE..: OUT has these lines, as many calls were made as there were questions, and FILE is as it was
left() {
    local name=$1 file=$2 out=$3
    shift 3
    printf '%s\n' "$@" | cmp -s -- - "$out" || fail "$name: left are other lines"
    expect "$name" 0 "left $# of $(wc -l <"$file") lines, $(calls) questions" "lines left"
    cmp -s -- "$file" original || fail "$name: the file has changed"
}

seq -f 'line %g' 200 >original
cp original file.txt
four=('line 17' 'line 100' 'line 101' 'line 183')
judge four <<'J'
[[ $(grep -c -x 'line \(17\|100\|101\|183\)' "$1") == 4 ]]
J
run ./four file.txt
left "four of 200 lines" file.txt file.txt.reduced "${four[@]}"
once=$(calls)
run ./four file.txt
expect "ended, it asks nothing more" 0 "left 4 of 200 lines, $once questions" "lines left"
[[ $(calls) == "$once" ]] || fail "an ended reduction asks again"

judge tells <<'J'
grep -q -x 'line 1' "$1" || exit 125
grep -q -x 'line 2' "$1" || kill -SEGV $$
grep -q -x 'line 3' "$1" || exit 255
grep -q -x 'line 4' "$1" || exit 124
grep -q -x 'line 5' "$1" || exit 2
[[ $1 == /*/file.txt ]] || exit 1
echo 'line 1' >>"$1"
echo 'what a judge says stays out of sight'
J
run ./tells file.txt tells.txt
left "a judge that can't tell, that breaks down, and that writes" file.txt tells.txt 'line 1' 'line 2' 'line 3' 'line 4' 'line 5'
[[ $said$told != *sight* ]] || fail "what a judge says is shown"
run 'f() { grep -q -x "line 77" "$1"; }; true && f' file.txt command.txt
expect "a judge that is a command of several words" 0 "left 1 of 200 lines, $(wc -l <command.txt.answers) questions" "lines left"
[[ $(<command.txt) == "line 77" ]] || fail "the line 77"

mkdir -- '-a folder'
cp -- file.txt '-a folder/-x y.txt'
cp file.txt ./-x
judge named <<'J'
[[ $1 == */'-x y.txt' || $1 == */-x ]] && grep -q 'line 50' "$1"
J
run ./named '-a folder/-x y.txt' '-a folder/-out put'
left "blanks and dashes in paths" '-a folder/-x y.txt' '-a folder/-out put' 'line 50'
rm calls
run ./named -x
left "a name that begins with a dash" ./-x ./-x.reduced 'line 50'
: >empty
run true empty
expect "a file with no lines" 0 "left 0 of 0 lines, 1 questions" "lines left"
[[ -f empty.reduced && ! -s empty.reduced ]] || fail "no lines are left"

# killed NAME SIGNAL OUT: stops a reduction at ten random moments and goes on each time; no answered question is asked again
killed() {
    local moment pid kills=0
    rm -f calls
    while ((kills < 10)); do
        moment=$(printf '0.%02d' "$((RANDOM % 20 + 2))")
        setsid env --default-signal=INT "$reduce" ./slow file.txt "$3" >said 2>told </dev/null &
        pid=$!
        sleep "$moment"
        if [[ $2 == KILL ]]; then kill -KILL "$pid"; else kill "-$2" -- "-$pid"; fi
        wait "$pid" 2>/dev/null && fail "$1: ended before it was stopped"
        [[ ! -e $3 ]] || fail "$1: wrote before the end"
        kills=$((kills + 1))
    done
    run ./slow file.txt "$3"
    printf '%s\n' "${four[@]}" | cmp -s - "$3" || fail "$1: left are other lines"
    [[ $status == 0 && $said == "left 4 of 200 lines, $once questions" ]] || fail "$1: '$said' ($told)"
    (($(calls) <= once + kills)) || fail "$1: $(calls) calls, where $once would do"
    echo "ok: $1, $(calls) calls for $once questions"
}

judge slow <<'J'
trap 'exit 1' INT
sleep 0.04
[[ $(grep -c -x 'line \(17\|100\|101\|183\)' "$1") == 4 ]]
J
killed "killed and begun again" KILL killed.txt
killed "interrupted with the judge, and begun again" INT interrupted.txt
killed "ended, and begun again" TERM ended.txt

keeps "no arguments" "usage: tools/reduce JUDGE FILE [OUT]"
keeps "no FILE" "usage: tools/reduce" ./four
keeps "four arguments" "usage: tools/reduce" ./four file.txt out more
keeps "a FILE that isn't there" "there is no file 'none'" ./four none
keeps "a FILE that is a folder" "'-a folder' is no file" ./four '-a folder'
cp file.txt locked
chmod 0 locked
if [[ ! -r locked ]]; then keeps "a FILE that can't be read" "'locked' can't be read" ./four locked; fi
keeps "an OUT that is a folder" "'-a folder' is no file" ./four file.txt '-a folder'
ln -s file.txt link
ln file.txt another
cp file.txt given.answers
keeps "an OUT that is FILE" "'file.txt' is FILE itself" ./four file.txt file.txt
keeps "an OUT that is FILE by another path" "is FILE itself" ./four file.txt "$folder/file.txt"
keeps "an OUT that is a link to FILE" "'link' is FILE itself" ./four file.txt link
keeps "an OUT that is another name of FILE" "'another' is FILE itself" ./four file.txt another
keeps "an OUT whose answers are FILE" "'given.answers' is FILE itself" ./four given.answers given
keeps "answers of another judge" "about another file or of another judge" ./named file.txt
echo 'line 201' >>file.txt
keeps "answers about another file" "about another file or of another judge" ./four file.txt
cp original file.txt
echo maybe >odd.answers
cp file.txt.reduced.answers.of odd.answers.of
keeps "an answer that is none" 'odd.answers:1: no answer: "maybe"' ./four file.txt odd
rm odd.answers
seq 4097 >many
keeps "4,097 lines" "many: it has 4097 lines, and 4096 is the most" ./four many

run ./none file.txt fresh
expect "a judge that isn't there" 1 "" "the judge can't be run (status 127): ./none"
run ./file.txt file.txt fresh
expect "a judge that is no program" 1 "" "the judge can't be run (status 126): ./file.txt"
[[ ! -e fresh ]] || fail "written with no judge"
run ./four file.txt fresh
expect "with a judge it goes on" 0 "left 4 of 200 lines, $once questions" "lines left"
judge breaks <<'J'
[[ $(wc -l <calls) != 6 ]] || exit 127
grep -q 'line 50' "$1"
J
run ./breaks file.txt broken
expect "a judge that can't be run any more" 1 "" "the judge can't be run (status 127)"
[[ $(wc -l <broken.answers) == 5 && ! -e broken ]] || fail "its five answers are kept"
run ./breaks file.txt broken
expect "its answers are gone on with" 0 "left 1 of 200 lines, $(($(calls) - 1)) questions" "lines left"
run false file.txt refused
expect "a judge that does not accept FILE" 1 "" "the judge does not accept FILE itself: 'file.txt'"
[[ ! -e refused ]] || fail "written where the judge accepts nothing"
