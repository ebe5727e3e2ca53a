# What the tests of programs share; sourced by each.

fail() {
    echo "FAILED: $1"
    exit 1
}

# run_on INPUT COMMAND..: runs a command on a file, and sets status, said (standard output) and told (standard error)
run_on() {
    local input=$1
    shift
    status=0
    timeout 120 "$@" <"$input" >said 2>told || status=$?
    said=$(<said)
    told=$(<told)
}

# expect NAME STATUS SAID TOLD: holds the last run to its status, all of its output, and a text in its messages, of which
# there are none where the text is empty
expect() {
    [[ $status == "$2" ]] || fail "$1: status $status, not $2 ($told)"
    [[ $said == "$3" ]] || fail "$1: wrote '$said', not '$3' ($told)"
    [[ $told == *"$4"* ]] || fail "$1: the message '$told' has no '$4'"
    [[ -n $4 || -z $told ]] || fail "$1: the message '$told'"
    echo "ok: $1"
}

# sums: the checksums of the files in the folder, but for those that the tests write themselves
sums() {
    find . ! -name said ! -name told ! -name before ! -name after ! -name calls -type f -exec cksum {} + | sort
}

# keeps NAME TOLD ARGUMENT..: refused by `run` with a text in its message, and no file in the folder is another afterwards
keeps() {
    local name=$1 text=$2
    shift 2
    sums >before
    run "$@"
    sums >after
    cmp -s before after || fail "$name: a file has changed"
    expect "$name" 1 "" "$text"
}
