# shellcheck shell=bash disable=SC2154
# How run.sh and trace.sh run a program that is not built. They source this file, and set `top`, the folder of the
# repository, and `builder`, the name of build.sh.

fail() {
    printf '%s: %s\n' "$0" "$1" >&2
    exit 125
}

# Runs the program of a crate without its proofs, by `rt try`, which tells the program's output only once it has ended.
#
#   run_unproved CRATE TIME [FLAG..] -- [ARGUMENT..]
#
# TIME says how long that takes, and each FLAG is one of `rt try`. Standard input is the program's.
run_unproved() {
    local crate=$1 status
    command -v rt > /dev/null || fail "the command rt is missing: install the Rattle kit and put its bin folder on the PATH"
    printf '%s: the program is not built; running it without proofs, in %s (%s proves and builds it)\n' "$0" "$2" "$builder" >&2
    shift 2
    room=$(mktemp -d) || fail "no temporary folder can be made"
    trap 'rm -rf -- "$room"' EXIT
    # The whole input first: rt try takes a pause in its standard input for the end.
    cat > "$room/input" 2> /dev/null || fail "the trace cannot be read"
    cd "$top/crates/$crate" || fail "the folder crates/$crate is missing"
    rt try "$@" < "$room/input" > "$room/written" 2> "$room/said"
    [[ $(tail -n 1 "$room/said") =~ ^run=ended\ status=([0-9]+)\ .*proved=no$ ]] || give_up
    status=${BASH_REMATCH[1]}
    pass_on_output "$crate"
    sed -E '/^(checked|interpreter|races): |^run=ended /d' "$room/said" >&2
    exit "$status"
}

# Says why rt try told no output: in one line where the trace is too much for it.
give_up() {
    if grep -q '^checked: no-answer: the program wrote more than' "$room/said"; then
        fail "without proofs no more than 1 MiB can be written, and this trace has more; $builder builds the program, which has no such limit"
    elif grep -q '^checked: no-answer: .*time limit' "$room/said"; then
        fail "without proofs a run may take a minute, and this trace takes more; $builder builds the program, which has no such limit"
    fi
    cat -- "$room/said" >&2
    fail "rt try did not run the program to its end"
}

# Writes what the program wrote. Where that fails, the end is that of the program whose output cannot be written.
pass_on_output() {
    [[ -s $room/written ]] || return 0
    cat < "$room/written" 2> /dev/null
    case $? in
        0) ;;
        141) exit 141 ;; # ended by a pipe whose reader has gone
        *)
            printf '%s: WriteFailed\n' "$1" >&2
            exit 4
            ;;
    esac
}
