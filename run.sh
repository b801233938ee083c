#!/usr/bin/env bash
# Runs l4map on a trace.
#
#   ./run.sh TRACE [ARGUMENT..]
#   ./run.sh --help | --version
#
# TRACE is a file, or - for standard input; with nothing at all, standard input too. Each ARGUMENT goes to the program. The
# exit status is the program's own, or 125 where the program could not be run.
set -u

top=$(dirname -- "$(readlink -f -- "${BASH_SOURCE[0]}")")
builder=$top/build.sh
[[ $top != "$PWD" ]] || builder=./build.sh
# shellcheck source=unproved.sh
source "$top/unproved.sh" || exit 125

# Makes the trace standard input.
open_trace() {
    local trace=$1
    [[ $trace != - ]] || return 0
    if [[ ! -e $trace && $trace == -* ]]; then
        fail "there is no trace '$trace'; usage: $0 TRACE [ARGUMENT..]"
    fi
    [[ -e $trace ]] || fail "there is no trace '$trace'"
    [[ ! -d $trace ]] || fail "the trace '$trace' is a folder"
    { exec < "$trace"; } 2> /dev/null || fail "the trace '$trace' cannot be read"
}

case ${1--} in
    --help | -h | --version | -V) exec < /dev/null ;;
    *)
        [[ $# -gt 0 || ! -t 0 ]] || fail "usage: $0 TRACE [ARGUMENT..]; TRACE is a file, or - for standard input"
        open_trace "${1--}"
        [[ $# -eq 0 ]] || shift
        ;;
esac
program=$top/crates/l4map/out/l4map
if [[ -f $program && -x $program ]]; then
    exec "$program" "$@"
fi
run_unproved l4map "a minute or two" -- "$@"
