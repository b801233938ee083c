#!/usr/bin/env bash
# Runs l4trace, which explains words and traces, checks, shows and makes traces, and compares answers.
#
#   ./trace.sh COMMAND [ARGUMENT..]
#
# Files are those of the folder from which it is called. The exit status is the program's own, or 125 where the program could
# not be run.
set -u

top=$(dirname -- "$(readlink -f -- "${BASH_SOURCE[0]}")")
builder=$top/build.sh
[[ $top != "$PWD" ]] || builder=./build.sh
# shellcheck source=unproved.sh
source "$top/unproved.sh" || exit 125

# Gives each argument that is a file to `rt try`, which runs the program in a folder of its own: under the same name, or
# by its whole path where that does not lead down from here.
name_files() {
    local word
    for word; do
        if [[ ! -f $word || $word == /* ]]; then
            words+=("$word")
        elif [[ /$word/ == */../* ]]; then
            words+=("$(readlink -f -- "$word")")
        elif [[ $word == *=* ]]; then
            fail "without proofs the name of a file has no '=': '$word'"
        else
            flags+=(--data "$word=$PWD/$word")
            words+=("$word")
        fi
    done
}

program=$top/crates/l4trace/out/l4trace
if [[ -f $program && -x $program ]]; then
    exec "$program" "$@"
fi
flags=()
words=()
name_files "$@"
[[ " $* " == *" - "* ]] || exec < /dev/null
run_unproved l4trace "one to three minutes" "${flags[@]}" -- "${words[@]}"
