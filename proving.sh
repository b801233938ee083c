# shellcheck shell=bash disable=SC2154
# How build.sh and library.sh prove crates. They source this file, and set `top`, the folder of the repository.

fail() {
    printf '%s: %s\n' "$0" "$1" >&2
    exit 1
}

# Ends the script where the kit is missing.
need_kit() {
    command -v rt > /dev/null || fail "the command rt is missing: install the Rattle kit and put its bin folder on the PATH"
}

# Prints some crates and those of this repository on which they stand, lowest first, as crates.txt has them.
list_crates() {
    tac -- "$top/crates.txt" | awk -F '[ :]+' -v names="$*" '
        BEGIN { split(names, wanted, " "); for (i in wanted) below[wanted[i]] }
        $1 in below { print $1; for (i = 2; i <= NF; i++) below[$i] }' | tac
}

# Proves one crate and builds it: a library, or the program.
build_crate() {
    cd "$top/crates/$1" || return
    if [[ -f src/main.rt ]]; then
        rt run -- --version
    else
        rt lib
    fi
}

# Proves crates in their order, builds them, and tells of each.
#
#   build_crates TIME CRATE..
#
# TIME says how long that takes from nothing.
build_crates() {
    local crate log number=0 time=$1
    shift
    need_kit
    log=$(mktemp "${TMPDIR:-/tmp}/l4map-build-XXXXXX.log") || fail "no temporary file can be made"
    printf '%s: proving %s crates; from nothing that takes %s on 4 cores\n' "$0" "$#" "$time"
    for crate in "$@"; do
        ((number += 1))
        printf '  %s of %s  %-24s ' "$number" "$#" "$crate"
        SECONDS=0
        if ! (build_crate "$crate") < /dev/null > "$log" 2>&1; then
            printf 'failed\n'
            fail "the crate $crate is not built; what rt said is in $log"
        elif grep -q ': proved$' "$log"; then
            printf 'proved in %s s\n' "$SECONDS"
        else
            printf 'proved before\n'
        fi
    done
    rm -f -- "$log"
}
