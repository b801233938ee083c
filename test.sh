#!/usr/bin/env bash
# Passes every test: `rt ci` proves each crate from nothing and leaves the proved program, and the scripts of
# tests/ then run over that program, beside one another where they can. The last line is 'N passed, M failed' over all,
# and the exit status is 0 exactly where nothing failed.
set -u
CDPATH="" cd -- "$(dirname -- "${BASH_SOURCE[0]}")" || exit 1

# What builds programs anew, each within a limit of time, has the machine to itself.
alone=tests/first_run.py

passed=0
failed=0
room=$(mktemp -d) || exit 1
trap 'rm -rf -- "$room"' EXIT

# Adds the numbers of the closing line of what a part said to the totals. A part that counted nothing, or that ended with
# another status than 0 without counting a failure, is itself one failure.
count_part() {
    local name=$1 said=$2 status=$3 good=0 bad=0
    if [[ $(tail -n 1 "$said") =~ ^([0-9]+)\ passed,\ ([0-9]+)\ failed$ ]]; then
        good=${BASH_REMATCH[1]}
        bad=${BASH_REMATCH[2]}
    fi
    if ((good + bad == 0 || (status != 0 && bad == 0))); then
        printf '   %s ended with status %s and counted no failure: that is one failure\n' "$name" "$status"
        bad=1
    fi
    ((passed += good, failed += bad))
}

# Runs a command, and shows what it says with an indent as it says it.
run_part() {
    local name=$1
    shift
    printf '== %s\n' "$name"
    "$@" < /dev/null 2>&1 | tee "$room/said" | sed -u 's/^/   /'
    count_part "$name" "$room/said" "${PIPESTATUS[0]}"
}

# Runs scripts beside one another, as many at once as there are processors, and then shows what each said, in their order.
run_beside() {
    local script name
    # shellcheck disable=SC2016 # the inner shell expands these
    printf '%s\0' "$@" | room=$room xargs -0 -n 1 -P "$(nproc)" bash -c \
        'name=${0##*/}; quick=(); [[ $name != planted_bugs.py ]] || quick=(--quick)
         python3 "$0" "${quick[@]}" < /dev/null > "$room/$name.said" 2>&1; printf "%s\n" "$?" > "$room/$name.status"'
    for script; do
        name=${script##*/}
        printf '== %s\n' "$script"
        sed 's/^/   /' "$room/$name.said"
        count_part "$script" "$room/$name.said" "$(cat "$room/$name.status")"
    done
}

run_part 'rt ci' rt ci
run_part "$alone" python3 "$alone"
beside=()
for script in tests/*.py; do
    [[ $script == "$alone" ]] || beside+=("$script")
done
run_beside "${beside[@]}"

printf '%s passed, %s failed\n' "$passed" "$failed"
((failed == 0))
