#!/usr/bin/env bash
# Proves the crates, lowest first, and builds the programs l4map and l4trace. ./test.sh also runs the tests and the gate's other checks.
#
#   ./build.sh
#
# A crate that has not changed since it was proved is not proved again. The exit status is 0 exactly where both are built.
set -u

top=$(dirname -- "$(readlink -f -- "${BASH_SOURCE[0]}")")
# shellcheck source=proving.sh
source "$top/proving.sh" || exit
(($# == 0)) || fail "no argument is taken; usage: $0"
need_kit
mapfile -t crates < <(list_crates l4map l4trace)
build_crates '30 to 60 minutes' "${crates[@]}"
printf '%s: the proved programs are %s and %s\n' "$0" "$top/crates/l4map/out/l4map" "$top/crates/l4trace/out/l4trace"
