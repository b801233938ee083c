#!/usr/bin/env bash
# Proves and builds the library for kernels, an archive for C and for Rust, and prints where it and its header are.
#
#   ./library.sh [--backend llvm|rattle]
#
# The crates that it stands on are proved first. LLVM compiles the archive libcapi.a, the kit's own compiler the archive
# libcapi-rattle.a beside it, which uses no red zone and asks for no memcpy. Where the archive is newer than all that it
# is built from, nothing is done. The exit status is 0 exactly where the archive is there.
set -u

# Whether the archive is there, and newer than what the crates are made of.
is_current() {
    local crate folder
    local -a made_of=("$top/crates.txt")
    [[ -f $archive ]] || return 1
    for crate in "${crates[@]}"; do
        for folder in src specs proofs include; do
            [[ ! -d $top/crates/$crate/$folder ]] || made_of+=("$top/crates/$crate/$folder")
        done
    done
    [[ -z $(find "${made_of[@]}" -newer "$archive" -print -quit) ]]
}

# Builds the archive by the kit's own compiler. `rt lib` leaves it in place of LLVM's, which is kept.
build_by_rattle() {
    local log
    log=$(mktemp "${TMPDIR:-/tmp}/l4map-build-XXXXXX.log") || fail "no temporary file can be made"
    mv -- "$by_llvm" "$by_llvm.kept" || fail "the archive by LLVM cannot be kept"
    (cd "$top/crates/capi" && rt lib --backend rattle) < /dev/null > "$log" 2>&1 && mv -- "$by_llvm" "$archive"
    local status=$?
    mv -- "$by_llvm.kept" "$by_llvm"
    ((status == 0)) || fail "the archive is not built; what rt said is in $log"
    rm -f -- "$log"
}

top=$(dirname -- "$(readlink -f -- "${BASH_SOURCE[0]}")")
# shellcheck source=proving.sh
source "$top/proving.sh" || exit
by_llvm=$top/crates/capi/out/libcapi.a
case "$*" in
    '' | '--backend llvm') archive=$by_llvm ;;
    '--backend rattle') archive=$top/crates/capi/out/libcapi-rattle.a ;;
    *) fail "usage: $0 [--backend llvm|rattle]" ;;
esac
mapfile -t crates < <(list_crates capi)
if ! is_current; then
    build_crates '20 to 40 minutes' "${crates[@]}"
    [[ $archive == "$by_llvm" ]] || build_by_rattle
fi
printf '%s: the archive is %s\n' "$0" "$archive"
printf '%s: its header is %s\n' "$0" "$top/crates/capi/include/l4map.h"
